#include "reader.h"

#include <QThread>

namespace client {

// Signals of the worker come in the window's thread, and not at all once the reader is gone.
Reader::Reader(std::filesystem::path folder, bool by_events, QObject *parent) : QObject(parent) {
    thread_ = new QThread;
    worker_ = new Worker(std::move(folder), by_events, stop_.get_token());
    worker_->moveToThread(thread_);
    connect(thread_, &QThread::finished, worker_, &QObject::deleteLater);
    connect(thread_, &QThread::finished, thread_, &QObject::deleteLater);
    connect(worker_, &Worker::progressed, this, &Reader::progressed);
    connect(worker_, &Worker::read_out, this, &Reader::take);
    connect(worker_, &Worker::glanced, this, &Reader::take_glance);
    connect(worker_, &Worker::stirred, this, &Reader::stirred);
    connect(worker_, &Worker::stirred_around, this, &Reader::stirred_around);
    thread_->start();
}

Reader::~Reader() {
    leave();
}

void Reader::leave() {
    if (worker_) {
        worker_->disconnect(this);
        stop_.request_stop();
        thread_->quit();
        worker_ = nullptr;
    }
}

void Reader::read(std::optional<Day> day, Also also) {
    is_reading_ = true;
    if (!waiting_) {
        waiting_.emplace();
    }
    waiting_->day = day;
    if (also) {
        waiting_->also.push_back(std::move(also));
    }
    begin_what_waits();
}

void Reader::begin_what_waits() {
    if (is_busy_ || !waiting_) {
        return;
    }
    is_busy_ = true;
    const auto ask = [worker = worker_, question = *std::exchange(waiting_, std::nullopt)] { worker->read(question); };
    QMetaObject::invokeMethod(worker_, ask, Qt::QueuedConnection);
}

void Reader::glance(std::shared_ptr<const Reading> reading, std::optional<Day> day) {
    if (is_busy_) {
        return;
    }
    is_busy_ = true;
    const auto ask = [worker = worker_, reading = std::move(reading), day] { worker->glance(*reading, day); };
    QMetaObject::invokeMethod(worker_, ask, Qt::QueuedConnection);
}

void Reader::watch(std::shared_ptr<const Reading> reading, std::optional<Day> day) {
    const auto ask = [worker = worker_, reading = std::move(reading), day] { worker->watch(*reading, day); };
    QMetaObject::invokeMethod(worker_, ask, Qt::QueuedConnection);
}

void Reader::take(const Answer &answer) {
    is_busy_ = false;
    is_reading_ = waiting_.has_value();
    begin_what_waits();
    emit read_out(answer);
}

void Reader::take_glance(bool changed, int took_ms) {
    is_busy_ = false;
    if (waiting_) {
        begin_what_waits();
    } else {
        emit glanced(changed, took_ms);
    }
}

} // namespace client
