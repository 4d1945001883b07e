// Asks a worker about one folder, one question at a time, so that the window never waits for a disk.
//
// Another folder gets a reader of its own. A reader that goes leaves its worker to itself: it is asked to stop, its
// answer is dropped, and nobody waits for its thread, which may be blocked in the system for as long as a share stalls.
#pragma once

#include "worker.h"

class QThread;

namespace client {

class Reader : public QObject {
    Q_OBJECT

  public:
    Reader(std::filesystem::path folder, bool by_events, QObject *parent = nullptr);
    ~Reader() override;

    // Begins a reading. While something is under way, it is begun once that has ended; all that is to be done with
    // readings that wait is done with the one that comes.
    void read(std::optional<Day> day, Also also = {});
    // Looks whether the folder still is what the reading has. Where something is under way there is no need to.
    void glance(std::shared_ptr<const Reading> reading, std::optional<Day> day);
    // Watches the files of another day first.
    void watch(std::shared_ptr<const Reading> reading, std::optional<Day> day);

    // The worker is left to itself, and nothing is heard of it any more.
    void leave();

    // Somebody waits for a reading.
    bool is_reading() const { return is_reading_; }
    // The worker has a question that it has not answered.
    bool is_busy() const { return is_busy_; }

  signals:
    void progressed(int read, int of);
    void read_out(client::Answer answer);
    // What a glance found; not said where a reading was asked for meanwhile, which finds it too.
    void glanced(bool changed, int took_ms);
    void stirred();
    void stirred_around();

  private:
    void begin_what_waits();
    void take(const Answer &answer);
    void take_glance(bool changed, int took_ms);

    bool is_busy_ = false;
    bool is_reading_ = false;
    std::optional<Question> waiting_;
    std::stop_source stop_;
    Worker *worker_ = nullptr; // it and its thread go when the thread has ended
    QThread *thread_ = nullptr;
};

} // namespace client
