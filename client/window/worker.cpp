#include "worker.h"

#include "watch.h"

#include <algorithm>

namespace client {

namespace {

using Clock = std::chrono::steady_clock;

// So often, at most, the window hears how far a reading is.
constexpr std::chrono::milliseconds between_reports{30};

int milliseconds_since(Clock::time_point begin) {
    const auto took = std::chrono::duration_cast<std::chrono::milliseconds>(Clock::now() - begin).count();
    return static_cast<int>(std::min<std::int64_t>(took, 3'600'000));
}

// Whatever was thrown: without an answer the window would wait for ever, and so would who asked for an export.
Answer fault(const Question &question) noexcept {
    Answer answer;
    answer.outcome = Gone{Word::gone_fault};
    try {
        answer.told.assign(question.also.size(), Said(Word::export_fault));
    } catch (...) {
        return answer;
    }
    return answer;
}

} // namespace

Worker::Worker(std::filesystem::path folder, bool by_events, std::stop_token stop)
    : folder_(std::move(folder)), by_events_(by_events), stop_(std::move(stop)) {}

Worker::~Worker() = default;

void Worker::read(const Question &question) noexcept {
    if (stop_.stop_requested()) {
        return;
    }
    const auto begin = Clock::now();
    Answer answer;
    try {
        answer = answer_to(question);
    } catch (...) {
        answer = fault(question);
    }
    answer.took_ms = milliseconds_since(begin);
    emit read_out(answer);
}

Answer Worker::answer_to(const Question &question) {
    std::error_code failed;
    const auto whole = std::filesystem::absolute(folder_, failed);
    folder_ = failed ? folder_ : whole;
    Answer answer;
    answer.folder = folder_;
    answer.outcome = read_folder(folder_, stop_, reporter());
    for (const Also &also : question.also) {
        answer.told.push_back(also(answer.outcome, stop_));
    }
    const auto *reading = std::get_if<std::shared_ptr<const Reading>>(&answer.outcome);
    answer.is_unheard = set_watch(reading ? reading->get() : nullptr, question.day);
    return answer;
}

void Worker::glance(const Reading &reading, std::optional<Day> day) noexcept {
    if (stop_.stop_requested()) {
        return;
    }
    const auto begin = Clock::now();
    const bool changed = has_changed(reading, day);
    emit glanced(changed, milliseconds_since(begin));
}

void Worker::watch(const Reading &reading, std::optional<Day> day) noexcept {
    set_watch(&reading, day);
}

bool Worker::set_watch(const Reading *reading, std::optional<Day> day) noexcept {
    try {
        return by_events_ && !stop_.stop_requested() && set_paths(reading, day);
    } catch (...) {
        return true; // glances see what is not heard
    }
}

// The paths are set again after every reading.
bool Worker::set_paths(const Reading *reading, std::optional<Day> day) {
    if (!watch_) {
        watch_ = std::make_unique<Watch>();
        connect(watch_.get(), &Watch::stirred, this, &Worker::stirred);
        connect(watch_.get(), &Watch::stirred_around, this, &Worker::stirred_around);
    }
    return watch_->set(folder_, reading, day || !reading ? day : reading->first_day());
}

Progress Worker::reporter() {
    return [this, last = Clock::time_point{}](std::size_t read, std::size_t of) mutable {
        const auto now = Clock::now();
        if (now - last >= between_reports) {
            last = now;
            emit progressed(static_cast<int>(read), static_cast<int>(of));
        }
    };
}

} // namespace client
