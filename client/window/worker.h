// What is done about one folder on a thread of its own: everything that touches the disk. It may be blocked there for
// as long as the system likes; nobody waits for it.
#pragma once

#include "reading.h"

#include <QObject>

#include <functional>
#include <memory>

namespace client {

class Watch;

// What is to be done with an outcome before the window has it; it leaves a sentence for people.
using Also = std::function<Said(const Outcome &outcome, const std::stop_token &stop)>;

struct Question {
    std::optional<Day> day; // whose files are watched first
    std::vector<Also> also;
};

struct Answer {
    std::filesystem::path folder; // from the root
    Outcome outcome;
    std::vector<Said> told;  // one for each thing that was to be done
    bool is_unheard = false; // something may have happened between the reading and the watch
    int took_ms = 0;
};

class Worker : public QObject {
    Q_OBJECT

  public:
    // Asked to stop, it does no more than the call at hand.
    Worker(std::filesystem::path folder, bool by_events, std::stop_token stop);
    ~Worker() override;

    // To be called on the worker's thread.
    void read(const Question &question) noexcept;
    // Looks whether the folder still is what the reading has.
    void glance(const Reading &reading, std::optional<Day> day) noexcept;
    // Watches the files of another day first.
    void watch(const Reading &reading, std::optional<Day> day) noexcept;

  signals:
    void progressed(int read, int of);
    void read_out(client::Answer answer);
    void glanced(bool changed, int took_ms);
    // As of Watch.
    void stirred();
    void stirred_around();

  private:
    Answer answer_to(const Question &question);
    bool set_watch(const Reading *reading, std::optional<Day> day) noexcept;
    bool set_paths(const Reading *reading, std::optional<Day> day);
    Progress reporter();

    std::filesystem::path folder_;
    bool by_events_;
    std::stop_token stop_;
    std::unique_ptr<Watch> watch_; // made on the thread that it hears on
};

} // namespace client
