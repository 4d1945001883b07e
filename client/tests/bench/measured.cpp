#include "measured.h"

#include <QAbstractEventDispatcher>
#include <QString>
#include <QThread>

#include <algorithm>
#include <ctime>

namespace {

constexpr double limit_ms = 120'000;
// Between two turns in which nothing was done, so that other threads have the processor.
constexpr unsigned long pause_us = 100;

double ms_of(clockid_t clock) {
    timespec now{};
    clock_gettime(clock, &now);
    return 1e3 * static_cast<double>(now.tv_sec) + static_cast<double>(now.tv_nsec) / 1e6;
}

} // namespace

double wall_ms() {
    return ms_of(CLOCK_MONOTONIC);
}

double thread_ms() {
    return ms_of(CLOCK_THREAD_CPUTIME_ID);
}

double Times::median() const {
    if (all.empty()) {
        return 0;
    }
    std::vector<double> sorted = all;
    std::sort(sorted.begin(), sorted.end());
    const std::size_t middle = sorted.size() / 2;
    return sorted.size() % 2 == 1 ? sorted[middle] : (sorted[middle - 1] + sorted[middle]) / 2;
}

std::string Times::text() const {
    if (all.size() < 2) {
        return all.empty() ? "" : QString::number(all.front(), 'f', 1).toStdString();
    }
    const auto [least, greatest] = std::minmax_element(all.begin(), all.end());
    const auto text = [](double ms) { return QString::number(ms, 'f', 1).toStdString(); };
    return text(median()) + " (" + text(*least) + " to " + text(*greatest) + ")";
}

bool Loop::turn() {
    const double thread = thread_ms(), wall = wall_ms();
    const bool did = QAbstractEventDispatcher::instance()->processEvents(QEventLoop::AllEvents);
    longest_thread_ms = std::max(longest_thread_ms, thread_ms() - thread);
    longest_wall_ms = std::max(longest_wall_ms, wall_ms() - wall);
    return did;
}

bool Loop::until(const std::function<bool()> &holds) {
    const double end = wall_ms() + limit_ms;
    while (!holds()) {
        if (wall_ms() > end) {
            return false;
        }
        if (!turn()) {
            QThread::usleep(pause_us);
        }
    }
    return true;
}

void Loop::until_idle() {
    while (turn()) {
    }
}
