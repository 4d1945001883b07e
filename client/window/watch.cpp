#include "watch.h"

#include "shown.h"

#include <algorithm>

namespace client {

namespace {

// The system lets a program watch so many paths; glances see what lies beyond (Session).
constexpr qsizetype most_files = 500;

constexpr int burst_ms = 120;

// The files of the day first, then the others, as many as may be watched.
QStringList files_to_watch(const Reading &reading, std::optional<Day> day) {
    QStringList first, others;
    for (const File &file : reading.files) {
        const bool is_of_day = file.slot && file.slot->day == day;
        (is_of_day ? first : others).append(text_of(reading.folder / file.path));
    }
    return (first + others).first(std::min(first.size() + others.size(), most_files));
}

void set_burst(QTimer &timer) {
    timer.setSingleShot(true);
    timer.setInterval(burst_ms);
}

// A burst counts from its first event: a timer that runs is not begun anew.
void begin(QTimer &timer) {
    if (!timer.isActive()) {
        timer.start();
    }
}

} // namespace

Watch::Watch(QObject *parent) : QObject(parent) {
    set_burst(burst_);
    set_burst(burst_around_);
    connect(&burst_, &QTimer::timeout, this, &Watch::stirred);
    connect(&burst_around_, &QTimer::timeout, this, &Watch::stirred_around);
    connect(&watcher_, &QFileSystemWatcher::fileChanged, this, [this] { begin(burst_); });
    connect(&watcher_, &QFileSystemWatcher::directoryChanged, this, &Watch::hear_folder);
}

bool Watch::set(const std::filesystem::path &folder, const Reading *reading, std::optional<Day> day) {
    QStringList paths{text_of(folder)};
    around_ = text_of(folder.parent_path());
    if (!around_.isEmpty() && around_ != paths.first()) {
        paths.append(around_);
    }
    if (reading) {
        for (const std::filesystem::path &subfolder : reading->subfolders) {
            paths.append(text_of(subfolder));
        }
        paths.append(files_to_watch(*reading, day));
    }
    return change_to({paths.begin(), paths.end()});
}

// What is watched already stays watched without a gap, in which a change would go unheard. A path that was taken away
// or replaced is watched no longer by then, since the system has told of it, and is added anew.
bool Watch::change_to(const QSet<QString> &paths) {
    const QStringList files = watcher_.files(), folders = watcher_.directories();
    QSet<QString> watched(files.begin(), files.end());
    watched.unite({folders.begin(), folders.end()});
    const QSet<QString> gone = watched - paths, come = paths - watched;
    if (!gone.isEmpty()) {
        watcher_.removePaths({gone.begin(), gone.end()});
    }
    if (come.isEmpty()) {
        return false;
    }
    // A folder that is away cannot be watched, and is no news.
    const QStringList refused = watcher_.addPaths({come.begin(), come.end()});
    return refused.size() < come.size();
}

void Watch::hear_folder(const QString &path) {
    begin(path == around_ ? burst_around_ : burst_);
}

} // namespace client
