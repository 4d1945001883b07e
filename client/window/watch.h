// Says when something in the folder may have changed.
//
// A folder alone does not tell of a file that is written over in place, and a watched file that is replaced by renaming
// is watched no longer: so the folder, its subfolders and its files are watched, and all of them are set again after
// every reading. The folder around is watched too, since a folder does not tell that it was renamed itself.
//
// Setting paths and hearing of them touches the disk: a watch lives on the reader's thread (Worker).
#pragma once

#include "reading.h"

#include <QFileSystemWatcher>
#include <QObject>
#include <QSet>
#include <QTimer>

namespace client {

class Watch : public QObject {
    Q_OBJECT

  public:
    explicit Watch(QObject *parent = nullptr);

    // Sets all paths to the folder and what a reading of it has (nothing where it could not be read), the files of the
    // day first. Whether a path is newly watched: what happened to it between the reading and now was not heard.
    bool set(const std::filesystem::path &folder, const Reading *reading, std::optional<Day> day);

  signals:
    // Once for a burst of events, and never later than 120 ms after its first.
    void stirred();
    // Something happened beside the folder: most likely not to it.
    void stirred_around();

  private:
    bool change_to(const QSet<QString> &paths);
    void hear_folder(const QString &path);

    QFileSystemWatcher watcher_;
    QTimer burst_;
    QTimer burst_around_;
    QString around_;
};

} // namespace client
