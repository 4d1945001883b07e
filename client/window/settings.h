// What is kept from one start to the next: where the folder is, the tongue, the plant, and how the window lies. No
// figure and no byte of a file.
#pragma once

#include "engine.h"
#include "words.h"

#include <QByteArray>
#include <QSettings>

#include <filesystem>
#include <optional>

namespace client {

class Settings {
  public:
    // Where the system keeps a person's settings, or in a file of one's own.
    Settings();
    explicit Settings(const QString &file);

    std::optional<std::filesystem::path> folder() const;
    void keep_folder(const std::filesystem::path &folder);
    Tongue tongue() const; // the system's, until one is chosen
    void keep_tongue(Tongue tongue);
    std::optional<RowId> plant() const;
    void keep_plant(RowId plant);
    int percent() const; // of the size of letters
    void keep_percent(int percent);
    QByteArray place() const;
    void keep_place(const QByteArray &geometry);

  private:
    QSettings kept_;
};

} // namespace client
