// What is on the screen: one reading, and what a person has chosen. Every screen is a function of this.
#pragma once

#include "reading.h"

#include <QFile>
#include <QString>

#include <filesystem>
#include <memory>
#include <optional>

namespace client {

struct Shown {
    std::shared_ptr<const Reading> reading; // never null where something is shown
    std::optional<Day> day;
    std::optional<RowId> plant;
    std::optional<Quarter> quarter;
    Tongue tongue = Tongue::english;
};

inline QString text(const std::string &utf8) {
    return QString::fromStdString(utf8);
}

inline QString words(const Said &said, Tongue tongue) {
    return QString::fromStdString(said.in(tongue));
}

// A path as Qt has it and as the system has it. Neither looks at the disk.
inline std::filesystem::path path_of(const QString &text) {
    return QFile::encodeName(text).toStdString();
}

inline QString text_of(const std::filesystem::path &path) {
    return QFile::decodeName(QByteArray::fromStdString(path.native()));
}

} // namespace client
