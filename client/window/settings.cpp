#include "settings.h"

#include <QFile>
#include <QLocale>

#include <algorithm>

namespace client {

Settings::Settings() : kept_("Wheatrudder", "client") {}

Settings::Settings(const QString &file) : kept_(file, QSettings::IniFormat) {}

std::optional<std::filesystem::path> Settings::folder() const {
    const QByteArray path = kept_.value("folder").toByteArray();
    return path.isEmpty() ? std::nullopt : std::optional(std::filesystem::path(path.toStdString()));
}

// As bytes: a path need not be text.
void Settings::keep_folder(const std::filesystem::path &folder) {
    kept_.setValue("folder", QByteArray::fromStdString(folder.native()));
}

Tongue Settings::tongue() const {
    const QString kept = kept_.value("tongue").toString();
    if (kept.isEmpty()) {
        return QLocale::system().language() == QLocale::Chinese ? Tongue::chinese : Tongue::english;
    }
    return kept == "zh" ? Tongue::chinese : Tongue::english;
}

void Settings::keep_tongue(Tongue tongue) {
    kept_.setValue("tongue", tongue == Tongue::chinese ? "zh" : "en");
}

std::optional<RowId> Settings::plant() const {
    bool is_number = false;
    const uint id = kept_.value("plant").toString().toUInt(&is_number);
    if (!is_number || id > 65'535) {
        return std::nullopt;
    }
    return RowId{static_cast<std::uint16_t>(id)};
}

void Settings::keep_plant(RowId plant) {
    kept_.setValue("plant", QString::number(plant.number));
}

int Settings::percent() const {
    return std::clamp(kept_.value("percent", 100).toInt(), 100, 300);
}

void Settings::keep_percent(int percent) {
    kept_.setValue("percent", percent);
}

QByteArray Settings::place() const {
    return kept_.value("place").toByteArray();
}

void Settings::keep_place(const QByteArray &geometry) {
    kept_.setValue("place", geometry);
}

} // namespace client
