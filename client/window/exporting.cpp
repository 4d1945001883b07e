#include "exporting.h"

#include "csv.h"
#include "names.h"

#include <QFile>
#include <QSaveFile>

#include <algorithm>
#include <exception>
#include <new>

namespace client {

namespace {

std::string csv_of(const Shown &shown, Subject subject) {
    switch (subject) {
    case Subject::files:
        return files_as_csv(*shown.reading);
    case Subject::rows:
        return rows_as_csv(*shown.reading, *shown.day);
    case Subject::day:
        break;
    }
    return day_as_csv(plant_day(shown.reading, *shown.day, *shown.plant));
}

std::string bytes_of(const Shown &shown, Export what) {
    switch (what.format) {
    case Format::csv:
        break;
    }
    return csv_of(shown, what.subject);
}

std::string shown_path(const QString &path) {
    return client::shown(path_of(path).native());
}

// Whether a file that is written there would lie in the folder, where the next reading would find it.
bool lies_within(const QString &path, const std::filesystem::path &folder) {
    std::error_code failed;
    const auto place = std::filesystem::weakly_canonical(path_of(path), failed);
    const auto around = std::filesystem::weakly_canonical(folder, failed);
    const auto reached = std::mismatch(around.begin(), around.end(), place.begin(), place.end()).first;
    return !failed && reached == around.end();
}

Said write(const QString &path, const std::string &content) {
    QSaveFile file(path);
    const QByteArray bytes = QByteArray::fromStdString(content);
    if (file.open(QIODevice::WriteOnly) && file.write(bytes) == bytes.size() && file.commit()) {
        return {Word::export_done, {shown_path(path)}};
    }
    return {Word::export_failed, {shown_path(path), file.errorString().toStdString()}};
}

Said write_or_throw(const Order &order, const Outcome &outcome, const std::stop_token &stop) {
    const auto *reading = std::get_if<std::shared_ptr<const Reading>>(&outcome);
    if (lies_within(order.path, order.shown.reading->folder)) {
        return Word::export_within;
    }
    if (!reading || !same_files(*order.shown.reading, **reading)) {
        return Word::changed;
    }
    Shown fresh = order.shown;
    fresh.reading = *reading;
    const std::string content = bytes_of(fresh, order.what);
    return stop.stop_requested() ? Said(Word::stopped) : write(order.path, content);
}

// What was thrown, in words. Where even these are too much, in fewer.
Said failed_by_exception(const QString &path) noexcept {
    try {
        try {
            throw;
        } catch (const std::bad_alloc &) {
            return {Word::export_failed, {shown_path(path), Said(Word::export_memory)}};
        } catch (const std::exception &fault) {
            return {Word::export_failed, {shown_path(path), Said(Word::unread_fault, {client::shown(fault.what())})}};
        }
    } catch (...) {
        return Word::export_fault;
    }
}

} // namespace

bool has_content(const Shown &shown, Export what) {
    const bool has_day = shown.reading && shown.day;
    switch (what.subject) {
    case Subject::files:
        return shown.reading != nullptr;
    case Subject::rows:
        return has_day;
    case Subject::day:
        break;
    }
    return has_day && shown.plant;
}

QString name_of(const Shown &shown, Export what) {
    if (what.subject == Subject::files || !shown.day) {
        return "files.csv";
    }
    return text(csv_name(*shown.reading, *shown.day, what.subject == Subject::day ? shown.plant : std::nullopt));
}

Said write_if_same(const Order &order, const Outcome &outcome, const std::stop_token &stop) noexcept {
    try {
        return write_or_throw(order, outcome, stop);
    } catch (...) {
        return failed_by_exception(order.path);
    }
}

} // namespace client
