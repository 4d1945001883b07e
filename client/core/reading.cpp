#include "reading.h"

#include "judging.h"
#include "recognising.h"
#include "saying.h"

#include <algorithm>

namespace client {

namespace {

// How often the folder is listed again because files came or went while others were read.
constexpr int listings = 3;

// A quarter of which there is no file.
const QuarterRead of_no_file{};

// Reading.

// Reads the files of a folder, each once.
class Collector {
  public:
    Collector(Folder &folder, const std::stop_token &stop, const Progress &progress)
        : folder_(folder), stop_(stop), progress_(progress) {}

    // Fills a reading with files that nothing is said of yet. The answer is what hindered it.
    std::variant<std::monostate, Obstacle, Stopped> collect(Reading &reading);

  private:
    bool read_all(const std::vector<Found> &found);
    File read_one(const Found &found);
    void hand_over(Reading &reading, const Listing &listing);

    Folder &folder_;
    const std::stop_token &stop_;
    const Progress &progress_;
    std::map<std::string, File> held_;
};

File Collector::read_one(const Found &found) {
    File file = file_at(found.path);
    if (found.obstacle) {
        return unread(std::move(file), *found.obstacle);
    }
    auto answer = folder_.read(found.path, most_of(found.path));
    if (const auto *obstacle = std::get_if<Obstacle>(&answer)) {
        return unread(std::move(file), *obstacle);
    }
    return read(std::move(file), std::get<Content>(std::move(answer)));
}

bool Collector::read_all(const std::vector<Found> &found) {
    std::size_t done = 0;
    for (const Found &one : found) {
        if (stop_.stop_requested()) {
            return false;
        }
        if (!held_.contains(one.path)) {
            held_.emplace(one.path, read_one(one));
        }
        if (progress_) {
            progress_(++done, found.size());
        }
    }
    return true;
}

void Collector::hand_over(Reading &reading, const Listing &listing) {
    reading.files.reserve(listing.found.size());
    for (const Found &one : listing.found) {
        reading.files.push_back(std::move(held_.at(one.path)));
    }
    for (const std::string &subfolder : listing.subfolders) {
        reading.subfolders.push_back(reading.folder / subfolder);
    }
}

std::variant<std::monostate, Obstacle, Stopped> Collector::collect(Reading &reading) {
    auto listed = folder_.list(stop_);
    for (int listing = 1; std::holds_alternative<Listing>(listed); ++listing) {
        const auto found = std::get<Listing>(std::move(listed));
        if (!read_all(found.found)) {
            return Stopped{};
        }
        // A file may have come, or got another name, while others were read.
        listed = folder_.list(stop_);
        const bool is_restless = !(listed == std::variant<Listing, Obstacle>(found));
        if (!is_restless || listing == listings) {
            hand_over(reading, found);
            reading.restless = is_restless;
            reading.arriving |= is_restless;
            return std::monostate{};
        }
    }
    return std::get<Obstacle>(listed);
}

Gone gone(const Obstacle &obstacle) {
    return {{Word::gone, {reason(obstacle)}}};
}

Outcome read_whole(const std::filesystem::path &path, const std::stop_token &stop, const Progress &progress) {
    auto reading = std::make_shared<Reading>();
    reading->folder = path;
    reading->taken = std::chrono::system_clock::now();
    auto opened = Folder::open(path);
    if (const auto *obstacle = std::get_if<Obstacle>(&opened)) {
        return gone(*obstacle);
    }
    Folder &folder = std::get<Folder>(opened);
    const auto collected = Collector(folder, stop, progress).collect(*reading);
    if (std::holds_alternative<Stopped>(collected) || stop.stop_requested()) {
        return Stopped{};
    }
    if (const auto *obstacle = std::get_if<Obstacle>(&collected)) {
        return gone(*obstacle);
    }
    // What was read lies nowhere, if the folder was taken away meanwhile.
    if (const auto obstacle = folder.lost(path)) {
        return gone(*obstacle);
    }
    if (!judge(*reading, stop)) {
        return Stopped{};
    }
    return std::shared_ptr<const Reading>(std::move(reading));
}

// What was thrown, in words. Where even these are too much, in fewer.
Gone gone_by_exception() noexcept {
    try {
        throw;
    } catch (const std::bad_alloc &) {
        return {Word::gone_memory};
    } catch (const std::exception &fault) {
        try {
            return {{Word::gone, {Said(Word::unread_fault, {shown(fault.what())})}}};
        } catch (...) {
            return {Word::gone_fault};
        }
    } catch (...) {
        return {Word::gone_fault};
    }
}

// Comparing.

// Whether the bytes of a file have to be looked at: it is of the day on show, or was changed so shortly before it was
// read that another change may have left the same stamp.
bool is_to_compare(const File &file, const Reading &reading, std::optional<Day> day) {
    const bool is_of_day = day && file.slot && file.slot->day == *day;
    return is_of_day || !is_before(file.stamp.changed, reading.taken - ticking);
}

// Whether an entry of the folder is not what a file of the reading is.
bool differs(Folder &folder, const Found &found, const File &file, bool is_to_compare) {
    if (found.obstacle) {
        return file.obstacle != found.obstacle;
    }
    if (!file.obstacle && (!file.steady || folder.stamp(found.path) != file.stamp)) {
        return true;
    }
    if (!file.obstacle && !is_to_compare) {
        return false;
    }
    const auto now = folder.read(found.path, most_of(found.path));
    if (const auto *obstacle = std::get_if<Obstacle>(&now)) {
        return file.obstacle != *obstacle;
    }
    const auto &content = std::get<Content>(now);
    return file.obstacle || !content.steady || content.bytes != file.bytes;
}

bool folder_differs(const Reading &reading, std::optional<Day> day) {
    auto opened = Folder::open(reading.folder);
    if (std::holds_alternative<Obstacle>(opened)) {
        return true;
    }
    Folder &folder = std::get<Folder>(opened);
    const auto listed = folder.list();
    const auto *listing = std::get_if<Listing>(&listed);
    if (listing == nullptr || listing->found.size() != reading.files.size()) {
        return true;
    }
    std::map<std::string_view, const File *> held;
    for (const File &file : reading.files) {
        held.emplace(file.path, &file);
    }
    return std::any_of(listing->found.begin(), listing->found.end(), [&](const Found &one) {
        const auto file = held.find(one.path);
        return file == held.end() || differs(folder, one, *file->second, is_to_compare(*file->second, reading, day));
    });
}

std::vector<const File *> by_path(const Reading &reading) {
    std::vector<const File *> files;
    for (const File &file : reading.files) {
        files.push_back(&file);
    }
    std::sort(files.begin(), files.end(), [](const File *one, const File *other) { return one->path < other->path; });
    return files;
}

bool is_same(const File *one, const File *other) {
    const bool is_known = (one->steady && other->steady) || (one->obstacle && other->obstacle);
    return is_known && one->path == other->path && one->obstacle == other->obstacle && one->form == other->form &&
           one->bytes == other->bytes;
}

} // namespace

const QuarterRead &Reading::at(Slot slot) const {
    const auto found = days.find(slot.day);
    return found == days.end() ? of_no_file : found->second.at(slot.quarter.number);
}

View Reading::interval(const QuarterRead &quarter) const {
    return quarter.statement ? View(files.at(quarter.intervals.at(0)).bytes) : View();
}

View Reading::correction(const QuarterRead &quarter) const {
    return quarter.state == State::corrected ? View(files.at(quarter.corrections.at(0)).bytes) : View();
}

std::size_t Reading::count(Form form) const {
    return static_cast<std::size_t>(
        std::count_if(files.begin(), files.end(), [&](const File &file) { return file.form == form; }));
}

std::size_t Reading::unaccounted() const {
    return static_cast<std::size_t>(
        std::count_if(files.begin(), files.end(), [](const File &file) { return file.fault == Fault::unaccounted; }));
}

std::optional<Day> Reading::first_day() const {
    std::optional<Day> first;
    std::ptrdiff_t most = 0;
    for (const auto &[day, quarters] : days) {
        const auto settled = std::count_if(quarters.begin(), quarters.end(),
                                           [](const QuarterRead &quarter) { return quarter.statement.has_value(); });
        if (settled >= most) {
            first = day;
            most = settled;
        }
    }
    return first;
}

Outcome read_folder(const std::filesystem::path &folder, std::stop_token stop, const Progress &progress) {
    try {
        return read_whole(folder, stop, progress);
    } catch (...) {
        return gone_by_exception();
    }
}

bool has_changed(const Reading &reading, std::optional<Day> day) {
    try {
        return folder_differs(reading, day);
    } catch (...) {
        return true; // nobody knows, so it is read again
    }
}

bool same_files(const Reading &one, const Reading &other) {
    const auto files = by_path(one);
    const auto others = by_path(other);
    return std::equal(files.begin(), files.end(), others.begin(), others.end(), is_same);
}

} // namespace client
