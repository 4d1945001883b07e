// What the core asks of the operating system, here and nowhere else: what lies in a folder, the bytes of a file, and
// the local time.
//
// Names are bytes of any kind. A folder is held open and everything is reached from there, and only plain files are
// opened: a link is never followed, not even one that was put there a moment ago, and a pipe never blocks.
#pragma once

#include "engine.h"

#include <chrono>
#include <cstdint>
#include <filesystem>
#include <optional>
#include <stop_token>
#include <string>
#include <variant>
#include <vector>

namespace client {

// Why something is not read.
struct Obstacle {
    enum class What { absent, permission, link, pipe, socket, device, inner_folder, no_folder, system };

    What what = What::system;
    int number = 0; // the system's number of the error, where there are no better words

    friend bool operator==(const Obstacle &, const Obstacle &) = default;
};

// What the system tells of a file. Where none of it differs, nobody has written the file, or the system did not notice.
struct Stamp {
    struct Moment {
        std::int64_t seconds = 0; // since 1970
        std::int64_t nanoseconds = 0;
        friend bool operator==(const Moment &, const Moment &) = default;
    };

    std::uint64_t device = 0, inode = 0, size = 0;
    Moment written, changed; // its bytes; anything about it, which no program can put back

    friend bool operator==(const Stamp &, const Stamp &) = default;
};

// A system's clock ticks some hundred times a second. What is written twice within a tick has one stamp; so long after
// a change, the clock of any system has gone on.
inline constexpr std::chrono::milliseconds ticking{100};

bool is_before(Stamp::Moment moment, std::chrono::system_clock::time_point other);

// An entry of a folder, by its path within: "a", or "day/a". A plain file has no obstacle.
struct Found {
    std::string path;
    std::optional<Obstacle> obstacle;

    friend bool operator==(const Found &, const Found &) = default;
};

// What lies in a folder and its direct subfolders, by name.
struct Listing {
    std::vector<Found> found;
    std::vector<std::string> subfolders; // those that could be listed

    friend bool operator==(const Listing &, const Listing &) = default;
};

struct Content {
    Bytes bytes;
    Bytes ending; // the last ending_length bytes of the file, or all of it where it is shorter
    Stamp stamp;
    bool steady = false; // it did not change from before the first byte until after the last
};

// A descriptor of the system, closed with its owner.
class Descriptor {
  public:
    explicit Descriptor(int number = -1) : number_(number) {}
    Descriptor(Descriptor &&other) noexcept;
    Descriptor &operator=(Descriptor &&other) noexcept;
    ~Descriptor();

    int number() const { return number_; }
    bool is_open() const { return number_ >= 0; }
    // From now on somebody else closes it.
    int release();

  private:
    int number_;
};

class Folder {
  public:
    static std::variant<Folder, Obstacle> open(const std::filesystem::path &path);

    // A subfolder that cannot be listed is found as an entry, with the reason. Asked to stop, it leaves out the rest.
    std::variant<Listing, Obstacle> list(const std::stop_token &stop = {});

    // At most so many bytes of a plain file. A file that changes meanwhile is read up to three times.
    std::variant<Content, Obstacle> read(const std::string &path, std::size_t most);

    // Of a plain file; none where there is none.
    std::optional<Stamp> stamp(const std::string &path);

    // Whether the path leads to this folder still, and if not, why.
    std::optional<Obstacle> lost(const std::filesystem::path &path) const;

  private:
    explicit Folder(Descriptor folder) : folder_(std::move(folder)) {}
    std::variant<int, Obstacle> holder_of(const std::string &path);

    Descriptor folder_;
    // The subfolder that was asked for last: files are read one subfolder after the other.
    std::string subfolder_;
    Descriptor in_subfolder_;
};

// "2026-10-31T12:00:03+08:00", in the time zone of the machine.
std::string local_time(std::chrono::system_clock::time_point moment);

} // namespace client
