// A folder to try things in, and files to put there.
#pragma once

#include "made.h"
#include "reading.h"
#include "rules.h"

#include <cstdio>
#include <cstdlib>
#include <fcntl.h>
#include <filesystem>
#include <fstream>
#include <random>
#include <string>
#include <sys/stat.h>
#include <unistd.h>

namespace trial {

namespace fs = std::filesystem;
using client::Bytes;
using client::View;

// ---- folders ----

// A new folder that everybody may look into, removed when the program ends, also where a check fails.
class Root {
  public:
    Root() {
        std::string name = (fs::temp_directory_path() / "client-test-XXXXXX").native();
        if (mkdtemp(name.data()) == nullptr || chmod(name.c_str(), 0755) != 0) {
            std::perror("mkdtemp");
            std::exit(2);
        }
        path_ = name;
    }
    ~Root() {
        std::error_code ignored;
        for (fs::recursive_directory_iterator at(path_, ignored), end; at != end; at.increment(ignored)) {
            if (at->is_directory(ignored) && !at->is_symlink(ignored)) {
                chmod(at->path().c_str(), 0755);
            }
        }
        fs::remove_all(path_, ignored);
    }
    Root(const Root &) = delete;

    const fs::path &path() const { return path_; }

  private:
    fs::path path_;
};

inline const fs::path &root() {
    static const Root root;
    return root.path();
}

// An empty folder that was not there before.
inline fs::path folder() {
    static int made = 0;
    const fs::path path = root() / std::to_string(++made);
    fs::create_directory(path);
    chmod(path.c_str(), 0755);
    return path;
}

// Sets the time of the last writing, in seconds from now.
inline void set_age(const fs::path &file, std::int64_t seconds_ago) {
    timespec now{};
    clock_gettime(CLOCK_REALTIME, &now);
    const timespec times[2] = {now, {now.tv_sec - seconds_ago, now.tv_nsec}};
    utimensat(AT_FDCWD, file.c_str(), times, AT_SYMLINK_NOFOLLOW);
}

// A new file, also where there was one: to empty a file that is there makes some systems wait for the disk.
inline void put_fresh(const fs::path &file, View bytes) {
    fs::remove(file);
    std::ofstream out(file, std::ios::binary | std::ios::trunc);
    out.write(reinterpret_cast<const char *>(bytes.data()), static_cast<std::streamsize>(bytes.size()));
}

// A file that was written an hour ago.
inline void put(const fs::path &file, View bytes) {
    put_fresh(file, bytes);
    set_age(file, 3'600);
}

inline Bytes bytes_of(const std::string &text) {
    return {text.begin(), text.end()};
}

inline Bytes bytes_at(const fs::path &file) {
    std::ifstream in(file, std::ios::binary);
    return {std::istreambuf_iterator<char>(in), {}};
}

// ---- files ----

inline void set(Bytes &bytes, std::size_t at, std::uint64_t number, std::size_t width) {
    for (std::size_t i = 0; i < width; ++i) {
        bytes.at(at + i) = static_cast<std::uint8_t>(number >> (8 * i));
    }
}

inline Bytes with(Bytes bytes, std::size_t at, std::uint64_t number, std::size_t width) {
    set(bytes, at, number, width);
    return bytes;
}

inline Bytes cut(Bytes bytes, std::size_t length) {
    bytes.resize(length);
    return bytes;
}

inline Bytes for_slot(Bytes bytes, std::uint32_t day, std::uint8_t quarter) {
    return with(with(std::move(bytes), 2, day, 4), 6, quarter, 1);
}

constexpr std::size_t row_length = 21;

struct Drawn {
    Bytes interval, correction;
};

// Files that are accepted, of any figures. One interval file in four has neither wind nor sun, nor a thermal unit above
// its baseline.
class Drawer {
  public:
    explicit Drawer(unsigned seed) : random_(seed) {}

    std::uint32_t below(std::uint32_t end) { return std::uniform_int_distribution<std::uint32_t>(0, end - 1)(random_); }

    Bytes interval(std::uint32_t day, std::uint8_t quarter, std::uint32_t rows) {
        return interval_under(client::issued_terms, day, quarter, rows);
    }

    // One that states its terms, which are any.
    Bytes stated_interval(std::uint32_t day, std::uint8_t quarter, std::uint32_t rows) {
        const client::Terms terms = drawn_terms();
        return made::stating(terms, interval_under(terms, day, quarter, rows));
    }

    client::Terms drawn_terms() {
        client::Terms terms{static_cast<int>(41 + below(10)), {}};
        const std::int64_t first = 1 + below(400), second = first + 1 + below(200), third = second + below(200);
        terms.limits = {{{first}, {second}, {third}, {third + 1 + below(200)}}};
        return terms;
    }

    // Other readings for one to all of its rows.
    Bytes correction(const Bytes &interval) {
        Bytes bytes = for_slot({'P', 'K', 0, 0, 0, 0, 0, 0, 0}, 0, 0);
        std::copy(interval.begin() + 2, interval.begin() + 7, bytes.begin() + 2);
        const std::size_t head = client::form_of(interval)->head;
        const std::size_t rows = (interval.size() - head) / row_length;
        const std::size_t sure = below(static_cast<std::uint32_t>(rows));
        std::uint16_t entries = 0;
        for (std::size_t row = 0; row < rows; ++row) {
            if (row == sure || below(3) == 0) {
                const auto from = interval.begin() + static_cast<std::ptrdiff_t>(head + row_length * row);
                bytes.insert(bytes.end(), from, from + row_length);
                set(bytes, bytes.size() - row_length + 7, below(275u * bytes[bytes.size() - row_length + 5]), 4);
                ++entries;
            }
        }
        return with(bytes, 7, entries, 2);
    }

  private:
    // A head that states nothing, and rows within these terms.
    Bytes interval_under(const client::Terms &terms, std::uint32_t day, std::uint8_t quarter, std::uint32_t rows) {
        Bytes bytes(15 + row_length * rows);
        bytes[0] = 'P', bytes[1] = 'H';
        const bool is_still = below(4) == 0;
        set(bytes, 7, 1 + below(4'000), 2);
        set(bytes, 9, below(200'000), 4);
        set(bytes, 13, rows, 2);
        for (std::uint32_t row = 0; row < rows; ++row) {
            put_row(bytes, 15 + row_length * row, 1 + 7 * row + below(7), terms, is_still);
        }
        return for_slot(bytes, day, quarter);
    }

    // Any of the numbers from the lowest to the highest.
    std::uint64_t bid(client::Li lowest, client::Li highest) {
        const auto choices = static_cast<std::uint32_t>(highest.count - lowest.count + 1);
        return static_cast<std::uint64_t>(lowest.count) + below(choices);
    }

    void put_row(Bytes &bytes, std::size_t at, std::uint32_t id, const client::Terms &terms, bool is_still) {
        const std::uint32_t kind = 1 + below(3), capacity = 1 + below(250), offers = kind == 1 && below(3) > 0;
        const std::uint32_t baseline = capacity * static_cast<std::uint32_t>(terms.baseline) * 5 / 2;
        const std::uint32_t most = !is_still ? 275 * capacity : kind == 1 ? baseline : 0;
        bytes[at] = 'P', bytes[at + 1] = 'R';
        set(bytes, at + 2, id, 2);
        set(bytes, at + 4, kind, 1);
        set(bytes, at + 5, capacity, 2);
        set(bytes, at + 7, below(most + 1), 4);
        set(bytes, at + 11, below(4) > 0 ? 0 : kind == 1 ? below(4) : 3 * below(2), 1);
        set(bytes, at + 12, offers, 1);
        set(bytes, at + 13, offers ? below(baseline + 1) : 0, 4);
        set(bytes, at + 17, offers ? bid(terms.limits[0], terms.limits[1]) : 0, 2);
        set(bytes, at + 19, offers ? bid(terms.limits[2], terms.limits[3]) : 0, 2);
    }

    std::mt19937 random_;
};

} // namespace trial
