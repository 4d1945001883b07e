// What the client is held against: reads files, settles each, and prints one number for each quarter, the total.
//
//   plain PATH...        a file, or a folder with the files in it and in its direct subfolders
#include "wheatrudder.h"

#include <dirent.h>
#include <fcntl.h>
#include <sys/stat.h>
#include <unistd.h>

#include <array>
#include <cinttypes>
#include <cstdio>
#include <string>
#include <vector>

namespace {

// One more than the longest file, so that a longer one is not taken for it.
std::array<std::uint8_t, WHEATRUDDER_INTERVAL_LENGTH_PG(WHEATRUDDER_MOST_ROWS) + 1> interval;
std::array<std::uint8_t, WHEATRUDDER_STATEMENT_ROOM(WHEATRUDDER_MOST_ROWS)> statement;

std::size_t read_file(const std::string &path) {
    const int file = open(path.c_str(), O_RDONLY | O_CLOEXEC);
    std::size_t length = 0;
    for (ssize_t got = 1;
         file >= 0 && got > 0 && length<interval.size(); length += got> 0 ? static_cast<std::size_t>(got) : 0) {
        got = read(file, interval.data() + length, interval.size() - length);
    }
    close(file);
    return length;
}

bool settle_file(const std::string &path) {
    const std::size_t length = read_file(path);
    const std::uint64_t answer =
        wheatrudder_settle(interval.data(), length, nullptr, 0, statement.data(), statement.size());
    if (wheatrudder_number(answer) != 0) {
        return false;
    }
    std::printf("%" PRIu64 "\n", wheatrudder_statement_total(statement.data()));
    return true;
}

bool is_folder(const std::string &path) {
    struct stat about {};
    return stat(path.c_str(), &about) == 0 && S_ISDIR(about.st_mode);
}

std::vector<std::string> within(const std::string &folder) {
    std::vector<std::string> paths;
    DIR *listing = opendir(folder.c_str());
    for (dirent *entry = listing ? readdir(listing) : nullptr; entry; entry = readdir(listing)) {
        if (entry->d_name[0] != '.') {
            paths.push_back(folder + "/" + entry->d_name);
        }
    }
    if (listing) {
        closedir(listing);
    }
    return paths;
}

bool settle_path(const std::string &path, int deeper) {
    if (deeper == 0 || !is_folder(path)) {
        return settle_file(path);
    }
    bool is_settled = true;
    for (const std::string &inner : within(path)) {
        is_settled = settle_path(inner, deeper - 1) && is_settled;
    }
    return is_settled;
}

} // namespace

int main(int count, char **words) {
    bool is_settled = count > 1;
    for (int at = 1; at < count; ++at) {
        is_settled = settle_path(words[at], 2) && is_settled;
    }
    return is_settled ? 0 : 1;
}
