#include "folder.h"

#include "known.h"

#include <algorithm>
#include <array>
#include <cerrno>
#include <ctime>
#include <dirent.h>
#include <fcntl.h>
#include <memory>
#include <sys/stat.h>
#include <unistd.h>
#include <utility>

namespace client {

namespace {

using What = Obstacle::What;

// How often a file that changes while it is read is read in all.
constexpr int tries = 3;

Obstacle of_system(int number) {
    switch (number) {
    case ENOENT:
        return {What::absent, 0};
    case EACCES:
    case EPERM:
        return {What::permission, 0};
    case ELOOP:
        return {What::link, 0};
    case ENOTDIR:
        return {What::no_folder, 0};
    default:
        return {What::system, number};
    }
}

// What hinders reading a thing of this kind; nothing in the case of a plain file.
std::optional<Obstacle> of_mode(mode_t mode) {
    if (S_ISREG(mode)) {
        return std::nullopt;
    }
    if (S_ISLNK(mode)) {
        return Obstacle{What::link, 0};
    }
    if (S_ISDIR(mode)) {
        return Obstacle{What::inner_folder, 0};
    }
    if (S_ISFIFO(mode)) {
        return Obstacle{What::pipe, 0};
    }
    return Obstacle{S_ISSOCK(mode) ? What::socket : What::device, 0};
}

std::optional<Obstacle> of_entry(int folder, const dirent &entry) {
    // Most systems tell the kind along with the name, which saves a question for each file.
    if (entry.d_type != DT_UNKNOWN) {
        return of_mode(static_cast<mode_t>(DTTOIF(entry.d_type)));
    }
    struct stat about {};
    if (fstatat(folder, entry.d_name, &about, AT_SYMLINK_NOFOLLOW) != 0) {
        return of_system(errno);
    }
    return of_mode(about.st_mode);
}

Stamp stamp_of(const struct stat &about) {
    return {
        .device = static_cast<std::uint64_t>(about.st_dev),
        .inode = static_cast<std::uint64_t>(about.st_ino),
        .size = static_cast<std::uint64_t>(about.st_size),
        .written = {about.st_mtim.tv_sec, about.st_mtim.tv_nsec},
        .changed = {about.st_ctim.tv_sec, about.st_ctim.tv_nsec},
    };
}

std::optional<Stamp> plain_file(int folder, const char *name) {
    struct stat about {};
    const bool is_plain = fstatat(folder, name, &about, AT_SYMLINK_NOFOLLOW) == 0 && S_ISREG(about.st_mode);
    return is_plain ? std::optional(stamp_of(about)) : std::nullopt;
}

constexpr int as_folder = O_RDONLY | O_DIRECTORY | O_CLOEXEC;

std::variant<std::vector<Found>, Obstacle> entries(int folder) {
    // A descriptor of its own, since reading moves it on.
    Descriptor again(openat(folder, ".", as_folder));
    if (!again.is_open()) {
        return of_system(errno);
    }
    const std::unique_ptr<DIR, int (*)(DIR *)> stream(fdopendir(again.number()), closedir);
    if (!stream) {
        return of_system(errno);
    }
    again.release();
    std::vector<Found> all;
    for (;;) {
        errno = 0;
        const dirent *entry = readdir(stream.get());
        if (entry == nullptr) {
            break;
        }
        const std::string name = entry->d_name;
        if (name != "." && name != "..") {
            all.push_back({name, of_entry(folder, *entry)});
        }
    }
    if (errno != 0) {
        return of_system(errno);
    }
    std::sort(all.begin(), all.end(), [](const Found &one, const Found &other) { return one.path < other.path; });
    return all;
}

void add_subfolder(int folder, const Found &found, Listing &all) {
    const Descriptor within(openat(folder, found.path.c_str(), as_folder | O_NOFOLLOW));
    auto listed = within.is_open() ? entries(within.number()) : of_system(errno);
    if (const auto *obstacle = std::get_if<Obstacle>(&listed)) {
        all.found.push_back({found.path, *obstacle});
        return;
    }
    all.subfolders.push_back(found.path);
    for (const Found &inner : std::get<std::vector<Found>>(listed)) {
        all.found.push_back({found.path + "/" + inner.path, inner.obstacle});
    }
}

// Fills as much of the bytes as there is. The answer is how many, or below 0 where the system refuses.
ssize_t fill(int file, Bytes &bytes) {
    std::size_t held = 0;
    while (held < bytes.size()) {
        const ssize_t more = ::read(file, bytes.data() + held, bytes.size() - held);
        if (more < 0 && errno == EINTR) {
            continue;
        }
        if (more < 0) {
            return more;
        }
        if (more == 0) {
            break;
        }
        held += static_cast<std::size_t>(more);
    }
    return static_cast<ssize_t>(held);
}

// The last bytes of a file, of which the front was read.
std::optional<Bytes> ending_of(int file, const Bytes &front, std::uint64_t size) {
    if (front.size() >= size) {
        const auto length = static_cast<std::ptrdiff_t>(std::min(front.size(), ending_length));
        return Bytes(front.end() - length, front.end());
    }
    Bytes ending(static_cast<std::size_t>(std::min<std::uint64_t>(size, ending_length)));
    const ssize_t held = pread(file, ending.data(), ending.size(), static_cast<off_t>(size - ending.size()));
    if (held < 0) {
        return std::nullopt;
    }
    ending.resize(static_cast<std::size_t>(held));
    return ending;
}

std::variant<Content, Obstacle> read_once(int folder, const char *name, std::size_t most) {
    const Descriptor file(openat(folder, name, O_RDONLY | O_NOFOLLOW | O_NONBLOCK | O_CLOEXEC));
    struct stat about {};
    if (!file.is_open() || fstat(file.number(), &about) != 0) {
        return of_system(errno);
    }
    if (const auto obstacle = of_mode(about.st_mode)) {
        return *obstacle;
    }
    // One byte more than there should be, so that a file that has grown meanwhile shows it.
    Content content{.bytes = Bytes(std::min(most, static_cast<std::size_t>(about.st_size) + 1)),
                    .ending = {},
                    .stamp = stamp_of(about)};
    const ssize_t held = fill(file.number(), content.bytes);
    if (held < 0) {
        return of_system(errno);
    }
    content.bytes.resize(static_cast<std::size_t>(held));
    auto ending = ending_of(file.number(), content.bytes, content.stamp.size);
    if (!ending) {
        return of_system(errno);
    }
    content.ending = std::move(*ending);
    // Asked for by its name, so that another file put in its place is noticed too.
    content.steady = content.bytes.size() == std::min<std::uint64_t>(most, content.stamp.size) &&
                     plain_file(folder, name) == content.stamp;
    return content;
}

// Whether a later change would show in the stamp.
bool is_beyond_doubt(const Stamp &stamp) {
    return is_before(stamp.changed, std::chrono::system_clock::now() - ticking);
}

std::string leaf_of(const std::string &path) {
    return path.substr(path.find('/') + 1);
}

} // namespace

bool is_before(Stamp::Moment moment, std::chrono::system_clock::time_point other) {
    using namespace std::chrono;
    const auto since_1970 = duration_cast<nanoseconds>(other.time_since_epoch()).count();
    return Wide{moment.seconds} * 1'000'000'000 + moment.nanoseconds < since_1970;
}

Descriptor::Descriptor(Descriptor &&other) noexcept : number_(other.release()) {}

Descriptor &Descriptor::operator=(Descriptor &&other) noexcept {
    std::swap(number_, other.number_);
    return *this;
}

Descriptor::~Descriptor() {
    if (is_open()) {
        close(number_);
    }
}

int Descriptor::release() {
    return std::exchange(number_, -1);
}

std::variant<Folder, Obstacle> Folder::open(const std::filesystem::path &path) {
    // The folder itself may be a link: a person has chosen it.
    Descriptor folder(::open(path.c_str(), as_folder));
    if (!folder.is_open()) {
        return of_system(errno);
    }
    return Folder(std::move(folder));
}

std::variant<Listing, Obstacle> Folder::list(const std::stop_token &stop) {
    // A subfolder may have been put in the place of another.
    in_subfolder_ = Descriptor();
    const auto listed = entries(folder_.number());
    if (const auto *obstacle = std::get_if<Obstacle>(&listed)) {
        return *obstacle;
    }
    Listing all;
    for (const Found &found : std::get<std::vector<Found>>(listed)) {
        if (stop.stop_requested()) {
            break;
        }
        if (found.obstacle == Obstacle{What::inner_folder, 0}) {
            add_subfolder(folder_.number(), found, all);
        } else {
            all.found.push_back(found);
        }
    }
    return all;
}

// The descriptor of the folder that directly holds a path's last part.
std::variant<int, Obstacle> Folder::holder_of(const std::string &path) {
    const std::size_t end = path.find('/');
    if (end == std::string::npos) {
        return folder_.number();
    }
    const std::string subfolder = path.substr(0, end);
    if (in_subfolder_.is_open() && subfolder_ == subfolder) {
        return in_subfolder_.number();
    }
    Descriptor opened(openat(folder_.number(), subfolder.c_str(), as_folder | O_NOFOLLOW));
    if (!opened.is_open()) {
        return of_system(errno);
    }
    in_subfolder_ = std::move(opened);
    subfolder_ = subfolder;
    return in_subfolder_.number();
}

std::variant<Content, Obstacle> Folder::read(const std::string &path, std::size_t most) {
    const auto holder = holder_of(path);
    if (const auto *obstacle = std::get_if<Obstacle>(&holder)) {
        return *obstacle;
    }
    const std::string leaf = leaf_of(path);
    std::optional<Bytes> last;
    for (int attempt = 1;; ++attempt) {
        auto answer = read_once(std::get<int>(holder), leaf.c_str(), most);
        auto *content = std::get_if<Content>(&answer);
        if (content == nullptr) {
            return answer;
        }
        // Where the stamp does not tell whether it changed meanwhile, two readings have to agree.
        content->steady = content->steady && (is_beyond_doubt(content->stamp) || last == content->bytes);
        if (content->steady || attempt == tries) {
            return answer;
        }
        last = content->bytes;
    }
}

std::optional<Stamp> Folder::stamp(const std::string &path) {
    const auto holder = holder_of(path);
    return std::holds_alternative<int>(holder) ? plain_file(std::get<int>(holder), leaf_of(path).c_str())
                                               : std::nullopt;
}

std::optional<Obstacle> Folder::lost(const std::filesystem::path &path) const {
    struct stat here {};
    struct stat there {};
    if (fstat(folder_.number(), &here) != 0 || stat(path.c_str(), &there) != 0) {
        return of_system(errno);
    }
    const bool is_same = here.st_dev == there.st_dev && here.st_ino == there.st_ino;
    return is_same ? std::nullopt : std::optional(Obstacle{What::absent, 0});
}

std::string local_time(std::chrono::system_clock::time_point moment) {
    const std::time_t seconds = std::chrono::system_clock::to_time_t(moment);
    std::tm parts{};
    std::array<char, 64> text{};
    if (localtime_r(&seconds, &parts) == nullptr ||
        std::strftime(text.data(), text.size(), "%Y-%m-%dT%H:%M:%S%z", &parts) == 0) {
        return "";
    }
    // The system writes +0800.
    const std::string whole = text.data();
    const std::size_t minutes = whole.size() - 2;
    return whole.substr(0, minutes) + ":" + whole.substr(minutes);
}

} // namespace client
