#include "slow_disk.h"

#include <atomic>
#include <cerrno>
#include <climits>
#include <cstdarg>
#include <cstdint>
#include <cstdlib>
#include <cstring>
#include <ctime>
#include <dirent.h>
#include <dlfcn.h>
#include <fcntl.h>
#include <sys/inotify.h>
#include <sys/mman.h>
#include <sys/stat.h>
#include <sys/statfs.h>
#include <sys/statvfs.h>
#include <sys/syscall.h>
#include <unistd.h>

namespace {

struct State {
    std::atomic<int> ms;
    std::atomic<int> begun;
    std::atomic<int> ended;
    std::atomic<bool> is_main_counted;
    std::atomic<int> by_main;
    char first_by_main[PATH_MAX + 64];
    char folder[PATH_MAX];
};

State own;
std::atomic<State *> shared = nullptr;

State &state() {
    State *const there = shared.load();
    return there ? *there : own;
}

template <typename Function>
Function next(const char *name) {
    return reinterpret_cast<Function>(dlsym(RTLD_NEXT, name));
}

// By the system itself: nothing here may come back to here.
void path_of_descriptor(int descriptor, char *path) {
    char link[64] = "/proc/self/fd/";
    char digits[16];
    int count = 0;
    for (unsigned rest = static_cast<unsigned>(descriptor); count == 0 || rest > 0; rest /= 10) {
        digits[count++] = static_cast<char>('0' + rest % 10);
    }
    std::size_t end = std::strlen(link);
    while (count > 0) {
        link[end++] = digits[--count];
    }
    link[end] = 0;
    const long length = syscall(SYS_readlinkat, AT_FDCWD, link, path, PATH_MAX - 1);
    path[length > 0 ? length : 0] = 0;
}

bool is_below(const char *path) {
    const std::size_t length = std::strlen(state().folder);
    return length > 0 && std::strncmp(path, state().folder, length) == 0 && (path[length] == 0 || path[length] == '/');
}

void wait_here(const char *call, const char *path) {
    State &now = state();
    if (now.is_main_counted && getpid() == static_cast<pid_t>(syscall(SYS_gettid)) && now.by_main++ == 0) {
        std::strncpy(now.first_by_main, call, 60);
        std::strncat(now.first_by_main, " ", 2);
        std::strncat(now.first_by_main, path, PATH_MAX - 1);
    }
    if (now.ms <= 0) {
        return;
    }
    ++now.begun;
    const auto milliseconds = [] {
        timespec at{};
        clock_gettime(CLOCK_MONOTONIC, &at);
        return static_cast<std::int64_t>(at.tv_sec) * 1'000 + at.tv_nsec / 1'000'000;
    };
    for (const std::int64_t begin = milliseconds(); milliseconds() - begin < now.ms;) {
        const timespec moment{0, 1'000'000};
        syscall(SYS_clock_nanosleep, CLOCK_MONOTONIC, 0, &moment, nullptr);
    }
    ++now.ended;
}

void look_at(const char *call, int folder, const char *path) {
    const int kept = errno;
    char whole[2 * PATH_MAX];
    whole[0] = 0;
    if (path && path[0] == '/') {
        std::strncpy(whole, path, PATH_MAX - 1);
        whole[PATH_MAX - 1] = 0;
    } else if (folder != AT_FDCWD) {
        path_of_descriptor(folder, whole);
        if (path && path[0]) {
            std::strcat(whole, "/");
            std::strncat(whole, path, PATH_MAX - 2);
        }
    }
    if (is_below(whole)) {
        wait_here(call, whole);
    }
    errno = kept;
}

void look_at(const char *call, int descriptor) {
    if (state().folder[0]) {
        look_at(call, descriptor, "");
    }
}

// A program that the test has started finds the state where the test has it.
__attribute__((constructor)) void begin() {
    if (const char *file = std::getenv("SLOW_DISK")) {
        slow_disk::share(file);
    }
}

} // namespace

namespace slow_disk {

void slow(const std::string &folder, int ms) {
    State &now = state();
    now.ms = 0;
    std::strncpy(now.folder, folder.c_str(), PATH_MAX - 1);
    now.ms = ms;
}

int begun() {
    return state().begun;
}

int ended() {
    return state().ended;
}

void count_main_thread(bool is_counted) {
    state().is_main_counted = is_counted;
}

int by_main_thread() {
    return state().by_main;
}

std::string first_by_main_thread() {
    return state().first_by_main;
}

void forget_main_thread() {
    state().by_main = 0;
}

void share(const std::string &file) {
    const int descriptor = static_cast<int>(syscall(SYS_openat, AT_FDCWD, file.c_str(), O_RDWR | O_CREAT, 0600));
    if (descriptor < 0 || ftruncate(descriptor, sizeof(State)) != 0) {
        std::abort();
    }
    void *const place = mmap(nullptr, sizeof(State), PROT_READ | PROT_WRITE, MAP_SHARED, descriptor, 0);
    if (place == MAP_FAILED) {
        std::abort();
    }
    syscall(SYS_close, descriptor);
    shared = static_cast<State *>(place); // zeros are a state
}

} // namespace slow_disk

// The system's calls, those with an ending for long files too. Each has a name of its own here and the system's name
// for who looks for it, since the headers declare the latter in their own way.

#define BEFORE(result, name, parameters)                                                                               \
    extern "C" result slow_##name parameters __asm__(#name);                                                           \
    result slow_##name parameters

#define BY_PATH(result, name, parameters, arguments, folder, path)                                                     \
    BEFORE(result, name, parameters) {                                                                                 \
        static const auto call = next<result(*) parameters>(#name);                                                    \
        look_at(#name, folder, path);                                                                                  \
        return call arguments;                                                                                         \
    }

#define BY_DESCRIPTOR(result, name, parameters, arguments, descriptor)                                                 \
    BEFORE(result, name, parameters) {                                                                                 \
        static const auto call = next<result(*) parameters>(#name);                                                    \
        look_at(#name, descriptor);                                                                                    \
        return call arguments;                                                                                         \
    }

// With a mode that is there only where a file may be made.
#define OPENING(name, parameters, arguments, folder)                                                                   \
    BEFORE(int, name, parameters) {                                                                                    \
        static const auto call = next<int(*) parameters>(#name);                                                       \
        va_list rest;                                                                                                  \
        va_start(rest, flags);                                                                                         \
        const unsigned mode = (flags & (O_CREAT | O_TMPFILE)) != 0 ? va_arg(rest, unsigned) : 0;                       \
        va_end(rest);                                                                                                  \
        look_at(#name, folder, path);                                                                                  \
        return call arguments;                                                                                         \
    }

OPENING(open, (const char *path, int flags, ...), (path, flags, mode), AT_FDCWD)
OPENING(open64, (const char *path, int flags, ...), (path, flags, mode), AT_FDCWD)
OPENING(openat, (int folder, const char *path, int flags, ...), (folder, path, flags, mode), folder)
OPENING(openat64, (int folder, const char *path, int flags, ...), (folder, path, flags, mode), folder)
BY_PATH(int, __open_2, (const char *path, int flags), (path, flags), AT_FDCWD, path)
BY_PATH(int, __open64_2, (const char *path, int flags), (path, flags), AT_FDCWD, path)
BY_PATH(int, __openat_2, (int folder, const char *path, int flags), (folder, path, flags), folder, path)
BY_PATH(int, __openat64_2, (int folder, const char *path, int flags), (folder, path, flags), folder, path)
BY_PATH(DIR *, opendir, (const char *path), (path), AT_FDCWD, path)
BY_PATH(int, stat, (const char *path, struct stat *about), (path, about), AT_FDCWD, path)
BY_PATH(int, stat64, (const char *path, struct stat64 *about), (path, about), AT_FDCWD, path)
BY_PATH(int, lstat, (const char *path, struct stat *about), (path, about), AT_FDCWD, path)
BY_PATH(int, lstat64, (const char *path, struct stat64 *about), (path, about), AT_FDCWD, path)
BY_PATH(int, fstatat, (int folder, const char *path, struct stat *about, int flags), (folder, path, about, flags),
        folder, path)
BY_PATH(int, fstatat64, (int folder, const char *path, struct stat64 *about, int flags), (folder, path, about, flags),
        folder, path)
BY_PATH(int, statx, (int folder, const char *path, int flags, unsigned mask, struct statx *about),
        (folder, path, flags, mask, about), folder, path)
BY_PATH(int, statfs, (const char *path, struct statfs *about), (path, about), AT_FDCWD, path)
BY_PATH(int, statfs64, (const char *path, struct statfs64 *about), (path, about), AT_FDCWD, path)
BY_PATH(int, statvfs, (const char *path, struct statvfs *about), (path, about), AT_FDCWD, path)
BY_PATH(int, statvfs64, (const char *path, struct statvfs64 *about), (path, about), AT_FDCWD, path)
BY_PATH(int, access, (const char *path, int mode), (path, mode), AT_FDCWD, path)
BY_PATH(int, faccessat, (int folder, const char *path, int mode, int flags), (folder, path, mode, flags), folder, path)
BY_PATH(int, euidaccess, (const char *path, int mode), (path, mode), AT_FDCWD, path)
BY_PATH(ssize_t, readlink, (const char *path, char *to, std::size_t most), (path, to, most), AT_FDCWD, path)
BY_PATH(ssize_t, readlinkat, (int folder, const char *path, char *to, std::size_t most), (folder, path, to, most),
        folder, path)
BY_PATH(ssize_t, __readlink_chk, (const char *path, char *to, std::size_t most, std::size_t size),
        (path, to, most, size), AT_FDCWD, path)
BY_PATH(char *, realpath, (const char *path, char *to), (path, to), AT_FDCWD, path)
BY_PATH(char *, __realpath_chk, (const char *path, char *to, std::size_t size), (path, to, size), AT_FDCWD, path)
BY_PATH(char *, canonicalize_file_name, (const char *path), (path), AT_FDCWD, path)
BY_PATH(int, chdir, (const char *path), (path), AT_FDCWD, path)
BY_PATH(int, mkdir, (const char *path, mode_t mode), (path, mode), AT_FDCWD, path)
BY_PATH(int, rmdir, (const char *path), (path), AT_FDCWD, path)
BY_PATH(int, unlink, (const char *path), (path), AT_FDCWD, path)
BY_PATH(int, rename, (const char *from, const char *to), (from, to), AT_FDCWD, to)
BY_PATH(int, inotify_add_watch, (int watch, const char *path, std::uint32_t mask), (watch, path, mask), AT_FDCWD, path)
BY_DESCRIPTOR(int, fstat, (int file, struct stat *about), (file, about), file)
BY_DESCRIPTOR(int, fstat64, (int file, struct stat64 *about), (file, about), file)
BY_DESCRIPTOR(int, fstatfs, (int file, struct statfs *about), (file, about), file)
BY_DESCRIPTOR(int, fstatfs64, (int file, struct statfs64 *about), (file, about), file)
BY_DESCRIPTOR(ssize_t, read, (int file, void *to, std::size_t most), (file, to, most), file)
BY_DESCRIPTOR(ssize_t, __read_chk, (int file, void *to, std::size_t most, std::size_t size), (file, to, most, size),
              file)
BY_DESCRIPTOR(ssize_t, pread, (int file, void *to, std::size_t most, off_t from), (file, to, most, from), file)
BY_DESCRIPTOR(ssize_t, pread64, (int file, void *to, std::size_t most, off64_t from), (file, to, most, from), file)
BY_DESCRIPTOR(ssize_t, write, (int file, const void *from, std::size_t count), (file, from, count), file)
BY_DESCRIPTOR(int, fsync, (int file), (file), file)
BY_DESCRIPTOR(DIR *, fdopendir, (int folder), (folder), folder)
BY_DESCRIPTOR(struct dirent *, readdir, (DIR * folder), (folder), dirfd(folder))
BY_DESCRIPTOR(struct dirent64 *, readdir64, (DIR * folder), (folder), dirfd(folder))
