// Is loaded ahead of the C library, and notes when a run of tileshell goes from one phase to the next, and what it took up to
// there: the wall clock in nanoseconds, user and system time in microseconds, and page faults. PHASES names the file of the notes.

#include <dlfcn.h>
#include <fcntl.h>
#include <sys/resource.h>
#include <time.h>
#include <unistd.h>

#include <cstdarg>
#include <cstddef>
#include <cstdio>
#include <cstdlib>

namespace {

// What has happened after each phase: the first file is opened, the tile is read, the first line is answered, the first bytes of the
// edited tile are there to be written, and the last are written.
enum Mark { STARTED, READ, ANSWERED, ENCODED, WRITTEN, MARKS };

struct Note {
    long long nanoseconds, user, system, faults;
};

Note notes[MARKS];
int tile = -1;
int out = -1;

long long microseconds(const timeval& time) {
    return 1'000'000LL * time.tv_sec + time.tv_usec;
}

void note(Mark mark) {
    timespec now{};
    rusage usage{};
    clock_gettime(CLOCK_MONOTONIC, &now);
    getrusage(RUSAGE_SELF, &usage);
    notes[mark] = {1'000'000'000LL * now.tv_sec + now.tv_nsec, microseconds(usage.ru_utime), microseconds(usage.ru_stime), usage.ru_minflt};
}

void note_first(Mark mark) {
    if (notes[mark].nanoseconds == 0) {
        note(mark);
    }
}

template <typename Call>
Call* next(const char* name) {
    return reinterpret_cast<Call*>(dlsym(RTLD_NEXT, name));
}

__attribute__((destructor)) void tell() {
    const char* name = std::getenv("PHASES");
    std::FILE* file = name != nullptr ? std::fopen(name, "w") : nullptr;
    if (file != nullptr) {
        for (const Note& each : notes) {
            std::fprintf(file, "%lld %lld %lld %lld\n", each.nanoseconds, each.user, each.system, each.faults);
        }
        std::fclose(file);
    }
}

}  // namespace

extern "C" int open(const char* name, int flags, ...) {
    std::va_list rest;
    va_start(rest, flags);
    const int mode = va_arg(rest, int);
    va_end(rest);
    note_first(STARTED);
    const int file = next<int(const char*, int, ...)>("open")(name, flags, mode);
    ((flags & O_ACCMODE) == O_RDONLY ? tile : out) = file;
    return file;
}

extern "C" ssize_t read(int file, void* bytes, std::size_t size) {
    const ssize_t count = next<ssize_t(int, void*, std::size_t)>("read")(file, bytes, size);
    if (file == tile) {
        note(READ);
    }
    return count;
}

extern "C" ssize_t write(int file, const void* bytes, std::size_t size) {
    if (file == out) {
        note_first(ENCODED);
    } else if (file == STDOUT_FILENO) {
        note_first(ANSWERED);
    }
    const ssize_t count = next<ssize_t(int, const void*, std::size_t)>("write")(file, bytes, size);
    if (file == out) {
        note(WRITTEN);
    }
    return count;
}
