// Runs a program once. Prints its wall time in nanoseconds, its peak memory in KiB and its status.
// It is small, so that the memory that a child starts with does not hide the program's own.

#include <sys/resource.h>
#include <sys/wait.h>
#include <unistd.h>

#include <chrono>
#include <cstdio>
#include <cstdlib>

[[noreturn]] static void become(char** words, rlim_t seconds, const char* input, const char* output) {
    const rlimit limit{seconds, seconds + 1};
    if (setrlimit(RLIMIT_CPU, &limit) == 0 && std::freopen(input, "rb", stdin) != nullptr
        && std::freopen(output, "wb", stdout) != nullptr) {
        execvp(words[0], words);
    }
    std::perror(words[0]);
    std::_Exit(127);
}

int main(int count, char** words) {
    if (count < 5) {
        std::fprintf(stderr, "usage: %s SECONDS INPUT OUTPUT PROGRAM..\n", words[0]);
        return 2;
    }
    const auto start = std::chrono::steady_clock::now();
    const pid_t child = fork();
    if (child == 0) {
        become(words + 4, std::strtoul(words[1], nullptr, 10), words[2], words[3]);
    }
    int status = 0;
    rusage usage{};
    if (child < 0 || wait4(child, &status, 0, &usage) != child) {
        std::perror(words[0]);
        return 1;
    }
    const std::chrono::nanoseconds time = std::chrono::steady_clock::now() - start;
    const int ending = WIFEXITED(status) ? WEXITSTATUS(status) : -WTERMSIG(status);
    std::printf("%lld %ld %d\n", static_cast<long long>(time.count()), usage.ru_maxrss, ending);
    return 0;
}
