// Runs a program, and writes what it took to a file: seconds, processor seconds, and its greatest memory in KB.
//
// `usage FILE PROGRAM WORD..`. A process's greatest memory counts what it was forked from, so this is small.
#include <chrono>
#include <cstdio>
#include <sys/resource.h>
#include <sys/wait.h>
#include <unistd.h>

int main(int words, char **word) {
    if (words < 3) return 2;
    const auto began = std::chrono::steady_clock::now();
    const pid_t child = fork();
    if (child == 0) {
        execv(word[2], word + 2);
        _exit(127);
    }
    int status = 0;
    rusage usage{};
    if (child < 0 || wait4(child, &status, 0, &usage) != child) return 2;
    const std::chrono::duration<double> took = std::chrono::steady_clock::now() - began;
    const auto seconds = [](const timeval &time) { return time.tv_sec + time.tv_usec / 1e6; };
    std::FILE *file = std::fopen(word[1], "w");
    if (file == nullptr) return 2;
    std::fprintf(file, "%.6f %.6f %ld\n", took.count(), seconds(usage.ru_utime) + seconds(usage.ru_stime), usage.ru_maxrss);
    if (std::fclose(file) != 0) return 2;
    return WIFEXITED(status) ? WEXITSTATUS(status) : 1;
}
