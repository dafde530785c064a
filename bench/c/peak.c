// Runs a command and writes to the file RESULT one line: its wall time in seconds, its peak resident memory in bytes, and the
// processor seconds that it and the system took for it.
//
//     peak RESULT COMMAND ARGUMENTS..
//
// It ends with the command's own status, and leaves its input and output as they are. The memory is what the system
// calls VmHWM. It is never less than what this small program had itself before the command began.

#define _DEFAULT_SOURCE

#include <errno.h>
#include <stdio.h>
#include <string.h>
#include <sys/resource.h>
#include <sys/types.h>
#include <sys/wait.h>
#include <time.h>
#include <unistd.h>

static double now(void)
{
    struct timespec time;
    clock_gettime(CLOCK_MONOTONIC, &time);
    return (double)time.tv_sec + 1e-9 * (double)time.tv_nsec;
}

int main(int argc, char **argv)
{
    if (argc < 3) {
        fprintf(stderr, "usage: peak RESULT COMMAND ARGUMENTS..\n");
        return 125;
    }
    double start = now();
    pid_t child = fork();
    if (child < 0) {
        perror("peak: fork");
        return 125;
    }
    if (child == 0) {
        execvp(argv[2], argv + 2);
        fprintf(stderr, "peak: %s: %s\n", argv[2], strerror(errno));
        _exit(127);
    }
    int status;
    struct rusage used;
    if (wait4(child, &status, 0, &used) < 0) {
        perror("peak: wait4");
        return 125;
    }
    double seconds = now() - start;
    FILE *result = fopen(argv[1], "w");
    if (!result) {
        perror(argv[1]);
        return 125;
    }
    // Linux gives ru_maxrss in KiB.
    double processor = (double)(used.ru_utime.tv_sec + used.ru_stime.tv_sec) + 1e-6 * (double)(used.ru_utime.tv_usec + used.ru_stime.tv_usec);
    fprintf(result, "%.6f %lld %.6f\n", seconds, 1024LL * used.ru_maxrss, processor);
    fclose(result);
    return WIFSIGNALED(status) ? 128 + WTERMSIG(status) : WEXITSTATUS(status);
}
