// timed INPUT COMMAND..: runs the command, its output to nowhere, and prints the nanoseconds from
// start to end, the peak of its memory in KiB, and its status.
// A small process of its own: Linux counts the memory of the process that starts a command as part
// of the command's peak, and Python's is larger than what is measured.
#include <fcntl.h>
#include <spawn.h>
#include <stdio.h>
#include <sys/resource.h>
#include <sys/wait.h>
#include <time.h>

extern char **environ;
pid_t wait4(pid_t, int *, int, struct rusage *);

static long long now(void) {
    struct timespec time;
    clock_gettime(CLOCK_MONOTONIC, &time);
    return time.tv_sec * 1000000000LL + time.tv_nsec;
}

int main(int argc, char **argv) {
    if (argc < 3)
        return 2;
    posix_spawn_file_actions_t streams;
    posix_spawn_file_actions_init(&streams);
    posix_spawn_file_actions_addopen(&streams, 0, argv[1], O_RDONLY, 0);
    posix_spawn_file_actions_addopen(&streams, 1, "/dev/null", O_WRONLY, 0);
    pid_t child;
    int status;
    struct rusage usage;
    long long start = now();
    if (posix_spawnp(&child, argv[2], &streams, NULL, argv + 2, environ) != 0 ||
        wait4(child, &status, 0, &usage) != child)
        return 1;
    printf("%lld %ld %d\n", now() - start, usage.ru_maxrss, WIFEXITED(status) ? WEXITSTATUS(status) : 255);
    return 0;
}
