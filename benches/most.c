/* Runs a command, and prints its time in milliseconds and its peak memory in KiB. The peak of a child includes the memory of its
 * parent at the start of the child, so this program is small.
 * usage: most COMMAND WORD ..      the status is that of the command */
#include <spawn.h>
#include <stdio.h>
#include <sys/resource.h>
#include <sys/wait.h>
#include <time.h>

extern char **environ;

int main(int argc, char **argv)
{
    struct timespec from, to;
    struct rusage used;
    pid_t child;
    int status;
    posix_spawn_file_actions_t quiet;
    if (argc < 2)
        return 64;
    posix_spawn_file_actions_init(&quiet);
    posix_spawn_file_actions_addopen(&quiet, 1, "/dev/null", 1, 0);
    clock_gettime(CLOCK_MONOTONIC, &from);
    if (posix_spawn(&child, argv[1], &quiet, NULL, argv + 1, environ) || wait4(child, &status, 0, &used) < 0)
        return 65;
    clock_gettime(CLOCK_MONOTONIC, &to);
    printf("%.3f %ld\n", (to.tv_sec - from.tv_sec) * 1e3 + (to.tv_nsec - from.tv_nsec) / 1e6, used.ru_maxrss);
    return WIFEXITED(status) ? WEXITSTATUS(status) : 66;
}
