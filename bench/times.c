/* times RUNS PROGRAM FILE ... runs each program RUNS times on its file and prints for each the microseconds within which the
 * fastest tenth of its runs stayed. A run is the whole process: it starts, reads FILE on standard input, writes to
 * /dev/null and ends. The programs take turns, so that a busy machine is busy for all of them; the fastest tenth is told
 * because it moves less from one measurement to the next than the very fastest run or the mean. */
#include <errno.h>
#include <fcntl.h>
#include <spawn.h>
#include <stdio.h>
#include <stdlib.h>
#include <sys/wait.h>
#include <time.h>
#include <unistd.h>

static void fail(const char *what)
{
    perror(what);
    exit(2);
}

static double now(void)
{
    struct timespec time;
    clock_gettime(CLOCK_MONOTONIC, &time);
    return (double)time.tv_sec * 1e6 + (double)time.tv_nsec / 1e3;
}

static void run(char *program, const char *file)
{
    char *arguments[] = {program, NULL}, *nothing[] = {NULL};
    posix_spawn_file_actions_t actions;
    pid_t child;
    int status;
    posix_spawn_file_actions_init(&actions);
    posix_spawn_file_actions_addopen(&actions, 0, file, O_RDONLY, 0);
    posix_spawn_file_actions_addopen(&actions, 1, "/dev/null", O_WRONLY, 0);
    errno = posix_spawn(&child, program, &actions, NULL, arguments, nothing);
    if (errno != 0)
        fail(program);
    if (waitpid(child, &status, 0) != child || !WIFEXITED(status) || WEXITSTATUS(status) != 0) {
        fprintf(stderr, "times: %s fails on %s\n", program, file);
        exit(2);
    }
    posix_spawn_file_actions_destroy(&actions);
}

static double time_run(char *program, const char *file)
{
    double start = now();
    run(program, file);
    return now() - start;
}

static int by_size(const void *one, const void *other)
{
    double a = *(const double *)one, b = *(const double *)other;
    return (a > b) - (a < b);
}

static double fastest_tenth(double *times, size_t runs)
{
    qsort(times, runs, sizeof *times, by_size);
    return times[runs / 10];
}

int main(int argc, char **argv)
{
    size_t jobs = argc > 2 ? (size_t)(argc - 2) / 2 : 0;
    size_t runs = argc > 1 ? strtoul(argv[1], NULL, 10) : 0;
    if (jobs == 0 || argc % 2 != 0 || runs == 0) {
        fputs("usage: times RUNS PROGRAM FILE ...\n", stderr);
        return 2;
    }
    double *times = calloc(jobs * runs, sizeof *times);
    if (times == NULL)
        fail("memory");
    for (size_t i = 0; i < runs; i++)
        for (size_t job = 0; job < jobs; job++)
            times[job * runs + i] = time_run(argv[2 + 2 * job], argv[3 + 2 * job]);
    for (size_t job = 0; job < jobs; job++)
        printf("%.1f%c", fastest_tenth(times + job * runs, runs), job + 1 < jobs ? ' ' : '\n');
    free(times);
    return 0;
}
