/* process RUNS TEXT PROGRAM...: whole runs of programs, standard input from TEXT and from an empty file in turn, standard output to
 * /dev/null. Prints two tables, of wall time and of the processes' own time (user and system, which other processes disturb less): for the
 * text, for the empty text, the one less the other; medians and lowest tenths; and how many times as long the first program takes. */
#define _GNU_SOURCE
#include <fcntl.h>
#include <spawn.h>
#include <stdio.h>
#include <stdlib.h>
#include <string.h>
#include <sys/resource.h>
#include <sys/wait.h>
#include <time.h>
#include <unistd.h>

extern char **environ;

enum { MOST = 16 };

static double now(void) {
    struct timespec t;
    clock_gettime(CLOCK_MONOTONIC, &t);
    return t.tv_sec * 1e6 + t.tv_nsec / 1e3;
}

static double micros(struct timeval t) { return t.tv_sec * 1e6 + t.tv_usec; }

static int by_size(const void *a, const void *b) {
    double x = *(const double *)a, y = *(const double *)b;
    return x < y ? -1 : x > y;
}

/* Which, of 100, in the order of size. */
static double at(double *v, int n, int hundredth) {
    qsort(v, n, sizeof *v, by_size);
    return v[(n - 1) * hundredth / 100];
}

static void table(const char *what, double *times[][2], int runs, int programs, char **names, long faults[][2]) {
    printf("| %s | median | lowest tenth | empty text | lowest tenth | less empty | lowest tenth | first to it | less empty |%s\n", what,
           faults ? " faults | empty text |" : "");
    printf("|---|---|---|---|---|---|---|---|---|%s\n", faults ? "---|---|" : "");
    double first[2] = {0};
    for (int p = 0; p < programs; p++) {
        double t = at(times[p][0], runs, 50), t10 = at(times[p][0], runs, 10), e = at(times[p][1], runs, 50), e10 = at(times[p][1], runs, 10);
        if (p == 0) first[0] = t, first[1] = t - e;
        const char *name = strrchr(names[p], '/');
        printf("| %s | %.0f | %.0f | %.0f | %.0f | %.0f | %.0f | %.2f | %.2f |", name ? name + 1 : names[p], t, t10, e, e10, t - e, t10 - e10,
               first[0] / t, first[1] / (t - e));
        if (faults) printf(" %ld | %ld |", faults[p][0], faults[p][1]);
        printf("\n");
    }
}

int main(int argc, char **argv) {
    if (argc < 4 || argc - 3 > MOST) return 2;
    int runs = atoi(argv[1]), programs = argc - 3;
    double *wall[MOST][2], *own[MOST][2];
    long faults[MOST][2];
    for (int p = 0; p < programs; p++)
        for (int e = 0; e < 2; e++) {
            wall[p][e] = malloc(runs * sizeof(double));
            own[p][e] = malloc(runs * sizeof(double));
        }
    for (int i = -3; i < runs; i++) /* the first three warm up */
        for (int p = 0; p < programs; p++)
            for (int e = 0; e < 2; e++) {
                char *program = argv[3 + p], *args[] = {program, NULL};
                posix_spawn_file_actions_t files;
                posix_spawn_file_actions_init(&files);
                posix_spawn_file_actions_addopen(&files, 0, e ? "/dev/null" : argv[2], O_RDONLY, 0);
                posix_spawn_file_actions_addopen(&files, 1, "/dev/null", O_WRONLY, 0);
                pid_t pid;
                int status;
                struct rusage use;
                double start = now();
                if (posix_spawn(&pid, program, &files, NULL, args, environ) != 0 || wait4(pid, &status, 0, &use) != pid || status != 0) {
                    fprintf(stderr, "%s failed\n", program);
                    return 1;
                }
                double t = now() - start;
                posix_spawn_file_actions_destroy(&files);
                if (i < 0) continue;
                wall[p][e][i] = t;
                own[p][e][i] = micros(use.ru_utime) + micros(use.ru_stime);
                faults[p][e] = use.ru_minflt;
            }
    table("wall us", wall, runs, programs, argv + 3, NULL);
    printf("\n");
    table("own us", own, runs, programs, argv + 3, faults);
    return 0;
}
