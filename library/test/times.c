/* How long a `check --least` takes by a call and by a process of its own: medians of rounds, in microseconds.
 *
 *     times PROGRAM_TEXT MULTISCALAR          MULTISCALAR: the program */
#define _GNU_SOURCE
#include "jobs.h"
#include <fcntl.h>
#include <spawn.h>
#include <sys/wait.h>
#include <time.h>

#define ROUNDS 201

extern char **environ;

static double now(void) {
    struct timespec time;
    clock_gettime(CLOCK_MONOTONIC, &time);
    return (double)time.tv_sec * 1e6 + (double)time.tv_nsec / 1e3;
}

static int in_order(const void *one, const void *other) {
    double x = *(const double *)one, y = *(const double *)other;
    return (x > y) - (x < y);
}

static int by_call(const texts *given) {
    char *answer;
    size_t length;
    int status = do_job(given, 3, &answer, &length);
    multiscalar_free(answer);
    return status;
}

static int by_process(char *program, char *file) {
    char *words[] = {program, "check", "--least", file, NULL};
    posix_spawn_file_actions_t actions;
    pid_t process;
    int status;
    posix_spawn_file_actions_init(&actions);
    posix_spawn_file_actions_addopen(&actions, 1, "/dev/null", O_WRONLY, 0);
    if (posix_spawn(&process, program, &actions, NULL, words, environ) || waitpid(process, &status, 0) < 0) exit(2);
    posix_spawn_file_actions_destroy(&actions);
    return WEXITSTATUS(status);
}

int main(int count, char **words) {
    static double calls[ROUNDS], processes[ROUNDS];
    if (count < 3) return 2;
    texts given = texts_of(count, words);
    int differ = 0;
    for (int round = 0; round < ROUNDS; round++) {
        double before = now();
        int one = by_call(&given);
        double between = now();
        int other = by_process(words[2], words[1]);
        calls[round] = between - before;
        processes[round] = now() - between;
        differ += one != other;
    }
    qsort(calls, ROUNDS, sizeof *calls, in_order);
    qsort(processes, ROUNDS, sizeof *processes, in_order);
    printf("a call %.0f us, a process %.0f us\n", calls[ROUNDS / 2], processes[ROUNDS / 2]);
    free_texts(&given);
    return differ != 0;
}
