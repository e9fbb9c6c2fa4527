/* Four threads with a small stack make every call over and over; each answer is that of one thread alone.
 *
 *     threads PROGRAM STACK          STACK: bytes of each thread's stack */
#include "jobs.h"
#include <pthread.h>

#define THREADS 4
#define ROUNDS 50

static texts given;
static char *wanted[JOBS];
static size_t lengths[JOBS];
static int statuses[JOBS];

static void *work(void *wrong) {
    for (int round = 0; round < ROUNDS; round++)
        for (int job = 0; job < JOBS; job++) {
            char *answer;
            size_t length;
            int status = do_job(&given, job, &answer, &length);
            if (status != statuses[job] || length != lengths[job] || memcmp(answer, wanted[job], length)) ++*(int *)wrong;
            multiscalar_free(answer);
        }
    return NULL;
}

int main(int count, char **words) {
    pthread_t threads[THREADS];
    int wrong[THREADS] = {0}, all = 0;
    pthread_attr_t attributes;
    given = texts_of(count, words);
    for (int job = 0; job < JOBS; job++) statuses[job] = do_job(&given, job, &wanted[job], &lengths[job]);
    pthread_attr_init(&attributes);
    if (pthread_attr_setstacksize(&attributes, count > 2 ? strtoul(words[2], NULL, 10) : 1048576)) return 2;
    for (int i = 0; i < THREADS; i++)
        if (pthread_create(&threads[i], &attributes, work, &wrong[i])) return 2;
    for (int i = 0; i < THREADS; i++) {
        pthread_join(threads[i], NULL);
        all += wrong[i];
    }
    printf("%d wrong of %d\n", all, THREADS * ROUNDS * JOBS);
    return all != 0;
}
