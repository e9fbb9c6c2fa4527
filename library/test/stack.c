/* How many bytes of the stack each call takes, seen by what is left of a painted stack.
 *
 *     stack PROGRAM [MOST]          MOST: fail where a call takes more */
#define _GNU_SOURCE
#include "jobs.h"
#include <pthread.h>
#include <sys/mman.h>

#define SIZE (4 << 20)
#define PAINT 0x5a

static texts given;

static void *work(void *job) {
    char *answer;
    size_t length;
    do_job(&given, *(int *)job, &answer, &length);
    multiscalar_free(answer);
    return NULL;
}

int main(int count, char **words) {
    size_t most = count > 2 ? strtoul(words[2], NULL, 10) : SIZE;
    int is_over = 0;
    given = texts_of(count, words);
    for (int job = 0; job < JOBS; job++) {
        unsigned char *stack = mmap(NULL, SIZE, PROT_READ | PROT_WRITE, MAP_PRIVATE | MAP_ANONYMOUS | MAP_STACK, -1, 0);
        pthread_attr_t attributes;
        pthread_t thread;
        size_t left = 0;
        memset(stack, PAINT, SIZE);
        pthread_attr_init(&attributes);
        pthread_attr_setstack(&attributes, stack, SIZE);
        if (pthread_create(&thread, &attributes, work, &job)) return 2;
        pthread_join(thread, NULL);
        while (left < SIZE && stack[left] == PAINT) left++;
        printf("%-16s %zu\n", job_names[job], SIZE - left);
        if (SIZE - left > most) is_over = 1;
        munmap(stack, SIZE);
    }
    return is_over;
}
