/* Refuses each allocation of each call in turn: want of memory, or the answer as it is without; nothing else, and no
 * block is lost.
 *
 *     refused_allocations PROGRAM          linked with -Wl,--wrap=malloc,--wrap=realloc,--wrap=free */
#include "jobs.h"

extern void *__real_malloc(size_t);
extern void *__real_realloc(void *, size_t);
extern void __real_free(void *);

static long left = -1, calls, blocks;

static bool is_refused(void) {
    calls++;
    return left == 0 || (left > 0 && left-- == 0);
}

void *__wrap_malloc(size_t size) {
    void *block = is_refused() ? NULL : __real_malloc(size);
    if (block) blocks++;
    return block;
}

void *__wrap_realloc(void *old, size_t size) {
    void *block = is_refused() ? NULL : __real_realloc(old, size);
    if (block && !old) blocks++;
    return block;
}

void __wrap_free(void *block) {
    if (block) blocks--;
    __real_free(block);
}

static int try_job(const texts *given, int job) {
    char *wanted, *answer;
    size_t wanted_length, length;
    int status = do_job(given, job, &wanted, &wanted_length);
    calls = 0;
    do_job(given, job, &answer, &length);
    multiscalar_free(answer);
    long all = calls, refused = 0, lost = 0, wrong = 0;
    for (long i = 0; i < all; i++) {
        long before = blocks;
        left = i;
        int got = do_job(given, job, &answer, &length);
        left = -1;
        if (got == MULTISCALAR_MEMORY && !answer && !length) refused++;
        else if (got != status || length != wanted_length || memcmp(answer, wanted, length)) wrong++;
        multiscalar_free(answer);
        if (blocks != before) lost++;
    }
    printf("%s: %ld allocations, %ld told as want of memory, %ld lost blocks, %ld wrong\n", job_names[job], all, refused,
           lost, wrong);
    multiscalar_free(wanted);
    return lost || wrong;
}

int main(int count, char **words) {
    texts given = texts_of(count, words);
    int wrong = 0;
    for (int job = 0; job < JOBS; job++) wrong |= try_job(&given, job);
    return wrong;
}
