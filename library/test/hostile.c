/* Every call on bytes that nobody meant: random ones, and those of a program with some of them changed. Made for
 * AddressSanitizer, which ends it at the first wrong access. Each buffer has its exact length.
 *
 *     hostile PROGRAM ROUNDS */
#include "jobs.h"

static uint64_t state = 1;

static uint32_t next(void) {
    state = state * 6364136223846793005u + 1442695040888963407u;
    return (uint32_t)(state >> 33);
}

static multiscalar_text changed(multiscalar_text text) {
    size_t length = next() % 8 == 0 ? next() % 512 : text.length - (next() % 4 == 0 ? next() % (text.length + 1) : 0);
    char *bytes = malloc(length ? length : 1);
    for (size_t i = 0; i < length; i++)
        bytes[i] = i < text.length && next() % 97 ? ((const char *)text.bytes)[i] : (char)next();
    return (multiscalar_text){bytes, length};
}

int main(int count, char **words) {
    texts right = texts_of(count, words);
    long rounds = count > 2 ? strtol(words[2], NULL, 10) : 200, answers = 0;
    for (long round = 0; round < rounds; round++) {
        texts given = {changed(right.program), changed(right.certificate), changed(right.script)};
        if (round % 2) {
            free((void *)given.program.bytes);
            given.program = right.program;
        }
        for (int job = 0; job < JOBS; job++) {
            char *answer;
            size_t length;
            int status = do_job(&given, job, &answer, &length);
            if (status < 0 || (status > 3 && status != MULTISCALAR_MEMORY)) return 1;
            if (answer && strnlen(answer, length + 1) > length) return 1;
            answers += answer != NULL;
            multiscalar_free(answer);
        }
        if (round % 2 == 0) free((void *)given.program.bytes);
        free((void *)given.certificate.bytes);
        free((void *)given.script.bytes);
    }
    free_texts(&right);
    printf("%ld answers\n", answers);
    return 0;
}
