/* The calls that the tests make, each by a number. */
#include <multiscalar.h>
#include <stdio.h>
#include <stdlib.h>
#include <string.h>

typedef struct {
    multiscalar_text program, certificate, script;
} texts;

#define JOBS 18

static const char *const job_names[JOBS] = {
    "seq",     "print",        "annotate", "check --least", "check", "explain", "explain, SARIF", "run, JSON",
    "run, SVG", "replay, trace", "curve",    "curve, SVG",    "run, waits",
    "run, VCD", "run, Perfetto", "replay, state", "run, SVG of steps", "demonstrate"};

static const multiscalar_prediction first = {MULTISCALAR_FIRST, NULL, 0};

static int do_job(const texts *it, int job, char **answer, size_t *length) {
    switch (job) {
    case 0: return multiscalar_seq(it->program, 1000000, answer, length);
    case 1: return multiscalar_print(it->program, answer, length);
    case 2: return multiscalar_annotate(it->program, MULTISCALAR_ANNOTATE_MARKS, answer, length);
    case 3: return multiscalar_check(it->program, multiscalar_no_text, answer, length);
    case 4: return multiscalar_check(it->program, it->certificate, answer, length);
    case 5:
        return multiscalar_explain("p.s", it->program, "p.cert", it->certificate, true, MULTISCALAR_EXPLAIN_TEXT,
                                   answer, length);
    case 6:
        return multiscalar_explain("p.s", it->program, NULL, multiscalar_no_text, true, MULTISCALAR_EXPLAIN_SARIF,
                                   answer, length);
    case 7:
        return multiscalar_run_in_steps(it->program, multiscalar_no_text, 4, 1000, first, MULTISCALAR_RUN_JSON,
                                        answer, length);
    case 8:
        return multiscalar_run_in_steps(it->program, it->certificate, 16, 1000, first, MULTISCALAR_RUN_SVG, answer,
                                        length);
    case 9:
        return multiscalar_replay(it->program, it->certificate, it->script, 4, MULTISCALAR_REPLAY_TRACE, answer,
                                  length);
    case 10:
        return multiscalar_curve(it->program, multiscalar_no_text, 4, 1000, first, MULTISCALAR_CURVE_TABLE, answer,
                                 length);
    case 11:
        return multiscalar_curve(it->program, multiscalar_no_text, 16, 1000, first, MULTISCALAR_CURVE_SVG, answer,
                                 length);
    case 12:
        return multiscalar_run_in_steps(it->program, it->certificate, 16, 1000, first, MULTISCALAR_RUN_WAITS, answer,
                                        length);
    case 13:
        return multiscalar_run_in_steps(it->program, it->certificate, 16, 1000, first, MULTISCALAR_RUN_VCD, answer,
                                        length);
    case 14:
        return multiscalar_run_in_steps(it->program, it->certificate, 16, 1000, first, MULTISCALAR_RUN_PERFETTO, answer,
                                        length);
    case 15:
        return multiscalar_replay(it->program, it->certificate, it->script, 16, MULTISCALAR_REPLAY_STATE, answer,
                                  length);
    case 16:
        return multiscalar_run_in_steps(it->program, it->certificate, 16, 1000, first, MULTISCALAR_RUN_SVG_STEPS,
                                        answer, length);
    default: return multiscalar_demonstrate(it->program, 4, 1000, answer, length);
    }
}

static multiscalar_text read_file(const char *name) {
    FILE *file = fopen(name, "rb");
    char *bytes = NULL;
    size_t length = 0, room = 0, more;
    if (!file) {
        perror(name);
        exit(2);
    }
    do {
        if (room - length < 65536 && !(bytes = realloc(bytes, room = 2 * room + 65536))) exit(2);
        more = fread(bytes + length, 1, room - length, file);
        length += more;
    } while (more);
    fclose(file);
    return (multiscalar_text){bytes, length};
}

/* The program that is named, with its certificate and the script of a run. */
static texts texts_of(int count, char **words) {
    texts it = {{NULL, 0}, {NULL, 0}, {NULL, 0}};
    char *answer;
    size_t length;
    if (count < 2) exit(2);
    it.program = read_file(words[1]);
    multiscalar_annotate(it.program, MULTISCALAR_ANNOTATE_KEEP, &answer, &length);
    it.certificate = (multiscalar_text){answer, length};
    multiscalar_run_in_steps(it.program, multiscalar_no_text, 4, 1000, first, MULTISCALAR_RUN_SCRIPT, &answer,
                             &length);
    it.script = (multiscalar_text){answer, length};
    return it;
}

static inline void free_texts(texts *it) {
    free((void *)it->program.bytes);
    multiscalar_free((char *)it->certificate.bytes);
    multiscalar_free((char *)it->script.bytes);
}
