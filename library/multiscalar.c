/* The calls of multiscalar.h that allocate their answer. Nothing proves this file: it hands texts to the proved
 * functions, and gives them a longer buffer where theirs is too short. */
#include "multiscalar.h"

#include <stdlib.h>
#include <string.h>

#ifndef MULTISCALAR_VERSION
#define MULTISCALAR_VERSION "unknown"
#endif

/* What stands for an empty text or list, since no pointer may be NULL. */
static const uint32_t nothing[1];

static const uint8_t *bytes_of(multiscalar_text text) {
    return text.length ? text.bytes : (const void *)nothing;
}

static const uint8_t *bytes_of_name(const char *name) {
    return name ? (const void *)name : (const void *)nothing;
}

static size_t length_of_name(const char *name) { return name ? strlen(name) : 0; }

static const uint32_t *numbers_of(multiscalar_prediction prediction) {
    return prediction.list_length ? prediction.list : nothing;
}

/* One job with what it takes. */
typedef struct {
    enum { SEQ, PRINT, ANNOTATE, CHECK, EXPLAIN, REPLAY, REPLAY_STRICTLY, RUN_IN_STEPS, CURVE, DEMONSTRATE } kind;
    multiscalar_text program, certificate, script;
    const char *name, *certificate_name;
    multiscalar_prediction prediction;
    uint32_t units, budget, emit;
    bool warnings;
} job;

static uint32_t do_job(const job *it, uint8_t *out, size_t room, size_t *length) {
    const uint8_t *program = bytes_of(it->program), *certificate = bytes_of(it->certificate);
    size_t program_length = it->program.length, certificate_length = it->certificate.length;
    bool is_least = !it->certificate.bytes;
    switch (it->kind) {
    case SEQ:
        return multiscalar_c_seq(it->budget, program, program_length, out, room, length);
    case PRINT:
        return multiscalar_c_print(program, program_length, out, room, length);
    case ANNOTATE:
        return multiscalar_c_annotate(it->emit, program, program_length, out, room, length);
    case CHECK:
        return multiscalar_c_check(is_least, program, program_length, certificate, certificate_length, out, room,
                                   length);
    case EXPLAIN:
        return multiscalar_c_explain(it->emit, it->warnings, it->certificate_name != NULL, bytes_of_name(it->name),
                                     length_of_name(it->name), program, program_length,
                                     bytes_of_name(it->certificate_name), length_of_name(it->certificate_name),
                                     certificate, certificate_length, out, room, length);
    case REPLAY:
        return multiscalar_c_replay(is_least, it->units, it->emit, program, program_length, certificate,
                                    certificate_length, bytes_of(it->script), it->script.length, out, room, length);
    case REPLAY_STRICTLY:
        return multiscalar_c_replay_strictly(is_least, it->units, program, program_length, certificate,
                                             certificate_length, bytes_of(it->script), it->script.length, out, room,
                                             length);
    case RUN_IN_STEPS:
        return multiscalar_c_run_steps(is_least, it->units, it->budget, it->prediction.guess,
                                       numbers_of(it->prediction), it->prediction.list_length, it->emit, program,
                                       program_length, certificate, certificate_length, out, room, length);
    case CURVE:
        return multiscalar_c_curve(is_least, it->units, it->budget, it->prediction.guess, numbers_of(it->prediction),
                                   it->prediction.list_length, it->emit, program, program_length, certificate,
                                   certificate_length, out, room, length);
    case DEMONSTRATE:
        return multiscalar_c_demonstrate(it->units, it->budget, program, program_length, out, room, length);
    }
    return MULTISCALAR_RANGE;
}

/* Does a job with room for `room` bytes, and again with as much as it needs. */
static int answer_job(job it, size_t room, char **answer, size_t *length) {
    *answer = NULL;
    *length = 0;
    for (;;) {
        uint8_t *out = malloc(room + 1);
        if (!out) return MULTISCALAR_MEMORY;
        size_t size = 0;
        uint32_t status = do_job(&it, out, room, &size);
        if (status < MULTISCALAR_SHORT) {
            out[size] = 0;
            *answer = (char *)out;
            *length = size;
            return (int)status;
        }
        free(out);
        if (status != MULTISCALAR_SHORT) return (int)status;
        if (size == SIZE_MAX) return MULTISCALAR_MEMORY;
        room = size;
    }
}

int multiscalar_seq(multiscalar_text program, uint32_t budget, char **answer, size_t *length) {
    return answer_job((job){.kind = SEQ, .program = program, .budget = budget}, 4096, answer, length);
}

int multiscalar_print(multiscalar_text program, char **answer, size_t *length) {
    return answer_job((job){.kind = PRINT, .program = program}, 4096 + program.length, answer, length);
}

int multiscalar_check(multiscalar_text program, multiscalar_text certificate, char **answer, size_t *length) {
    return answer_job((job){.kind = CHECK, .program = program, .certificate = certificate}, 4096, answer, length);
}

int multiscalar_explain(const char *name, multiscalar_text program, const char *certificate_name,
                        multiscalar_text certificate, bool warnings, multiscalar_explain_format format,
                        char **answer, size_t *length) {
    return answer_job((job){.kind = EXPLAIN, .name = name, .program = program, .certificate_name = certificate_name,
                            .certificate = certificate, .warnings = warnings, .emit = format},
                      16384, answer, length);
}

int multiscalar_annotate(multiscalar_text program, multiscalar_annotate_emit emit, char **answer, size_t *length) {
    return answer_job((job){.kind = ANNOTATE, .program = program, .emit = emit}, 4096 + program.length, answer,
                      length);
}

int multiscalar_replay(multiscalar_text program, multiscalar_text certificate, multiscalar_text script, uint32_t units,
                       multiscalar_replay_emit emit, char **answer, size_t *length) {
    return answer_job((job){.kind = REPLAY, .program = program, .certificate = certificate, .script = script,
                            .units = units, .emit = emit},
                      65536, answer, length);
}

int multiscalar_replay_strictly(multiscalar_text program, multiscalar_text certificate, multiscalar_text script,
                                uint32_t units, char **answer, size_t *length) {
    return answer_job((job){.kind = REPLAY_STRICTLY, .program = program, .certificate = certificate, .script = script,
                            .units = units},
                      4096, answer, length);
}

int multiscalar_run_in_steps(multiscalar_text program, multiscalar_text certificate, uint32_t units, uint32_t budget,
                             multiscalar_prediction prediction, multiscalar_run_emit emit, char **answer,
                             size_t *length) {
    return answer_job((job){.kind = RUN_IN_STEPS, .program = program, .certificate = certificate, .units = units,
                            .budget = budget, .prediction = prediction, .emit = emit},
                      65536, answer, length);
}

int multiscalar_curve(multiscalar_text program, multiscalar_text certificate, uint32_t units, uint32_t budget,
                      multiscalar_prediction prediction, multiscalar_curve_emit emit, char **answer, size_t *length) {
    return answer_job((job){.kind = CURVE, .program = program, .certificate = certificate, .units = units,
                            .budget = budget, .prediction = prediction, .emit = emit},
                      65536, answer, length);
}

int multiscalar_demonstrate(multiscalar_text program, uint32_t units, uint32_t steps, char **answer, size_t *length) {
    return answer_job((job){.kind = DEMONSTRATE, .program = program, .units = units, .budget = steps}, 4096, answer,
                      length);
}

const char *multiscalar_version(void) { return MULTISCALAR_VERSION; }

void multiscalar_free(char *answer) { free(answer); }
