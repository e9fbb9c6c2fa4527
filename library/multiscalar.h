/* Multiscalar's jobs over texts in memory: check marks, explain them, run and replay programs.
 *
 *     #include <multiscalar.h>
 *
 *     multiscalar_text program = { text, strlen(text) };
 *     char *answer;
 *     size_t length;
 *     int status = multiscalar_check(program, multiscalar_no_text, &answer, &length);
 *     if (answer) fwrite(answer, 1, length, stdout);   // status 0: accepted; 1: each wrong mark, or why a text is refused
 *     multiscalar_free(answer);
 *
 * Link with -lmultiscalar. `multiscalar SUBCOMMAND --help` and docs/COMMANDS.md say what each job writes:
 * the bytes and the status are those of the program.
 *
 * Status. 0: accepted, printed, halted. 1: refused, or trapped. 3: out of budget. Then *answer holds *length bytes
 * and a NUL after them. MULTISCALAR_MEMORY: memory ran out. MULTISCALAR_RANGE: a number is out of its range, or a
 * name is not UTF-8. Then *answer is NULL and *length is 0.
 *
 * Ownership. The library keeps no pointer after a call and changes no text. The answer is the caller's: free it with
 * multiscalar_free, which takes NULL too.
 *
 * Threads. Nothing is kept between calls, so any number of threads may call at once. No call starts a thread,
 * takes a lock, reads a file or writes anywhere but to memory.
 *
 * Stack. Give a thread 256 KiB: no call took more than 160 KiB in any test (library/test/stack.c), and it hardly
 * depends on the texts. With too little the system ends the process.
 *
 * What the caller owes and nothing checks: that each text has its length in bytes (a text of length 0 may be NULL),
 * that names end with NUL, that answer and length point to room for one value each, and that no text changes
 * during a call.
 */
#ifndef MULTISCALAR_H
#define MULTISCALAR_H

#include <stdbool.h>
#include <stddef.h>
#include <stdint.h>

#ifdef __cplusplus
extern "C" {
#endif

/* What a call answers that has no answer of the program. */
enum {
    MULTISCALAR_SHORT = 256, /* of the calls with a buffer alone: the buffer is too short */
    MULTISCALAR_MEMORY = 257,
    MULTISCALAR_RANGE = 258
};

/* Bytes. A NUL ends nothing, and none is needed at the end. */
typedef struct {
    const void *bytes;
    size_t length;
} multiscalar_text;

/* No text: as a certificate, the least one, which the library makes (the program's --least). */
static const multiscalar_text multiscalar_no_text = {NULL, 0};

/* How the next task is guessed: the first target, the last, or those at the positions of a list (1 to 64 numbers,
 * each 0 to 15), over and over. */
typedef enum { MULTISCALAR_FIRST, MULTISCALAR_LAST, MULTISCALAR_LIST } multiscalar_guess;

typedef struct {
    multiscalar_guess guess;
    const uint32_t *list;
    size_t list_length;
} multiscalar_prediction;

/* Runs a program sequentially, at most `budget` instructions, 1 to 1,000,000. */
int multiscalar_seq(multiscalar_text program, uint32_t budget, char **answer, size_t *length);

/* Writes the canonical text of a program. */
int multiscalar_print(multiscalar_text program, char **answer, size_t *length);

/* Judges the marks of a program by a certificate. */
int multiscalar_check(multiscalar_text program, multiscalar_text certificate, char **answer, size_t *length);

/* Says what is wrong with a program and with a certificate, if there is one. Names stand in the messages; a
 * certificate has a name exactly where there is one. */
typedef enum { MULTISCALAR_EXPLAIN_TEXT, MULTISCALAR_EXPLAIN_SARIF, MULTISCALAR_EXPLAIN_JSON } multiscalar_explain_format;

int multiscalar_explain(const char *name, multiscalar_text program, const char *certificate_name,
                        multiscalar_text certificate, bool warnings, multiscalar_explain_format format,
                        char **answer, size_t *length);

/* Proposes marks: the annotated program in canonical form, its certificate, the certificate of the program as it
 * stands, or the author's own text with the proposed marks. */
typedef enum {
    MULTISCALAR_ANNOTATE_TEXT,
    MULTISCALAR_ANNOTATE_CERTIFICATE,
    MULTISCALAR_ANNOTATE_KEEP,
    MULTISCALAR_ANNOTATE_MARKS
} multiscalar_annotate_emit;

int multiscalar_annotate(multiscalar_text program, multiscalar_annotate_emit emit, char **answer, size_t *length);

/* Plays a script of events on a machine of 1 to 16 units. */
typedef enum {
    MULTISCALAR_REPLAY_ANSWERS,
    MULTISCALAR_REPLAY_SUMMARY,
    MULTISCALAR_REPLAY_SVG,
    MULTISCALAR_REPLAY_TRACE,
    MULTISCALAR_REPLAY_JSON,
    MULTISCALAR_REPLAY_PERFETTO,
    MULTISCALAR_REPLAY_STATE,
    MULTISCALAR_REPLAY_SUMMARY_CSV /* comma separated values */
} multiscalar_replay_emit;

int multiscalar_replay(multiscalar_text program, multiscalar_text certificate, multiscalar_text script, uint32_t units,
                       multiscalar_replay_emit emit, char **answer, size_t *length);

/* Judges a script with expectations (docs/FORMATS.md) on a machine of 1 to 16 units: status 0 exactly where each event
   is allowed and does what is expected, else 1 with the first line that departs. */
int multiscalar_replay_strictly(multiscalar_text program, multiscalar_text certificate, multiscalar_text script,
                                uint32_t units, char **answer, size_t *length);

/* Runs a program in steps on 1 to 16 units, at most `budget` events, 1 to 1,000,000. */
typedef enum {
    MULTISCALAR_RUN_REPORT,
    MULTISCALAR_RUN_SCRIPT,
    MULTISCALAR_RUN_SUMMARY,
    MULTISCALAR_RUN_SVG,
    MULTISCALAR_RUN_TRACE,
    MULTISCALAR_RUN_JSON,
    MULTISCALAR_RUN_SCRIPT_WITH_VALUES,
    MULTISCALAR_RUN_WAITS,
    MULTISCALAR_RUN_VCD,
    MULTISCALAR_RUN_PERFETTO,
    MULTISCALAR_RUN_SVG_STEPS, /* a column for each step; MULTISCALAR_RUN_SVG has one for each event */
    MULTISCALAR_RUN_KANATA,
    MULTISCALAR_RUN_SUMMARY_CSV, /* comma separated values */
    MULTISCALAR_RUN_WAITS_CSV
} multiscalar_run_emit;

int multiscalar_run_in_steps(multiscalar_text program, multiscalar_text certificate, uint32_t units, uint32_t budget,
                             multiscalar_prediction prediction, multiscalar_run_emit emit, char **answer,
                             size_t *length);

/* Runs a program in steps on 1, 2, 3 units and more, up to `units`. */
typedef enum {
    MULTISCALAR_CURVE_TABLE,
    MULTISCALAR_CURVE_SVG,
    MULTISCALAR_CURVE_TABLE_CSV /* comma separated values */
} multiscalar_curve_emit;

int multiscalar_curve(multiscalar_text program, multiscalar_text certificate, uint32_t units, uint32_t budget,
                      multiscalar_prediction prediction, multiscalar_curve_emit emit, char **answer, size_t *length);

/* Looks for a run that shows what a wrong mark does, on machines of 2 units, of 3, and so on up to `units`, in
 * runs of up to `steps` events. */
int multiscalar_demonstrate(multiscalar_text program, uint32_t units, uint32_t steps, char **answer, size_t *length);

/* The version of the library, as `multiscalar --version` has it: a NUL ends it, and nobody frees it. */
const char *multiscalar_version(void);

/* Frees an answer. */
void multiscalar_free(char *answer);

/* The proved functions themselves. They allocate no answer: it goes to `out`, which has room for `out_length`
 * bytes, and its length to `*length`. MULTISCALAR_SHORT: `out` is as it was, and *length is what the answer needs.
 * Numbers are those of the enums above. No pointer is NULL, not even with length 0; `out` and `length` are apart from
 * each other and from all texts. With `is_least` the call makes the least certificate itself, and `certificate` is not
 * read; without `has_certificate` the certificate and its name are not. `predict` is 0 for the first target, 1 for the
 * last, 2 for the 1 to 64 positions of `list` (each at most 15); without 2 `list` is not read. */
uint32_t multiscalar_c_seq(uint32_t budget, const uint8_t *program, size_t program_length, uint8_t *out,
                           size_t out_length, size_t *length);
uint32_t multiscalar_c_print(const uint8_t *program, size_t program_length, uint8_t *out, size_t out_length,
                             size_t *length);
uint32_t multiscalar_c_annotate(uint32_t emit, const uint8_t *program, size_t program_length, uint8_t *out,
                                size_t out_length, size_t *length);
uint32_t multiscalar_c_check(bool is_least, const uint8_t *program, size_t program_length, const uint8_t *certificate,
                             size_t certificate_length, uint8_t *out, size_t out_length, size_t *length);
uint32_t multiscalar_c_explain(uint32_t format, bool warnings, bool has_certificate, const uint8_t *name,
                               size_t name_length, const uint8_t *program, size_t program_length,
                               const uint8_t *certificate_name, size_t certificate_name_length,
                               const uint8_t *certificate, size_t certificate_length, uint8_t *out, size_t out_length,
                               size_t *length);
uint32_t multiscalar_c_replay(bool is_least, uint32_t units, uint32_t emit, const uint8_t *program,
                              size_t program_length, const uint8_t *certificate, size_t certificate_length,
                              const uint8_t *script, size_t script_length, uint8_t *out, size_t out_length,
                              size_t *length);
uint32_t multiscalar_c_replay_strictly(bool is_least, uint32_t units, const uint8_t *program, size_t program_length,
                                       const uint8_t *certificate, size_t certificate_length, const uint8_t *script,
                                       size_t script_length, uint8_t *out, size_t out_length, size_t *length);
uint32_t multiscalar_c_run_steps(bool is_least, uint32_t units, uint32_t budget, uint32_t predict,
                                 const uint32_t *list, size_t list_length, uint32_t emit, const uint8_t *program,
                                 size_t program_length, const uint8_t *certificate, size_t certificate_length,
                                 uint8_t *out, size_t out_length, size_t *length);
uint32_t multiscalar_c_curve(bool is_least, uint32_t units, uint32_t budget, uint32_t predict, const uint32_t *list,
                             size_t list_length, uint32_t emit, const uint8_t *program, size_t program_length,
                             const uint8_t *certificate, size_t certificate_length, uint8_t *out, size_t out_length,
                             size_t *length);
uint32_t multiscalar_c_demonstrate(uint32_t units, uint32_t steps, const uint8_t *program, size_t program_length,
                                   uint8_t *out, size_t out_length, size_t *length);

#ifdef __cplusplus
}
#endif

#endif
