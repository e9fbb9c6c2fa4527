/* The whole program as one function of bytes, for a fuzzer that runs in one process.
 *
 * The program's own `main` and the calls of C that it makes are renamed (build.sh): its words, files,
 * output and heap are those below. A case is two bytes of choices and then a program text, a
 * certificate and a script, parted by lines that are `%%`. The first byte picks the job, the second its
 * options; its highest bit cuts reads and writes short and interrupts them. A case is kept if it reaches a new edge or a new
 * form of an answer. Three in four mutations change words and lines (LLVMFuzzerCustomMutator).
 *
 * Each call must end with a status 0 to 3, with its answer on one stream and the other empty (unless the words name several
 * programs, or ask for --report or --progress), with a whole last line, with each block of memory freed and each thread
 * ended, in less than a second of processor time and 96 MiB of heap (words may ask for threads, for sixteen runs of a million
 * events, or for a trace of so many: then 40 seconds, and 288 MiB for a trace); and only words give status 2.
 *
 * Jobs 7, 14, 15, 18 and 21 to 23 test answers against one another. Of a program text: `print` of its canonical text is that
 * text, `seq` of both is the same, one checker and three find the same, `explain` says something exactly if they find
 * something, `run` with the certificate of `annotate --emit keep` is refused exactly if `check` refuses, puts out the words of
 * `seq`, ends as it ends and counts as it counts, and its script replays to the same end with no event refused. With that
 * certificate `explain` says the same as without it, `check` and `run` the same as with `--least`; a run in steps ends as the
 * replay of its script does, and its table and its picture by events, but for the predictor, are those of that script. The
 * text of `annotate --emit marks`, printed, is what `annotate` proposes, and asked for its marks once more it stays as it is.
 * The trace of a run in steps, but for its steps, is that of its script, and the last row of `curve` has its steps and its
 * retired instructions. A trace of any script says of each event what the answers say. A log of `explain` is JSON, has as many
 * findings and warnings as the text form, and its status.
 *
 * One worker of `run` does its work inside the call that makes its thread, so that a case is the same each time; one run in
 * sixty-four, and some that are asked for by words, have real threads. The call for a file's size and positioned reads are
 * answered as if there were no such file, and one thread reads each file; ../failed_calls.py tries them.
 * HOSTILE_PLANT=KIND,JOB plants a fault into each answer of a job (`plant`), for ../selftest.py.
 */
#define _GNU_SOURCE
#include <errno.h>
#include <pthread.h>
#include <setjmp.h>
#include <stddef.h>
#include <stdint.h>
#include <stdio.h>
#include <stdlib.h>
#include <string.h>
#include <sys/mman.h>
#include <time.h>
#include <unistd.h>

int product_main(int, char **);

typedef struct { const char *at; size_t size; } Text;
typedef struct { int status; char *out, *err; size_t out_size, err_size; } Answer;

static Text files[3];          /* program, certificate, script: the names p, c and s; standard input is the program */
static size_t places[4];
static int reads, cut_reads, threads_inline;
static const char *words[80];
static size_t word_count;
static Answer *answer;
static jmp_buf leave;
static pthread_t main_thread;
enum { ROOM = 160 << 20 };

static void tell(void);
static void fail(const char *why) {
    tell();
    fprintf(stderr, "HOSTILE: %s; words:", why);
    for (size_t k = 0; k < word_count; k++) fprintf(stderr, " %s", words[k]);
    if (answer) fprintf(stderr, "\nstatus %d\n%.2000s%.2000s\n", answer->status, answer->out, answer->err);
    abort();
}

/* The words. */
size_t rattle_arg_count(void) { return word_count; }
int64_t rattle_arg(size_t index, char *into, size_t room) {
    if (index >= word_count) return -1;
    size_t size = strlen(words[index]);
    if (size > room) return -2;
    memcpy(into, words[index], size);
    return size;
}

/* The files and the streams. */
int h_open(const char *path, int flags, ...) {
    for (int k = 0; k < 3; k++)
        if (path[0] == "pcs"[k] && !path[1]) { places[k] = 0; return 100 + k; }
    errno = flags & 3 ? EACCES : ENOENT;
    return -1;
}
ssize_t h_read(int file, void *into, size_t size) {
    if (file && (file < 100 || file > 102)) { errno = EBADF; return -1; }
    if (cut_reads && ++reads % 3 == 0) { errno = EINTR; return -1; }
    Text *text = &files[file ? file - 100 : 0];
    size_t *place = &places[file ? file - 100 : 3], left = text->size - *place;
    if (size > left) size = left;
    if (cut_reads && size > 1) size = 1 + size * (reads % 7) / 8;
    memcpy(into, text->at + *place, size);
    *place += size;
    return size;
}
ssize_t h_write(int file, const void *from, size_t size) {
    char *at = file == 1 ? answer->out : answer->err;
    size_t *used = file == 1 ? &answer->out_size : &answer->err_size;
    if (file != 1 && file != 2) fail("a write to another file");
    if (cut_reads && size > 1) size = 1 + size / 2;
    if (*used + size > ROOM) fail("an output that is too long");
    memcpy(at + *used, from, size);
    *used += size;
    return size;
}
int h_close(int file) { return file < 100 || file > 102 ? (errno = EBADF, -1) : 0; }
void h_exit(int status) {
    if (!pthread_equal(pthread_self(), main_thread)) fail("an exit in a thread");
    longjmp(leave, status + 1);
}
void h_abort(void) { fail("abort"); }

/* The heap: what is live, its peak, and how many blocks were not given back. */
static size_t live, peak, blocks;
static void count(ptrdiff_t more, ptrdiff_t block) {
    size_t now = __atomic_add_fetch(&live, more, __ATOMIC_RELAXED);
    __atomic_add_fetch(&blocks, block, __ATOMIC_RELAXED);
    size_t most = __atomic_load_n(&peak, __ATOMIC_RELAXED);
    while (now > most && !__atomic_compare_exchange_n(&peak, &most, now, 1, __ATOMIC_RELAXED, __ATOMIC_RELAXED)) {}
}
void *h_malloc(size_t size) {
    size_t *at = malloc(size + 16);
    if (!at) return 0;
    *at = size;
    count(size, 1);
    return at + 2;
}
void h_free(void *from) {
    if (!from) return;
    size_t *at = (size_t *)from - 2;
    count(-*at, -1);
    free(at);
}
void *h_realloc(void *from, size_t size) {
    if (!from) return h_malloc(size);
    size_t old = ((size_t *)from)[-2];
    size_t *at = realloc((size_t *)from - 2, size + 16);
    if (!at) return 0;
    *at = size;
    count(size - old, 0);
    return at + 2;
}

/* One worker runs inside the call that makes it: no thread is made, and the run is the same each time. */
typedef struct { void *gives; int live; } Inline;
static Inline done[64];
typedef struct { void *(*body)(void *); void *of; } Started;
static int running;
static void *thread_body(void *given) {
    Started it = *(Started *)given;
    free(given);
    void *gives = it.body(it.of);
    __atomic_sub_fetch(&running, 1, __ATOMIC_SEQ_CST);
    return gives;
}
int h_pthread_create(pthread_t *thread, const pthread_attr_t *how, void *(*body)(void *), void *of) {
    if (!threads_inline) {
        Started *it = malloc(sizeof *it);
        *it = (Started){body, of};
        __atomic_add_fetch(&running, 1, __ATOMIC_SEQ_CST);
        int wrong = pthread_create(thread, how, thread_body, it);
        if (wrong) { __atomic_sub_fetch(&running, 1, __ATOMIC_SEQ_CST); free(it); }
        return wrong;
    }
    for (size_t k = 0; k < 64; k++)
        if (!done[k].live) {
            done[k].live = 1;
            *thread = (pthread_t)(k + 1);
            done[k].gives = body(of);
            return 0;
        }
    return EAGAIN;
}
int h_pthread_join(pthread_t thread, void **gives) {
    if (thread - 1 >= 64) return pthread_join(thread, gives);
    if (gives) *gives = done[thread - 1].gives;
    done[thread - 1].live = 0;
    return 0;
}
int h_pthread_detach(pthread_t thread) {
    if (thread - 1 >= 64) return pthread_detach(thread);
    done[thread - 1].live = 0;
    return 0;
}

/* What the fuzzer counts beside the edges: one place for each form of an answer. */
#ifdef FUZZER
__attribute__((section("__libfuzzer_extra_counters"))) static uint8_t forms[1 << 14];
#else
static uint8_t forms[1 << 14];
#endif
static void note(uint32_t form) { forms[form * 2654435761u >> 18] = 1; }
static void note_answer(int job) {
    uint32_t first = job * 8 + answer->status + 1, line = 0;
    for (size_t k = 0, lines = 0; k < answer->out_size && lines < 400; k++) {
        char c = answer->out[k];
        if (c == '\n') { note(first * 31 + line); line = 0; lines++; }
        else if (c >= '0' && c <= '9') line = line * 31 + (job == 3 || !lines ? c : '0');
        else line = line * 31 + c;
    }
    if (answer->status == 2) for (size_t k = 0; k < answer->err_size && answer->err[k] != '\n' && k < 40; k++) note(first = first * 31 + answer->err[k]);
}

static double worst_seconds;
static size_t worst_peak;
enum { JOBS = 24 };
static unsigned long cases, calls[JOBS][4];
static double now(clockid_t which) { struct timespec t; clock_gettime(which, &t); return t.tv_sec + t.tv_nsec * 1e-9; }

/* Tells the file HOSTILE_STATUS what was done: the calls of each job with each status, and the worst. */
static void tell(void) {
    const char *name = getenv("HOSTILE_STATUS");
    FILE *file = name ? fopen(name, "w") : 0;
    if (!file) return;
    unsigned long all = 0;
    for (int job = 0; job < JOBS; job++) for (int k = 0; k < 4; k++) all += calls[job][k];
    fprintf(file, "cases %lu\ncalls %lu\nworst_seconds %.3f\nworst_peak %zu\n", cases, all, worst_seconds, worst_peak);
    static const char *const names[JOBS] = {"seq", "print", "annotate", "check", "replay", "run", "words", "explain", "explain with a certificate", "run in steps",
                                            "replay as a picture or a table", "run as a picture or a table", "with --least", 0, 0, 0, "curve", "explain as a log",
                                            "annotate --emit marks", "run as a trace", "replay as a trace", 0, "explain --no-warnings"};
    for (int job = 0; job < JOBS; job++)
        for (int k = 0; k < 4; k++) if (calls[job][k]) fprintf(file, "%s:%d %lu\n", names[job], k, calls[job][k]);
    fclose(file);
}

/* A fault that a self-test plants into each answer of a job, by HOSTILE_PLANT=KIND,JOB: what is found must be this. */
static char planted_kind;
static int planted_job;
static void plant(Answer *into, double *took) {
    switch (planted_kind) {
    case 'h': if (into->out_size) into->out_size--; break;                /* half a line */
    case 'd': for (size_t k = 0; k < into->out_size; k++) if (into->out[k] == '1') into->out[k] = '2'; break; /* other digits */
    case 's': into->status = into->status == 1 ? 0 : 1; break;            /* another status */
    case 'e': into->err[into->err_size++] = '!'; break;                   /* the other stream, too */
    case 'b': blocks++; break;                                            /* a block that is not given back */
    case 'm': peak += (size_t)288 << 20; break;                           /* too much memory */
    case 't': *took += 41; break;                                         /* too long */
    case 'c': abort();
    }
}

/* Whether a word of the command line has this, as a value of an option or by itself. */
static int is_asked(const char *word) {
    for (size_t k = 1; k < word_count; k++) if (strstr(words[k], word)) return 1;
    return 0;
}
/* The most seconds of a call: those of threads that wait for one another beside other work are only a rough bound, and so are
 * those of calls that make sixteen runs of a million events, or write some hundred bytes for each event. */
static double allowed_seconds(void) { return threads_inline ? 1.0 : 40.0; }
static size_t allowed_heap(void) { return (size_t)(threads_inline || !is_asked("trace") ? 96 : 288) << 20; }

/* Where a JSON value ends that begins here, or null where none does. */
static const char *json_end(const char *at, int depth);
static const char *json_string(const char *at) {
    for (at++; *at != '"'; at++) {
        if ((unsigned char)*at < ' ') return 0;
        if (*at != '\\') continue;
        if (*++at == 'u') for (int k = 0; k < 4; k++) { if (!*++at || !strchr("0123456789abcdefABCDEF", *at)) return 0; }
        else if (!*at || !strchr("\"\\/bfnrt", *at)) return 0;
    }
    return at + 1;
}
static const char *json_number(const char *at) {
    if (*at == '-') at++;
    if (*at < '0' || *at > '9') return 0;
    if (*at == '0') return at + 1;
    while (*at >= '0' && *at <= '9') at++;
    return at;
}
static const char *json_list(const char *at, int depth, char end, int has_keys) {
    if (*++at == end) return at + 1;
    for (;; at++) {
        if (has_keys && (*at != '"' || !(at = json_string(at)) || *at++ != ':')) return 0;
        if (!(at = json_end(at, depth + 1))) return 0;
        if (*at == end) return at + 1;
        if (*at != ',') return 0;
    }
}
static const char *json_end(const char *at, int depth) {
    static const char *const names[] = {"true", "false", "null"};
    if (depth > 20) return 0;
    if (*at == '{') return json_list(at, depth, '}', 1);
    if (*at == '[') return json_list(at, depth, ']', 0);
    if (*at == '"') return json_string(at);
    for (int k = 0; k < 3; k++) if (!strncmp(at, names[k], strlen(names[k]))) return at + strlen(names[k]);
    return json_number(at);
}
/* One JSON object on each line, with no blank between its parts, of UTF-8. */
static void test_json(const Answer *it) {
    const char *at = it->out, *end = it->out + it->out_size;
    for (const char *next; at < end; at = next + 1)
        if (*at != '{' || !(next = json_end(at, 0)) || *next != '\n') fail("no JSON");
    for (size_t k = 0, left = 0; k < it->out_size; k++) {
        unsigned char c = it->out[k];
        if (left ? c >> 6 != 2 : c >> 6 == 2 || c >= 0xf8) fail("no UTF-8");
        left = left ? left - 1 : c < 0xc0 ? 0 : c < 0xe0 ? 1 : c < 0xf0 ? 2 : 3;
    }
}

static void call(Answer *into, int job) {
    answer = into;
    into->out_size = into->err_size = 0;
    reads = 0;
    places[3] = 0;
    live = peak = blocks = 0;
    double begin = now(CLOCK_PROCESS_CPUTIME_ID);
    int left = setjmp(leave);
    into->status = left ? left - 1 : product_main(word_count, (char **)words);
    for (int waits = 0; __atomic_load_n(&running, __ATOMIC_SEQ_CST); waits++) {
        if (waits > 20000) fail("a thread that does not end");
        usleep(waits < 100 ? 20 : 1000);
    }
    double took = now(CLOCK_PROCESS_CPUTIME_ID) - begin;
    if (planted_kind && job == planted_job) plant(into, &took);
    if (into->status >= 0 && into->status < 4) calls[job][into->status]++;
    if (took > worst_seconds) {
        worst_seconds = took;
        if (took > 0.05) fprintf(stderr, "SLOWEST %.3f s, job %d\n", took, job);
        if (took > allowed_seconds()) fail("too long");
    }
    if (peak > worst_peak) {
        if (peak > worst_peak + worst_peak / 8) fprintf(stderr, "PEAK %zu bytes, job %d\n", peak, job);
        worst_peak = peak;
        if (peak > allowed_heap()) fail("more than 96 MiB");
    }
    into->out[into->out_size] = into->err[into->err_size] = 0;
    if (into->status < 0 || into->status > 3) fail("another status");
    /* Of right marks `explain` says nothing. */
    int silent = !into->status && !into->out_size && word_count > 1 && !strcmp(words[1], "explain");
    /* Of several programs some may be judged and others not, and two options have standard error told something, too. */
    int both = job == 6 && (strstr(into->out, " programs: ") || (into->status != 2 && into->out_size && (is_asked("--report") || is_asked("--progress"))));
    if (!both && (into->status == 2 ? into->out_size || !into->err_size : into->err_size || (!into->out_size && !silent))) fail("the wrong stream");
    /* An author's text may lack its last line feed. */
    if (into->status != 2 && !silent && into->out[into->out_size - 1] != '\n' && (into->status || !is_asked("marks"))) fail("half a line");
    if (job != 6 && into->status == 2) fail("status 2");
    if (blocks) fail("blocks that were not given back");
    note_answer(job);
}

static char numbers[8][16];
static const char *number(int place, unsigned value) { snprintf(numbers[place], 16, "%u", value); return numbers[place]; }
#define WORDS(...) do { const char *w[] = {"multiscalar", __VA_ARGS__}; word_count = sizeof w / sizeof *w; memcpy(words, w, sizeof w); } while (0)
static const char *const EMITS[] = {"text", "cert", "keep"};
static const char *const PREDICTS[] = {"first", "last", "1,0", "3,1,2,0,15"};
static const unsigned UNITS[] = {1, 2, 3, 4, 16}, BUDGETS[] = {1, 7, 60, 400, 3000};

static int same(const Answer *a, const Answer *b) {
    return a->status == b->status && a->out_size == b->out_size && !memcmp(a->out, b->out, a->out_size);
}
static int ends_with(const Answer *a, const char *end) {
    size_t size = strlen(end);
    return a->out_size >= size && !memcmp(a->out + a->out_size - size, end, size);
}
/* The last `lines` lines of an answer. */
static const char *last_lines(const Answer *a, int lines) {
    const char *at = a->out + a->out_size;
    while (at > a->out && (at[-1] != '\n' || lines-- > 0)) at--;
    return at;
}

static Answer a, b, c, d;
static int has_json;  /* whether the program writes a trace as JSON, too */

/* Answers that must agree: of the canonical text, of the checkers, of a run, its script and `seq`. */
static void agree(unsigned options) {
    unsigned units = UNITS[options % 5];
    const char *many = number(0, units), *guess = PREDICTS[options / 5 % 4];
    Text given = files[0];
    WORDS("print", "p");
    call(&a, 1);
    if (a.status) return;
    WORDS("seq", "--budget", "1500", "p");
    call(&c, 0);
    files[0] = (Text){a.out, a.out_size};
    call(&d, 0);
    if (!same(&c, &d)) fail("seq of the canonical text differs");
    WORDS("print", "p");
    call(&b, 1);
    if (!same(&a, &b)) fail("print is not a fixed point");
    files[0] = given;
    WORDS("annotate", "--emit", "keep", "p");
    call(&a, 2);
    if (a.status) fail("annotate --emit keep refuses what print takes");
    files[1] = (Text){a.out, a.out_size};
    WORDS("check", "p", "c");
    call(&b, 3);
    WORDS("check", "--workers", "3", "p", "c");
    call(&d, 3);
    if (!same(&b, &d)) fail("workers differ");
    WORDS("explain", "--no-warnings", "p");
    call(&d, 7);
    if (d.status != b.status || !d.out_size != !b.status) fail("explain and check differ");
    WORDS("run", "--units", many, "--workers", "1", "--budget", "3000", "--predict", guess, "p", "c");
    call(&d, 5);
    if (b.status) {
        if (!same(&b, &d)) fail("run takes what check refuses");
        return;
    }
    if (d.status == 3) {
        size_t words_size = d.out_size - strlen("out of budget\n");
        if (c.status != 3 && (c.out_size < words_size || memcmp(c.out, d.out, words_size))) fail("other words before the budget");
    } else if (ends_with(&d, "\n") && c.status != 3 && !strstr(last_lines(&d, 1), "unlisted")) {
        const char *run_end = last_lines(&d, 2), *seq_end = last_lines(&c, 1);
        size_t words_size = run_end - d.out;
        if (words_size != (size_t)(seq_end - c.out) || memcmp(d.out, c.out, words_size)) fail("run and seq put out other words");
        const char *how = last_lines(&d, 1);
        if (strncmp(how, seq_end, strlen(how) - 1)) fail("run and seq end otherwise");
        const char *h = strstr(run_end, " h "), *after = strstr(seq_end, " after ");
        if (!h || !after || atol(h + 3) != atol(after + 7)) fail("run and seq count otherwise");
    }
    WORDS("run", "--units", many, "--workers", "1", "--budget", "3000", "--predict", guess, "--emit", "script", "p", "c");
    call(&b, 5);
    files[2] = (Text){b.out, b.out_size};
    if (b.out_size == 0) return;
    WORDS("replay", "--units", many, "p", "c", "s");
    call(&c, 4);
    if (strstr(c.out, " refused ")) fail("an event of a run is refused");
    if (d.status != 3) {
        const char *replay_end = c.out;
        for (size_t k = 0; k < b.out_size; k++) if (b.out[k] == '\n') replay_end = strchr(replay_end, '\n') + 1;
        if (strcmp(replay_end, d.out)) fail("a run and its replay end otherwise");
    }
}

static const char *const RUN_EMITS[] = {"report", "script", "summary", "svg"};
/* A run in steps, by the certificate in the file or the least one; a picture has a column for each event. */
static void in_steps(Answer *into, unsigned options, const char *emit, int least) {
    const char *many = number(0, UNITS[options % 5]), *guess = PREDICTS[options / 5 % 4];
    if (!strcmp(emit, "svg")) WORDS("run", "--schedule", "steps", "--axis", "events", "--units", many, "--budget", "600", "--predict", guess, "--emit", emit, "p", "c");
    else if (least) WORDS("run", "--schedule", "steps", "--least", "--units", many, "--budget", "600", "--predict", guess, "--emit", emit, "p");
    else WORDS("run", "--schedule", "steps", "--units", many, "--budget", "600", "--predict", guess, "--emit", emit, "p", "c");
    call(into, 9);
}
static void replay_of(Answer *into, unsigned options, const char *emit) {
    WORDS("replay", "--units", number(0, UNITS[options % 5]), "--emit", emit, "p", "c", "s");
    call(into, strcmp(emit, "answers") ? 10 : 4);
}

/* Takes out the line of a picture that names the predictor: a script does not tell it. */
static void drop_predictor(Answer *picture) {
    char *from = strstr(picture->out, ">predictor: ");
    if (!from) return;
    const char *to = strchr(from, '\n') + 1, *end = picture->out + picture->out_size;
    while (from > picture->out && from[-1] != '\n') from--;
    memmove(from, to, end + 1 - to);
    picture->out_size -= to - from;
}

/* Answers that must agree: with the certificate of a program and with `--least`; of a run in steps and of its script. */
static void agree_in_steps(unsigned options) {
    WORDS("annotate", "--emit", "keep", "p");
    call(&a, 2);
    if (a.status) return;
    files[1] = (Text){a.out, a.out_size};
    WORDS("explain", "p");
    call(&b, 7);
    WORDS("explain", "--certificate", "c", "p");
    call(&c, 8);
    if (!same(&b, &c)) fail("explain finds a program's own certificate wrong");
    WORDS("check", "p", "c");
    call(&b, 3);
    WORDS("check", "--least", "p");
    call(&c, 12);
    if (!same(&b, &c)) fail("check --least differs");
    in_steps(&c, options, "report", 0);
    in_steps(&d, options, "report", 1);
    if (!same(&c, &d)) fail("run --least differs");
    if (b.status) {
        if (!same(&b, &c)) fail("a run in steps takes what check refuses");
        return;
    }
    in_steps(&b, options, "script", 0);
    files[2] = (Text){b.out, b.out_size};
    replay_of(&c, options, "answers");
    if (strstr(c.out, " refused ")) fail("an event of a run in steps is refused");
    if (d.status != 3) {
        const char *replay_end = c.out;
        for (size_t k = 0; k < b.out_size; k++) if (b.out[k] == '\n') replay_end = strchr(replay_end, '\n') + 1;
        if (strcmp(replay_end, d.out)) fail("a run in steps and its replay end otherwise");
    }
    int status = d.status;
    in_steps(&c, options, "svg", 0);
    drop_predictor(&c);
    replay_of(&d, options, "svg");
    if (c.status != status || c.out_size != d.out_size || memcmp(c.out, d.out, c.out_size)) fail("the picture of a run is not that of its script");
    in_steps(&c, options, "summary", 0);
    replay_of(&d, options, "summary");
    size_t steps = last_lines(&c, 1) - c.out;
    if (c.status != status || steps != d.out_size || memcmp(c.out, d.out, steps) || strncmp(c.out + steps, "steps ", 6)) fail("the table of a run is not that of its script");
}

/* Whether an answer that is a refusal, after these words, is told by `explain`, whose answer has a line that ends with it in
 * brackets, without the index of a wrong mark. */
static int is_told(const Answer *refused, const char *words, const Answer *said) {
    char tag[64], *at = said->out, *end;
    size_t skip = strlen(words), size = refused->out_size - skip - 1;
    if (strncmp(refused->out, words, skip)) return 1;
    if (!strncmp(refused->out + skip, "10 Build 6 BadMark", 18)) size = 18;
    snprintf(tag, sizeof tag, " [%.*s]", (int)size, refused->out + skip);
    for (; (end = strchr(at, '\n')); at = end + 1) {
        size_t line = end - at;
        if (line >= strlen(tag) && !memcmp(end - strlen(tag), tag, strlen(tag))) return 1;
    }
    return 0;
}
/* What `explain` says beside what `check`, or `print`, says of the same texts. */
static void explained(int with_certificate) {
    if (with_certificate) WORDS("explain", "--certificate", "c", "p"); else WORDS("explain", "p");
    call(&a, with_certificate ? 8 : 7);
    if (with_certificate) WORDS("check", "p", "c"); else WORDS("print", "p");
    call(&b, with_certificate ? 3 : 1);
    if (!is_told(&b, "program refused: ", &a)) fail("explain does not tell the refusal of the program");
    if (!is_told(&b, "certificate refused: ", &a)) fail("explain does not tell the refusal of the certificate");
    if (b.status && !a.status) fail("explain finds nothing where something is wrong");
    if (with_certificate && !b.status && a.status) fail("explain finds something where all is right");
}

/* The marks in the text: it is the program that `annotate` proposes, and has its own marks. */
static void marks_in_the_text(void) {
    WORDS("annotate", "--emit", "text", "p");
    call(&a, 2);
    WORDS("annotate", "--emit", "marks", "p");
    call(&b, 18);
    if (a.status) {
        if (!same(&a, &b)) fail("annotate --emit marks takes what annotate refuses");
        return;
    }
    if (b.status) {
        if (!ends_with(&b, "marks refused: 1 TooLong\n")) fail("marks in the text are refused");
        return;
    }
    files[0] = (Text){b.out, b.out_size};
    WORDS("print", "p");
    call(&c, 1);
    if (!same(&a, &c)) fail("the marks in the text are not those that are proposed");
    WORDS("annotate", "--emit", "marks", "p");
    call(&c, 18);
    if (!same(&b, &c)) fail("the marks in the text are not a fixed point");
}
/* How many lines of the text form end with the rule of a finding, or are warnings, those that show the program left out. */
static size_t count_findings(const Answer *said) {
    size_t count = 0;
    for (const char *at = said->out, *end; (end = strchr(at, '\n')); at = end + 1) {
        const char *rule = end - 1;
        if (*at == ' ' || end == at || *rule != ']') continue;
        while (rule > at && rule[-1] >= '0' && rule[-1] <= '9') rule--;
        if (rule - at > 7 && !memcmp(rule - 7, " [rule ", 7)) count++;
    }
    return count;
}
static size_t count_warnings(const Answer *said) {
    size_t count = 0;
    for (const char *at = said->out, *end; (end = strchr(at, '\n')); at = end + 1)
        if (*at != ' ' && memmem(at, end - at, ": warning: ", 11)) count++;
    return count;
}
static size_t count_of(const Answer *said, const char *what) {
    size_t count = 0;
    for (const char *at = said->out; (at = strstr(at, what)); at++) count++;
    return count;
}
/* The log beside the text form, both with warnings or both without: as many findings and warnings, or one result of a refused text. */
static void as_a_log(int with_certificate, int no_warnings) {
    const char *more = no_warnings ? "--no-warnings" : "--";
    if (with_certificate) WORDS("explain", "--certificate", "c", "--format", "sarif", more, "p"); else WORDS("explain", "--format", "sarif", more, "p");
    call(&a, 17);
    test_json(&a);
    if (with_certificate) WORDS("explain", "--certificate", "c", more, "p"); else WORDS("explain", more, "p");
    call(&b, no_warnings ? 22 : with_certificate ? 8 : 7);
    if (a.status != b.status) fail("the log has another status");
    if (count_of(&a, "\"ruleId\":\"rule") != count_findings(&b)) fail("the log has other findings");
    if (count_of(&a, "\"ruleId\":\"warning-") != count_warnings(&b)) fail("the log has other warnings");
    if (!b.out_size != !strstr(a.out, "\"ruleId\":")) fail("the log is silent, or the text form");
}
/* Warnings are left out, and nothing else. */
static void without_warnings(int with_certificate) {
    if (with_certificate) WORDS("explain", "--certificate", "c", "p"); else WORDS("explain", "p");
    call(&a, with_certificate ? 8 : 7);
    if (with_certificate) WORDS("explain", "--certificate", "c", "--no-warnings", "p"); else WORDS("explain", "--no-warnings", "p");
    call(&b, 22);
    if (a.status != b.status || (!b.status && b.out_size)) fail("--no-warnings changes the status, or says something of right marks");
    if (a.out_size < b.out_size || memcmp(a.out + a.out_size - b.out_size, b.out, b.out_size)) fail("--no-warnings says something else");
}
/* Takes out a key of JSON with its value, wherever it stands. */
static void drop_key(Answer *it, const char *key) {
    char *to = it->out, *from = it->out, *end = it->out + it->out_size;
    for (char *next; (next = strstr(from, key)); from = strchr(next, ',') + 1) {
        memmove(to, from, next - from);
        to += next - from;
    }
    memmove(to, from, end + 1 - from);
    it->out_size -= from - to;
}
/* The trace of a run in steps is that of its script, which tells no steps; the last row of `curve` has its numbers. */
static void traced_steps(unsigned options) {
    WORDS("annotate", "--emit", "keep", "p");
    call(&a, 2);
    if (a.status) return;
    files[1] = (Text){a.out, a.out_size};
    in_steps(&b, options, "script", 0);
    const char *trace = has_json && options & 128 && b.status != 3 ? "json" : "trace";  /* JSON says that a budget is spent */
    in_steps(&c, options, trace, 1);
    if (b.status != c.status) fail("the trace of a run has another status");
    if (same(&b, &c)) return;  /* the marks are refused */
    drop_key(&c, "\"schedule\":");
    drop_key(&c, "\"step\":");
    files[2] = (Text){b.out, b.out_size};
    replay_of(&d, options, trace);
    if (c.out_size != d.out_size || memcmp(c.out, d.out, c.out_size) || strstr(c.out, ": refused ") || strstr(c.out, "\"refused\"")) fail("the trace of a run is not that of its script");
    in_steps(&c, options, "summary", 0);
    WORDS("curve", "--least", "--units", number(0, UNITS[options % 5]), "--budget", "600", "--predict", PREDICTS[options / 5 % 4], "p");
    call(&d, 16);
    unsigned long steps, retired, rows, of_steps, of_retired;
    if (sscanf(last_lines(&c, 1), "steps %lu, retired instructions %lu", &steps, &retired) != 2) fail("a table without steps");
    if (sscanf(last_lines(&d, 1), " %lu %lu %lu", &rows, &of_steps, &of_retired) != 3) fail("a curve without rows");
    if (rows != UNITS[options % 5] || steps != of_steps || retired != of_retired) fail("curve has other numbers than the run");
}
/* What a trace says of each event is what the answers say. */
static void traced_answers(unsigned options) {
    replay_of(&a, options, "answers");
    replay_of(&b, options, "trace");
    if (a.status != b.status) fail("the trace of a script has another status");
    const char *answer_at = a.out, *at = b.out;
    for (size_t n = 1; strtoul(at, 0, 10) == n; n++) {
        const char *end = strchr(at, '\n'), *said = memmem(at, end - at, ": ", 2), *answer_end = strchr(answer_at, '\n');
        while (*answer_at >= '0' && *answer_at <= '9') answer_at++;
        if (!said || answer_end - answer_at - 1 != end - said - 2 || memcmp(answer_at + 1, said + 2, end - said - 2)) fail("a trace says otherwise than the answers");
        answer_at = answer_end + 1;
        do at = strchr(at, '\n') + 1; while (*at == ' ');
    }
    if (!strncmp(at, "at the end: ", 12) ? strstr(answer_at, " ok\n") != 0 : !same(&a, &b)) fail("a trace ends too early");
}

static void one_job(unsigned job, unsigned options) {
    const char *trace = has_json && options & 32 ? "json" : "trace";
    unsigned units = UNITS[options % 5];
    const char *many = number(0, units), *budget = number(1, BUDGETS[options / 5 % 5]), *guess = PREDICTS[options % 4];
    switch (job) {
    case 0: WORDS("seq", "--budget", budget, "p"); break;
    case 1: WORDS("print", "p"); break;
    case 2: WORDS("annotate", "--emit", EMITS[options % 3], "p"); break;
    case 3: WORDS("check", "--workers", number(2, options % 16 + 1), "p", "c"); break;
    case 4: WORDS("replay", "--units", many, "p", "c", "s"); break;
    case 5:
        threads_inline = options / 32 % 8 != 7 || files[0].size % 8;
        WORDS("run", "--units", many, "--workers", threads_inline ? "1" : many, "--budget", budget, "--predict", guess, "--emit", options & 16 ? "script" : "report", "p", "c");
        break;
    case 8: explained(1); return;
    case 13: explained(0); return;
    case 16:
        if (options & 128) WORDS("curve", "--units", many, "--budget", budget, "--predict", guess, "--least", "p");
        else WORDS("curve", "--units", many, "--budget", budget, "--predict", guess, "p", "c");
        break;
    case 17: as_a_log(options & 16, options & 32); return;
    case 18: marks_in_the_text(); return;
    case 19:
        if (options & 16) WORDS("run", "--units", many, "--budget", budget, "--predict", guess, "--emit", trace, "--schedule", "steps", "p", "c");
        else WORDS("run", "--units", many, "--budget", budget, "--predict", guess, "--emit", trace, "--workers", "1", "p", "c");
        break;
    case 20: WORDS("replay", "--units", many, "--emit", trace, "p", "c", "s"); break;
    case 21: traced_steps(options); return;
    case 22: without_warnings(options & 16); return;
    case 23: traced_answers(options); return;
    case 9: WORDS("run", "--schedule", "steps", "--units", many, "--budget", budget, "--predict", guess, "--emit", RUN_EMITS[options / 25 % 4], "p", "c"); break;
    case 10: WORDS("replay", "--units", many, "--emit", options & 16 ? "svg" : "summary", "p", "c", "s"); break;
    case 11: WORDS("run", "--units", many, "--workers", "1", "--budget", budget, "--predict", guess, "--emit", options & 16 ? "svg" : "summary", "p", "c"); break;
    default:
        if (options / 16 % 3 == 0) WORDS("check", "--least", "--workers", number(2, options % 16 + 1), "p");
        else if (options / 16 % 3 == 1) WORDS("run", "--least", "--units", many, "--workers", "1", "--budget", budget, "--predict", guess, "p");
        else WORDS("replay", "--least", "--units", many, "p", "s");
    }
    call(&a, job);
    if (is_asked("json") && a.out[0] == '{') test_json(&a);
}

int LLVMFuzzerInitialize(int *count_of, char ***given) {
    Answer *all[] = {&a, &b, &c, &d};
    for (int k = 0; k < 4; k++) {
        all[k]->out = mmap(0, ROOM + 4096, PROT_READ | PROT_WRITE, MAP_PRIVATE | MAP_ANONYMOUS | MAP_NORESERVE, -1, 0);
        all[k]->err = mmap(0, ROOM + 4096, PROT_READ | PROT_WRITE, MAP_PRIVATE | MAP_ANONYMOUS | MAP_NORESERVE, -1, 0);
    }
    main_thread = pthread_self();
    if (getenv("HOSTILE_PLANT")) sscanf(getenv("HOSTILE_PLANT"), "%c,%d", &planted_kind, &planted_job);
    atexit(tell);
    threads_inline = 1;
    WORDS("replay", "--help");
    call(&a, 6);
    has_json = strstr(a.out, "json") != 0;
    return 0;
}

int LLVMFuzzerTestOneInput(const uint8_t *data, size_t size) {
    if (cases++ % 1024 == 1023) tell();
    if (size < 2) return 0;
    unsigned job = data[0] % 128 % JOBS, options = data[1];
    cut_reads = data[0] >> 7;
    threads_inline = 1;
    Text parts[4] = {{0}};
    const char *at = (const char *)data + 2, *end = (const char *)data + size;
    for (int k = 0; k < 4; k++) {
        const char *cut = k < 3 && at < end ? memmem(at, end - at, "%%\n", 3) : 0;
        while (cut && cut > at && cut[-1] != '\n') cut = memmem(cut + 1, end - cut - 1, "%%\n", 3);
        parts[k] = (Text){at, (cut ? cut : end) - at};
        at = cut ? cut + 3 : end;
    }
    memcpy(files, parts, sizeof files);
    if (job == 7 || job == 15) agree(options);
    else if (job == 14) agree_in_steps(options);
    else if (job == 6) {
        static char copy[4096];
        size_t used = parts[0].size < 4095 ? parts[0].size : 4095;
        memcpy(copy, parts[0].at, used);
        copy[used] = 0;
        memcpy(files, parts + 1, sizeof files);
        words[0] = "multiscalar";
        word_count = 1;
        for (char *word = copy, *line; word_count < 72 && *word; word = line) {
            line = word + strcspn(word, "\n");
            if (*line) *line++ = 0;
            words[word_count++] = word;
        }
        /* Threads take long where other work is beside them, and so do sixteen runs: most runs get no certificate, and so make none. */
        threads_inline = word_count < 2 || (strcmp(words[1], "run") && strcmp(words[1], "curve") && strcmp(words[1], "demonstrate"));
        if (!threads_inline && files[0].size % 32) {
            files[1].size = 0;
            for (size_t k = 2; k < word_count; k++) if (!strcmp(words[k], "--least")) files[0].size = 0;
        }
        call(&a, 6);
    } else one_job(job, options);
    return 0;
}

#ifdef FUZZER
/* Three in four of the changes are of lines and words, so that more cases stay programs: a word or a line is put in the
 * place of another of the case, doubled, taken away or exchanged; a number goes one up or down; a mask loses a bit. */
size_t LLVMFuzzerMutate(uint8_t *, size_t, size_t);
static uint32_t drawn;
static uint32_t draw(uint32_t below) { drawn = drawn * 1664525u + 1013904223u; return (uint32_t)((uint64_t)(drawn >> 4) * below >> 28); }
static int is_in_word(uint8_t c) { return c > ' ' && c != ',' && c != '(' && c != ')'; }
/* A word, or with `lines` a line with its end, around a place that is drawn. */
static Text piece(const uint8_t *data, size_t size, int lines) {
    size_t from = 2 + draw(size - 2), to;
    if (lines) {
        while (from > 2 && data[from - 1] != '\n') from--;
        for (to = from; to < size && data[to++] != '\n';) {}
    } else {
        while (from > 2 && is_in_word(data[from - 1])) from--;
        for (to = from; to < size && is_in_word(data[to]); to++) {}
    }
    return (Text){(const char *)data + from, to - from};
}
/* Two words that begin alike: registers, places, marks, numbers, names. */
static int is_like(Text a, Text b) {
    int x = *a.at, y = b.size ? *b.at : 0;
    return x == y || (x >= '0' && x <= '9' && y >= '0' && y <= '9') || (x >= 'a' && x <= 'z' && y >= 'a' && y <= 'z');
}
size_t LLVMFuzzerCustomMutator(uint8_t *data, size_t size, size_t room, unsigned int seed) {
    static uint8_t made[1 << 16];
    drawn = seed;
    if (size < 4 || room > sizeof made || draw(4) == 0) return LLVMFuzzerMutate(data, size, room);
    for (int times = 1 + draw(4) / 2; times > 0; times--) {
        int kind = draw(8), lines = draw(3) == 0;
        Text old = piece(data, size, lines), new = piece(data, size, lines);
        for (int tries = 0; tries < 8 && old.size && !is_like(old, new); tries++) new = piece(data, size, lines);
        char small[32];
        if (kind == 0) new.size = 0;
        else if (kind == 1) { old.at += old.size; old.size = 0; }
        else if (kind == 2) { new = old; old.at += old.size; old.size = 0; }
        else if (kind <= 4) {
            size_t at = 0, digits = 0;
            while (at < old.size && !(old.at[at] >= '0' && old.at[at] <= '9')) at++;
            while (at + digits < old.size && digits < 9 && old.at[at + digits] >= '0' && old.at[at + digits] <= '9') digits++;
            if (!digits) continue;
            char text[16] = {0};
            memcpy(text, old.at + at, digits);
            long value = atol(text) + (kind == 3 ? 1 : -1);
            old = (Text){old.at + at, digits};
            new = (Text){small, snprintf(small, sizeof small, "%ld", draw(12) ? value : (long)draw(5000) - 100)};
        } else if (kind == 5) {
            size_t at = draw(old.size + 1);
            if (at >= old.size || !strchr("0123456789abcdef", old.at[at])) continue;
            old = (Text){old.at + at, 1};
            small[0] = "0123456789abcdef"[draw(16)];
            new = (Text){small, 1};
        }
        size_t before = (uint8_t *)old.at - data, behind = size - before - old.size;
        if (before + new.size + behind > room) continue;
        memcpy(made, data, before);
        memcpy(made + before, new.at, new.size);
        memcpy(made + before + new.size, old.at + old.size, behind);
        size = before + new.size + behind;
        memcpy(data, made, size);
        if (size < 4) break;
    }
    if (draw(16) == 0) data[draw(2)] = draw(256);
    return size;
}
#endif
