"""Runs the program with calls of the C library that fail, as a module of the scripts beside it.

A library that is loaded before the C library counts the program's calls of seven kinds, and changes
those that a fault names: it refuses them, cuts them short, has them lie, or sends the process a signal in
the middle of them. Needs cc and a program that is linked with the C library of the system at run time.
"""
import collections
import os
import pathlib
import resource
import select
import subprocess
import tempfile

import ending

TOP = pathlib.Path(__file__).resolve().parent.parent

# The kinds of calls: memory, files that are opened, reads, writes to standard output and to standard error, positioned
# reads (pread), and what a file is and how long (statx).
GROW, OPEN, READ, WRITE, TELL, PREAD, SIZE = range(7)
EVERY = 10 ** 12

SOURCE = r"""
#define _GNU_SOURCE
#include <dlfcn.h>
#include <errno.h>
#include <fcntl.h>
#include <signal.h>
#include <stdarg.h>
#include <stdio.h>
#include <stdlib.h>
#include <string.h>
#include <sys/resource.h>
#include <sys/stat.h>
#include <sys/syscall.h>
#include <sys/wait.h>
#include <unistd.h>
enum { GROW, OPEN, READ, WRITE, TELL, PREAD, SIZE, KINDS };
// Calls of a kind from one number to another, and of these one in some, by a seed: what becomes of them.
struct fault { int kind; unsigned long from, to, one_in, seed; char how; long value; };
static struct fault faults[8];
static int count, ready;
static unsigned long calls[KINDS], for_writing, greatest;
static unsigned char opened[1024], read_of[1 << 16];
static struct { long offset, got; } preads[1 << 13];

// Has the stack grow at once, so that a limit on the address space meets the heap alone.
static void grow_stack(size_t size) {
    volatile char room[size];
    for (size_t at = size; at > 4096; at -= 4096) room[at - 1] = 0;
}
static void begin(const char *text) {
    int used;
    struct fault f;
    while (text && count < 8 && sscanf(text, " %d %lu %lu %lu %lu %c %ld;%n",
                                       &f.kind, &f.from, &f.to, &f.one_in, &f.seed, &f.how, &f.value, &used) == 7) {
        faults[count++] = f;
        text += used;
    }
    ready = 1;
}
__attribute__((constructor)) static void start(void) {
    grow_stack(getenv("STACK") ? strtoul(getenv("STACK"), NULL, 10) : 1);
    if (!getenv("SERVE")) begin(getenv("FAULTS"));
}

// With SERVE=IN OUT the process does not go on to `main`. A child does for each run that is asked for from IN: its faults, what
// standard input is, TARGET, MORE, whether calls are counted, and the words. How the child ended, and its microseconds, go to OUT. What it
// writes comes into the files that are standard output and standard error, which are emptied before.
static char asked[1 << 20], *asked_words[1 << 13];
static void need(int is_so) { if (!is_so) syscall(SYS_exit_group, 126); }
static void take(int in, void *into, long size) {
    for (long got, at = 0; at < size; at += got) {
        got = syscall(SYS_read, in, (char *)into + at, size - at);
        if (got <= 0) syscall(SYS_exit_group, 0);
    }
}
static int go_on(long size) {
    char *fields[5], *at = asked;
    int count = 1;
    for (int k = 0; k < 5; k++, at += strlen(at) + 1) fields[k] = at;
    for (; at < asked + size; at += strlen(at) + 1) asked_words[count++] = at;
    if (*fields[1]) need(dup2(open(fields[1], O_RDONLY), 0) == 0);
    setenv("TARGET", fields[2], 1);
    setenv("MORE", fields[3], 1);
    if (!*fields[4]) unsetenv("COUNTS");
    begin(fields[0]);
    return count;
}
static int serve(int in, int out) {
    for (long size;;) {
        take(in, &size, sizeof size);
        need(size < (long)sizeof asked);
        take(in, asked, size);
        for (int file = 1; file <= 2; file++) need(!ftruncate(file, 0) && !lseek(file, 0, SEEK_SET));
        pid_t child = fork();
        if (child == 0) {
            close(in);
            close(out);
            return go_on(size);
        }
        int status;
        struct rusage used;
        need(child > 0 && wait4(child, &status, 0, &used) == child);
        long told[2] = {status, (used.ru_utime.tv_sec + used.ru_stime.tv_sec) * 1000000 + used.ru_utime.tv_usec + used.ru_stime.tv_usec};
        need(syscall(SYS_write, out, told, sizeof told) == sizeof told);
    }
}
int __libc_start_main(int (*program)(int, char **, char **), int count, char **words, void (*first)(void), void (*last)(void), void (*end)(void), void *stack) {
    int (*real)(int (*)(int, char **, char **), int, char **, void (*)(void), void (*)(void), void (*)(void), void *) = dlsym(RTLD_NEXT, "__libc_start_main");
    int in, out;
    if (getenv("SERVE") && sscanf(getenv("SERVE"), "%d %d", &in, &out) == 2) {
        asked_words[0] = words[0];
        count = serve(in, out);
        words = asked_words;
    }
    return real(program, count, words, first, last, end, stack);
}
static unsigned long number(int kind) { return ready ? __atomic_add_fetch(&calls[kind], 1, __ATOMIC_SEQ_CST) : 0; }
static int drawn(const struct fault *f, unsigned long call) {
    unsigned long x = (f->seed + 1) * 0x9E3779B97F4A7C15ul + call * 0xBF58476D1CE4E5B9ul;
    x ^= x >> 31; x *= 0x94D049BB133111EBul; x ^= x >> 29;
    return f->one_in == 0 || x % f->one_in == 0;
}
static const struct fault *fault_at(int kind, unsigned long call, int is_short) {
    for (int i = 0; i < count; i++) {
        const struct fault *f = &faults[i];
        if (f->kind == kind && f->from <= call && call <= f->to && (f->how == 's') == is_short && drawn(f, call)) return f;
    }
    return NULL;
}
// Whether the call is to answer `*result`, with `errno` set; changes of a file and signals happen here.
static int fails(int kind, unsigned long call, long *result) {
    const struct fault *f = call ? fault_at(kind, call, 0) : NULL;
    if (!f) return 0;
    *result = f->how == 'z' ? 0 : -1;
    if (f->how == 'e') errno = (int)f->value;
    if (f->how == 'k') kill(getpid(), (int)f->value);
    if (f->how == 't' && truncate(getenv("TARGET"), f->value)) { }
    if (f->how == 'a') {
        const char *more = getenv("MORE");
        long file = syscall(SYS_openat, AT_FDCWD, getenv("TARGET"), O_WRONLY | O_APPEND, 0);
        for (long i = 0; i < f->value; i++) if (syscall(SYS_write, file, more, strlen(more)) < 0) break;
        syscall(SYS_close, file);
    }
    return f->how == 'e' || f->how == 'z';
}
static size_t room(int kind, unsigned long call, size_t n) {
    const struct fault *f = fault_at(kind, call, 1);
    return f && (size_t)f->value < n ? (size_t)f->value : n;
}
static int refused(size_t n) {
    unsigned long before = __atomic_load_n(&greatest, __ATOMIC_SEQ_CST);
    while (ready && before < n && !__atomic_compare_exchange_n(&greatest, &before, n, 0, __ATOMIC_SEQ_CST, __ATOMIC_SEQ_CST)) { }
    long result;
    int was = errno, is = fails(GROW, number(GROW), &result);
    if (!is) errno = was;
    return is;
}
static void *next(const char *name) { return dlsym(RTLD_NEXT, name); }
void *malloc(size_t n) {
    static void *(*real)(size_t); if (!real) real = next("malloc");
    return refused(n) ? NULL : real(n);
}
void *realloc(void *p, size_t n) {
    static void *(*real)(void *, size_t); if (!real) real = next("realloc");
    return refused(n) ? NULL : real(p, n);
}
void *aligned_alloc(size_t a, size_t n) {
    static void *(*real)(size_t, size_t); if (!real) real = next("aligned_alloc");
    return refused(n) ? NULL : real(a, n);
}
int posix_memalign(void **p, size_t a, size_t n) {
    static int (*real)(void **, size_t, size_t); if (!real) real = next("posix_memalign");
    return refused(n) ? ENOMEM : real(p, a, n);
}
int open(const char *path, int flags, ...) {
    va_list more; va_start(more, flags); int mode = va_arg(more, int); va_end(more);
    unsigned long call = number(OPEN);
    long result;
    if ((flags & O_ACCMODE) != O_RDONLY || flags & (O_CREAT | O_TRUNC)) for_writing++;
    if (fails(OPEN, call, &result)) return -1;
    int fd = (int)syscall(SYS_openat, AT_FDCWD, path, flags, mode);
    if (fd >= 0 && fd < 1024) opened[fd] = (unsigned char)call;
    return fd;
}
ssize_t read(int fd, void *p, size_t n) {
    unsigned long call = number(READ);
    long result;
    if (call < sizeof read_of && fd >= 0 && fd < 1024) read_of[call] = opened[fd];
    return fails(READ, call, &result) ? result : syscall(SYS_read, fd, p, room(READ, call, n));
}
ssize_t write(int fd, const void *p, size_t n) {
    int kind = fd == 2 ? TELL : WRITE;
    unsigned long call = number(kind);
    long result;
    return fails(kind, call, &result) ? result : syscall(SYS_write, fd, p, room(kind, call, n));
}
ssize_t pread(int fd, void *p, size_t n, off_t offset) {
    unsigned long call = number(PREAD);
    long result;
    if (!fails(PREAD, call, &result)) result = syscall(SYS_pread64, fd, p, room(PREAD, call, n), offset);
    if (call < sizeof preads / sizeof *preads) { preads[call].offset = offset; preads[call].got = result; }
    return result;
}
int statx(int fd, const char *restrict path, int flags, unsigned mask, struct statx *restrict into) {
    unsigned long call = number(SIZE);
    long result;
    if (fails(SIZE, call, &result)) return (int)result;
    int done = (int)syscall(SYS_statx, fd, path, flags, mask, into);
    const struct fault *f = call ? fault_at(SIZE, call, 0) : NULL;
    if (f && f->how == 'l') into->stx_size = (unsigned long)f->value;
    if (f && f->how == 'p') into->stx_mode = S_IFIFO | 0644;
    return done;
}
static void finish(void) {
    const char *path = getenv("COUNTS");
    if (!path) return;
    static char text[4 * sizeof read_of + 40 * (sizeof preads / sizeof *preads) + 40];
    int size = 0;
    for (int kind = 0; kind < KINDS; kind++) size += snprintf(text + size, sizeof text - size, "%lu ", calls[kind]);
    size += snprintf(text + size, sizeof text - size, "%lu\n", for_writing);
    for (unsigned long i = 1; i <= calls[READ] && i < sizeof read_of; i++)
        size += snprintf(text + size, sizeof text - size, "%d ", read_of[i]);
    text[size++] = '\n';
    for (unsigned long i = 1; i <= calls[PREAD] && i < sizeof preads / sizeof *preads; i++)
        size += snprintf(text + size, sizeof text - size, "%ld,%ld ", preads[i].offset, preads[i].got);
    size += snprintf(text + size, sizeof text - size, "\n%lu", greatest);
    long file = syscall(SYS_openat, AT_FDCWD, path, O_WRONLY | O_CREAT | O_TRUNC, 0666);
    if (syscall(SYS_write, file, text, size) < 0) { }
}
// The program ends so: no destructor runs.
void _exit(int status) {
    finish();
    for (;;) syscall(SYS_exit_group, status);
}
"""

# How a run ended. `counts` has the number of calls of each kind and, last, of opens for writing, `read_of` the
# number of the file, from 1, that each read was of (0 is standard input), and `preads` where each positioned read began and what it
# answered, and `greatest` the bytes of the greatest growth that was asked for; they are None where the process ended by a signal.
Ended = collections.namedtuple("Ended", "status out told counts read_of preads greatest", defaults=[None, None])


def fault(kind, first, last, how, value=0, one_in=0, seed=0):
    """The calls `first` to `last` of a kind, or of these one in `one_in`, by a seed: `e` answers the error
    `value`, `z` answers 0, `s` takes at most `value` bytes, `k` sends the signal `value`, `t` first cuts the
    file TARGET to `value` bytes, `a` first appends MORE to it `value` times, `l` has SIZE answer
    `value`, and `p` has it say that the file is a pipe."""
    return f"{kind} {first} {last} {one_in} {seed} {how} {value};"


def seconds_of_children():
    used = resource.getrusage(resource.RUSAGE_CHILDREN)
    return used.ru_utime + used.ru_stime


class Forks:
    """A process of the program that has begun and waits before `main`. Each run is a child of it, and so need not wait for the loader; none
    has the memory of another."""

    def __init__(self, bench, folder):
        self.files = [os.memfd_create(name) for name in ("out", "told")]
        in_child, self.asks = os.pipe()
        self.answers, out_child = os.pipe()
        self.process = subprocess.Popen([bench.program], cwd=folder, stdin=subprocess.DEVNULL, stdout=self.files[0], stderr=self.files[1],
                                        env=bench.environment(SERVE=f"{in_child} {out_child}"), pass_fds=(in_child, out_child))
        os.close(in_child)
        os.close(out_child)

    def stop(self):
        for file in (self.asks, self.answers, *self.files):
            os.close(file)
        self.process.wait()

    def run(self, *asked):
        """The status, the seconds of the processor, and what was written."""
        text = b"".join(os.fsencode(it) + b"\0" for it in asked)
        text = len(text).to_bytes(8, "little") + text
        while text:
            text = text[os.write(self.asks, text):]
        if not select.select([self.answers], [], [], ending.EVERY)[0]:
            ending.until(self.process, self.wait)
        told = os.read(self.answers, 16)
        written = (os.pread(file, os.fstat(file).st_size, 0) for file in self.files)
        return os.waitstatus_to_exitcode(int.from_bytes(told[:4], "little")), int.from_bytes(told[8:], "little") / 1e6, *written

    def wait(self, timeout):
        if not select.select([self.answers], [], [], timeout)[0]:
            raise subprocess.TimeoutExpired(self.process.args, timeout)


class Bench:
    """The program with the library before it, and a folder for what is made. `folder` is where forked runs are."""

    def __init__(self, program, folder=None):
        self.program, self.where, self.forks = str(pathlib.Path(program).resolve()), folder, None
        with open(self.program, "rb") as file:
            # one that is linked statically has no loader, and so not this library
            self.may_fork = b"/ld-linux" in file.read(4096)
        self.made = tempfile.TemporaryDirectory(prefix="multiscalar-faults-")
        self.folder = pathlib.Path(self.made.name)
        self.folder.chmod(0o755)
        source, self.library, self.counts = (self.folder / name for name in ("faults.c", "faults.so", "counts"))
        source.write_text(SOURCE)
        subprocess.run(["cc", "-O1", "-shared", "-fPIC", "-o", self.library, source, "-ldl"], check=True)

    def __enter__(self):
        return self

    def __exit__(self, *_):
        if self.forks:
            self.forks.stop()
        self.made.cleanup()

    def environment(self, *faults, **more):
        return dict(os.environ, LD_PRELOAD=str(self.library), COUNTS=str(self.counts), FAULTS="".join(faults), **more)

    def run(self, words, *faults, limit=None, given=subprocess.DEVNULL, **more):
        """A run with these faults and this file as standard input; `more` goes to its environment, and `limit` is called
        before it begins. A run that does not end has status None."""
        self.counts.unlink(missing_ok=True)
        try:
            done = ending.run([self.program, *words], stdin=given, capture_output=True, cwd=self.where,
                              env=self.environment(*faults, **more), close_fds=False, preexec_fn=limit)
        except subprocess.TimeoutExpired:
            return Ended(None, b"", b"did not end", None, None)
        return Ended(done.returncode, done.stdout, done.stderr, *self.counted())

    def forked(self, words, *faults, counts=False, given="", target="", more=""):
        """As `run`, by a fork of a process that has begun. `given` is the path of standard input; calls are counted with `counts`."""
        if not self.may_fork:
            before = seconds_of_children()
            with open(given or os.devnull, "rb") as file:
                ended = self.run(words, *faults, given=file, TARGET=target, MORE=more)
            self.seconds = seconds_of_children() - before
            return ended
        self.forks = self.forks or Forks(self, self.where)
        if counts:
            self.counts.unlink(missing_ok=True)
        try:
            status, self.seconds, out, told = self.forks.run("".join(faults), given, target, more, "counts" if counts else "", *words)
        except subprocess.TimeoutExpired:
            self.forks.stop()
            self.forks = None
            return Ended(None, b"", b"did not end", None, None)
        return Ended(status, out, told, *(self.counted() if counts else (None, None, None)))

    def counted(self):
        if not self.counts.exists():
            return None, None, None
        first, second, third, fourth = (self.counts.read_text() + "\n\n").split("\n")[:4]
        preads = [tuple(map(int, it.split(","))) for it in third.split()]
        return [int(n) for n in first.split()], [int(n) for n in second.split()], preads, int(fourth)

    def plain(self, words, **more):
        """A run without the library."""
        try:
            done = ending.run([self.program, *words], stdin=subprocess.DEVNULL, capture_output=True, **more)
        except subprocess.TimeoutExpired:
            return Ended(None, b"", b"did not end", None, None)
        return Ended(done.returncode, done.stdout, done.stderr, None, None)


class Row:
    """What was seen of one part: a line of the table."""

    def __init__(self, part):
        self.part, self.cases, self.answers, self.differences = part, 0, collections.Counter(), []

    def seen(self, answer, words, what, is_wrong=False):
        self.cases += 1
        self.answers[answer] += 1
        if is_wrong:
            self.differences.append(f"{answer}: {' '.join(map(str, words))}: {what}")

    def line(self):
        return self.part, self.cases, dict(self.answers), self.differences
