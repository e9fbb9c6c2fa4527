#!/usr/bin/env python3
"""Runs programs in threads under load, and compares each run with `seq`.

    load.py PROGRAM [--minutes M] [--seed N] [--only WORD] [--runs N]

PROGRAM is the built `multiscalar`. Accepted examples, two programs that guess wrong at
every task (schedules.py), one with long tasks, and random programs (accepted.py) are run with 1 to 16
units and 1 to 16 workers, on one, two and all cores, beside threads that only
turn, with calls that sleep at random before and after they do their work, with
allocations of workers that sleep (those of a burst's log of reads lie between lease
and check-in), with signals that stop a drawn thread at a random moment, with small
stacks, with few threads and little memory allowed, and with the k-th thread
refused. A run must end, and write what one unit with one worker writes, which is
compared with `seq`: the words, how it ends, after how many instructions. Where
means are refused it may also write nothing, name want of memory and end with
status 2; with little address space, in the half of these runs whose stack has not grown before, it may also be ended by SIGSEGV, with nothing written. One run in eight is recorded, and the replay of its script must end with
the same lines; some write a picture, which must be whole, a table, which must have the retired tasks
and instructions, or a trace, also as lines of JSON, which must be that of its events. One in three makes the least certificate itself. Beside each, `check` with 2 to 16 workers must write what one
worker writes. Needs python3 and cc. It is no part of the tests.
"""
import argparse
import collections
import os
import pathlib
import random
import resource
import signal
import subprocess
import sys
import tempfile
import time

import accepted
import ending
import refused_growths
import refused_threads
import schedules

# Before the C library: STACK=N has the stack grow by N bytes at once; REFUSE=K and ONWARDS refuse threads; SLEEP=SEED sleeps up to 300 microseconds at one call of
# four, HEAP=SEED at one of sixteen that a worker makes for memory; STOPS=SEED has a signal stop a drawn thread, again
# and again, for 10 to 2,560 microseconds; BUSY=N turns N threads beside the program's own.
SHIM = r"""
#define _GNU_SOURCE
#include <dlfcn.h>
#include <errno.h>
#include <pthread.h>
#include <signal.h>
#include <stdarg.h>
#include <stdlib.h>
#include <sys/syscall.h>
#include <unistd.h>
extern void *__libc_malloc(size_t), *__libc_realloc(void *, size_t), __libc_free(void *);
static unsigned long calls, drawn, refuse;
static int onwards, sleeps, heap_sleeps, stops, threads[256];
static __thread int is_worker;
static int (*real_create)(pthread_t *, const pthread_attr_t *, void *(*)(void *), void *);
static int (*real_join)(pthread_t, void **);
static int (*real_yield)(void);
static long (*real_syscall)(long, ...);
static void *turn(void *x) { for (volatile unsigned long k = 0;; k++) {} return x; }
static unsigned long draw(void) {
    unsigned long x = __atomic_add_fetch(&drawn, 0x9e3779b97f4a7c15ul, __ATOMIC_RELAXED);
    x = (x ^ x >> 30) * 0xbf58476d1ce4e5b9ul; x = (x ^ x >> 27) * 0x94d049bb133111ebul;
    return x ^ x >> 31;
}
static void doze_one_in(int is_on, unsigned long some) {
    if (!is_on) return;
    int kept = errno;
    unsigned long x = draw();
    if (x % some == 0) usleep(x / some % 300);
    errno = kept;
}
static void doze(void) { doze_one_in(sleeps, 4); }
static void doze_in_worker(void) { doze_one_in(heap_sleeps && is_worker, 16); }
static void stop(int number) { (void)number; int kept = errno; usleep(10u << draw() % 9); errno = kept; }
/* Stops threads, for ever: each time one that is drawn. */
static void *stop_some(void *x) {
    sigset_t all; sigfillset(&all); pthread_sigmask(SIG_BLOCK, &all, 0);
    for (;;) {
        usleep(20 + draw() % 400);
        int most = __atomic_load_n(&stops, __ATOMIC_SEQ_CST), thread = __atomic_load_n(&threads[draw() % (most < 256 ? most : 256)], __ATOMIC_SEQ_CST);
        if (thread) real_syscall(SYS_tgkill, getpid(), thread, SIGUSR2);
    }
    return x;
}
static void grow_stack(size_t size) {
    volatile char room[size];
    for (size_t at = size; at > 4096; at -= 4096) room[at - 1] = 0;
}
__attribute__((constructor)) static void begin(void) {
    grow_stack(getenv("STACK") ? strtoul(getenv("STACK"), 0, 10) : 1);
    real_create = dlsym(RTLD_NEXT, "pthread_create"); real_join = dlsym(RTLD_NEXT, "pthread_join");
    real_yield = dlsym(RTLD_NEXT, "sched_yield"); real_syscall = dlsym(RTLD_NEXT, "syscall");
    if (getenv("REFUSE")) refuse = strtoul(getenv("REFUSE"), 0, 10);
    onwards = getenv("ONWARDS") != 0;
    if (getenv("SLEEP")) { sleeps = 1; drawn = strtoul(getenv("SLEEP"), 0, 10) * 7919; }
    if (getenv("HEAP")) { heap_sleeps = 1; drawn = strtoul(getenv("HEAP"), 0, 10) * 7919; }
    pthread_t t;
    if (getenv("STOPS")) {
        drawn = strtoul(getenv("STOPS"), 0, 10) * 7919;
        struct sigaction how = {.sa_handler = stop, .sa_flags = SA_RESTART};
        sigaction(SIGUSR2, &how, 0);
        threads[0] = getpid();
        stops = 1;
        real_create(&t, 0, stop_some, 0);
    }
    for (long k = getenv("BUSY") ? atol(getenv("BUSY")) : 0; k > 0; k--) real_create(&t, 0, turn, 0);
}
/* A thread of the program's own; where threads are stopped, it is one of those that may be. */
typedef struct { void *(*body)(void *); void *of; } Start;
static void *work(void *given) {
    Start it = *(Start *)given;
    __libc_free(given);
    int place = stops ? __atomic_fetch_add(&stops, 1, __ATOMIC_SEQ_CST) : 0;
    if (place && place < 256) __atomic_store_n(&threads[place], (int)real_syscall(SYS_gettid), __ATOMIC_SEQ_CST);
    is_worker = 1;
    void *gives = it.body(it.of);
    is_worker = 0;
    if (place && place < 256) __atomic_store_n(&threads[place], 0, __ATOMIC_SEQ_CST);
    return gives;
}
int pthread_create(pthread_t *t, const pthread_attr_t *a, void *(*f)(void *), void *x) {
    unsigned long call = __atomic_add_fetch(&calls, 1, __ATOMIC_SEQ_CST);
    if (refuse && (call == refuse || (onwards && call > refuse))) return EAGAIN;
    Start *start = __libc_malloc(sizeof *start);
    if (!start) return EAGAIN;
    *start = (Start){f, x};
    doze(); int r = real_create(t, a, work, start); doze();
    if (r) __libc_free(start);
    return r;
}
int pthread_join(pthread_t t, void **x) { doze(); return real_join(t, x); }
int sched_yield(void) { doze(); return real_yield(); }
void *malloc(size_t n) { doze_in_worker(); return __libc_malloc(n); }
void *realloc(void *p, size_t n) { doze_in_worker(); return __libc_realloc(p, n); }
void free(void *p) { doze_in_worker(); __libc_free(p); }
long syscall(long n, ...) {
    va_list v; va_start(v, n);
    long a = va_arg(v, long), b = va_arg(v, long), c = va_arg(v, long), d = va_arg(v, long), e = va_arg(v, long), f = va_arg(v, long);
    va_end(v);
    doze(); long r = real_syscall(n, a, b, c, d, e, f); int kept = errno; doze(); errno = kept; return r;
}
"""
# A user of this process alone, since the limit on threads counts all of a user: several of these scripts may run side by side.
NOBODY = 60000 + os.getpid() % 5000
# What is left of a process whose stack cannot grow: a signal, and nothing written.
NO_ROOM = -signal.SIGSEGV, b"", b""
STACKS = (1280, 1536, 2048, 4096)  # KiB; below 1,200 some jobs have too little stack, and the kernel ends them
# KiB of address space, from and to: as it is, where the kernel ends a job whose stack has no room to grow (docs/TRUST.md); and
# where the stack has grown before, by so many bytes, so that the limit meets the heap and the threads alone.
SPACE, SPACE_BEHIND_STACK, STACK = (4000, 200000), (9000, 200000), "1500000"
TOP = pathlib.Path(__file__).resolve().parent.parent
LARGE = TOP / "crates" / "test_program" / "data"
CORES = sorted(os.sched_getaffinity(0))


# Tasks of 6,000 instructions that may run side by side: bursts that are long enough to be stopped in their middle.
LONG_TASKS = """\
.start A
.task A create=$8,$9,$10,$11 targets=A,B
.task B create=- targets=-
A: addiu $8,$8,1 !f
li $9,3000
L: addiu $9,$9,-1
bne $9,$0,L
li $10,0 !f
slti $11,$8,40 !f
release $9
bne $11,$0,A !st
j B !s
B: out $8
halt
"""


def limited(how, draw, workers):
    """The environment of a run, what its process does before it begins, whether its means may be refused, and whether
    its stack may have no room."""
    env, limits, cores, may_end = {}, [], CORES, False
    if how == "one core":
        cores = draw.sample(CORES, 1)
    elif how == "two cores":
        cores = draw.sample(CORES, min(2, len(CORES)))
    elif how == "beside turning threads":
        env["BUSY"] = str(draw.choice([1, 2, 4, 8]))
    elif how == "calls that sleep":
        env["SLEEP"] = str(draw.randrange(1 << 30))
    elif how == "allocations that sleep":
        env["HEAP"] = str(draw.randrange(1 << 30))
    elif how == "threads that stop at random moments":
        env["STOPS"] = str(draw.randrange(1 << 30))
    elif how == "stop, two cores, turning":
        env = {"STOPS": str(draw.randrange(1 << 30)), "HEAP": "1", "BUSY": "2"}
        cores = draw.sample(CORES, min(2, len(CORES)))
    elif how == "sleep, two cores, turning":
        env = {"SLEEP": str(draw.randrange(1 << 30)), "BUSY": "2"}
        cores = draw.sample(CORES, min(2, len(CORES)))
    elif how == "small stacks":
        limits.append((resource.RLIMIT_STACK, draw.choice(STACKS) << 10))
    elif how == "few threads":
        limits.append((resource.RLIMIT_NPROC, draw.randrange(1, workers + 3)))
    elif how == "little memory":
        may_end = draw.random() < 0.5
        least, most = SPACE if may_end else SPACE_BEHIND_STACK
        if not may_end:
            env["STACK"] = STACK
        # small ones as often as large ones
        limits.append((resource.RLIMIT_AS, int(least * (most / least) ** draw.random()) << 10))
    elif how == "threads refused":
        env["REFUSE"] = str(draw.randrange(1, workers + 2))
        if draw.random() < 0.5:
            env["ONWARDS"] = "1"

    def begin():
        os.sched_setaffinity(0, cores)
        for what, most in limits:
            resource.setrlimit(what, (most, most))
        if how == "few threads" and os.getuid() == 0:
            os.setgid(NOBODY)
            os.setuid(NOBODY)

    return env, begin, how in ("few threads", "little memory", "threads refused"), may_end


# How it is run, and what the table says of it.
KINDS = {
    "all cores": "on all cores",
    "two cores": "on two cores",
    "one core": "on one core",
    "beside turning threads": "beside threads that turn",
    "calls that sleep": "with calls that sleep",
    "sleep, two cores, turning": "with calls that sleep, on two cores, beside threads that turn",
    "allocations that sleep": "with allocations that sleep",
    "threads that stop at random moments": "with threads that stop at random moments",
    "stop, two cores, turning": "with threads that stop and allocations that sleep, on two cores, beside threads that turn",
    "small stacks": "with stacks of 1.3 to 4 MiB",
    "few threads": "with few threads",
    "little memory": "with little address space",
    "threads refused": "with one thread refused, or it and all after it",
}
PREDICTIONS = ("first", "last", "1,0", "3,1,2,0,15")


def call(words, env=None, begin=None, shim=None):
    """The status, output and errors of a call, or None where it does not end."""
    env = dict(os.environ, **env or {}, **({"LD_PRELOAD": shim} if shim else {}))
    try:
        done = ending.run(words, capture_output=True, env=env, preexec_fn=begin)
    except subprocess.TimeoutExpired:
        return None, b"", b"did not end"
    return done.returncode, done.stdout, done.stderr


def texts(folder, draw, top):
    """Programs to run: those of the examples, those that guess wrong, one with long tasks, and random ones, with no end."""
    for example in sorted((top / "examples").iterdir()):
        if (example / "certificate.cert2").exists() and "spin" not in example.name:
            yield example.name, example / "program.s", example / "certificate.cert2"
    number = 0
    while True:
        for name, text in {**schedules.CIRCLES, "long-tasks": LONG_TASKS}.items():
            yield name, text, None
        for _ in range(10):
            drawn, _ = accepted.accepted()
            number += 1
            yield f"random-{number}", accepted.print_program(drawn), None


def usual(program, source, certificate):
    """What each run of the program must write, or None where it is refused or may differ, and why."""
    alone = call([program, "run", "--units", "1", "--workers", "1", source, certificate])
    if alone[0] not in (0, 1) or alone[1].startswith(b"T") or b"refused" in alone[1]:
        return None, "not run"
    words, how, count = schedules.sequential(program, source)
    fault = schedules.wrong(alone[1].decode().splitlines(), words, how, count)
    return (None, f"one unit: {fault}") if fault else (alone[1], None)


def replayed(program, kind, script, folder, source, certificate, wanted):
    """What is wrong with the replay of a script, if anything is."""
    events = folder / "run.events"
    events.write_bytes(script)
    status, out, told = call([program, "replay", "--units", kind[1], source, certificate, str(events)])
    closing = b"".join(line for line in out.splitlines(True) if not line.endswith(b" ok\n"))
    if b" refused " in closing:
        return "an event of its script is refused"
    return None if closing == wanted and not told else f"its replay ends with {closing[-60:]!r}"


def retraced(program, kind, emit, trace, folder, source, certificate):
    """What is wrong with a trace, which must be the one of the replay of its own events."""
    events = folder / "traced.events"
    events.write_bytes(refused_growths.events_of(trace))
    again = call([program, "replay", kind[0], kind[1], "--emit", emit, source, certificate, str(events)])
    return None if again[1] == refused_growths.as_replayed(trace) and not again[2] else f"a trace that is not that of its events: {trace[-60:]!r}"


def refused_in_turn(program, minutes):
    """The row of refused_threads.py: each thread of `run` and `check` refused in turn."""
    end = time.monotonic() + 60 * minutes
    tried, answers, differences, made = 0, collections.Counter(), [], collections.Counter()
    with tempfile.TemporaryDirectory() as name:
        for job, words, number, onwards, answer, is_right, threads in refused_threads.runs(program, TOP / "examples", pathlib.Path(name), 1, end):
            tried += 1
            made[job] = max(made[job], threads)
            if is_right:
                answers["want of memory" if answer[0] == 2 else "as ever"] += 1
            else:
                answers["wrong"] += 1
                differences.append(f"{' '.join(words)}: thread {number}{' and on' if onwards else ''} refused: status {answer[0]}, {answer[2][:60]!r}")
    most = " and ".join(f"{count} of `{job}`" for job, count in sorted(made.items()) if count)
    return f"each thread refused in turn (up to {most})", tried, dict(answers), differences


class Load:
    """The program in a folder that another user can read, with the library, and a row for each kind."""

    def __init__(self, program, folder, draw, kinds):
        folder.chmod(0o755)
        self.folder, self.draw, self.shim = folder, draw, str(folder / "shim.so")
        (folder / "shim.c").write_text(SHIM)
        subprocess.run(["cc", "-O2", "-shared", "-fPIC", "-o", self.shim, str(folder / "shim.c"), "-ldl", "-lpthread"], check=True)
        self.program = str(folder / "program")
        for name, source in (("program", pathlib.Path(program)), ("large.s", LARGE / "large.s"), ("large.cert2", LARGE / "large.cert2")):
            (folder / name).write_bytes(source.read_bytes())
            (folder / name).chmod(0o755)
        self.large = [str(folder / "large.s"), str(folder / "large.cert2")]
        self.checked = call([self.program, "check", *self.large])
        self.rows = {(job, how): [0, collections.Counter(), []] for job in ("run", "check") for how in kinds}

    def note(self, job, how, answer, fault, what):
        row = self.rows[job, how]
        row[0] += 1
        row[1]["wrong" if fault else answer] += 1
        if fault:
            row[2].append(f"{what}: {fault}")

    def count(self, wanted):
        """How many runs of a job there were."""
        return sum(row[0] for (job, _), row in self.rows.items() if job == wanted)

    def check(self, how):
        """`check` with several workers of a certificate that they share out and fetch by positioned reads."""
        workers = self.draw.randrange(2, 17)
        env, begin, _, may_end = limited(how, self.draw, workers)
        given = call([self.program, "check", "--workers", str(workers), *self.large], env, begin, self.shim if env else None)
        if may_end and given == NO_ROOM:
            return self.note("check", how, "no room for the stack", None, "")
        is_refused = how == "little memory" and given[:2] == (2, b"") and given[2] in no_memory(self.large)
        fault = None if is_refused or given == self.checked else f"status {given[0]}, {given[2][:80]!r}, {len(given[1])} bytes out"
        self.note("check", how, "want of memory" if is_refused else "as one worker", fault, f"check --workers {workers} {env}")

    def run(self, how, title, given, made, wanted):
        """A run of a drawn kind, compared with what it must write."""
        draw = self.draw
        units = draw.randrange(1, 17)
        workers = draw.choice([1, 2, units, draw.randrange(1, 17)])
        kind = ["--units", str(units), "--workers", str(workers), "--predict", draw.choice(PREDICTIONS)]
        emit = draw.choices(("report", "script", "summary", "svg", "trace", "json"), (12, 2, 1, 1, 1, 1))[0]
        files = [given, draw.choice((made, made, "--least"))]
        env, begin, may_refuse, may_end = limited(how, draw, min(units, workers))
        words = [self.program, "run", *kind, "--emit", emit, *files]
        status, out, told = call(words, env, begin, self.shim if env else None)
        what = f"{title}: run {' '.join(words[2:-2])} {files[1]} {env}"
        if status == 2 and not out and told in no_memory([given, made]) and may_refuse:
            return self.note("run", how, "want of memory", None, what)
        if may_end and (status, out, told) == NO_ROOM:
            return self.note("run", how, "no room for the stack", None, what)
        if status not in (0, 1) or told:
            fault = f"status {status}, {told[:80]!r}, {len(out)} bytes out"
        elif emit == "script":
            fault = replayed(self.program, kind, out, self.folder, given, made, wanted)
        elif emit in refused_growths.TRACES:
            fault = retraced(self.program, kind, emit, out, self.folder, given, made)
        elif emit == "svg":
            fault = None if refused_growths.is_picture(out) is True else f"no picture: {out[-60:]!r}"
        elif emit == "summary":
            fault = None if is_table_of(out, wanted) else f"another table: {out[-120:]!r}"
        else:
            fault = None if out == wanted else f"writes {out[-60:]!r}, not {wanted[-60:]!r}"
        self.note("run", how, "as `seq`", fault, what)

    def place(self, source, certificate):
        """Puts a program and its certificate into the folder."""
        given, made = self.folder / "given.s", self.folder / "given.cert2"
        given.write_bytes(source.read_bytes() if certificate else source.encode("latin-1") if isinstance(source, str) else source)
        made.write_bytes(certificate.read_bytes() if certificate else call([self.program, "annotate", "--emit", "keep", str(given)])[1])
        return str(given), str(made)


def is_table_of(out, wanted):
    """Whether the rows of a table add up, and its last has as many retired tasks and instructions as a run's closing lines."""
    try:
        *tasks, every = [[int(number) for number in row.split()[:7]] for row in out.splitlines()[1:]]
    except ValueError:
        return False
    retired = wanted.splitlines()[-2].split()
    adds_up = all(row[0] == sum(row[1:5]) for row in tasks) and every == [sum(column) for column in zip(*tasks)]
    return out.endswith(b"  (all)\n") and adds_up and every[1:6:4] == [int(retired[1]), int(retired[3])]


def no_memory(files):
    """The lines that tell want of memory."""
    return [b"multiscalar: 1 OutOfMemory\n", b"multiscalar: 4 OutOfMemory\n", *(f"multiscalar: file {path}\n".encode() for path in files)]


def run(program, minutes, seed, only="", kinds=None, until_first=False, runs=None):
    """Rows for the table: (part, cases, answers seen, differences); with `until_first`, only until there is a difference, and with
    `runs`, until there are so many of `run`, however long that takes."""
    draw = random.Random(seed)
    accepted.R.seed(seed)
    in_turn = [refused_in_turn(program, minutes / 6)] if not kinds and only in "each thread refused in turn" else []
    end = time.monotonic() + 60 * minutes * (5 / 6 if in_turn else 1)
    kinds = kinds or [how for how in KINDS if only in how]
    others = []
    with tempfile.TemporaryDirectory() as name:
        load = Load(program, pathlib.Path(name), draw, kinds)
        is_over = lambda: (load.count("run") >= runs if runs else time.monotonic() > end) or until_first and any(row[2] for row in load.rows.values())
        for title, source, certificate in texts(load.folder, draw, TOP):
            if is_over() or not kinds:
                break
            given, made = load.place(source, certificate)
            wanted, why = usual(load.program, given, made)
            if why and why != "not run":
                others.append(f"{title} (seed {seed}): {why}")
            if wanted is None:
                continue
            for how in kinds * 3:
                if not is_over():
                    load.run(how, f"{title} (seed {seed})", given, made, wanted)
            for how in kinds:
                if not is_over():
                    load.check(how)
    rows = [(f"`{job}` {KINDS[how]}", count, dict(answers), differences) for (job, how), (count, answers, differences) in load.rows.items()]
    return in_turn + rows + ([("one unit beside `seq`", len(others), {}, others)] if others else [])


def main():
    options = argparse.ArgumentParser(description=__doc__, formatter_class=argparse.RawDescriptionHelpFormatter)
    options.add_argument("program", metavar="PROGRAM")
    options.add_argument("--minutes", type=float, default=10)
    options.add_argument("--seed", type=int, default=1)
    options.add_argument("--only", default="")
    options.add_argument("--runs", type=int, help="go on until there are so many runs of `run`")
    given = options.parse_args()
    rows = run(os.path.abspath(given.program), given.minutes, given.seed, given.only, runs=given.runs)
    for part, cases, answers, differences in rows:
        print(f"{part}: {cases} cases, {answers}, {len(differences)} differences")
        for it in differences[:20]:
            print(f"  {it}")
    print(f"{sum(row[1] for row in rows)} runs, {sum(len(row[3]) for row in rows)} wrong")
    sys.exit(1 if any(row[3] for row in rows) else 0)


if __name__ == "__main__":
    main()
