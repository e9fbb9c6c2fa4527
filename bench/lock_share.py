#!/usr/bin/env python3
"""Measures how long the workers of `run` hold the lock. Needs python3, rt and clang.

    lock_share.py [--module MODULE.bc] [--rounds N] [--keep FOLDER]

It takes the LLVM module of the program, adds a reading of the processor's counter where a thread has taken the
lock, where it lets go of it, and around each worker's thread, and compiles that copy; the product is not changed.
The lock is no call that a library could stand before (a compare-and-swap on a word, a futex only where a thread
sleeps), so the module is the place where each take and each release can be seen, and nothing else moves.

Without --module it makes the module by fuzz/entry/capture.py, which takes two minutes. That module is of an
unproved build. Its checks are taken out here again, and still it executes more instructions than the proved
program, so a hold may last longer than there.

`run` is called with 4 units and 4 workers on `tiny` and `parallel` of threads.py. The medians of the rounds are
printed: the time from the start of the first worker to the end of the last one; the sum of the times in which the
lock was held, as a share of that time, and of the sum of all workers' times; and how often it was taken.
"""
import argparse
import pathlib
import re
import shutil
import statistics
import subprocess
import sys
import tempfile

import threads

TOP = pathlib.Path(__file__).resolve().parent.parent
HELD = "core::sync::try_acquire", "core::sync::release", "threaded_runner::worker::serve"

# lock_tried and lock_left are called with the lock held, worker_ends takes a lock of its own.
COUNTERS = r"""
#define _GNU_SOURCE
#include <pthread.h>
#include <stdint.h>
#include <stdio.h>
#include <time.h>
#include <x86intrin.h>
static uint64_t first_tick, first_ns, held, takes, lives, begins, ends;
static _Thread_local uint64_t since, began;
static pthread_mutex_t guard = PTHREAD_MUTEX_INITIALIZER;
static uint64_t now(void) {
    struct timespec t;
    clock_gettime(CLOCK_MONOTONIC, &t);
    return t.tv_sec * 1000000000ull + t.tv_nsec;
}
void lock_tried(int has) { if (has) since = __rdtsc(); }
void lock_left(void) { held += __rdtsc() - since; takes++; }
void worker_begins(void) {
    began = __rdtsc();
    pthread_mutex_lock(&guard);
    if (!begins || began < begins) begins = began;
    pthread_mutex_unlock(&guard);
}
void worker_ends(void) {
    uint64_t end = __rdtsc();
    pthread_mutex_lock(&guard);
    lives += end - began;
    if (end > ends) ends = end;
    pthread_mutex_unlock(&guard);
}
__attribute__((constructor)) static void start(void) { first_tick = __rdtsc(); first_ns = now(); }
void __real__exit(int);
void __wrap__exit(int status) {
    double each = (double)(now() - first_ns) / (__rdtsc() - first_tick);
    fprintf(stderr, "%.0f %.0f %.0f %llu\n", (ends - begins) * each, held * each, lives * each, (unsigned long long)takes);
    __real__exit(status);
}
"""
DECLARED = "\n".join(f"declare void @{name}" for name in ("lock_tried(i32)", "lock_left()", "worker_begins()", "worker_ends()"))


def kit():
    return pathlib.Path(shutil.which("rt")).resolve().parent.parent


def once(text, pattern, replacement, what):
    """The text with one place replaced; a module in which there is not exactly one is none that is known here."""
    text, count = re.subn(pattern, replacement, text)
    if count != 1:
        raise SystemExit(f"{what}: {count} places match, and not 1; the module has another form than this script knows")
    return text


def marked(name, body):
    """A function of the module with the calls of the counters."""
    if name == HELD[0]:
        pattern = r"(  %r\d+ = extractvalue \{ i64, i1 \} (%r\d+), 0\n)"
        calls = r"\1  %has = extractvalue { i64, i1 } \2, 1\n  %tried = zext i1 %has to i32\n  call void @lock_tried(i32 %tried)\n"
        return once(body, pattern, calls, name)
    if name == HELD[1]:
        return once(body, r"\nstart:\n", "\nstart:\n  call void @lock_left()\n", name)
    body = once(body, r"\nstart:\n", "\nstart:\n  call void @worker_begins()\n", name)
    return body.replace("\n  ret void\n", "\n  call void @worker_ends()\n  ret void\n")


def counted(text):
    """The module's text without checks and with counters."""
    text = re.sub(r'\n  call void @"rattle-llvm-checks::[^\n]*', "", text)
    text = re.sub(r"\n  call void @llvm\.memset\.p0\.i64\(ptr %r\d+, i8 -86,[^\n]*", "", text)
    numbers = []
    for name in HELD:
        form = r'\ndefine [^\n]*@"%s::<[^\n]*\{\n.*?\n\}\n' % re.escape(name)
        text, number = re.subn(form, lambda found, name=name: marked(name, found.group()), text, flags=re.S)
        numbers.append(number)
    if len(set(numbers)) != 1 or not numbers[0]:
        raise SystemExit(f"takes, releases and workers of the module are {numbers}, and not as many of each")
    return text + "\n" + DECLARED + "\n"


def compiled(module, folder):
    """The program with counters, from the program's module."""
    to = kit() / "toolchain" / "bin" / "clang"
    reads = [to, "--target=x86_64-unknown-linux-gnu", "--no-default-config", "-Wno-override-module", "-x", "ir"]
    text, program = folder / "program.ll", folder / "multiscalar_counted"
    subprocess.run([*reads, module, "-S", "-emit-llvm", "-O0", "-Xclang", "-disable-llvm-passes", "-o", text], check=True)
    text.write_text(counted(text.read_text()))
    traps = ["-mllvm", "-trap-unreachable", "-mllvm", "-no-trap-after-noreturn"]
    subprocess.run([*reads, text, "-O3", "-fPIE", *traps, "-c", "-o", folder / "program.o"], check=True)
    (folder / "counters.c").write_text(COUNTERS)
    libraries = [kit() / "c" / "libos_c.a", kit() / "c" / "liblibc_c.a"]
    words = ["clang", "-O2", "-fPIE", "-pie", folder / "counters.c", "-x", "none", folder / "program.o", *libraries]
    subprocess.run([*words, "-Wl,--wrap=_exit", "-o", program], check=True)
    return program


def shares(program, rounds, folder):
    """The figures of each case."""
    found = {}
    for name, text in (("tiny", threads.TINY), ("parallel", threads.PARALLEL)):
        source, certificate = folder / f"{name}.s", folder / f"{name}.cert2"
        source.write_text(text)
        words = [program, "annotate", "--emit", "keep", source]
        certificate.write_bytes(subprocess.run(words, stdout=subprocess.PIPE, stderr=subprocess.DEVNULL, check=True).stdout)
        found[name, source, certificate] = []
    for _ in range(rounds):
        for (_, source, certificate), times in found.items():
            words = [program, "run", "--units", "4", "--workers", "4", source, certificate]
            told = subprocess.run(words, capture_output=True, text=True).stderr
            times.append([int(word) for word in told.split()])
    for (name, _, _), times in found.items():
        wall, held, lives, takes = (statistics.median(column) for column in zip(*times))
        of_wall = statistics.median(row[1] / row[0] for row in times)
        of_lives = statistics.median(row[1] / row[2] for row in times)
        print(f"{name}, 4 units, 4 workers: {wall / 1e6:.1f} ms; the lock is held for {held / 1e6:.1f} ms, {of_wall:.1%} of "
              f"the time and {of_lives:.1%} of the workers' time; taken {takes:.0f} times, {held / takes:.0f} ns each")


def main():
    options = argparse.ArgumentParser(description=__doc__, formatter_class=argparse.RawDescriptionHelpFormatter)
    options.add_argument("--module", type=pathlib.Path, help="the program's module, as fuzz/entry/capture.py keeps it")
    options.add_argument("--rounds", type=int, default=11)
    options.add_argument("--keep", type=pathlib.Path, help="leave the program with counters in this folder")
    given = options.parse_args()
    with tempfile.TemporaryDirectory(prefix="multiscalar-bench-") as name:
        folder = pathlib.Path(name)
        module = given.module
        if not module:
            module = folder / "program.bc"
            subprocess.run([sys.executable, TOP / "fuzz" / "entry" / "capture.py", module], check=True, stdout=subprocess.DEVNULL)
        program = compiled(module, folder)
        if given.keep:
            shutil.copy(program, given.keep)
        shares(program, given.rounds, folder)


if __name__ == "__main__":
    main()
