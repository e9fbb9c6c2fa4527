#!/usr/bin/env python3
"""Refuses each thread in turn, and looks at what the program answers.

    refused_threads.py PROGRAM [--folder EXAMPLES] [--times N]

For each run a library that is loaded before the C library refuses the thread
number K, or all from number K on, for each K up to the number of threads that the
run makes, and one more. `run` must then print nothing, say
`OutOfMemory` on standard error and end with status 2, for each K up to the
number of its workers; for a greater K it must end as ever. `check --workers N`
does the work of a thread that cannot be made itself, so its bytes never change,
whether the thread fetches, reads the program or the certificate, or checks.
Anything else (a crash, a run that does not end, half an answer) is told, and the
script ends with status 1. Needs python3, cc and a program that is linked with the
C library of the system at run time; it is no part of the tests.
"""
import argparse
import os
import pathlib
import subprocess
import sys
import tempfile
import time

import ending

TOP = pathlib.Path(__file__).resolve().parent.parent
sys.path.insert(0, str(TOP / "bench"))

# Refuses the call number REFUSE of pthread_create, counted from 1, or with ONWARDS each from it on; writes into the file
# COUNTED how many there were.
SHIM = r"""
#define _GNU_SOURCE
#include <dlfcn.h>
#include <errno.h>
#include <fcntl.h>
#include <pthread.h>
#include <stdio.h>
#include <stdlib.h>
#include <sys/syscall.h>
#include <unistd.h>
static unsigned long calls;
int pthread_create(pthread_t *t, const pthread_attr_t *a, void *(*f)(void *), void *x) {
    unsigned long call = __atomic_add_fetch(&calls, 1, __ATOMIC_SEQ_CST);
    unsigned long refuse = strtoul(getenv("REFUSE"), NULL, 10);
    if (call == refuse || (getenv("ONWARDS") && call > refuse)) return EAGAIN;
    int (*real)(pthread_t *, const pthread_attr_t *, void *(*)(void *), void *) = dlsym(RTLD_NEXT, "pthread_create");
    return real(t, a, f, x);
}
void _exit(int status) {
    if (getenv("COUNTED")) {
        char text[32];
        int size = snprintf(text, sizeof text, "%lu", calls), file = open(getenv("COUNTED"), O_WRONLY | O_CREAT | O_TRUNC, 0666);
        if (write(file, text, size) < 0) { }
    }
    for (;;) syscall(SYS_exit_group, status);
}
"""


def run(program, words, shim, number, onwards, counted=None):
    env = dict(os.environ, LD_PRELOAD=str(shim), REFUSE=str(number), **({"COUNTED": str(counted)} if counted else {}))
    if onwards:
        env["ONWARDS"] = "1"
    try:
        done = ending.run([program, *words], capture_output=True, env=env)
    except subprocess.TimeoutExpired:
        return None, b"", b"did not end"
    return done.returncode, done.stdout, done.stderr


def is_right(answer, usual, must_refuse):
    status, out, told = answer
    if must_refuse:
        return (status, out) == (2, b"") and b"OutOfMemory" in told
    return (status, out) == usual[:2]


def run_cases(examples):
    """The words of each `run`, and how many of its threads it cannot do without."""
    for folder in sorted(p for p in examples.iterdir() if (p / "certificate.cert2").exists()):
        files = [str(folder / "program.s"), str(folder / "certificate.cert2")]
        if folder.name == "spin":
            continue  # it runs until its budget, and prints what depends on the threads
        for units, workers in ((1, 1), (2, 2), (4, 4), (16, 3), (16, 16)):
            yield ["run", *files, "--units", str(units), "--workers", str(workers)], workers
        yield ["run", files[0], "--least", "--units", "4"], 4
        # of a run by one worker each picture and table is the same
        yield from ((["run", *files, "--units", "1", "--emit", emit], 1) for emit in ("summary", "svg", "trace", "json"))
        # a run in steps makes no thread, so none can be refused; nor does `curve`, whose runs are such
        yield from ((["run", *files, "--schedule", "steps", "--emit", emit], 0) for emit in ("report", "json"))
        yield from ((["curve", *files, "--units", "3", "--emit", emit], 0) for emit in ("table", "svg"))


def makes_none(words):
    """Whether a job makes no thread."""
    return "steps" in words or words[0] == "curve"


def check_cases(files):
    """The words of each `check`, which can do without any thread."""
    return [(["check", "--workers", workers, *given], 0) for workers in ("2", "3", "4", "16") for given in (files, [files[0], "--least"])]


def large_files(folder):
    """The program and the certificate at every limit, which `check` shares out."""
    import bench

    program, certificate = folder / "largest.s", folder / "largest.cert2"
    program.write_text(bench.maximal_program())
    with open(certificate, "w") as file:
        file.writelines(bench.maximal_certificate())
    return [str(program), str(certificate)]


def runs(program, examples, folder, times, end=float("inf")):
    """Each run: its job and words, which thread was refused and whether all after it, what it answered, whether that is
    right, and how many threads it usually makes."""
    source, shim, counted = folder / "refuse.c", folder / "refuse.so", folder / "counted"
    source.write_text(SHIM)
    subprocess.run(["cc", "-O1", "-shared", "-fPIC", "-o", shim, source, "-ldl"], check=True)
    data = TOP / "crates" / "test_program" / "data"
    shared = [str(data / "large.s"), str(data / "large.cert2")]
    for words, needed in [*check_cases(shared), *run_cases(examples), *check_cases(large_files(folder))]:
        usual = run(program, words, shim, 0, False, counted)
        threads = int(counted.read_text())
        if threads == 0 and not makes_none(words):
            continue  # the checker does not accept the marks
        if threads and makes_none(words):
            yield words[0], words, 0, False, (0, b"", b"steps that make threads"), False, threads
        for number in range(1, threads + 2):
            for onwards in (False, True):
                for _ in range(times if words[0] == "run" else 1):
                    if time.monotonic() > end:
                        return
                    answer = run(program, words, shim, number, onwards)
                    yield words[0], words, number, onwards, answer, is_right(answer, usual, number <= needed), threads


def main():
    parser = argparse.ArgumentParser(description=__doc__.splitlines()[0])
    parser.add_argument("program")
    parser.add_argument("--folder", default=TOP / "examples", type=pathlib.Path)
    parser.add_argument("--times", default=5, type=int, help="how often each thread of `run` is refused")
    args = parser.parse_args()
    tried = wrong = 0
    made = {}
    with tempfile.TemporaryDirectory() as folder:
        for job, words, number, onwards, answer, fits, threads in runs(args.program, args.folder, pathlib.Path(folder), args.times):
            tried += 1
            made[" ".join(words[:3]) if job == "check" else job] = threads
            if not fits:
                wrong += 1
                print("wrong:", *words, "thread", number, onwards, answer[0], answer[1][:60], answer[2][:60])
    for job, threads in made.items():
        print(f"{job}: {threads} threads")
    print(tried, "runs", "wrong", wrong)
    return 1 if wrong else 0


if __name__ == "__main__":
    sys.exit(main())
