#!/usr/bin/env python3
"""Calls the libraries one by one, refuses each growth of memory in turn, and makes the same call again.

    refused_calls.py [--program BUILT] [--keep BUILT] [--unproved] [--only CALL] [--minutes M]

It puts the modules of crates/test_growths and calls.rt.txt into the repository as a crate of its own, builds it (proved over the
libraries that `rt ci` left, which takes some ten minutes, or with --unproved by `rt try` and clang), and takes it away again; --keep
keeps the built program, and --program takes one that was kept. That program makes one public call on the texts of an example. A library that is
loaded before the C library refuses the growths inside the call: each alone, and each with the four after it.
Where the call then says that memory ran out, what it was given must be as its contract says (as a rule
unchanged), and the same call made again must answer, and leave, what it does with ample memory. Calls that make
threads are tried three times for each growth, since threads take memory in no fixed order. A table tells how
many growths each call has and what was answered; differences end the script with status 1.

`.ci/growths.py` does so after `rt ci` with the calls of crates/test_growths, on two examples; the rest is no part of the tests.
Needs python3, cc, rt unless there is --program, and Linux.
"""
import argparse
import collections
import multiprocessing
import os
import pathlib
import shutil
import subprocess
import sys
import tempfile
import time

import ending

HERE = pathlib.Path(__file__).resolve().parent
TOP = HERE.parent
EXAMPLES = TOP / "examples"
CALLS = TOP / "crates" / "test_growths"
NAME = "calls_of_libraries"
BELOW = ("mips_instructions mips_plain task_descriptor annotated_asm diagnostics text_diagnostics canonical_text task_graph "
         "mask_certificate mark_checker annotator finding_paths mark_diagnostics input_diagnostics machine_model register_ring unit_core sequencer "
         "parallel_check threaded_runner unit_turns event_script text_pieces jobs command_line verdict_report "
         "task_lives run_picture event_trace speed_curve diagnostic_log")

SOURCE = r"""
#define _GNU_SOURCE
#include <dlfcn.h>
#include <errno.h>
#include <fcntl.h>
#include <stdio.h>
#include <stdlib.h>
#include <string.h>
#include <sys/syscall.h>
#include <unistd.h>
static unsigned long growths, refusals, greatest, from, to;
static int counts_now;
__attribute__((constructor)) static void start(void) {
    from = getenv("FROM") ? strtoul(getenv("FROM"), NULL, 10) : 0;
    to = getenv("TO") ? strtoul(getenv("TO"), NULL, 10) : 0;
}
static int refused(size_t n) {
    if (!__atomic_load_n(&counts_now, __ATOMIC_SEQ_CST)) return 0;
    unsigned long before = __atomic_load_n(&greatest, __ATOMIC_SEQ_CST);
    while (before < n && !__atomic_compare_exchange_n(&greatest, &before, n, 0, __ATOMIC_SEQ_CST, __ATOMIC_SEQ_CST)) { }
    unsigned long growth = __atomic_add_fetch(&growths, 1, __ATOMIC_SEQ_CST);
    if (growth < from || growth > to) return 0;
    __atomic_add_fetch(&refusals, 1, __ATOMIC_SEQ_CST);
    errno = ENOMEM;
    return 1;
}
static void *next(const char *name) { return dlsym(RTLD_NEXT, name); }
void *malloc(size_t n) {
    static void *(*real)(size_t); if (!real) real = next("malloc");
    return refused(n) ? NULL : real(n);
}
void *realloc(void *p, size_t n) {
    static void *(*real)(void *, size_t); if (!real) real = next("realloc");
    return refused(n) ? NULL : real(p, n);
}
void *aligned_alloc(size_t a, size_t n) {
    static void *(*real)(size_t, size_t); if (!real) real = next("aligned_alloc");
    return refused(n) ? NULL : real(a, n);
}
int posix_memalign(void **p, size_t a, size_t n) {
    static int (*real)(void **, size_t, size_t); if (!real) real = next("posix_memalign");
    return refused(n) ? ENOMEM : real(p, a, n);
}
ssize_t write(int fd, const void *p, size_t n) {
    if (fd == 1 && n == 6 && !memcmp(p, "begin\n", 6)) __atomic_store_n(&counts_now, 1, __ATOMIC_SEQ_CST);
    if (fd == 1 && n == 4 && !memcmp(p, "end\n", 4)) __atomic_store_n(&counts_now, 0, __ATOMIC_SEQ_CST);
    return syscall(SYS_write, fd, p, n);
}
// The program ends so: no destructor runs.
void _exit(int status) {
    char text[99];
    int size = snprintf(text, sizeof text, "%lu %lu %lu", growths, refusals, greatest);
    long file = syscall(SYS_openat, AT_FDCWD, getenv("COUNTS"), O_WRONLY | O_CREAT | O_TRUNC, 0666);
    if (syscall(SYS_write, file, text, size) < 0) { }
    for (;;) syscall(SYS_exit_group, status);
}
"""

# Tasks that execute some thousand instructions each, one after another and side by side; the next one needs one
# register, which is sent early.
LONG = """.start A
.task A create=$8,$9,$10,$11 targets=A,B
.task B create=- targets=-
A: addiu $8,$8,1 !f
addu $10,$8,$0
addiu $9,$0,600
L: sll $11,$10,5
xor $10,$10,$11
addiu $9,$9,-1
bne $9,$0,L
slti $11,$8,8
bne $11,$0,A !s
B: out $8
out $10
halt
"""
# Many short tasks, one after another: a growth by a product of two of their numbers is far beyond need.
MANY_TASKS, IN_EACH = 60, 12
MANY = "".join([".start T0\n", *(f".task T{at} create=$8 targets=T{at + 1}\n" for at in range(MANY_TASKS)),
                f".task T{MANY_TASKS} create=- targets=-\n",
                *("".join([f"T{at}:\n", "addiu $8,$8,1\n" * (IN_EACH - 1), "addiu $8,$8,1 !f!s\n"]) for at in range(MANY_TASKS)),
                f"T{MANY_TASKS}: out $8\nhalt\n"])
# Calls on a program alone, on its certificate too, and those that make threads.
ON_PROGRAM = ["Memory::new", "Program::plain", "Plain::new", "Plain::step", "Plain::run", "assemble", "print",
              "print_and_assemble", "members", "propose", "certify", "is_sound", "source_map", "shown_findings", "mark_errors", "with_marks_of", "costly_marks", "mark_warnings",
              "text_of", "log_text", "lines_text"]
ON_BOTH = ["certificate_errors", "certificate read", "certificate write", "check_task", "verdict", "Accepted::new", "fetch", "Text::append", "Text::pieces"]
IN_THREADS = ["read_shared", "verdict_shared", "accepts_shared", "fetch_shared", "run_threads", "run_workers", "serve"]
# Calls that take a machine from event to event.
STEPS = {"Unit::exec", "Unit::exec_ahead", "Unit::take", "apply", "finish", "Burst::run", "apply_burst"}
# Calls on an accepted program whose run ends.
ON_ACCEPTED = ["Unit::exec", "Unit::exec_ahead", "Unit::take", "Machine::new", "finish", "Burst::run", "apply_burst", "run_threads", "run_steps", "lives_of_runs", "summary", "picture", "trace", "lines of JSON",
               "row_of", "curve, table", "curve, picture"]
REFUSED = {"refused: unchanged", "refused: changed", "another fault"}

Case = collections.namedtuple("Case", "call name program certificate script units workers words")
# `greatest` has the bytes of the greatest growth that the call asked for.
Ran = collections.namedtuple("Ran", "status faults notes answer growths refusals greatest")


def replaced(text, old, new):
    if text.count(old) != 1:
        raise SystemExit(f"{CALLS}/src/main.rt has not once: {old}")
    return text.replace(old, new)


def compiled(crate, folder, unproved):
    """The program that was built in the crate's folder."""
    if not unproved:
        subprocess.run([sys.executable, HERE / "entry" / "proved.py", folder / NAME, folder / "module.bc", NAME], check=True, stdout=subprocess.DEVNULL)
        return folder / NAME
    module, kit = folder / "module.bc", pathlib.Path(shutil.which("rt")).resolve().parent.parent
    subprocess.run([sys.executable, HERE / "entry" / "capture.py", module, NAME], check=True, stdout=subprocess.DEVNULL, stderr=subprocess.DEVNULL)
    words = ["--target=x86_64-unknown-linux-gnu", "--no-default-config", "-Wno-override-module", "-x", "ir", module, "-O1", "-fPIE",
             "-mllvm", "-trap-unreachable", "-mllvm", "-no-trap-after-noreturn", "-c", "-o", folder / "calls.o"]
    subprocess.run([kit / "toolchain" / "bin" / "clang", *words], check=True)
    archives = [kit / "c" / "libos_c.a", kit / "c" / "liblibc_c.a"]
    subprocess.run(["cc", "-pie", folder / "calls.o", *archives, "-lpthread", "-o", folder / NAME], check=True)
    return folder / NAME


def built(folder, unproved):
    """Builds the program in a crate that is there only for so long."""
    crate, listed = TOP / "crates" / NAME, TOP / "crates.txt"
    before = listed.read_text()
    try:
        shutil.copytree(CALLS / "src", crate / "src")
        shutil.copy(HERE / "calls.rt.txt", crate / "src" / "others.rt")
        main = crate / "src" / "main.rt"
        main.write_text(replaced(replaced(main.read_text(), "mod plain;", "mod others;\nmod plain;"), "_ => None,", "_ => others::made(given, rt, call),"))
        listed.write_text(before.rstrip("\n") + f"\n{NAME}: {BELOW}\n")
        return compiled(crate, folder, unproved)
    finally:
        listed.write_text(before)
        shutil.rmtree(crate, ignore_errors=True)


def of_example(folder, calls, units=2, workers=1):
    """Cases on the texts of a folder."""
    certificate, script = folder / "certificate.cert2", folder / "script.events"
    none = folder / "program.s"
    for call in calls:
        yield Case(call, folder.name, folder / "program.s", certificate if certificate.exists() else none,
                   script if script.exists() else none, units, workers, ())


def served(folder, script="script.events"):
    """Cases of `request_of` and `serve`."""
    lines = ["seq P", "print P", "annotate P", "annotate P --emit cert", "annotate P --emit keep", "annotate P --emit marks",
             "explain P", "explain P --certificate C", "explain P --no-warnings", "explain P --certificate C --format sarif",
             "check P C", "check P C --workers 4", "check P --least"]
    if folder.name != "five-findings":
        lines += ["run P C --units 1", "run P C --units 4", "run P --least --units 1 --emit summary", "run P C --units 1 --emit svg"]
        lines += [f"run P C --schedule steps --predict 1,0 --emit {emit}" for emit in ("report", "script", "summary", "svg", "trace", "json")]
        lines += ["run P C --units 1 --emit trace", "run P C --units 1 --emit json", "curve P C --units 3", "curve P --least --units 2", "curve P C --units 3 --emit svg"]
    if (folder / script).exists():
        lines += ["replay P C S --units 2", "replay P --least S", *(f"replay P C S --units 2 --emit {emit}" for emit in ("summary", "svg", "trace", "json"))]
    for line in lines:
        for call in ("serve", "request_of"):
            yield Case(call, f"{folder.name}, {line}", folder / "program.s", folder / "certificate.cert2",
                       folder / (script if (folder / script).exists() else "program.s"), 1, 1, line.split())


def cases(folder):
    """All cases; texts that are made are written into the folder."""
    for example in sorted(path for path in EXAMPLES.iterdir() if (path / "program.s").exists()):
        certified, is_sound = (example / "certificate.cert2").exists(), example.name != "five-findings"
        yield from of_example(example, ON_PROGRAM if example.name != "spin" else ON_PROGRAM[5:])
        if not certified:
            continue
        yield from of_example(example, ON_BOTH)
        for workers in (1, 4):
            yield from of_example(example, ["read_shared", "verdict_shared", "accepts_shared"], workers=workers)
        if is_sound and example.name not in ("spin", "wrong-path-spin"):
            yield from of_example(example, ON_ACCEPTED)
            yield from of_example(example, ["run_workers"], units=4, workers=1)
            yield from of_example(example, ["run_workers"], units=4, workers=4)
    for name in ("count", "five-findings"):
        yield from served(EXAMPLES / name)
    yield from refusals()
    yield from scripts()
    yield from made(folder)


def refusals():
    """Texts that are no programs, and one that is no certificate."""
    for path in sorted((EXAMPLES / "refused").glob("*.s")):
        if path.stat().st_size < 100_000:
            yield Case("refusal", path.name, path, path, path, 1, 1, ())
    program = EXAMPLES / "count" / "program.s"
    for certificate in (EXAMPLES / "pair" / "certificate.cert2", EXAMPLES / "README.md", program):
        yield Case("certificate_errors", str(certificate.relative_to(EXAMPLES)), program, certificate, program, 1, 1, ())


def scripts():
    """Each event kind, and the texts of scripts."""
    for example, script, units in (("count", "script", 2), ("count", "squash", 2), ("count", "drop", 3), ("read-only", "script", 4),
                                   ("unlisted-jump", "script", 2), ("wrong-path-load", "script", 4)):
        folder = EXAMPLES / example
        for call in ("apply", "script read", "script write"):
            yield Case(call, f"{example}, {script}.events", folder / "program.s", folder / "certificate.cert2",
                       folder / f"{script}.events", units, 1, ())


def made(folder):
    """A program of long tasks, and a certificate that is large enough to be shared out."""
    long, large = folder / "long tasks", TOP / "crates" / "test_program" / "data"
    yield from of_example(long, ["Unit::take", "finish", "Burst::run", "apply_burst"], units=4)
    for workers in (1, 2, 4):
        yield from of_example(long, ["run_workers"], units=4, workers=workers)
    for call in ("read_shared", "verdict_shared", "accepts_shared", "fetch_shared", "fetch", "Text::pieces"):
        for workers in (1, 4) if call in IN_THREADS else (1,):
            yield Case(call, "the shared certificate", large / "large.s", large / "large.cert2", large / "large.s", 1, workers, ())


def worked_cases(folder):
    """Cases of each call of crates/test_growths, on two examples, one script, and a program of long tasks for the bursts."""
    count, five = EXAMPLES / "count", EXAMPLES / "five-findings"
    for example in (count, five):
        yield from of_example(example, ["Memory::new", "Program::plain", "Plain::new", "Plain::step", "Plain::run", "assemble", "print", "members",
                                       "propose", "certify", "certificate read", "certificate write", "check_task", "verdict", "fetch"])
        for workers in (1, 3):
            yield from of_example(example, ["verdict_shared", "accepts_shared"], workers=workers)
    yield from of_example(count, ["Unit::exec", "Unit::exec_ahead", "Machine::new", "apply", "finish", "Burst::run", "apply_burst", "run_threads"])
    yield from of_example(folder / "long tasks", ["Unit::take", "Burst::run", "apply_burst"])


def measured_cases(folder):
    """The worked cases, and those of their calls that do not run a machine on a program of many tasks."""
    every = list(worked_cases(folder))
    yield from every
    for call in dict.fromkeys(case.call for case in every if case.call not in STEPS):
        yield from of_example(folder / "many tasks", [call], workers=3 if call in IN_THREADS else 1)


def greatest(program, only=""):
    """Of each measured case its greatest growth in bytes, with ample memory, and the bytes that it is given and that it answers."""
    with tempfile.TemporaryDirectory(prefix="multiscalar-calls-") as name:
        bench = Bench(program, pathlib.Path(name))
        for case in measured_cases(bench.folder):
            if only in ("", case.call):
                ran = bench.run(case, 0, 0)
                given = sum(path.stat().st_size for path in {case.program, case.certificate, case.script})
                yield case, ran, given, len(ran.answer)


class Bench:
    """The program with the library before it."""

    def __init__(self, program, folder):
        self.program, self.folder = str(program), folder
        self.library, self.counts = folder / "refuse.so", folder / "counts"
        source = folder / "refuse.c"
        source.write_text(SOURCE)
        subprocess.run(["cc", "-O1", "-shared", "-fPIC", "-o", self.library, source, "-ldl"], check=True)
        for name, text in (("long tasks", LONG), ("many tasks", MANY)):
            made = folder / name
            made.mkdir()
            (made / "program.s").write_text(text)
            answer = self.run(Case("certify", "", made / "program.s", made / "program.s", made / "program.s", 1, 1, ()), 0, 0).answer
            (made / "certificate.cert2").write_bytes(answer)

    def run(self, case, first, last):
        """A run of the case with the growths from the first to the last refused."""
        words = [self.program, case.call, case.program, case.certificate, case.script, case.units, case.workers, *case.words]
        environment = dict(os.environ, LD_PRELOAD=str(self.library), COUNTS=str(self.counts), FROM=str(first), TO=str(last))
        self.counts.unlink(missing_ok=True)
        try:
            done = ending.run([str(word) for word in words], stdin=subprocess.DEVNULL, capture_output=True, env=environment)
        except subprocess.TimeoutExpired:
            return Ran("did not end", [], [], b"", 0, 0, 0)
        before, _, answer = done.stdout.partition(b"answer\n")
        lines = before.decode(errors="replace").splitlines()
        growths, refusals, greatest = map(int, self.counts.read_text().split()) if self.counts.exists() else (0, 0, 0)
        return Ran(done.returncode, [line for line in lines if line in REFUSED], [line for line in lines if line.startswith("note")],
                   answer, growths, refusals, greatest)


class Row:
    """What was seen of a call."""

    def __init__(self, call):
        self.call, self.cases, self.growths, self.runs = call, 0, 0, 0
        self.answers, self.notes, self.differences = collections.Counter(), collections.Counter(), []

    def judge(self, case, ample, ran, what):
        self.runs += 1
        for note in ran.notes:
            if note.endswith(" refused"):
                self.notes[f"{note.split()[1].split('(')[0]} refused"] += 1
            elif note.startswith("note drops") and not note.endswith(" 0"):
                self.notes["runs with a Drop"] += 1
        is_right = (ran.status, ran.answer) == (0, ample.answer) and not set(ran.faults) - {"refused: unchanged"}
        if not is_right:
            faults = ", ".join(sorted(set(ran.faults))) or "another answer"
            self.differences.append(f"{case.call}, {case.name}, {case.workers} workers, {what}: status {ran.status}, {faults}, {ran.answer[:60]}")
        elif ran.refusals == 0:
            self.answers["not reached"] += 1
        elif not ran.faults:
            self.answers["answered nevertheless"] += 1
        else:
            self.answers["refused, then answered"] += 1


def tried(bench, case, row, end):
    """Refuses the growths of a case in turn."""
    amples = [bench.run(case, 0, 0) for _ in range(5 if case.call in IN_THREADS else 1)]
    ample, growths = amples[0], max(ran.growths for ran in amples)
    row.cases += 1
    row.growths += growths
    for ran in amples:
        if (ran.status, ran.faults, ran.answer) != (0, [], ample.answer) or not ran.answer:
            row.differences.append(f"{case.call}, {case.name}, {case.workers} workers, with ample memory: status {ran.status}, {ran.faults}")
            return
    for first in range(1, growths + 1):
        for last in (first, first + 4):
            for _ in range(3 if case.call in IN_THREADS else 1):
                if time.monotonic() > end:
                    row.notes["cut short"] += 1
                    return
                row.judge(case, ample, bench.run(case, first, last), f"growths {first} to {last}")


def run(program, minutes, seed=0, only="", chosen=cases):
    """A row for each call of the chosen cases. The program is one that was built from calls.rt.txt; nothing is drawn."""
    end, rows = time.monotonic() + 60 * minutes, {}
    with tempfile.TemporaryDirectory(prefix="multiscalar-calls-") as name:
        bench = Bench(program, pathlib.Path(name))
        for case in chosen(bench.folder):
            if only in ("", case.call):
                tried(bench, case, rows.setdefault(case.call, Row(case.call)), end)
    return [rows[call] for call in sorted(rows)]


def whole(program):
    """The rows of all calls, in as many processes at once as there are cores, those with threads first, which take longest."""
    with tempfile.TemporaryDirectory(prefix="multiscalar-calls-") as name:
        calls = sorted({case.call for case in cases(pathlib.Path(name))}, key=lambda call: (call not in IN_THREADS, call))
    with multiprocessing.Pool(len(os.sched_getaffinity(0))) as parts:
        found = parts.starmap(run, [(program, 1e9, 0, call) for call in calls], chunksize=1)
    return sorted((row for rows in found for row in rows), key=lambda row: row.call)


def table(rows):
    """The rows as text."""
    yield "| Call | Cases | Growths | Runs | Seen | Differences |"
    yield "|---|---|---|---|---|---|"
    for row in rows:
        seen = ", ".join(f"{answer}: {count:,}" for answer, count in [*row.answers.most_common(), *sorted(row.notes.items())])
        yield f"| `{row.call}` | {row.cases} | {row.growths:,} | {row.runs:,} | {seen} | {len(row.differences)} |"
    sums = [sum(column) for column in zip(*((row.cases, row.growths, row.runs, len(row.differences)) for row in rows))]
    yield f"| all | {sums[0]} | {sums[1]:,} | {sums[2]:,} | | {sums[3]} |"


def main():
    parser = argparse.ArgumentParser(description=__doc__.splitlines()[0])
    parser.add_argument("--program", type=pathlib.Path, help="a program that --keep kept")
    parser.add_argument("--keep", type=pathlib.Path, metavar="BUILT", help="where the built program is kept")
    parser.add_argument("--unproved", action="store_true", help="build without proofs, by rt try and clang")
    parser.add_argument("--only", default="", metavar="CALL", help="only this call")
    parser.add_argument("--minutes", default=60, type=float, help="end after so many minutes, complete or not")
    args = parser.parse_args()
    with tempfile.TemporaryDirectory(prefix="multiscalar-calls-") as name:
        program = args.program or built(pathlib.Path(name), args.unproved)
        if args.keep:
            shutil.copy(program, args.keep)
        rows = run(pathlib.Path(program).resolve(), args.minutes, only=args.only)
    print("\n".join(table(rows)))
    differences = [difference for row in rows for difference in row.differences]
    for difference in differences:
        print("difference:", difference)
    unknown = {note for row in rows if row.call == "apply" for note in row.notes} - {"Exec refused", "Retire refused", "cut short"}
    if unknown:
        print("difference: events that take memory beside Exec and Retire:", *sorted(unknown))
    return 1 if differences or unknown or not rows else 0


if __name__ == "__main__":
    sys.exit(main())
