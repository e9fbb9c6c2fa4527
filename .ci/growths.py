#!/usr/bin/env python3
"""Refuses each growth of memory of the worked examples in turn, over the programs that `rt ci` built.

    growths.py [--minutes M] [--program BUILT] [--calls BUILT] [--measure]

It runs the program `multiscalar` on each worked example whose growths are refused (fuzz/refused_growths.py), and the
program of crates/test_growths, which makes one public call and makes it again after a refusal (fuzz/refused_calls.py). A
library that is loaded before the C library refuses one growth of each run. A table tells what was answered; a
difference, a call that was not tried, a tool that is missing, or too little time ends the script with status 1.

It measures, too, the greatest single growth that each call and each subcommand asks for with ample memory, on the worked
examples and on a program of many tasks, and compares it with what it may need (BOUNDS): so much whatever it is given, and
so many bytes for each byte of the texts that it is given and of what it answers. No contract tells a call that asks for
far more than it needs: where it is refused, it says truly that memory was refused. More than the bound ends the script with
status 1. `--measure` prints all growths, and refuses none.

Needs python3, cc and Linux.
"""
import argparse
import collections
import multiprocessing
import os
import pathlib
import re
import shutil
import sys
import tempfile
import time

TOP = pathlib.Path(__file__).resolve().parent.parent
sys.path.insert(0, str(TOP / "fuzz"))
import refused_calls
import refused_growths

BUILT = "crates/{0}/out/{0}"

# What one growth of a call may ask for: bytes whatever it is given, and bytes for each byte that it is given and that it
# answers; the reason. A list doubles its room when it is full, so it may ask for twice what it holds in the end.
Bound = collections.namedtuple("Bound", "fixed given answered why")
BOUNDS = {
    "Memory::new": Bound(65_536, 0, 0, "a region of memory has 65,536 bytes"),
    "Program::plain": Bound(65_536, 2, 0, "a region of memory; 24 bytes for each instruction"),
    "Plain::new": Bound(65_536, 2, 0, "a region of memory; 24 bytes for each instruction"),
    "Plain::step": Bound(64, 0, 4, "the words that were written"),
    "Plain::run": Bound(64, 0, 4, "the words that were written"),
    "assemble": Bound(2_048, 4, 0, "the code, the tasks and the labels of the text"),
    "print": Bound(1_024, 0, 4, "the room that the longest line needs, for each line"),
    "members": Bound(64, 1, 0, "a bit for each instruction, and those that are left to look at"),
    "propose": Bound(512, 1, 0, "24 bytes for each instruction"),
    "certify": Bound(512, 1, 0, "24 bytes for each instruction"),
    "certificate read": Bound(512, 1, 0, "a list for each task, and 16 bytes for each of its lines"),
    "certificate write": Bound(256, 0, 2, "the text"),
    "check_task": Bound(131_072, 2, 2, "32 bytes for each of 4,096 places; the findings"),
    "verdict": Bound(131_072, 2, 2, "32 bytes for each of 4,096 places; the findings"),
    "verdict_shared": Bound(131_072, 2, 2, "32 bytes for each of 4,096 places; the findings"),
    "accepts_shared": Bound(131_072, 2, 2, "32 bytes for each of 4,096 places; the findings"),
    "fetch": Bound(2_097_152, 2, 0, "the first room for a file; then the file"),
    "Unit::exec": Bound(1_024, 0, 0, "one more read, and one more word"),
    "Unit::exec_ahead": Bound(1_024, 0, 0, "one more read"),
    "Unit::take": Bound(4_096, 0, 0, "the reads of a burst are handed over, not copied"),
    "apply": Bound(1_024, 0, 0, "one more read, word or retired task"),
    "apply_burst": Bound(1_024, 0, 0, "the reads of a burst are handed over, not copied"),
    "Burst::run": Bound(65_536, 0, 0, "the reads of a burst: 12 bytes for each of some 2,000"),
    "finish": Bound(4_096, 0, 0, "as `apply`, for each event"),
    "Machine::new": Bound(16_000_000, 2, 0, "the history has 1,000,000 places of 16 bytes"),
    "run_threads": Bound(16_000_000, 2, 2, "the history has 1,000,000 places of 16 bytes"),
    # Subcommands: what they read, and what they print.
    **{f"multiscalar {name}": Bound(2_097_152, 16, 4, "the first room for a file; the texts that are read and printed")
       for name in ("seq", "print", "explain", "annotate", "check", "demonstrate")},
    **{f"multiscalar {name}": Bound(16_000_000, 16, 4, "the history has 1,000,000 places of 16 bytes; the texts") for name in ("run", "replay", "curve")},
}


def calls_of_program():
    """The names of the calls that the program of crates/test_growths knows."""
    return re.findall(r'^ +"([^"]+)" => ', (TOP / "crates" / "test_growths" / "src" / "main.rt").read_text(), re.MULTILINE)


def of_program(program, part, of, seconds):
    """Runs of the program: the name of the row, their number, what was answered, and what is wrong."""
    (name, runs, answers, wrong), is_whole = refused_growths.worked(program, part, of, time.monotonic() + seconds)
    return "multiscalar", runs, answers, [*wrong, *([] if is_whole else [f"{name}: not all were made in the time"])]


def of_call(program, call, seconds):
    """Runs of a public call, as `of_program` has them."""
    rows = refused_calls.run(program, seconds / 60, only=call, chosen=refused_calls.worked_cases)
    runs, growths = sum(row.runs for row in rows), sum(row.growths for row in rows)
    answers = sum((row.answers for row in rows), collections.Counter())
    wrong = [difference for row in rows for difference in row.differences]
    if growths == 0:
        wrong.append(f"{call}: no growth was counted")
    if any(row.notes["cut short"] for row in rows):
        wrong.append(f"{call}: not all were made in the time")
    return call, runs, dict(answers), wrong


def tried(program, calls, seconds):
    """The rows of all parts, in as many processes at once as there are cores."""
    cores = len(os.sched_getaffinity(0))
    with multiprocessing.Pool(cores) as pool:
        of_programs = [pool.apply_async(of_program, (program, part, cores, seconds)) for part in range(1, cores + 1)]
        of_calls = [pool.apply_async(of_call, (calls, call, seconds)) for call in calls_of_program()]
        return [it.get() for it in [*of_programs, *of_calls]]


def measured_of_program(program, part, of):
    """Of each measured run in this part its subcommand, its words, its greatest growth, and the bytes given and answered."""
    return [(f"multiscalar {words[0]}", " ".join(os.path.basename(it) for it in words), ended.greatest, given, len(ended.out) + len(ended.told), ended.status)
            for words, ended, given in refused_growths.greatest(program, part, of)]


def measured_of_call(calls, call):
    """The same of each measured case of a call."""
    return [(call, f"{case.name}, {case.workers} workers", ran.greatest, given, answered, 0 if ran.growths else 2)
            for case, ran, given, answered in refused_calls.greatest(calls, call)]


def measured(program, calls):
    """What `measured_of_program` and `measured_of_call` say of all runs."""
    cores = len(os.sched_getaffinity(0))
    with multiprocessing.Pool(cores) as pool:
        runs = [pool.apply_async(measured_of_program, (program, part, cores)) for part in range(1, cores + 1)]
        runs += [pool.apply_async(measured_of_call, (calls, call)) for call in calls_of_program()]
        return [row for it in runs for row in it.get()]


def beyond(rows, tells_all):
    """What is wrong with these growths: those that are beyond their bound, and calls that have none."""
    wrong = []
    for name, what, asked, given, answered, status in rows:
        bound = BOUNDS.get(name)
        most = bound.fixed + bound.given * given + bound.answered * answered if bound else 0
        if tells_all:
            print(f"growths: {name}: {what}: {asked} bytes of {most}; given {given}, answered {answered}, status {status}")
        if not asked and any(row[0] == name and row[2] for row in rows):
            # A call may take over what it is given, as a machine does a long log.
            continue
        if not asked or status not in (0, 1, 3):
            wrong.append(f"{name}: {what}: no growth was measured, status {status}")
        elif not bound:
            wrong.append(f"{name}: it has no bound")
        elif asked > most:
            wrong.append(f"{name}: {what}: one growth asks for {asked:,} bytes, and {most:,} are needed at most: {bound.why}")
    return wrong


def main():
    parser = argparse.ArgumentParser(description=__doc__.splitlines()[0])
    parser.add_argument("--minutes", default=5, type=float, help="fail where this does not suffice")
    parser.add_argument("--program", default=TOP / BUILT.format("multiscalar"), type=pathlib.Path)
    parser.add_argument("--calls", default=TOP / BUILT.format("test_growths"), type=pathlib.Path)
    parser.add_argument("--measure", action="store_true", help="print the greatest growth of each run, and refuse none")
    args = parser.parse_args()
    missing = [str(it) for it in (args.program, args.calls) if not it.is_file()] + ([] if shutil.which("cc") else ["cc"])
    if missing:
        print("growths: FAILED: missing:", *missing)
        return 1
    begin = time.monotonic()
    with tempfile.TemporaryDirectory(prefix="multiscalar-growths-") as name:
        copies = [shutil.copy(it, name) for it in (args.program, args.calls)]
        for copy in copies:
            os.chmod(copy, 0o755)
        found = measured(*copies)
        rows = [] if args.measure else tried(*copies, 60 * args.minutes)
    far = beyond(found, args.measure)
    wrong = [difference for row in rows for difference in row[3]] + far
    for name in dict.fromkeys(row[0] for row in rows):
        answers = sum((collections.Counter(row[2]) for row in rows if row[0] == name), collections.Counter())
        print(f"growths: {name}:", ", ".join(f"{count} {answer}" for answer, count in answers.most_common()))
    print(f"growths: {len(found)} greatest growths, {len(far)} beyond need")
    for difference in wrong:
        print("growths: wrong:", difference)
    print(f"growths: {'FAILED' if wrong else 'ok'}: {sum(row[1] for row in rows)} runs, {len(wrong)} wrong, in {time.monotonic() - begin:.0f} seconds")
    return 1 if wrong else 0


if __name__ == "__main__":
    sys.exit(main())
