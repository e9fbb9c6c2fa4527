#!/usr/bin/env python3
"""Times the machine's calls. Needs python3 and rt.

    machine.py [--only events|leases|runs] [--rounds N] [--program PATH]

It puts machine.rt.txt into the repository as a crate of its own, builds it (proved,
which takes a minute or two where the crates below are proved already), takes it
away again, and times the program. --program PATH times one that is built already.

  events  Exec events on one thread, with 1, 4 and 16 units: the least processor
          time of the rounds, less that of the same process without events
  leases  a lease, a burst of 64 steps and its check-in beside 64 single events of
          the same unit, 700 times in turn in one process; the time of two looks at
          the clock is taken off. The median of a process, and of these the median
  runs    a run by threads beside the same history applied to a new machine on one
          thread, both in one process: `run` and `replay` without reading and
          printing. Medians of the rounds, of the ratio too
"""
import argparse
import pathlib
import resource
import shutil
import statistics
import subprocess
import tempfile

import threads

HERE = pathlib.Path(__file__).resolve().parent
TOP = HERE.parent
NAME = "machine_bench"
LINE = f"{NAME}: mips_instructions annotated_asm annotator mark_checker machine_model unit_core sequencer threaded_runner\n"
EVENTS = 900000

# How often a process makes 64 events and a burst of 64 in turn: with 900,000 events before,
# the history has no room for 800.
TURNS, STEPS = 700, 64
# At most so many ns more than its 64 events.
LEASE_AIM = 200
# Of `tiny` with 4 units: at most so many times the replay of the same history, by workers.
RUN_AIMS = {1: 1.3, 4: 10}

# Two tasks, the first of which never ends and waits for no register.
SMALL = ".task A create=- targets=A,B\n.task B create=- targets=-\nA: sll $0,$0,0\nj A\nB: halt\n"
# A loop that computes and branches, whose registers are all its own.
REGISTERS = """.task A create=$8,$9,$10,$11 targets=A,B
.task B create=- targets=-
A:      lui $8,1
        lui $10,0
L:      addu $10,$10,$8
        sll $11,$10,3
        xor $10,$10,$11
        addiu $9,$10,7
        bne $8,$0,L
        j B !s
B:      halt
"""
# A loop that loads and sends, too. What is sent once is not sent again.
LOOP = """.task A create=$2,$8,$9,$10,$11 targets=A,B
.task B create=- targets=-
A:      lui $8,4096
        lui $2,1
        lui $10,0
L:      lw $9,4($8)
        addu $10,$10,$9
        sll $11,$10,3
        release $2
        xor $10,$10,$11
        bne $8,$0,L
        j B !s
B:      halt
.rodata
        .word 1,2,3,4
"""
# Short tasks, one after another: each computes, loads, branches, and sends both registers that it writes.
SENDING = """.task S create=$8,$9 targets=A
.task A create=$9,$10 targets=A,B
.task B create=- targets=-
S:      lui $8,4096 !f
        addiu $9,$0,1 !f
        j A !s
A:      andi $10,$9,12
        addu $10,$10,$8
        lw $10,0($10)
        bne $10,$0,L
        addiu $10,$0,5
L:      addu $9,$9,$10
        sll $10,$9,3 !f
        xor $9,$9,$10 !f
        bne $8,$0,A !s
B:      halt
.rodata
        .word 1,2,3,4
"""
# Three instructions, one of which loads: with 4 bytes of read-only data, and with as many as there may be.
FEW_LOADS = (
    ".task A create=$8,$9 targets=A,B\n.task B create=- targets=-\n"
    "A: lui $8,4096\nlw $9,0($8)\nj A\nB: halt\n.rodata\n.word 1\n"
)
LOADS = FEW_LOADS.replace(".word 1\n", ".word 1,2,3,4,5,6,7,8\n" * 2048)
CODE, TASKS = 4096, 1024


def largest():
    """As many tasks and instructions as there may be, each task reaching all of the code."""
    lines = [f".task T{task} create=- targets=T{task}" for task in range(TASKS)]
    for index in range(CODE):
        if index % (CODE // TASKS) == 0:
            lines.append(f"T{index * TASKS // CODE}:")
        lines.append("j T0" if index == CODE - 1 else "sll $0,$0,0")
    return "\n".join(lines) + "\n"


def built(folder):
    """Builds the program and leaves a copy of it, and of its object file, in the folder."""
    crate, listed = TOP / "crates" / NAME, TOP / "crates.txt"
    before, small = listed.read_text(), folder / "small"
    small.write_text(SMALL)
    try:
        (crate / "src").mkdir(parents=True)
        shutil.copy(HERE / "machine.rt.txt", crate / "src" / "main.rt")
        listed.write_text(before.rstrip("\n") + "\n" + LINE)
        run = subprocess.run(["rt", "run", "--", str(small), "events", "1", "0"], cwd=crate, capture_output=True, text=True)
        if run.returncode:
            raise SystemExit(run.stdout + run.stderr)
        shutil.copy(crate / "out" / f"{NAME}.o", folder)
        return shutil.copy(crate / "out" / NAME, folder)
    finally:
        listed.write_text(before)
        shutil.rmtree(crate, ignore_errors=True)


def spent(words):
    """The processor time of a run in seconds, and what it writes."""
    start = resource.getrusage(resource.RUSAGE_CHILDREN)
    run = subprocess.run([*map(str, words)], capture_output=True, text=True, check=True)
    end = resource.getrusage(resource.RUSAGE_CHILDREN)
    return end.ru_utime + end.ru_stime - start.ru_utime - start.ru_stime, run.stdout


def rows(words):
    """What a run writes, as rows of numbers."""
    return [[int(word) for word in line.split()] for line in spent(words)[1].splitlines()]


def events(program, rounds, folder):
    cases = (1, 4, 16)
    times = {(units, count): [] for units in cases for count in (0, EVENTS)}
    for _ in range(rounds):
        for units, count in times:
            times[units, count].append(spent((program, folder / "small", "events", units, count)))
    for units in cases:
        most = min(times[units, EVENTS])
        each = (most[0] - min(times[units, 0])[0]) / EVENTS
        print(f"{units:2} units: {each * 1e9:5.1f} ns per event, {1e-6 / each:4.0f} million a second; "
              f"head executed {most[1].strip()}")


def turns(program, file, log, before):
    """The medians of one process: 64 events, a burst of 64 with lease and check-in, and the difference."""
    (applied,), *times = rows((program, file, "leases", log, before, TURNS))
    if applied != 2 * STEPS * TURNS:
        raise SystemExit(f"{file.name}: {applied} events were applied, and not {2 * STEPS * TURNS}")
    clock = statistics.median(nothing for nothing, _, _ in times)
    single = statistics.median(one for _, one, _ in times) - clock
    burst = statistics.median(other for _, _, other in times) - clock
    return single, burst, statistics.median(other - one for _, one, other in times)


def leases(program, rounds, folder):
    kinds = (("a certificate of two tasks", "small"), ("the largest certificate", "large"),
             ("loads, 4 bytes of read-only data", "few_loads"), ("loads, 65,536 bytes of read-only data", "loads"))
    found = {(kind, file, *where): [] for kind, file in kinds for where in ((0, 0), (100000, 900000))}
    for _ in range(rounds):
        for case, medians in found.items():
            medians.append(turns(program, folder / case[1], *case[2:]))
    print(f"aim: the difference is at most {LEASE_AIM} ns")
    for (kind, _, log, before), medians in found.items():
        single, burst, difference = (statistics.median(column) for column in zip(*medians))
        differences = [int(row[2]) for row in medians]
        print(f"{kind}, log of {log}, history of {before}: 64 events {single:.0f} ns; lease, burst of 64 and check-in "
              f"{burst:.0f} ns; difference {difference:+.0f} ns ({min(differences):+} to {max(differences):+})")


def runs(program, rounds, folder):
    found = {(name, workers): [] for name in ("tiny", "parallel") for workers in (1, 4)}
    for _ in range(rounds):
        for (name, workers), times in found.items():
            times += rows((program, folder / name, "run", 4, workers))
    for (name, workers), times in found.items():
        ran, replayed, count = (statistics.median(column) for column in zip(*times))
        ratios = [run / replay for run, replay, _ in times]
        aim = f"; aim: at most {RUN_AIMS[workers]}" if name == "tiny" else ""
        print(f"{name}, 4 units, {workers} workers: {count:.0f} events; run {ran / 1e6:.1f} ms, replay without reading and "
              f"printing {replayed / 1e6:.1f} ms; {statistics.median(ratios):.2f} times "
              f"({min(ratios):.2f} to {max(ratios):.2f}){aim}")


def main():
    options = argparse.ArgumentParser(description=__doc__, formatter_class=argparse.RawDescriptionHelpFormatter)
    options.add_argument("--only", choices=("events", "leases", "runs"))
    options.add_argument("--rounds", type=int, default=7)
    options.add_argument("--program", type=pathlib.Path, help="a machine_bench that is built already")
    given = options.parse_args()
    with tempfile.TemporaryDirectory(prefix="multiscalar-bench-") as name:
        folder = pathlib.Path(name)
        for file, text in (("small", SMALL), ("few_loads", FEW_LOADS), ("loads", LOADS), ("large", largest()),
                           ("tiny", threads.TINY), ("parallel", threads.PARALLEL)):
            (folder / file).write_text(text)
        program = given.program.resolve() if given.program else built(folder)
        for timing in (events, leases, runs):
            if given.only in (None, timing.__name__):
                timing(program, given.rounds, folder)


if __name__ == "__main__":
    main()
