#!/usr/bin/env python3
"""Times `run` with threads beside `replay` of a history and `seq`. Needs python3 alone.

    threads.py [--program PATH] [--rounds N] [--only WORD]

Every case is run once a round, in turn; each time is the median of the rounds, for
wall time also the least. Give it free cores: a thread that has to wait for a core is
not what is meant to be timed.

  parallel   forty tasks of some 20,000 register-only instructions; each needs
             one register of the one before, which is sent at once
  tiny       166,665 tasks of four instructions: 999,998 events with one worker;
             with four, which pass registers on, the budget of 1,000,000 events
             ends the run
  long       one task of 9,003, 90,003 and 900,003 instructions; the cost of an
             instruction is the median less that of a task of 9 instructions
  kernels    those of kernels/, with marks by `annotate`, until they end or the
             budget of 1,000,000 events ends the run

Beside each run stand `replay` of the history of one such run, with reading and
printing (its column of events is exact), and `seq` of the same program. Events of a
`run` are those of the run whose history is replayed: they differ a little from run to
run. For `seq` the last column is instructions.
"""
import argparse
import pathlib
import resource
import statistics
import subprocess
import tempfile
import time

import bench

HERE = pathlib.Path(__file__).resolve().parent

PARALLEL = """\
.start A
.task A create=$8,$9,$10,$11 targets=A,B
.task B create=- targets=-
A: addiu $8,$8,1 !f
addu $10,$8,$0
addiu $9,$0,5000
L: sll $11,$10,5
xor $10,$10,$11
addiu $9,$9,-1
bne $9,$0,L
slti $11,$8,40
bne $11,$0,A !s
B: out $8
out $10
halt
"""

# As many tasks as 1,000,000 events have room for, with six events each: an assign, four
# instructions, a retire.
TINY = """\
.start I
.task I create=$11 targets=A
.task A create=$8,$9,$10 targets=A,B
.task B create=- targets=-
I: lui $11,2
ori $11,$11,0x8b09 !f
j A !s
A: addiu $8,$8,1 !f
addu $9,$9,$8 !f
slt $10,$8,$11 !f
bne $10,$0,A !s
B: out $9
halt
"""

LONG_ROUNDS = (3000, 30000, 300000)
LEAST_ROUNDS = 2


def long_task(rounds):
    return f".start A\n.task A create=$8,$9 targets=-\nA: lui $9,{rounds >> 16}\nori $9,$9,{rounds & 0xffff}\n" \
        "L: addiu $8,$8,1\nnop\nbne $8,$9,L\nhalt\n"


class Case:
    """A command, its times, and how many events or instructions it has."""

    def __init__(self, name, words, count=0, status=0):
        self.name, self.words, self.count, self.status = name, [str(word) for word in words], count, status
        self.wall, self.user, self.system = [], [], []

    def run(self, program):
        before = resource.getrusage(resource.RUSAGE_CHILDREN)
        start = time.monotonic()
        done = subprocess.run([program, *self.words], capture_output=True)
        self.wall.append(time.monotonic() - start)
        after = resource.getrusage(resource.RUSAGE_CHILDREN)
        self.user.append(after.ru_utime - before.ru_utime)
        self.system.append(after.ru_stime - before.ru_stime)
        if done.returncode != self.status:
            print(f"{self.name}: status {done.returncode}, wanted {self.status}: {done.stderr.decode()}")

    def line(self):
        wall, user, system = (statistics.median(times) * 1e3 for times in (self.wall, self.user, self.system))
        rate = f"{self.count / wall / 1e3:8.1f}" if self.count else f"{'-':>8}"
        return f"{self.name:60} {wall:8.1f} {min(self.wall) * 1e3:8.1f} {user:8.1f} {system:8.1f} {self.count:9} {rate}"


def output(program, *words):
    done = subprocess.run([program, *map(str, words)], capture_output=True)
    return done.returncode, done.stdout


def beside(program, name, source, extents):
    """Runs of a program with so many units and workers, each with the replay of its history, and `seq`."""
    certificate = source.with_suffix(".cert2")
    certificate.write_bytes(output(program, "annotate", "--emit", "keep", source)[1])
    for units, workers in extents:
        how = f"{units} units, {workers} workers"
        words = ["--units", units, "--workers", workers, source, certificate]
        script = source.with_suffix(f".events{units}_{workers}")
        status, history = output(program, "run", "--emit", "script", *words)
        script.write_bytes(history)
        count = history.count(b"\n")
        yield Case(f"{name}, {how}", ["run", *words], count, status)
        replay = ["replay", "--units", units, source, certificate, script]
        yield Case(f"{name}, replay of {how}", replay, count, output(program, *replay)[0])
    status, told = output(program, "seq", source)
    yield Case(f"{name}, seq", ["seq", source], bench.number_before(told, "instructions"), status)


def cases(program, folder, wanted):
    """The cases whose name has the wanted word. Histories are made only where they are wanted."""
    texts = [("parallel", PARALLEL, ((1, 1), (2, 2), (4, 4), (4, 1))), ("tiny", TINY, ((4, 1), (4, 4)))]
    for rounds in (LEAST_ROUNDS, *LONG_ROUNDS):
        texts.append((f"long, {3 * rounds + 3} instructions", long_task(rounds), ((1, 1),)))
    for kernel in sorted((HERE / "kernels").glob("*.s")):
        texts.append((f"kernels, {kernel.stem}", kernel, ((1, 1), (4, 4))))
    for number, (name, text, extents) in enumerate(texts):
        if wanted and wanted.split(",")[0] not in name and name.split(",")[0] not in wanted:
            continue
        source = folder / f"program{number}.s"
        source.write_bytes(text.encode() if isinstance(text, str) else output(program, "annotate", text)[1])
        yield from beside(program, name, source, extents)


def long_costs(chosen):
    """What an instruction of a long task costs, the start of the process taken off."""
    for kind in ("1 units, 1 workers", "replay of 1 units, 1 workers", "seq"):
        found = {case.name.split(", ")[1]: case for case in chosen
                 if case.name.startswith("long, ") and case.name.split(", ", 2)[2] == kind}
        if len(found) != len(LONG_ROUNDS) + 1:
            continue
        base, *others = sorted(found.values(), key=lambda case: int(case.name.split()[1]))
        least = int(base.name.split()[1])
        for case in others:
            more = int(case.name.split()[1]) - least
            spent = statistics.median(case.wall) - statistics.median(base.wall)
            print(f"{case.name}: {spent / more * 1e9:.1f} ns an instruction, without start-up")


def main():
    options = argparse.ArgumentParser(description=__doc__, formatter_class=argparse.RawDescriptionHelpFormatter)
    options.add_argument("--program", type=pathlib.Path)
    options.add_argument("--rounds", type=int, default=11)
    options.add_argument("--only", default="", help="only the cases whose name has this: parallel, tiny, long, kernels ..")
    given = options.parse_args()
    program = str(pathlib.Path(given.program or bench.built()).resolve())
    with tempfile.TemporaryDirectory(prefix="multiscalar-bench-") as name:
        chosen = list(cases(program, pathlib.Path(name), given.only))
        for _ in range(given.rounds):
            for case in chosen:
                case.run(program)
    print(f"{'case':60} {'wall ms':>8} {'least':>8} {'user ms':>8} {'system':>8} {'events':>9} {'million/s':>9}")
    for case in chosen:
        print(case.line())
    long_costs(chosen)


if __name__ == "__main__":
    main()
