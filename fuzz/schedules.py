#!/usr/bin/env python3
"""Runs programs in threads, over and over, and compares each run with `seq`.

    schedules.py PROGRAM [--rounds N] [--random N] [--seconds S] [--only WORD]

PROGRAM is the built `multiscalar`. Each example that is accepted is run with 1,
2, 3, 4 and 16 units, each predictor, and one worker or one for each unit, or in
steps, in N rounds (50 by default). A run must put out the words of `seq`, end as
`seq` ends, and count as many instructions; a run that is out of budget must
have put out a beginning of these words, and none may be where the program halts.
One run of each kind is kept as an event script: its replay must end with the
same lines. `--random N` adds N random programs with marks of their own
(accepted.py). The two programs below guess wrong at every task, and each wrong
path runs in a circle. What differs is told, and the script ends with status 1.
It is no part of the tests.
"""
import argparse
import collections
import itertools
import pathlib
import subprocess
import sys
import tempfile
import time

import accepted
import ending

TOP = pathlib.Path(__file__).resolve().parent.parent
UNITS = (1, 2, 3, 4, 16)
PREDICTIONS = ("first", "last", "1,0")

# Every prediction of `first` (of `last` in the second) leads into a circle that only a squash ends.
CIRCLES = {
    "circle-first": """\
.start A
.task A create=$8,$10 targets=X,A,B
.task X create=$9 targets=-
.task B create=- targets=-
A: addiu $8,$8,1 !f
slti $10,$8,300
bne $10,$0,A !s
j B !s
X: addiu $9,$9,1
j X
B: out $8
halt
""",
    "circle-last": """\
.start A
.task A create=$8,$10 targets=A,B,X
.task X create=$9 targets=-
.task B create=- targets=-
A: addiu $8,$8,1 !f
slti $10,$8,300
bne $10,$0,A !st
j B !s
X: addiu $9,$9,1
j X
B: out $8
halt
""",
}


def call(program, *words):
    try:
        return ending.run([program, *words], capture_output=True, text=True)
    except subprocess.TimeoutExpired:
        return subprocess.CompletedProcess(words, None, "", "did not end")


def sequential(program, source):
    """The words that `seq` puts out, how it ends, and after how many instructions."""
    lines = call(program, "seq", source).stdout.splitlines()
    *words, end = lines
    if end.startswith("out of budget"):
        return words, "out of budget", None
    how, _, count = end.rpartition(" after ")
    return words, how, int(count.split()[0])


def wrong(lines, words, how, count):
    """What is wrong with a run's lines, if anything is."""
    if lines[-1:] == ["out of budget"]:
        if how == "halted":
            return "out of budget, though the program halts"
        return None if lines[:-1] == words[:len(lines) - 1] else "words that seq does not put out"
    if len(lines) < 2:
        return "no closing lines"
    *put_out, retired, end = lines
    if end.startswith("unlisted"):
        return None if put_out == words[:len(put_out)] else "words that seq does not put out"
    if put_out != words:
        return "other words than seq"
    if how == "out of budget":
        return None
    if end != how:
        return f"ends with {end}, seq with {how}"
    if int(retired.split()[-1]) != count:
        return f"{retired}, seq has {count}"
    return None


def programs(program, folder, count, only):
    """The name, program and certificate of each case."""
    for example in sorted((TOP / "examples").iterdir()):
        certificate = example / "certificate.cert2"
        if certificate.exists() and only in example.name:
            yield example.name, str(example / "program.s"), str(certificate)
    texts = dict(CIRCLES)
    for number in range(count):
        drawn, _ = accepted.accepted()
        texts[f"random-{number}"] = accepted.print_program(drawn)
    for name, text in texts.items():
        if only not in name:
            continue
        source, certificate = folder / f"{name}.s", folder / f"{name}.cert2"
        source.write_bytes(text if isinstance(text, bytes) else text.encode())
        made = call(program, "annotate", "--emit", "keep", str(source))
        certificate.write_text(made.stdout)
        yield name, str(source), str(certificate)


class Prepared:
    """A program with its certificate, and what `seq` says of it."""

    def __init__(self, program, title, source, certificate):
        self.program, self.title, self.files = program, title, [source, certificate]
        self.words, self.how, self.count = sequential(program, source)
        self.budget = ["--budget", "3000"] if self.how == "out of budget" else []

    def kinds(self):
        """The options of each kind of run."""
        for units, predict in itertools.product(UNITS, PREDICTIONS):
            for workers in sorted({1, units}):
                yield ["--units", str(units), "--workers", str(workers), "--predict", predict, *self.budget]
            yield ["--units", str(units), "--schedule", "steps", "--predict", predict, *self.budget]

    def run(self, kind):
        """What is wrong with a run, if anything is."""
        run = call(self.program, "run", *kind, *self.files)
        if run.stderr or run.returncode not in (0, 1, 3):
            return f"status {run.returncode}, {run.stderr.strip()}"
        return wrong(run.stdout.splitlines(), self.words, self.how, self.count)

    def replay(self, kind, folder):
        """What is wrong with the replay of a run's script, if anything is."""
        script = folder / "run.events"
        script.write_text(call(self.program, "run", "--emit", "script", *kind, *self.files).stdout)
        replay = call(self.program, "replay", *kind[:2], *self.files, str(script))
        closing = [line for line in replay.stdout.splitlines() if not line.endswith(" ok")]
        if any(" refused " in line for line in closing):
            return "an event of the script is refused"
        if closing[-1:] == ["running"]:
            return None if self.budget else "the replay still runs"
        return wrong(closing, self.words, self.how, self.count)


def prepared(program, folder, count, only):
    """The programs whose marks are accepted."""
    for title, source, certificate in programs(program, folder, count, only):
        if call(program, "check", source, certificate).returncode == 0:
            yield Prepared(program, title, source, certificate)


def perform(program, rounds, seconds, count, only):
    """Rounds over all programs and kinds until the time is up; the first also records and replays each kind."""
    end, answers, differences = time.monotonic() + seconds, collections.Counter(), []

    def note(title, what, kind, fault):
        answers[f"{what} as `seq`" if not fault else "wrong"] += 1
        if fault:
            differences.append(f"{title}: {what} {' '.join(kind)}: {fault}")

    with tempfile.TemporaryDirectory() as name:
        every = list(prepared(program, pathlib.Path(name), count, only))
        for number in range(rounds):
            for one, kind in ((one, kind) for one in every for kind in one.kinds()):
                if time.monotonic() > end:
                    return answers, differences, number
                note(one.title, "run", kind, one.run(kind))
                if number == 0:
                    note(one.title, "replay of run", kind, one.replay(kind, pathlib.Path(name)))
    return answers, differences, rounds


def run(program, minutes, seed):
    """The row for the table: (part, cases, answers seen, differences)."""
    accepted.R.seed(seed)
    answers, differences, rounds = perform(program, 10 ** 9, 60 * minutes, 20, "")
    return [(f"each number of units, predictor and number of workers, over and over ({rounds} whole rounds)", sum(answers.values()), dict(answers), differences)]


def main():
    options = argparse.ArgumentParser(description=__doc__, formatter_class=argparse.RawDescriptionHelpFormatter)
    options.add_argument("program", metavar="PROGRAM")
    options.add_argument("--rounds", type=int, default=50)
    options.add_argument("--random", type=int, default=0)
    options.add_argument("--seconds", type=float, default=1e9)
    options.add_argument("--only", default="")
    given = options.parse_args()
    answers, differences, rounds = perform(given.program, given.rounds, given.seconds, given.random, given.only)
    print(*differences, sep="\n", end="\n" if differences else "")
    print(f"{sum(answers.values())} runs, {len(differences)} wrong; {rounds} rounds")
    sys.exit(1 if differences else 0)


if __name__ == "__main__":
    main()
