#!/usr/bin/env python3
"""Compares the tables of `curve` with a schedule of this file's own, and with `run`.

    curve.py PROGRAM [--seconds S] [--seed N]
    curve.py --model FILE [--units N] [--budget N] [--predict first|last|LIST]

The first form runs the built `multiscalar`. For each example that is accepted, and
then for random accepted programs (accepted.py), it draws units, a budget and a
predictor, and compares the table and the status of `curve --least` with those that
the steps below give on the machine of model.py, and each row with the numbers that
`run --schedule steps --emit summary` writes for as many units. What differs is told,
and the script ends with status 1. The second form writes the table of the steps
below. It is no part of the tests.
"""
import argparse
import decimal
import pathlib
import random
import subprocess
import sys
import tempfile
import time

import ending
import model

TOP = pathlib.Path(__file__).resolve().parent.parent
HEADING = "units    steps  retired  per step  speed-up   wasted  end\n"
STATUS = {"halted": 0, "trapped": 1, "unlisted": 1, "out of budget": 3}


class Steps:
    """A run in steps: in each step every unit does at most one event, the unit farthest from the head first."""

    def __init__(self, program, units, budget, predict, most=None):
        """With `most`, the run is given up after so many events, and is then not over."""
        self.machine = model.Machine(program, units)
        self.lives = model.Lives(self.machine)
        self.budget, self.predict, self.asked, self.steps, self.most = budget, predict, 0, 0, most
        while self.goes_on():
            for position in reversed(range(units)):
                if self.goes_on():
                    self.turn(position)
            self.steps += 1

    def over(self):
        return self.machine.outcome != "running" or self.machine.length >= self.budget

    def goes_on(self):
        return not self.over() and (self.most is None or self.machine.length < self.most)

    def turn(self, position):
        active = len(self.machine.queue)
        if position == 0:
            self.lives.apply(self.machine.head_event())
        elif position < active:
            self.first(self.tries(position))
        elif position == active:
            self.first(self.task())

    def first(self, events):
        """The first of some events that the machine allows, if there is one."""
        for event in events:
            try:
                return self.lives.apply(event)
            except model.Refuse:
                pass

    def tries(self, position):
        yield ("squash", position)
        yield ("exec", position)
        for kind in ("transfer", "drain"):
            for register in range(34):
                yield (kind, position, register)

    def task(self):
        tail = self.machine.queue[-1]
        if tail.place[0] == "stop":
            if tail.place[1] in self.machine.entry:
                yield ("assign", self.machine.entry[tail.place[1]])
            return
        targets = self.machine.targets(tail)
        if targets:
            yield ("assign", self.machine.entry[targets[self.answer(targets) % len(targets)]])

    def answer(self, targets):
        if self.predict in ("first", "last"):
            return 0 if self.predict == "first" else len(targets) - 1
        answers = [int(word) for word in self.predict.split(",")]
        self.asked += 1
        return answers[(self.asked - 1) % len(answers)]

    def executed(self, *endings):
        return sum(life["executed"] for life in self.lives.all if life["ending"] in endings)

    def row(self):
        outcome = self.machine.outcome
        end = {"running": "out of budget", "halted": "halted"}.get(outcome) if isinstance(outcome, str) else None
        end = end or ("trapped" if isinstance(outcome, int) else "unlisted")
        return self.steps, self.executed("retired"), self.executed("squashed", "dropped"), end


def ratio(part, whole):
    """Two decimals, rounded to the nearest, and up from the middle."""
    quotient = decimal.Decimal(part) / decimal.Decimal(whole) if whole else decimal.Decimal(0)
    return str(quotient.quantize(decimal.Decimal("0.01"), decimal.ROUND_HALF_UP))


def table(rows):
    """The text and the status of some rows, of which the first is that of one unit."""
    text, one = HEADING, rows[0]
    for units, (steps, retired, wasted, end) in enumerate(rows, 1):
        same = "out of budget" not in (one[3], end) and retired > 0
        speed = ratio(one[0], steps) if same else "-"
        share = ratio(100 * wasted, retired + wasted)
        text += f"{units:5}{steps:9}{retired:9}{ratio(retired, steps):>10}{speed:>10}{share:>8}%  {end}\n"
    return text, next((STATUS[row[3]] for row in rows if row[3] != "halted"), 0)


def rows_of(program, units, budget, predict):
    return [Steps(program, count, budget, predict).row() for count in range(1, units + 1)]


def call(program, *words):
    done = ending.run([program, *words], capture_output=True, text=True)
    return done.stdout, done.returncode, done.stderr


def faults(program, path, units, budget, predict):
    """What is wrong with the table of a program's file."""
    options = ["--budget", str(budget), "--predict", predict, "--least", path]
    text, status, said = call(program, "curve", "--units", str(units), *options)
    parsed = model.assemble(pathlib.Path(path).read_bytes())
    wanted = table(rows_of(parsed, units, budget, predict))
    if (text, status) != wanted or said:
        yield f"status {status}, wanted {wanted[1]}; wrote\n{text}wanted\n{wanted[0]}{said}"
    for count, line in enumerate(text.splitlines()[1:], 1):
        run, ended, _ = call(program, "run", "--schedule", "steps", "--emit", "summary", "--units", str(count), *options)
        *_, whole, last = run.splitlines()
        useful, wasted = (int(word) for word in whole.split()[5:7])
        words = last.split()
        steps, retired = int(words[1].rstrip(",")), int(words[4])
        number, of_steps, of_retired, rate, _, share, end = line.split(maxsplit=6)
        told = (int(number), int(of_steps), int(of_retired), rate, share, STATUS[end])
        if told != (count, steps, retired, ratio(retired, steps), ratio(100 * wasted, retired + wasted) + "%", ended):
            yield f"row {line}\nbut run writes {whole}\n{last} with status {ended}"
        if useful != retired:
            yield f"{useful} useful instructions, {retired} retired"


def examples(program):
    for path in sorted(TOP.glob("examples/*/program.s")):
        if call(program, "check", "--least", str(path))[1] == 0:
            yield path.read_text()


def random_programs(seed):
    import accepted

    accepted.R.seed(seed)
    while True:
        yield model.print_program(accepted.accepted()[0])


def drawn(source, draw):
    units = draw.choice([1, 2, 3, 4, 5, 8, 16])
    budget = draw.choice([1, 2, 7, 20, 60, 300, 1000])
    predict = draw.choice(["first", "last", "1,0", "2", "0,3,15"])
    return source, units, budget, predict


def compare(program, seconds, seed):
    draw, told, tried, end = random.Random(seed), 0, 0, time.time() + seconds
    fixed = [(text, 16, 1000, way) for text in examples(program) for way in ("first", "last", "1,0")]
    more = (drawn(text, draw) for text in random_programs(seed))
    with tempfile.TemporaryDirectory() as folder:
        path = pathlib.Path(folder) / "program.s"
        for text, units, budget, predict in (case for cases in (fixed, more) for case in cases):
            if time.time() > end:
                break
            path.write_text(text)
            tried += 1
            for fault in faults(program, str(path), units, budget, predict):
                told += 1
                print(f"{text}\nunits {units}, budget {budget}, predict {predict}: {fault}", flush=True)
    print(f"{tried} tables, {told} differences")
    return told


def main():
    options = argparse.ArgumentParser(description=__doc__, formatter_class=argparse.RawDescriptionHelpFormatter)
    options.add_argument("program", metavar="PROGRAM", nargs="?")
    options.add_argument("--seconds", type=float, default=60)
    options.add_argument("--seed", type=int, default=int(time.time()))
    options.add_argument("--model", metavar="FILE", type=pathlib.Path)
    options.add_argument("--units", type=int, default=16)
    options.add_argument("--budget", type=int, default=1_000_000)
    options.add_argument("--predict", default="first")
    given = options.parse_args()
    if given.model:
        program = model.assemble(given.model.read_bytes())
        sys.stdout.write(table(rows_of(program, given.units, given.budget, given.predict))[0])
        return
    if not given.program:
        options.error("give PROGRAM, or --model FILE")
    sys.exit(1 if compare(str(pathlib.Path(given.program).resolve()), given.seconds, given.seed) else 0)


if __name__ == "__main__":
    main()
