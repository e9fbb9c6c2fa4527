#!/usr/bin/env python3
"""Compares the waveforms of runs in steps with the machine of model.py.

    waveform.py PROGRAM [--seconds S] [--seed N]

It runs the built `multiscalar`. For each example that is accepted, and then for
random accepted programs (accepted.py), it draws units, a budget and a predictor. It
makes the events of `run --least --schedule steps --emit script` on the machine of
model.py, reads the dump of `--emit vcd` with a parser of its own, and compares what
each signal shows at each time with that machine. What differs is told, and the script
ends with status 1. It is no part of the tests.
"""
import argparse
import itertools
import pathlib
import random
import sys
import tempfile
import time

import curve
import model

RING = ("head", "T", "C", "H", "words", "word")
UNIT = ("task", "index", "state", "waits", "register", "arrived", "sent")


def wait(machine, k):
    """The number of what keeps the unit at position k, and the register that it waits for."""
    unit = machine.queue[k]
    if unit.place[0] == "stop":
        unsent = sorted(r for r in machine.create(unit) if r not in unit.sent)
        has_value = unsent and unit.value(unsent[0]) is not None
        return (5, None) if not unsent else (0, None) if has_value else (4, unsent[0])
    outcome, machine.outcome, why = machine.outcome, "running", None
    try:
        machine.test(("exec", k))
    except model.Refuse as refusal:
        why = refusal
    machine.outcome = outcome
    if why is None or why.k != 6:
        return 3 if why else 0, None
    giver = [machine.queue[0], *(u for u in machine.queue[:k] if why.r in machine.create(u))][-1]
    return 1 if machine.passes(giver, why.r) is None else 2, why.r


def of_unit(machine, k, acting):
    """What the signals of the unit at position k show, where the units at some positions act."""
    if k >= len(machine.queue):
        return None, None, 0, 0, None, None, None
    unit = machine.queue[k]
    place = (unit.place[1], 1) if unit.place[0] == "in" else (None, 2)
    waits = (0, None) if k == 0 or k in acting else wait(machine, k)
    return unit.task, *place, *waits, *(sum(1 << r for r in words) for words in (unit.arrived, unit.sent))


def shown(machine, acting):
    """What all signals show, by name."""
    head, output = len(machine.commits) % machine.units, machine.output
    ring = head, len(machine.commits), *machine.counts(), len(output), output[-1] if output else None
    values = {f"ring.{name}": value for name, value in zip(RING, ring)}
    for number in range(machine.units):
        names = (f"ring.unit{number}.unit{number}_{name}" for name in UNIT)
        values |= zip(names, of_unit(machine, (number - head) % machine.units, acting))
    for number in range(machine.units):
        task = values[f"ring.unit{number}.unit{number}_task"]
        values[f"ring.unit{number}.unit{number}_name"] = "-" if task is None else machine.p.tasks[task][0]
    return values


def moments(program, units, events):
    """What the signals show in each step of some events, and at the end. An event at position 0 ends a step."""
    machine, begun, active = model.Machine(program, units), {}, 0
    for event in events:
        position = active if event[0] == "assign" else event[1] if len(event) > 1 else 0
        begun[position] = event
        if position == 0:
            yield shown(machine, begun)
            for done in begun.values():
                machine.apply(done)
            begun, active = {}, len(machine.queue)
    for done in begun.values():
        machine.apply(done)
    yield shown(machine, {})


def parse(text):
    """The values at each time of a dump, by name. Values of before, or of more bits than declared, are a fault."""
    words, scope, signals, values, times = iter(text.split()), [], {}, {}, []
    for word in words:
        if word == "$scope":
            scope.append([next(words), next(words)][1])
        elif word == "$upscope":
            scope.pop()
        elif word == "$var":
            _, width, code, name = (next(words) for _ in range(4))
            signals[code] = (".".join([*scope, name]), int(width))
        elif word[0] == "#":
            times.append((int(word[1:]), values := dict(values)))
        elif word[0] == "b":
            (name, width), value = signals[next(words)], None if word == "bz" else int(word[1:], 2)
            assert len(word) - 1 <= width and values.get(name, ...) != value, f"{word} {name}"
            values[name] = value
        elif word[0] == "s":
            values[signals[next(words)][0]] = word[1:]
        if word[0] == "$" and word not in ("$dumpvars", "$end"):
            while next(words) != "$end":
                pass
    assert not scope and [at for at, _ in times] == list(range(len(times))), "scopes or times"
    return [values for _, values in times]


def faults(program, path, units, budget, predict):
    """What is wrong with the dump of a program's file."""
    words = ["run", "--least", "--schedule", "steps", "--units", str(units)]
    words += ["--budget", str(budget), "--predict", predict, path]
    told, told_status, _ = curve.call(program, *words, "--emit", "script")
    text, status, said = curve.call(program, *words, "--emit", "vcd")
    parsed = model.assemble(pathlib.Path(path).read_bytes())
    wanted, found = list(moments(parsed, units, model.script_parse(told.encode(), parsed))), parse(text)
    if said or (status, len(found)) != (told_status, len(wanted)):
        yield f"status {status}, wanted {told_status}; {len(found)} times, wanted {len(wanted)}: {said}"
    for at, (values, right) in enumerate(zip(found, wanted)):
        right["ring.step"] = at + 1
        for name in right:
            if values.get(name, ...) != right[name]:
                yield f"time {at}, {name}: {values.get(name, ...)}, wanted {right[name]}"


def main():
    options = argparse.ArgumentParser(description=__doc__, formatter_class=argparse.RawDescriptionHelpFormatter)
    options.add_argument("program", metavar="PROGRAM")
    options.add_argument("--seconds", type=float, default=60)
    options.add_argument("--seed", type=int, default=int(time.time()))
    given = options.parse_args()
    program, draw = str(pathlib.Path(given.program).resolve()), random.Random(given.seed)
    fixed = ((text, 4, 1000, way) for text in curve.examples(program) for way in ("first", "last", "1,0"))
    more = (curve.drawn(text, draw) for text in curve.random_programs(given.seed))
    tried, told, end = 0, 0, time.time() + given.seconds
    with tempfile.TemporaryDirectory() as folder:
        path = pathlib.Path(folder) / "program.s"
        for text, units, budget, predict in itertools.chain(fixed, more):
            if time.time() > end:
                break
            path.write_text(text)
            tried += 1
            for fault in faults(program, str(path), units, budget, predict):
                told += 1
                print(f"{text}\nunits {units}, budget {budget}, predict {predict}: {fault}", flush=True)
    print(f"{tried} dumps, {told} differences")
    sys.exit(1 if told else 0)


if __name__ == "__main__":
    main()
