#!/usr/bin/env python3
"""Plays what `demonstrate` shows on the model, and counts how often it shows something.

Takes random programs whose marks are right, and plants wrong marks. The events that are written must be allowed
by the model's machine, each where it comes, and what the last line says must be so: the first word that was read and
is not the plain run's, the exit that is not listed, or the word of the head; and where the right word was written. The picture must
mark the event that reads it, and no other. Of right marks it must say that they are
right, and where the run ends as unlisted, from where to where it goes. The model looks for a harm of its own, in the run in which one task follows another: what of this is not
shown is counted, since a unit that executes ahead may put the right word over a wrong one. Programs whose code can run
off its end, or with a jump to a register that does not end its task, are passed over: the model has none. PROGRAM is the
built `multiscalar`.
"""
import argparse
import collections
import os
import random
import re
import subprocess
import sys
import tempfile
import time

import accepted as generator
import explain
import programs
from accepted import accepted
from model import CODE0, Fault, Machine, Plain, Refuse, assemble, certify, dests, print_program, script_parse, sources, verdict

EVENTS = 4000
MARKED = re.compile(r"<title>event (\d+), unit \d+: (.*)</title><line class='instruction shown'")
READS = re.compile(r"line (\d+): task (\w+) reads (\d+) in \$(\d+); the sequential program has (\d+), (.+)")
ENDS = re.compile(r"line (\d+): task (\w+) continues to (?:line (\d+)|0x([0-9a-f]+)), which is none of its targets, and the run ends; "
                  r"the sequential program continues there")
HAS = re.compile(r"task (\w+) has (\d+) in \$(\d+); the sequential program has (\d+), (.+)")


def seen(machine):
    """What the retired tasks and the head have read."""
    return machine.reads + (machine.queue[0].log if machine.queue else [])


def compared(program, reads):
    """The plain machine after as many steps, and the number of the first read that is not its own, if there is one."""
    plain = Plain(program)
    for number, read in enumerate(reads):
        ended = plain.outcome != "running"
        plain.step(log=True)
        if ended or plain.reads[-1] != read:
            return plain, number
    return plain, None


def wrong_word(machine, plain):
    """The least register in which the head has a wrong word, with both words."""
    head = machine.queue[0] if machine.queue else None
    for register in range(34) if head else ():
        word = head.value(register)
        if word is not None and word != plain.reg[register]:
            return register, word, plain.reg[register]
    return None


def is_cut(program, machine, plain):
    """Whether the run has ended at an exit that names its place, and the plain machine goes on there."""
    if not isinstance(machine.outcome, tuple) or plain.outcome != "running" or plain.pc != machine.outcome[1]:
        return False
    last = (seen(machine)[-1][0] - CODE0) // 4
    return program.code[last][0][0] not in ("jr", "jalr")


def own_harm(program):
    """What the run shows in which one task follows another."""
    machine, held = Machine(program, 1), None
    plain = Plain(program)
    for _ in range(EVENTS):
        while held is None and plain.outcome == "running" and len(plain.reads) < len(seen(machine)):
            plain.step(log=True)
        if held is None and len(plain.reads) == len(seen(machine)):
            held = wrong_word(machine, plain)
        try:
            event = machine.head_event()
            if event is None:
                break
            machine.apply(event)
        except (KeyError, Refuse, AssertionError):
            break
    plain, stale = compared(program, seen(machine))
    return "reads" if stale is not None else "ends" if is_cut(program, machine, plain) else "has" if held else None


def task_of(program, machine, number):
    """The name of the task that made the read of this number."""
    for task, _, count in machine.commits:
        if number < count:
            return program.tasks[task][0]
        number -= count
    return program.tasks[machine.queue[0].task][0]


def line_of(text, pc):
    """The line of the instruction at an address."""
    return explain.places(text)[1][(pc - CODE0) // 4][0]


def origin(program, text, register, steps):
    """Where the plain machine wrote a register last in so many steps."""
    plain, last = Plain(program), None
    for _ in range(steps):
        pc = plain.pc
        plain.step()
        if plain.outcome == "running" and register in dests(program.code[(pc - CODE0) // 4][0]):
            last = pc
    return "as at the start" if last is None else f"written at line {line_of(text, last)}"


def unlisted_line(program, text):
    """What is said of right marks where the run ends as unlisted; nothing where it does not, and None where it is too long for the model."""
    machine = Machine(program, 1)
    for _ in range(EVENTS):
        event = machine.head_event()
        if event is None:
            break
        machine.apply(event)
    if machine.outcome == "running":
        return None
    if not isinstance(machine.outcome, tuple):
        return ""
    address = machine.outcome[1]
    index, odd = divmod(address - CODE0, 4)
    to = f"0x{address:08x}" if odd or not 0 <= index < len(program.code) else f"line {line_of(text, address)}"
    task, last = program.tasks[machine.queue[0].task][0], line_of(text, seen(machine)[-1][0])
    return f"but the run ends as unlisted: task {task} goes from line {last} to {to}, which is none of its targets\n"


def told(program, text, machine, plain, stale, line):
    """Whether the last line says what the events show."""
    if found := READS.fullmatch(line):
        where, task, word, register, right, written = found.groups()
        if stale is None:
            return False
        pc, a, b = seen(machine)[stale]
        _, right_a, right_b = plain.reads[stale]
        first, second = sources(program.code[(pc - CODE0) // 4][0])
        wanted = (first, a, right_a) if a != right_a else (second, b, right_b)
        return (int(where), task, (int(register), int(word), int(right)), written) == (
            line_of(text, pc), task_of(program, machine, stale), wanted, origin(program, text, wanted[0], stale))
    if found := ENDS.fullmatch(line):
        return (stale is None and is_cut(program, machine, plain) and int(found[1]) == line_of(text, seen(machine)[-1][0])
                and found[2] == program.tasks[machine.queue[0].task][0]
                and (int(found[4], 16) == plain.pc if found[4] else int(found[3]) == line_of(text, plain.pc)))
    if found := HAS.fullmatch(line):
        return stale is None and wrong_word(machine, plain) == (int(found[3]), int(found[2]), int(found[4])) and (
            found[1] == program.tasks[machine.queue[0].task][0] and found[5] == origin(program, text, int(found[3]), len(seen(machine))))
    return False


class Bench:
    def __init__(self, program):
        self.program = os.path.abspath(program)
        self.folder = tempfile.mkdtemp(prefix="demonstrate")
        self.counts = collections.Counter()

    def call(self, text, *words):
        with open(os.path.join(self.folder, "p.s"), "wb") as file:
            file.write(text.encode("latin-1"))
        run = subprocess.run([self.program, "demonstrate", "--units", "3", *words, "p.s"], cwd=self.folder, capture_output=True)
        return run.stdout.decode("latin-1"), run.returncode

    def wrong(self, text):
        """What is wrong with what is written of a text; None where nothing is."""
        try:
            program = assemble(text.encode("latin-1"))
        except Fault:
            return None
        findings = verdict(program, certify(program))
        if any(finding[2] in (10, 11) for finding in findings):
            return None
        said, status = self.call(text)
        if not findings:
            self.counts["right"] += 1
            first, unlisted = "the marks are right: no run shows anything\n", unlisted_line(program, text)
            self.counts["of these the run ends as unlisted"] += bool(unlisted)
            is_right = said.startswith(first) if unlisted is None else said == first + unlisted
            return None if is_right and status == 0 else "right marks"
        harm = own_harm(program)
        self.counts["wrong"] += 1
        self.counts["of these the model shows"] += harm is not None
        if status == 3:
            return f"not shown: a task {harm}" if harm else None
        lines = said.split("\n")
        kind = next((kind for kind in (" reads ", " continues to ", " has ") if kind in lines[-2]), " none ").split()[0]
        self.counts[f"shown: a task {kind}"] += 1
        return self.replayed(program, text, lines)

    def replayed(self, program, text, lines):
        """What is wrong with a list of events and what is said of it."""
        units = re.fullmatch(r"on (\d+) units?:", lines[0])
        if not units or lines[-1]:
            return "the form"
        machine, retired, by_unit = Machine(program, int(units[1])), [], collections.defaultdict(list)
        for number, event in enumerate(script_parse("".join(line + "\n" for line in lines[1:-2]).encode("latin-1"), program), 1):
            if event[0] == "exec":
                by_unit[machine.queue[event[1]]].append(number)
            elif event[0] == "retire":
                retired += by_unit[machine.queue[0]]
            try:
                machine.apply(event)
            except Refuse as refused:
                return f"event {event} is refused: {refused.k}"
        plain, stale = compared(program, seen(machine))
        if not told(program, text, machine, plain, stale, lines[-2]):
            return f"the last line: {lines[-2]}"
        wanted = [] if stale is None else [(str((retired + by_unit[machine.queue[0]])[stale]), lines[-2])]
        return None if MARKED.findall(self.call(text, "--emit", "svg")[0]) == wanted else "the mark in the picture"


def main():
    options = argparse.ArgumentParser(description=__doc__, formatter_class=argparse.RawDescriptionHelpFormatter)
    options.add_argument("program", metavar="PROGRAM")
    options.add_argument("--seconds", type=float, default=60)
    options.add_argument("--seed", type=int, default=int(time.time()))
    given = options.parse_args()
    for source in (random, generator.R, explain.R, programs.R):
        source.seed(given.seed)
    bench, end = Bench(given.program), time.time() + given.seconds
    while time.time() < end:
        text = explain.plant(print_program(accepted()[0]))
        what = bench.wrong(text)
        if what:
            print(f"seed {given.seed}: {what}\n{text}\n{bench.call(text)[0]}")
            sys.exit(1)
    print(", ".join(f"{n} {what}" for what, n in bench.counts.items()), f"seed {given.seed}")


if __name__ == "__main__":
    main()
