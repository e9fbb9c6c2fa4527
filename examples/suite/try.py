#!/usr/bin/env python3
"""Tries the suite, on the toy simulator and on PROGRAM, the built `multiscalar`.

All scripts must be as expected in both and end the same, and so must the simulator's own logs by `replay --strict`. Each
script of a run must be as expected with `--complete`, also with the events of each task where it retires.
Each mistake of simulator.py's BUGS must be found both ways: by a script that the wrong simulator plays, and in a log
that it writes. One that only allows too much is found by the scripts of refused events.
"""
import argparse
import pathlib
import subprocess
import sys

import refusals
from make import UNITS, runs, script_of
from program_text import KINDS, Program
from simulator import BUGS, EVENTS, Machine, log, play

HERE = pathlib.Path(__file__).resolve().parent
FOLDERS = ("scripts", "by-hand", "refused")


class Watched(Machine):
    """A machine that notes which events it has had, and which instructions."""
    seen = set()

    def play(self, event):
        executes = event[0] == "exec" and event[1] < len(self.queue)
        instruction = self.instruction(self.queue[event[1]]) if executes else None
        did = super().play(event)
        self.seen.update([event[0], instruction.name] if executes else [event[0]])
        return did


def units_of(script):
    """NAME and UNITS of a script NAME-UNITS-HOW.script."""
    name, units, _ = script.stem.rsplit("-", 2)
    return name, int(units)


def is_departure(said):
    return not said.startswith("as expected")


def as_retired(lines):
    """The script of a run with the events of each task where it retires, as a simulator writes it that speculates on memory."""
    queue = []
    for line in lines:
        event, colon, did = line.partition(" : ")
        kind, *words = event.split()
        if kind == "assign":
            queue.append([f"{event}\n"])
        elif kind in ("exec", "drain"):
            queue[int(words[0])].append(" ".join([kind, "0", *words[1:]]) + f"{colon}{did}\n")
        elif kind in ("squash", "drop"):
            del queue[int(words[0]) + (kind == "squash"):]
        elif kind != "transfer":
            yield from [*queue.pop(0), f"{line}\n"]
        if kind == "fault":
            return
    yield from queue[0] if queue else []


def with_events(said, count):
    """That a script of so many events is as expected, and ends as is said."""
    return f"as expected: {count} event{'s' * (count != 1)};{said.partition(';')[2]}"


class Suite:
    def __init__(self, binary):
        self.binary, self.failed = binary, False
        self.scripts = sorted(path for folder in FOLDERS for path in HERE.glob(f"{folder}/*.script"))
        self.programs = {file.stem: Program(file.read_text()) for file in sorted(HERE.glob("programs/*.s"))}

    def tell(self, right, text):
        self.failed |= not right
        print(f"{'ok' if right else 'WRONG'}: {text}", flush=True)

    def told(self, what, lines):
        """LINES has of each script or log its name, what is said of it, and what must be."""
        wrong = [f"    {name}: {said}" for name, said, wanted in lines if said != wanted or is_departure(said)]
        self.tell(not wrong, f"{what}: {len(lines) - len(wrong)} of {len(lines)} as expected")
        for line in wrong:
            print(line)

    def in_simulator(self, script, bug=None):
        name, units = units_of(script)
        return play(Watched(self.programs[name], units, bug), script.read_text(), exact=True)

    def by_replay(self, name, units, script, *options):
        """The first line that `replay --strict` says."""
        words = ["replay", "--strict", *options, "--least", "--units", str(units), HERE / "programs" / f"{name}.s", "-"]
        run = subprocess.run([self.binary, *words], input=script, capture_output=True, text=True)
        return (run.stdout + run.stderr).partition("\n")[0]

    def logs(self, bug=None):
        for name, program in self.programs.items():
            for units in UNITS:
                machine = Machine(program, units, bug)
                lines = list(log(machine, seed=units))
                events = sum(not line.startswith("step") for line in lines)
                said = f"as expected: {events} event{'s' * (events != 1)}; the run {machine.end or 'goes on'}"
                yield f"{name}, units {units}", self.by_replay(name, units, "\n".join(lines)), said

    def as_made(self):
        """That the scripts of runs and of refused events are as make.py and refusals.py make them."""
        made = {f"scripts/{name}-{units}-{predict}.script": script_of(self.binary, name, units, predict)
                for name, units, predict in runs()}
        made.update({f"refused/{name}": text for name, text in refusals.made()[0].items()})
        stored = {f"{path.parent.name}/{path.name}": path.read_text() for path in self.scripts if path.parent.name != "by-hand"}
        other = sorted(name for name in made.keys() | stored.keys() if made.get(name) != stored.get(name))
        self.tell(not other, f"scripts that are not as made: {', '.join(other) or 'none'}")

    def run(self):
        right = {script: self.in_simulator(script) for script in self.scripts}
        self.told("scripts in the simulator", [(script.name, said, said) for script, said in right.items()])
        missing = sorted({*EVENTS, *KINDS, "release"} - Watched.seen)
        self.tell(not missing, f"events and instructions that no script has: {', '.join(missing) or 'none'}")
        replayed = [(script.name, self.by_replay(*units_of(script), script.read_text()), said)
                    for script, said in right.items()]
        self.told("scripts by replay --strict", replayed)
        self.told("logs of the simulator by replay --strict", list(self.logs()))
        played = [(script, *units_of(script)) for script in self.scripts if script.parent.name == "scripts"]
        self.told("scripts of runs with --complete", [(script.name, self.by_replay(name, units, script.read_text(), "--complete"), right[script])
                                                      for script, name, units in played])
        self.as_made()
        retired = {script: "".join(as_retired(script.read_text().splitlines())) for script, _, _ in played}
        self.told("logs of tasks as they retire with --complete", [
            (script.name, self.by_replay(name, 1, retired[script], "--complete"), with_events(right[script], retired[script].count("\n")))
            for script, name, _ in played])
        for bug in BUGS:
            found = [script for script, said in right.items() if self.in_simulator(script, bug) != said]
            logged = next((f"the log of {name}" for name, said, _ in self.logs(bug) if is_departure(said)), None)
            self.tell(logged and found,
                      f"bug {bug}: found by {len(found)} of {len(self.scripts)} scripts, and in {logged or 'no log'}")


def main():
    options = argparse.ArgumentParser(description=__doc__, formatter_class=argparse.RawDescriptionHelpFormatter)
    options.add_argument("program", metavar="PROGRAM", type=pathlib.Path)
    suite = Suite(options.parse_args().program.resolve())
    suite.run()
    sys.exit(1 if suite.failed else 0)


if __name__ == "__main__":
    main()
