#!/usr/bin/env python3
"""Measures what units bring to the programs of compiler/programs: steps against the best cut on one unit.

    compiler/try_steps.py [--level 2] [--units 4] [--search 2] [--workers 1] [NAME..]
    compiler/try_steps.py > docs/FROM_C_STEPS.txt

Each program is translated for its first input. The cut that was chosen is then measured on the second input, too, of
which the search knew nothing (programs/input.h), against the best cut on one unit there. Steps are the same on each
machine. What it prints is that file; each row comes as it is known.
"""

import argparse
import math
import re
import sys
from concurrent.futures import ProcessPoolExecutor
from dataclasses import dataclass
from itertools import repeat
from pathlib import Path

from bounds import Bound, bound_of
from choice import Choice, Settings, judge, units_text
from compiling import Compiling, program_of
from instructions import Instruction
from linking import Program
from search import Trials, chosen, distinct_shapes, rival
from tool import Tool, ToolFailed

HERE = Path(__file__).resolve().parent
# The programs that take hardly any memory: the share of loads, stores and outputs in what they run.
LITTLE = 0.05
# They try what a program returns, and are too short to be measured.
NOT_MEASURED = {"exits", "results", "nothing_said", "strings", "switches", "pointers"}


@dataclass
class Row:
    name: str
    on_one: int
    steps: int
    on_second: float | None
    bound: Bound
    waits: str

    @property
    def speed_up(self) -> float:
        return self.on_one / self.steps

    def text(self) -> str:
        second = f"{self.on_second:.2f}" if self.on_second else "-"
        most = f"{self.on_one / self.bound.steps:.2f}, {self.bound.why}"
        numbers = f"{self.on_one} | {self.steps} | {self.speed_up:.2f} | {second} | {most} | {100 * self.bound.memory:.0f}%"
        return f"| {self.name} | {numbers} | {self.waits} |"


TOP = """What units bring to programs from C. Printed by compiler/try_steps.py; not to be edited.

Steps of the programs of `compiler/programs`, translated for {units} by {compiler} at -O{level}, each searched for about {seconds:g} seconds (`--search`).

- *One unit*: the best cut there, of all shapes of the code; *steps*: the chosen cut on {units}.
- *Second*: the speed-up on another input, `-DSECOND`, by the cut that was chosen on the first; - where the compiler makes other code of it.
- *At most*: what no cut of the chosen code can pass, because a unit executes one *instruction* in a step, because data *memory* and the output are the head's alone, or because in *a chain* each instruction needs the one before.
- *Memory*: the share of loads, stores and outputs. *Waits*: most of what units wait for: a register *not sent* by another task, or the head's *turn*.

| Program | One unit | Steps | Speed-up | Second | At most | Memory | Waits |
|---|---|---|---|---|---|---|---|"""


def translated(name: str, level: str, macros: list[str]) -> Program:
    source = HERE / "programs" / f"{name}.c"
    files = [source, source.with_suffix(".S")] if source.with_suffix(".S").exists() else [source]
    return program_of([str(it) for it in files], Compiling(level=level, macros=macros, shows_warnings=False), 1024)


def row(command: str, name: str, level: str, settings: Settings) -> Row:
    tool = Tool(command)
    found = chosen(Trials(translated(name, level, []), settings, tool, []))
    best = found.best
    second = on_second_input(tool, name, level, settings, best)
    bound = bound_of(best, tool, settings.units)
    return Row(name, found.rival.on_one.steps, best.last.steps, second, bound, waits(tool, best.text, settings.units))


def on_second_input(tool: Tool, name: str, level: str, settings: Settings, best: Choice) -> float | None:
    """The same cut on another input; None if the compiler makes other code of that."""
    trials = Trials(translated(name, level, ["SECOND"]), settings, tool, [])
    codes = distinct_shapes(trials)
    shape = trials.shape(best.way.code)
    first = Trials(translated(name, level, []), settings, tool, []).shape(best.way.code)
    if [kind(it) for it in shape.program.code] != [kind(it) for it in first.program.code]:
        return None
    own, shape.trace = shape.run_in_order(), first.run_in_order()  # the order of targets is that of the first input
    again = judge(trials.made(best.way), tool)
    again.on_one, again.last = tool.steps(again.text, 1), tool.steps(again.text, settings.units)
    shape.trace = own
    return rival(trials, codes, again).on_one.steps / again.last.steps


def kind(it: Instruction) -> tuple:
    """What two inputs share; a number may be loaded in one of two ways."""
    return ("ori" if it.name == "addiu" else it.name, len(it.registers))


def waits(tool: Tool, text: str, units: int) -> str:
    """What units wait for most, of what they wait for."""
    said = tool.on(text, "run", "--least", "--schedule", "steps", "--units", str(units), "--emit", "waits").stdout
    counts: dict[str, int] = {}
    for count, why in re.findall(r"^ *(\d+)  \(all for .*?(not sent|on their way|turn)\)$", said, re.M):
        counts[why] = int(count)
    if not any(counts.values()):
        return "-"
    why = max(counts, key=counts.get)
    return f"{why} {100 * counts[why] // sum(counts.values())}%"


def mean(numbers: list[float]) -> float:
    return math.exp(sum(map(math.log, numbers)) / len(numbers)) if numbers else float("nan")


def means(rows: list[Row]) -> str:
    lines = ["", "| Geometric means | Programs | Speed-up | Second |", "|---|---|---|---|"]
    for name, some in {
        "all": rows,
        f"with a share of memory below {LITTLE:.0%}": [it for it in rows if it.bound.memory < LITTLE],
        "the others": [it for it in rows if it.bound.memory >= LITTLE],
    }.items():
        if some:
            second = mean([it.on_second for it in some if it.on_second])
            lines.append(f"| {name} | {len(some)} | {mean([it.speed_up for it in some]):.2f} | {second:.2f} |")
    return "\n".join(lines)


def main() -> int:
    parser = argparse.ArgumentParser(description=__doc__, formatter_class=argparse.RawDescriptionHelpFormatter)
    parser.add_argument("names", nargs="*", metavar="NAME", help="programs of compiler/programs (all)")
    parser.add_argument("--level", choices=list("0123"), default="2", help="the compiler's optimization (2)")
    parser.add_argument("--units", type=int, default=4, metavar="N", help="for how many units cuts are chosen (4)")
    parser.add_argument("--search", type=float, default=2.0, metavar="SECONDS", help="about how long each is searched for (2)")
    parser.add_argument("--workers", type=int, default=1, metavar="N", help="how many processes share the work (1)")
    parser.add_argument("--multiscalar", metavar="COMMAND", help="the command multiscalar")
    words = parser.parse_args()
    names = words.names or sorted(it.stem for it in (HERE / "programs").glob("*.c") if it.stem not in NOT_MEASURED)
    settings = Settings(units=words.units, seconds=words.search)
    try:
        command = Tool(words.multiscalar).command
    except ToolFailed as failed:
        raise SystemExit(f"try_steps: {failed}") from None
    about = {"units": units_text(words.units), "compiler": Compiling().version(), "level": words.level, "seconds": words.search}
    print(TOP.format(**about), flush=True)
    rows: list[Row] = []
    with ProcessPoolExecutor(words.workers) as pool:
        for it in pool.map(row, repeat(command), names, repeat(words.level), repeat(settings)):
            rows.append(it)
            print(it.text(), flush=True)
    print(means(rows))
    return 0


if __name__ == "__main__":
    sys.exit(main())
