#!/usr/bin/env python3
"""Compares the timelines of runs with the lives of their scripts.

    timeline.py PROGRAM [--seconds S] [--seed N] [FOLDER ..]

PROGRAM is the built `multiscalar`. For each example whose program `check --least` accepts it makes runs on 1, 2, 4
and 16 units: in steps, by `run --emit perfetto`, and by threads, whose script it records and replays by
`replay --emit perfetto`. With --seconds it cuts these runs short, goes on with random programs (accepted.py), and ends when
the time is up. From the script alone, by the model of picture.py, it computes the lives of the tasks, the
registers passed on and the squashes; and the time of each event, which is its number, or for a run in steps that of
its step. The timeline must be JSON with exactly these: a lane for each unit; for each life one slice with its unit,
task, time, instructions and ending; for each register passed on one arrow, which begins and ends inside a slice of
its unit; and for each squash one instant. A run of at most 2,000 steps has slices where a unit has a task and does nothing.
Slices of tasks on one lane may not overlap. The lives must be as many as the
summary says. What differs is told, and the script ends with status 1. It is no part of the tests.
"""
import argparse
import collections
import itertools
import json
import pathlib
import subprocess
import sys
import tempfile
import time

import picture

TOP = pathlib.Path(__file__).resolve().parent.parent


def times_of(script, by_steps):
    """The time of each event: its number from 0, or that of its step. An event at position 0 ends a step."""
    times, active, time = [], 0, 0
    for number, line in enumerate(script.splitlines()):
        word, *rest = line.split()
        times.append(time if by_steps else number)
        at = active if word == "assign" else int(rest[0]) if word not in ("retire", "fault") else 0
        time += at == 0
        active = {"assign": active + 1, "squash": at + 1, "retire": active - 1, "drop": at}.get(word, active)
    return times


def expected(script, units, by_steps):
    """Slices, arrows and squashes of a script."""
    picture.history_of.next = 0
    lives, passes, _, squashes = picture.history_of(script, units, range(1, len(script.splitlines()) + 1))
    times = [None, *times_of(script, by_steps)]
    slices = [(it.unit, it.task, times[it.first], times[it.last] + 1 - times[it.first], it.executed, it.ending)
              for it in lives]
    arrows = [(number - 1, f"${register}", times[number], source, target) for number, register, source, target in passes]
    return slices, arrows, [(unit, times[number]) for number, unit in squashes]


def waits_of(script, units):
    """The units and the steps, from 1, in which they wait, of at most 2,000 steps."""
    numbers = list(picture.steps_of(script))
    if not numbers or numbers[-1] > picture.MOST_SINGLE:
        return ()
    picture.history_of.next = 0
    return picture.waits_of(picture.history_of(script, units, numbers)[0], numbers[-1], script, units, numbers)


def found(entries):
    """The same of a timeline."""
    slices = [(it["tid"], it["name"], it["ts"], it["dur"], it["args"]["instructions"], it["args"]["ending"])
              for it in entries["X"] if it["cat"] == "task"]
    ends = {it["id"]: it for it in entries["f"]}
    arrows = [(it["id"], it["name"], it["ts"], it["tid"], ends[it["id"]]["tid"]) for it in entries["s"]]
    return slices, arrows, [(it["tid"], it["ts"]) for it in entries["i"]]


def faults_of(text, script, units, by_steps):
    """What is wrong with a timeline of a script."""
    entries, lanes = collections.defaultdict(list), collections.defaultdict(list)
    for entry in json.loads(text)["traceEvents"]:
        entries[entry["ph"]].append(entry)
    if set(entries) - set("MXsfi") or any(it["pid"] != 1 for kind in entries.values() for it in kind):
        yield f"entries of kinds {sorted(entries)}, or of another process"
    names = {it["tid"]: it["args"]["name"] for it in entries["M"] if it["name"] == "thread_name"}
    if names != {unit: f"unit {unit}" for unit in range(units)}:
        yield f"lanes {names}"
    if len(entries["s"]) != len(entries["f"]) or any(it["bp"] != "e" for it in entries["f"]):
        yield f"{len(entries['s'])} beginnings and {len(entries['f'])} ends of arrows"
    for what, there, wanted in zip(("slices", "arrows", "squashes"), found(entries), expected(script, units, by_steps)):
        if there != wanted:
            yield f"{len(there)} {what}, not {len(wanted)}, or others"
    ticks = collections.Counter((it["tid"], it["ts"], it["dur"]) for it in entries["X"] if it["cat"] == "instruction")
    if sum(ticks.values()) != sum(line.startswith("exec ") for line in script.splitlines()) or any(count > 1 or dur != 1 for (_, _, dur), count in ticks.items()):
        yield f"{sum(ticks.values())} instructions, or two at one time"
    for it in entries["X"]:
        if it["cat"] == "instruction" and not any(one["cat"] == "task" and one["tid"] == it["tid"] and one["ts"] <= it["ts"] < one["ts"] + one["dur"] for one in entries["X"]):
            yield f"an instruction of unit {it['tid']} at {it['ts']} is in no task"
        if it["cat"] != "task":
            continue
        lanes[it["tid"]].append((it["ts"], it["ts"] + it["dur"]))
    waits = collections.Counter((it["tid"], step) for it in entries["X"] if it["cat"] == "wait" for step in range(it["ts"] + 1, it["ts"] + it["dur"] + 1))
    if waits != collections.Counter(waits_of(script, units) if by_steps else ()):
        yield f"{sum(waits.values())} steps of waiting, or others than there are"
    for unit, spans in lanes.items():
        spans.sort()
        if any(one[1] > two[0] for one, two in zip(spans, spans[1:])) or any(begin >= end for begin, end in spans):
            yield f"slices of unit {unit} overlap, or one is empty"
    for it in entries["s"] + entries["f"]:
        if not any(begin <= it["ts"] < end for begin, end in lanes[it["tid"]]):
            yield f"arrow {it['id']} is at no slice of unit {it['tid']}"


def timelines_of(program, text, budget=()):
    """Timelines of runs of a program, with their scripts, summaries, numbers of units and whether they are in steps; the budget is an option."""
    for units in (1, 2, 4, 16):
        words = ["--least", "--units", units, text]
        steps = ["run", "--schedule", "steps", *budget, *words, "--emit"]
        yield units, True, *(picture.run(program, *steps, form).decode() for form in ("script", "summary", "perfetto"))
        script = picture.run(program, "run", *budget, *words, "--emit", "script")
        with tempfile.NamedTemporaryFile() as file:
            file.write(script)
            file.flush()
            replay = ["replay", *words, file.name, "--emit"]
            yield units, False, script.decode(), *(picture.run(program, *replay, form).decode() for form in ("summary", "perfetto"))


def cases_of(program, folders, seconds, seed):
    """The timelines of the examples; where seconds are given also of random programs, until they are up."""
    end = time.time() + seconds if seconds else None
    whole = ("--budget", 3000) if seconds else ()
    more = ((folder, ("--budget", 600)) for folder in picture.random_folders(program, seed)) if seconds else ()
    for folder, budget in itertools.chain(((folder, whole) for folder in folders), more):
        text = folder / "program.s"
        if subprocess.run([program, "check", "--least", text], capture_output=True).returncode:
            continue
        for case in timelines_of(program, text, budget):
            yield folder.name, *case
            if end and time.time() > end:
                return


def main():
    options = argparse.ArgumentParser(description=__doc__, formatter_class=argparse.RawDescriptionHelpFormatter)
    options.add_argument("program", metavar="PROGRAM", type=lambda path: str(pathlib.Path(path).resolve()))
    options.add_argument("folders", metavar="FOLDER", type=pathlib.Path, nargs="*")
    options.add_argument("--seconds", type=float, help="goes on with random programs")
    options.add_argument("--seed", type=int, default=int(time.time()))
    given = options.parse_args()
    folders = given.folders or sorted(path.parent for path in TOP.glob("examples/*/program.s"))
    seen, failed = 0, 0
    for name, units, by_steps, script, summary, timeline in cases_of(given.program, folders, given.seconds, given.seed):
        seen += 1
        faults = list(faults_of(timeline, script, units, by_steps))
        assigned = next(int(line.split()[0]) for line in summary.splitlines() if line.endswith("(all)"))
        if timeline.count('"cat":"task"') != assigned:
            faults.append(f"not {assigned} slices, as the summary has lives")
        failed += len(faults)
        for fault in faults:
            print(f"{name} on {units} units, {'in steps' if by_steps else 'by threads'}: {fault}")
    print(f"{seen} timelines, {failed} faults")
    sys.exit(1 if failed else 0)


if __name__ == "__main__":
    main()
