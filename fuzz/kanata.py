#!/usr/bin/env python3
"""Reads logs of instructions (`run --schedule steps --emit kanata`), and compares them with the traces of the same runs.

    kanata.py --program PROGRAM [FOLDER ..]
    kanata.py FILE

The second form reads one log alone. A log is in the format Kanata, version 0004: fields between tabs, a command on each line.
This knows the commands and their fields, that an instruction begins once, before all that is said of it, that its stages follow
one another, and that it ends once, by retiring or by a flush, in no stage that ends later. With a program it runs the examples
with a certificate on 1, 2, 4 and 16 units: there must be an instruction for each `executed` of the trace (`--emit json`), in
the same step and with the same task, each in the thread of its task; those retire that the final state counts (`h`); and the
rest is flushed. What differs is told, and the script ends with status 1. It is no part of the tests.
"""
import argparse
import collections
import json
import pathlib
import subprocess
import sys

TOP = pathlib.Path(__file__).resolve().parent.parent
FIELDS = {"C=": 1, "C": 1, "I": 3, "L": 3, "S": 3, "E": 3, "R": 3}


class Instruction:
    def __init__(self, thread, cycle):
        self.thread, self.begin, self.stage, self.labels, self.end = thread, cycle, None, collections.defaultdict(str), None


def read(text):
    """The instructions of a log by their numbers; the first fault is raised."""
    lines = text.split("\n")
    assert lines[0] == "Kanata\t0004", f"the first line is {lines[0]!r}"
    assert lines[-1] == "", "the last line has no end"
    cycle, found, retired = None, {}, 0
    for number, line in enumerate(lines[1:-1], 2):
        word, *fields = line.split("\t")
        where = f"line {number}: {line!r}"
        assert word in FIELDS and len(fields) == FIELDS[word], f"{where} is no command"
        if word in ("C=", "C"):
            assert (word == "C=") == (cycle is None) and int(fields[0]) >= (word == "C"), f"{where} at cycle {cycle}"
            cycle = int(fields[0]) if word == "C=" else cycle + int(fields[0])
            continue
        assert cycle is not None, f"{where} before a first cycle"
        one = int(fields[0])
        if word == "I":
            assert one not in found and one == len(found), f"{where}: not the next instruction"
            found[one] = Instruction(int(fields[2]), cycle)
            continue
        it = found[one]
        assert it.end is None, f"{where} after its end"
        if word == "L":
            assert fields[1] in ("0", "1"), where
            it.labels[fields[1]] += fields[2]
        elif word == "S":
            assert fields[1] == "0" and it.stage is None, f"{where} within stage {it.stage}"
            it.stage = fields[2]
        elif word == "E":
            assert fields[1] == "0" and it.stage == fields[2], f"{where} in stage {it.stage}"
            it.stage = None
        else:
            assert fields[2] in ("0", "1") and int(fields[1]) == retired, f"{where} after {retired} retired"
            retired += fields[2] == "0"
            it.end = (cycle, fields[2])
    for one, it in found.items():
        assert it.end, f"instruction {one} does not end"
        assert it.labels["0"] and it.labels["1"], f"instruction {one} has no labels"
        assert it.end[0] > it.begin or it.end[1] == "1", f"instruction {one} retires in the cycle in which it begins"
    return found


def run(program, *words):
    return subprocess.run([program, *map(str, words)], capture_output=True, text=True).stdout


def faults_of(program, folder, units):
    words = ["run", "--schedule", "steps", "--units", units, folder / "program.s", folder / "certificate.cert2", "--emit"]
    try:
        found = read(run(program, *words, "kanata"))
    except (AssertionError, KeyError, ValueError) as fault:
        yield str(fault)
        return
    executed, threads, tasks = [], {}, 0
    for line in run(program, *words, "json").splitlines():
        event = json.loads(line)
        for change in event.get("changes", []):
            if change["change"] == "began":
                threads[change["unit"]], tasks = tasks, tasks + 1
            elif change["change"] == "executed":
                executed.append((event["step"] - 1, change["task"], threads[change["unit"]]))
    logged = [(it.begin, it.labels["0"].split(":")[0], it.thread) for it in found.values()]
    if logged != executed:
        yield f"{len(logged)} instructions, where {len(executed)} were executed, or others"
    script = run(program, *words, "script")
    state = subprocess.run([program, "replay", "--units", str(units), folder / "program.s", folder / "certificate.cert2", "-"], input=script, capture_output=True, text=True).stdout
    counted = int(next(line for line in state.splitlines() if line.startswith("retired ")).split()[-1])
    retired = sum(it.end[1] == "0" for it in found.values())
    if retired != counted:
        yield f"{retired} instructions retire, where {counted} are counted"


def main():
    options = argparse.ArgumentParser(description=__doc__, formatter_class=argparse.RawDescriptionHelpFormatter)
    options.add_argument("--program", type=lambda path: str(pathlib.Path(path).resolve()))
    options.add_argument("places", metavar="FOLDER", type=pathlib.Path, nargs="*")
    given = options.parse_args()
    if not given.program:
        found = [read(place.read_text()) for place in given.places]
        print(f"{sum(map(len, found))} instructions")
        return
    seen, failed = 0, 0
    folders = given.places or sorted(path.parent for path in TOP.glob("examples/*/certificate.cert2"))
    for folder in folders:
        if subprocess.run([given.program, "check", folder / "program.s", folder / "certificate.cert2"], capture_output=True).returncode:
            continue
        for units in (1, 2, 4, 16):
            seen += 1
            for fault in faults_of(given.program, folder, units):
                failed += 1
                print(f"{folder.name} on {units} units: {fault}")
    print(f"{seen} logs, {failed} faults")
    sys.exit(1 if failed else 0)


if __name__ == "__main__":
    main()
