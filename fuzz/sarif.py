#!/usr/bin/env python3
"""Compares the log of `explain --format sarif` with the text form and with the standard.

Takes the random programs of explain.py and costly_marks.py, with wrong marks or with marks that cost speed, and
texts that are refused. Of each it checks that the log is of SARIF 2.1.0 (sarif_schema.py), and that the text form says
the same: each result with its place, its sentence, its further places and what to do, in their order; and the line
of C, if a comment names one. `--file LOG` checks one log alone. PROGRAM is the built `multiscalar`.
"""
import argparse
import collections
import os
import random
import re
import subprocess
import sys
import tempfile
import time
import urllib.parse

import accepted as generator
import costly_marks
import explain
import sarif_schema
from accepted import accepted
from model import Fault, assemble, print_program


def read_log(text):
    """The results of a log, which is one by the standard; ValueError where something is wrong."""
    return sarif_schema.read(text)["runs"][0]["results"]


def place_of(location, text):
    """The name of a place's file, its line and its column in bytes; the text is that of the program."""
    physical = location["physicalLocation"]
    name, region = urllib.parse.unquote(physical["artifactLocation"]["uri"]), physical.get("region")
    if region is None:
        return f"{name}:"
    line = text.split("\n")[region["startLine"] - 1].encode("latin-1")
    try:
        line = line.decode("utf-8")[:region["startColumn"] - 1].encode("utf-8")
    except UnicodeDecodeError:
        line = line[:region["startColumn"] - 1]
    return f"{name}:{region['startLine']}:{len(line) + 1}:"


def in_lines(result, text):
    """The lines of the text form that stand for a result, each with its sentence alone."""
    related = result["relatedLocations"]
    related = related[1:] if related and sarif_schema.is_origin(related[0]) else related
    yield f"{place_of(result['locations'][0], text)} {result['level']}: {result['message']['text'].removesuffix('.')}"
    for number, it in enumerate(related):
        is_help = number == len(related) - 1 and result["ruleId"] != "more"
        yield f"{place_of(it, text)} {'help' if is_help else 'note'}: {it['message']['text'].removesuffix('.')}"


def in_c(result, text):
    """The file and the line of C, of 32 bits, that the comment at the end of a result's line names."""
    region = result["locations"][0]["physicalLocation"].get("region", {"startLine": 0})
    line = ["", *text.split("\n")][region["startLine"]].encode("latin-1")
    try:
        named = re.search(r"# at ((?:(?!# at ).)+):([1-9][0-9]*)\s*$", line.decode("utf-8"))
    except UnicodeDecodeError:
        named = None
    return [(named[1], int(named[2]))] if named and int(named[2]) < 2 ** 32 else []


def told_in_c(result):
    """What the log tells of it, before the further places."""
    for it in result["relatedLocations"][:1]:
        if sarif_schema.is_origin(it):
            physical = it["physicalLocation"]
            yield urllib.parse.unquote(physical["artifactLocation"]["uri"]), physical["region"]["startLine"]


def told(said):
    """The lines of the text form without excerpts, codes and paths."""
    for line in said.split("\n"):
        if re.match(r"[^|]*: (error|warning|note|help): ", line) and not re.match(r" *\d* \|", line):
            line = re.sub(r", on the path [\d >.more-]+$", "", line)
            yield re.sub(r" \[(rule \d+|\d+ \w+[\w ]*)\]$", "", line) if ": error: " in line else line


class Bench:
    def __init__(self, program):
        self.program = os.path.abspath(program)
        self.folder = tempfile.mkdtemp(prefix="sarif")
        self.counts = collections.Counter()

    def explain(self, name, text, *words):
        with open(os.path.join(self.folder, name), "w", encoding="latin-1", newline="") as file:
            file.write(text)
        run = subprocess.run([self.program, "explain", *words, name], cwd=self.folder, capture_output=True)
        return run.stdout, run.returncode, run.stderr

    def wrong(self, text):
        name = random.choice(["p.s", "a b.s", "50%.s", "x+y@z.s", "plain-name_1.s"])
        words = random.choice([[], [], ["--no-warnings"]])
        said, status, complaint = self.explain(name, text, *words)
        log, log_status, log_complaint = self.explain(name, text, *words, "--format", "sarif")
        if (log_status, log_complaint) != (status, complaint):
            return f"status {log_status}, in the text form {status}"
        try:
            results = read_log(log)
        except (ValueError, KeyError, TypeError) as why:
            return f"the form of the log: {why}"
        self.counts["results"] += len(results)
        try:
            assemble(text.encode("latin-1"))
            self.counts["programs"] += 1
        except Fault:
            self.counts["refused texts"] += 1
        wanted, found = [line for it in results for line in in_lines(it, text)], list(told(said.decode("latin-1")))
        if wanted != found:
            pairs = [pair for pair in zip(wanted, found) if pair[0] != pair[1]]
            return f"the text form says something else: {pairs[0] if pairs else (len(wanted), len(found))}"
        for it in results:
            self.counts["lines of C"] += len(in_c(it, text))
            if in_c(it, text) != list(told_in_c(it)):
                return f"{in_c(it, text)} in C, in the log {list(told_in_c(it))}"
        return None


def from_c(text):
    """The text with comments at the end of some instructions, as c2ms.py writes them, and of some a bit differently."""
    R = generator.R
    names = ["a.c", "a b.c", "50%.c", "x:7.h", "part#1.c", "../sub/x.c"]
    ends = ["", "", " ", " more", ":", " # at b.c:3", " # at b.c:0", " # at :5"]
    lines = text.split("\n")
    for at, line in enumerate(lines):
        if line.strip() and "#" not in line and R.random() < .5:
            lines[at] = f"{line:<39} # at {R.choice(names)}:{R.choice([1, 12, 4000000000])}{R.choice(ends)}"
    return "\n".join(lines)


def broken(text):
    """The text with a few bytes changed, so that it may be no program."""
    R = generator.R
    for _ in range(R.choice([1, 1, 2])):
        at = R.randrange(len(text))
        text = text[:at] + R.choice(["", "x", "$", ",", " ", "\n", "9", "é", "\"", "\\"]) + text[at + 1:]
    return text


def main():
    options = argparse.ArgumentParser(description=__doc__, formatter_class=argparse.RawDescriptionHelpFormatter)
    options.add_argument("program", metavar="PROGRAM", nargs="?")
    options.add_argument("--file", metavar="LOG")
    options.add_argument("--seconds", type=float, default=60)
    options.add_argument("--seed", type=int, default=int(time.time()))
    given = options.parse_args()
    if given.file:
        with open(given.file, "rb") as file:
            print(f"{len(read_log(file.read()))} results")
        return
    if not given.program:
        options.error("PROGRAM or --file LOG")
    random.seed(given.seed)
    explain.R.seed(given.seed)
    costly_marks.R.seed(given.seed)
    generator.R.seed(given.seed)
    bench, end = Bench(given.program), time.time() + given.seconds
    while time.time() < end:
        plant = random.choice([explain.plant, costly_marks.loosened])
        text = explain.laid_out(plant(print_program(accepted()[0])))
        if random.random() < .5:
            text = from_c(text)
        if random.random() < .4:
            text = random.choice([broken, explain.plant_fault])(text)
        what = bench.wrong(text)
        if what:
            print(f"seed {given.seed}: {what}\n{text}")
            sys.exit(1)
    print(", ".join(f"{n} {what}" for what, n in bench.counts.items()), f"seed {given.seed}")


if __name__ == "__main__":
    main()
