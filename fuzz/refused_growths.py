#!/usr/bin/env python3
"""Refuses growths of memory, and looks at what the program answers.

    refused_growths.py PROGRAM [--minutes M] [--seed N] [--only SUBCOMMAND]
    refused_growths.py PROGRAM --all examples|limits [--part K/OF] [--minutes M] [--only SUBCOMMAND]

Each call that asks the system's allocator for memory is refused in turn, over
every subcommand and every example; then several calls in a row, or all, from each
on; then one call in 10 or in 100, by a seed, from a drawn one on. For texts at the limits,
where there are too many calls, those that are refused are drawn. Last, the address
space and the stack of the process are limited. Each run must either print the case's own bytes
with its own status, or print nothing, end with status 2 and say one line on standard error:
`OutOfMemory`, or the file, where the growth was one of reading it (`explain` and `check --least` add the reason). A trace of
`replay`, which is written while the events are played, may also be cut, and the line is then `PartWritten`. Anything else
(a crash, a run that does not end, half an answer, another status) is told, and
the script ends with status 1. If the minutes do not suffice, the runs are drawn.

With --all no run is drawn: each growth of the examples, or of the texts at the limits, is refused alone, and the
script says how many of all runs it made; it ends when all are made, or the minutes are over. `--part 2/4` makes the
second quarter of them, so that several processes, or several nights, share them: of each case the growths
2, 6, 10 .. .

`run` makes threads, and no two runs need ask for memory in the same order: so each
number is refused three times. Of `run --emit script` no bytes are known
beforehand: what it prints is replayed, and the replay must end as `run` does. Nor are those of a picture, a
table or a trace of a run by several workers known: a picture must be whole, a table must have the retired tasks and their
instructions, and a trace, also as lines of JSON, must be that of its events. Of a run by one worker, and of one in steps, all bytes are known.

`.ci/growths.py` refuses each growth of `worked_cases` after `rt ci`; the rest is no part of the tests.
Needs python3, cc and a program that is linked with the C library of the system at
run time.
"""
import argparse
import collections
import itertools
import multiprocessing
import os
import random
import resource
import subprocess
import sys
import time
import xml.etree.ElementTree as tree

import faults
import refused_calls
from faults import EVERY, GROW, TOP, Row, fault
from model import traced

ENOMEM = 12
OTHER_TRACE = b"another trace than that of its events"
# The values of --emit that tell each event.
TRACES = ("trace", "json")
EXAMPLES = TOP / "examples"
# A certificate that is long enough to be fetched, read and checked by several threads.
SHARED = TOP / "crates" / "test_program" / "data"
REFUSED = {
    "program.s": "A: addu $1,$2\n",
    "no-task.s": "halt\n",
    "no.cert2": "cert 3\n",
    "no.events": "assign A\nexec x\n",
}


# The runs of the worked examples whose growths are refused: the words, where P is the program of an example, C its
# certificate in both spellings, S its script and B its text without marks; what is printed, and the status.
HALTS, ACCEPTED = "10\nhalted after 18 instructions\n", "accepted 2 tasks 6 instructions\n"
WAITS = "1 ok\n2 ok\n3 refused 6 Waiting $8\n4 ok\n5 ok\n6 ok\nretired 0 c 0 h 1\nrunning\n"
FINDINGS = "A 0 rule 5 $8\nA 0 rule 8 $8\nB 1 rule 9 -\nB 1 rule 12 -\nC 2 rule 2 -\nrefused 5\n"
RETIRED = "10\nretired 4 c 16 h 18\nhalted\n"
WORKED = [
    ("count", "seq P", HALTS, 0),
    ("count", "seq --budget 17 P", "10\nout of budget after 17 instructions\n", 3),
    ("count", "seq --budget 18 P", HALTS, 0),
    ("count", "check P C", ACCEPTED, 0),
    ("count", "replay P C S --units 2", WAITS, 0),
    *(("count", f"run P C --units {units} --predict {predict}", RETIRED, 0) for units in (1, 2, 4, 16) for predict in ("first", "last", "1,0")),
    *(("five-findings", f"check P C --workers {workers}", FINDINGS, 1) for workers in (1, 3, 16)),
]
# `count` in canonical text, and where register 10 is forwarded as well; its certificate.
COUNT = """.start A
.task A create=$8,$9,$10 targets=A,B
.task B create=- targets=-
A:
addiu $8,$8,1 !f
addu $9,$9,$8 !f
slti $10,$8,4
bne $10,$0,A !s
B:
out $9
halt
"""
FORWARDED = COUNT.replace("slti $10,$8,4", "slti $10,$8,4 !f")
BARE = COUNT.replace(" !f", "").replace("create=$8,$9,$10", "create=-")
CERTIFICATE = """cert 2
task A
0 0000000000000700
1 0000000000000600
2 0000000000000400
3 0000000000000000
task B
4 0000000000000000
5 0000000000000000
"""


# The runs on a program of many tasks whose greatest growth is measured as well: S is a script of its run.
MEASURED = ["seq P", "print P", "explain P", "annotate P", *(f"annotate P --emit {emit}" for emit in ("cert", "keep", "marks")),
            "check P C", "check P C --workers 4", "check P --least", "run P C --units 4", "run P C --units 4 --schedule steps",
            *(f"replay P C S --units 1 --emit {emit}" for emit in ("answers", "summary", "svg", "trace", "json")), "curve P C --units 2"]


def worked_cases(folder):
    """The words of each run of the worked examples, what it prints, and its status. Texts are written into the folder."""
    for name, text in (("bare.s", BARE), ("count.s", COUNT)):
        (folder / name).write_text(text)
    for example, line, printed, status in WORKED:
        texts = {"P": "program.s", "S": "script.events"}
        for certificate in ("certificate.cert1", "certificate.cert2") if " C" in line else ("",):
            texts["C"] = certificate
            yield [str(EXAMPLES / example / texts[word]) if word in texts else word for word in line.split()], printed, status
    bare = str(folder / "bare.s")
    yield ["annotate", bare], FORWARDED, 0
    yield ["annotate", "--emit", "cert", bare], CERTIFICATE, 0
    yield ["annotate", "--emit", "keep", str(folder / "count.s")], CERTIFICATE, 0


def measured_words(bench):
    """The words of each run whose greatest growth is measured: the worked examples, a demonstration, whose run has a task that retires, and each
    other subcommand on a program of many tasks."""
    folder = bench.folder
    yield from (words for words, _, _ in worked_cases(folder))
    yield ["demonstrate", str(EXAMPLES / "five-findings" / "program.s")]
    many, certificate, script = (folder / name for name in ("many.s", "many.cert2", "many.events"))
    many.write_text(refused_calls.MANY)
    texts = {"P": str(many), "C": str(certificate), "S": str(script)}
    certificate.write_bytes(bench.plain(["annotate", "--emit", "keep", str(many)]).out)
    script.write_bytes(bench.plain(["run", str(many), str(certificate), "--units", "1", "--emit", "script"]).out)
    for line in MEASURED:
        yield [texts.get(word, word) for word in line.split()]


def greatest(program, part=1, of=1):
    """Of each measured run that falls into this part the words, how it ended, and the bytes that it is given."""
    with faults.Bench(program) as bench:
        for words in itertools.islice(measured_words(bench), part - 1, None, of):
            yield words, bench.run(words), sum(os.path.getsize(word) for word in words if "/" in word)


def example_cases():
    """The words of each run over the examples."""
    for folder in sorted(p for p in EXAMPLES.iterdir() if (p / "program.s").exists()):
        program, certificate = str(folder / "program.s"), str(folder / "certificate.cert2")
        for line in (folder / "expected" / "commands").read_text().splitlines() if (folder / "expected").exists() else []:
            words = [str(folder / word) if (folder / word).is_file() else word for word in line.split()[2:]]
            if words[0] in ("check", "replay", "curve") or words[:2] == ["seq", "--budget"]:
                yield words
        yield ["seq", program]
        yield ["print", program]
        yield ["explain", program]
        yield ["explain", program, "--no-warnings"]
        yield ["explain", program, "--format", "sarif"]
        for emit in ("text", "cert", "keep", "marks"):
            yield ["annotate", program, "--emit", emit]
        if not (folder / "certificate.cert2").exists():
            continue
        yield ["explain", program, "--certificate", certificate]
        for workers in ("1", "4"):
            yield ["check", program, certificate, "--workers", workers]
            yield ["check", program, "--least", "--workers", workers]
        yield from run_cases(folder, program, certificate)
    for workers in ("1", "2", "3", "4", "16"):
        yield ["check", str(SHARED / "large.s"), str(SHARED / "large.cert2"), "--workers", workers]


def every_example(folder):
    """The words of each run but those of the texts at the limits; texts that are made are written into the folder."""
    return itertools.chain(example_cases(), (words for words, _, _ in worked_cases(folder)), refused_cases(folder))


def run_cases(folder, program, certificate):
    """The words of each run of an example, by threads and in steps, and of replays with pictures and tables."""
    budget = ["--budget", "2000"] if folder.name == "spin" else []
    for units, workers in ((1, 1), (4, 4), (16, 3)):
        words = ["run", program, certificate, "--units", str(units), "--workers", str(workers)]
        yield [*words, *budget]
        for emit in ("summary", "svg", *TRACES, "script"):
            if emit == "script" or units < 16:
                # each event of a trace takes memory
                yield [*words, *(["--budget", "200"] if budget and emit in TRACES else budget), "--emit", emit]
    yield ["run", program, "--least", *budget]
    for units in (1, 4, 16):
        words = ["run", program, certificate, "--schedule", "steps", "--units", str(units), *budget]
        yield words
        yield from ([*words, "--emit", emit] for emit in ("summary", "svg", *TRACES, "script") if units == 4)
    yield ["run", program, "--least", "--schedule", "steps", "--predict", "1,0", *budget, "--emit", "summary"]
    yield ["curve", program, certificate, "--units", "3", *budget]
    yield ["curve", program, "--least", "--units", "2", *budget]
    yield ["curve", program, certificate, "--units", "3", *budget, "--emit", "svg"]
    if (folder / "script.events").exists():
        script = str(folder / "script.events")
        yield from (["replay", program, certificate, script, "--units", "2", "--emit", emit] for emit in ("summary", "svg", *TRACES))
        yield ["replay", program, "--least", script, "--units", "2"]


def refused_cases(folder):
    """Words and texts that are refused, and help."""
    for name, text in REFUSED.items():
        (folder / name).write_text(text)
    count = EXAMPLES / "count"
    program, certificate = str(count / "program.s"), str(count / "certificate.cert2")
    yield ["--help"]
    yield ["run", "--help"]
    yield ["seq", "--budget", "0", program]
    yield ["run", program, certificate, "--predict", "1,,0"]
    yield ["seq", str(folder / "program.s")]
    yield ["print", str(folder / "no-task.s")]
    yield ["explain", str(folder / "program.s")]
    yield ["explain", str(folder / "no-task.s")]
    yield ["explain", str(folder / "program.s"), "--format", "sarif"]
    yield ["explain", program, "--certificate", str(folder / "no.cert2"), "--format", "sarif"]
    yield ["explain", program, "--certificate", str(folder / "no.cert2")]
    yield ["explain", program, "--certificate", str(EXAMPLES / "pair" / "certificate.cert2")]
    yield ["explain", str(EXAMPLES / "five-findings" / "program.s"), "--certificate", str(folder / "no.cert2")]
    yield ["check", program, str(folder / "no.cert2")]
    yield ["check", program]
    yield ["check", program, certificate, "--least"]
    yield ["run", program, certificate, "--schedule", "step"]
    yield ["--version"]
    yield ["replay", program, certificate, str(folder / "no.events")]
    yield ["seq", str(folder / "missing.s")]


def limit_cases(folder):
    """The words of runs over texts at the limits, which are written into the folder."""
    subprocess.run([sys.executable, str(TOP / "bench" / "bench.py"), "--write", str(folder), "--certificate"], check=True)

    def of(*names):
        return [str(folder / name) for name in names]

    for name in ("maximal.s", "labels.s", "statements.s", "late_fault.s"):
        yield ["print", *of(name)]
        yield ["explain", *of(name)]
    yield ["seq", *of("maximal.s")]
    for name in ("maximal.s", "nest.s", "zigzag.s"):
        yield ["annotate", *of(name), "--emit", "keep"]
    yield ["annotate", *of("maximal.s")]
    for workers in ("1", "4"):
        yield ["check", *of("maximal.s", "maximal.cert2"), "--workers", workers]
    yield ["replay", *of("steady.s", "steady.cert2", "steady4.events")]
    yield ["run", *of("steady.s", "steady.cert2"), "--units", "2", "--budget", "100000"]
    yield ["run", *of("steady.s", "steady.cert2"), "--units", "2", "--budget", "100000", "--emit", "script"]
    for emit in ("report", "summary", "svg", *TRACES):
        yield ["run", *of("steady.s", "steady.cert2"), "--schedule", "steps", "--budget", "100000", "--emit", emit]
    yield ["curve", *of("steady.s", "steady.cert2"), "--budget", "10000"]
    yield ["curve", *of("steady.s", "steady.cert2"), "--budget", "10000", "--emit", "svg"]
    yield ["annotate", *of("maximal.s"), "--emit", "marks"]
    yield ["explain", *of("late_fault.s"), "--format", "sarif"]
    for emit in ("summary", "svg", *TRACES):
        yield ["replay", *of("steady.s", "steady.cert2", "steady4.events"), "--emit", emit]
    yield ["explain", *of("maximal.s"), "--certificate", *of("maximal.cert2")]
    yield ["check", "--least", *of("maximal.s"), "--workers", "4"]
    yield ["run", *of("long300000.s", "long.cert2"), "--units", "1"]


def is_picture(out):
    """True of a whole picture; of another text, how it ends."""
    try:
        return tree.fromstring(out).tag == "{http://www.w3.org/2000/svg}svg"
    except tree.ParseError:
        return out[-60:]


def events_of(trace):
    """The events of a trace, as a script; of what is no trace of allowed events, none."""
    if not trace.startswith(b"{"):
        return b"".join(line.split(b" ", 1)[1].removesuffix(b": ok") + b"\n" for line in trace.splitlines() if line.endswith(b": ok"))
    try:
        return traced(trace.decode("latin-1")).encode("latin-1")
    except (ValueError, KeyError, TypeError):
        return b""


def as_replayed(trace):
    """A trace of a run as the replay of its events writes it, which knows of no budget."""
    return trace.replace(b'\n{"end":"out of budget"', b'\n{"end":"running"')


def retired(table):
    """Of each row of a table the name, the retired tasks and their instructions."""
    return [(row.split()[-1], row.split()[1], row.split()[5]) for row in table.splitlines()[1:]]


class Case:
    """The words of a case, its growths, and what is right."""

    def __init__(self, bench, words):
        self.bench, self.words = bench, words
        self.is_run = words[0] == "run" and "steps" not in words
        self.shares = self.is_run or "--workers" in words and "1" not in words
        self.emit = words[-1] if self.is_run and words[-2] == "--emit" else None
        self.files = [word for word in words if "/" in word]
        self.reason = ": out of memory" if words[0] == "explain" or words[0] == "check" and "--least" in words else ""
        runs = [bench.forked(words, counts=True) for _ in range(5 if self.shares else 1)]
        # not the greatest: a wrong path may be long once, where the thread that ends it waits for a core, and each event takes memory
        self.growths = sorted(ended.counts[GROW] for ended in runs)[len(runs) // 2]
        self.told = runs[0].told
        self.right = self.shown(runs[0])

    def shown(self, ended):
        """Status and bytes; of a script, those of its replay; of another picture, table or trace, what is known."""
        if not self.emit or ended.status not in (0, 1, 3) or b"refused " in ended.out:
            return ended.status, ended.out
        if self.emit == "script":
            return ended.status, self.replayed(ended)
        if "1" in self.words:
            return ended.status, ended.out
        if self.emit in TRACES:
            return ended.status, self.retraced(ended)
        return ended.status, is_picture(ended.out) if self.emit == "svg" else retired(ended.out) if ended.status != 3 else ended.out[:80]

    def replayed(self, ended):
        """How the replay of a run's script ends."""
        events = self.bench.folder / "replayed.events"
        events.write_bytes(ended.out)
        units = self.words[self.words.index("--units") + 1]
        replayed = self.bench.plain(["replay", *self.words[1:3], str(events), "--units", units])
        said = replayed.out.splitlines(keepends=True)
        count = len(ended.out.splitlines())
        answers, closing = said[:count], said[count:]
        if len(answers) != count or not all(line.endswith(b" ok\n") for line in answers):
            return b"events refused"
        if ended.status == 3:
            # out of budget: how many instructions were executed by then depends on the threads
            budget = int(self.words[self.words.index("--budget") + 1])
            return b"the budget is used" if count >= budget else b"the budget is left"
        return b"".join(closing)

    def retraced(self, ended):
        """True of a trace that the replay of its own events writes."""
        events = self.bench.folder / "traced.events"
        events.write_bytes(events_of(ended.out))
        units = self.words[self.words.index("--units") + 1]
        again = self.bench.plain(["replay", *self.words[1:3], str(events), "--units", units, "--emit", self.emit])
        return again.out == as_replayed(ended.out) or OTHER_TRACE

    def is_begun(self, ended):
        """True of a beginning of the trace of a replay, which is written while the events are played."""
        is_trace = self.words[0] == "replay" and self.words[-2] == "--emit" and self.words[-1] in TRACES
        return is_trace and (ended.status, ended.told) == (2, b"multiscalar: 4 PartWritten\n") and self.right[1].startswith(ended.out)

    def judge(self, row, ended, what):
        """Puts what a run answered into the row."""
        lines = [b"multiscalar: 1 OutOfMemory\n", b"multiscalar: 4 OutOfMemory\n"]
        shown = self.shown(ended)
        if shown[1] == OTHER_TRACE:
            row.seen("another trace", self.words, what, True)
        elif shown == self.right and ended.told == self.told:
            row.seen("as with ample memory", self.words, what)
        elif (ended.status, ended.out) == (2, b"") and ended.told in lines:
            row.seen("want of memory", self.words, what)
        elif (ended.status, ended.out) == (2, b"") and ended.told in [f"multiscalar: file {path}{self.reason}\n".encode() for path in self.files]:
            row.seen("want of memory, file named", self.words, what)
        elif self.is_begun(ended):
            row.seen("want of memory, a beginning written", self.words, what)
        elif ended.status is None:
            row.seen("did not end", self.words, what, True)
        else:
            row.seen(f"status {ended.status}", self.words, f"{what}: {ended.out[:60]} {ended.told[:60]}", True)


def refusal(first, last, one_in=0, seed=0):
    return fault(GROW, first, last, "e", ENOMEM, one_in, seed)


def alone(cases, _, part=1, of=1):
    """Of each case each growth of this part refused alone, those of a case after one another."""
    for case in cases:
        for first in range(part, case.growths + 1, of):
            for _ in range(3 if case.shares else 1):
                yield case, refusal(first, first)


def in_a_row(cases, draw, part=1, of=1):
    """From each growth of this part on some are refused, and all."""
    for case in cases:
        for first in range(part, case.growths + 1, of):
            for last in (first + draw.choice((1, 2, 4, 9, 30, 99)), EVERY):
                yield case, refusal(first, last)


def at_random(cases, draw):
    """One growth in ten or a hundred, from a drawn one on."""
    return [(case, refusal(draw.randint(1, case.growths), EVERY, draw.choice((10, 100)), draw.randrange(1 << 30)))
            for case in cases for _ in range(200)]


def at_limits(cases, draw):
    """Growths of the large texts: drawn evenly, near the beginning, and near the end."""
    jobs = []
    for case, _ in itertools.product(cases, range(200)):
        size = int(case.growths ** draw.random())
        first = draw.choice((draw.randint(1, case.growths), size, case.growths + 1 - size))
        last = draw.choice((first, first, first + 9, EVERY))
        jobs.append((case, refusal(first, last)))
    return jobs


def make(row, jobs, end=float("inf")):
    """Makes these runs, until the time is up; it is quick where those of a case follow one another."""
    for case, faults_of in jobs:
        if time.monotonic() > end:
            break
        case.judge(row, case.bench.forked(case.words, faults_of), f"faults {faults_of}")


def perform(name, jobs, draw, end, at_once):
    """The runs of a part in a drawn order until the time is up, as a row; so many at once, in the order of their cases."""
    draw.shuffle(jobs)
    row = Row(name)
    for first in range(0, len(jobs), at_once):
        if time.monotonic() > end:
            row.part += f" (drawn, of {len(jobs)})"
            break
        make(row, sorted(jobs[first:first + at_once], key=lambda job: id(job[0])))
    return row.line()


def complete(program, kind, part, of, minutes, only="", jobs=alone, seed=1):
    """Each growth of all cases of a kind that falls into this part, none drawn, as one row."""
    end = time.monotonic() + 60 * minutes
    with faults.Bench(program) as bench:
        words = limit_cases(bench.folder) if kind == "limits" else every_example(bench.folder)
        cases = [Case(bench, w) for w in words if only in ("", w[0])]
        for case in cases if part == 1 else ():
            print(f"{case.growths} growths: {' '.join(case.words)}", file=sys.stderr, flush=True)
        total, row = sum(1 for _ in jobs(cases, random.Random(seed), part, of)), Row("")
        make(row, jobs(cases, random.Random(seed), part, of), end)
    row.part = f"each growth refused alone, {kind}, part {part} of {of} ({row.cases} of {total})"
    return row.line()


# What can be made of each growth of the examples, none drawn.
WHOLE = {"each growth refused alone": alone, "several in a row, or all, from each on": in_a_row}


def whole(program, name, seed):
    """All runs of a name of WHOLE, in as many processes at once as there are cores, as one row."""
    of = len(os.sched_getaffinity(0))
    with multiprocessing.Pool(of) as parts:
        rows = parts.starmap(complete, [(program, "examples", part, of, 1e9, "", WHOLE[name], seed) for part in range(1, of + 1)], chunksize=1)
    answers = sum((collections.Counter(row[2]) for row in rows), collections.Counter())
    return f"{name} (all)", sum(row[1] for row in rows), dict(answers), [one for row in rows for one in row[3]]


def worked(program, part, of, end):
    """Each growth of the worked examples that falls into this part, as one row, and whether the time sufficed."""
    with faults.Bench(program) as bench:
        row, cases = Row(f"each growth of the worked examples refused, part {part} of {of}"), []
        for words, printed, status in worked_cases(bench.folder):
            case = Case(bench, words)
            cases.append(case)
            if (case.right, case.told) != ((status, printed.encode()), b"") or case.growths == 0:
                row.seen("another answer with ample memory", words, f"{case.right} {case.told}, {case.growths} growths", True)
        jobs = alone(cases, None, part, of)
        make(row, jobs, end)
    return row.line(), next(jobs, None) is None


def limited(name, kind, least, most, cases, draw, end, **environment):
    """Runs under a drawn limit of the system."""
    row = Row(name)
    while time.monotonic() < end:
        case, size = draw.choice(cases), int(least * (most / least) ** draw.random())
        ended = case.bench.run(case.words, limit=lambda: resource.setrlimit(kind, (size, size)), **environment)
        case.judge(row, ended, f"limit {size}")
    return row.line()


def run(program, minutes, seed, only="", rest=False):
    """The rows of all parts, in about so many minutes; with `rest`, of those alone that `whole` cannot make."""
    rows, begin, draw = [], time.monotonic(), random.Random(seed)
    with faults.Bench(program) as bench:
        words = [w for w in every_example(bench.folder) if only in ("", w[0])]
        small = [Case(bench, w) for w in words]
        parts = {**({} if rest else WHOLE), "one growth in 10 or 100 refused": at_random}
        for (name, jobs), until in zip(parts.items(), (0.5,) if rest else (0.45, 0.65, 0.72)):
            rows.append(perform(name, list(jobs(small, draw)), draw, begin + 60 * minutes * until, 2000))
        large = [Case(bench, w) for w in limit_cases(bench.folder) if only in ("", w[0])]
        rows.append(perform("growths refused, texts at the limits", at_limits(large, draw), draw, begin + 60 * minutes * 0.9, 1))
        # the stack has grown before the limit on the address space can stop it: docs/TRUST.md
        every, end = small + large, begin + 60 * minutes
        rows.append(limited("address space of 9 to 600 MB", resource.RLIMIT_AS, 9e6, 6e8, every, draw, end - 2 * minutes, STACK="1500000"))
        rows.append(limited("stack of 1.3 to 8 MB", resource.RLIMIT_STACK, 1.25 * 2 ** 20, 2 ** 23, every, draw, end))
    return rows


def part_of(text):
    """The two numbers of `K/OF`."""
    part, _, of = text.partition("/")
    if not (part.isdigit() and of.isdigit() and 1 <= int(part) <= int(of)):
        raise argparse.ArgumentTypeError(f"{text} is no part such as 2/4")
    return int(part), int(of)


def main():
    parser = argparse.ArgumentParser(description=__doc__.splitlines()[0])
    parser.add_argument("program")
    parser.add_argument("--minutes", type=float, help="10, and with --all no end")
    parser.add_argument("--all", choices=("examples", "limits"), help="refuse each growth of these, none drawn")
    parser.add_argument("--part", default=(1, 1), type=part_of, metavar="K/OF", help="with --all, only this part of the growths")
    parser.add_argument("--seed", default=1, type=int)
    parser.add_argument("--only", default="", help="only the cases of this subcommand")
    args = parser.parse_args()
    wrong, minutes = 0, args.minutes or (1e9 if args.all else 10)
    if args.all:
        rows = [complete(args.program, args.all, *args.part, minutes, args.only)]
    else:
        rows = run(args.program, minutes, args.seed, args.only)
    for part, cases, answers, differences in rows:
        print(f"{part}: {cases} runs", *(f"{count} {answer}" for answer, count in answers.items()), sep=", ")
        for difference in differences:
            print("wrong:", difference)
        wrong += len(differences)
    print("wrong", wrong)
    return 1 if wrong else 0


if __name__ == "__main__":
    sys.exit(main())
