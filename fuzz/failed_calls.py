#!/usr/bin/env python3
"""Makes opens, reads and writes fail, and reads from and writes to odd files.

    failed_calls.py PROGRAM [--minutes M] [--seed N] [--only WORD] [--list]

The table EXPECTED says, before anything is run, what the answer must be (docs/COMMANDS.md). In each run
of the first group calls of the C library fail, in turn or by a seed (faults.py); those of the second are given files,
pipes and devices of the system. No run may open a file for writing. What differs is told, and the script ends
with status 1. If the minutes do not suffice, the runs are drawn. Needs python3 and cc, and root for the
runs as another user; it is no part of the tests.
"""
import argparse
import errno
import multiprocessing
import os
import random
import re
import resource
import subprocess
import sys
import threading
import time

import ending
import faults
from faults import EVERY, OPEN, PREAD, READ, SIZE, TELL, TOP, WRITE, Row, fault

EXPECTED = {
    "reads of 1, 7 or 4,096 bytes": "the answer of whole reads",
    "a read interrupted": "the answer as ever, for one interruption at any read and for one read in some",
    "reads of a file interrupted 1,000 times": "the answer as ever",
    "reads of a file interrupted 1,001 times": "status 2, nothing on standard output, `multiscalar: file PATH` of that file, for `explain` and `check --least` with the reason",
    "a read fails": "status 2, nothing on standard output, `multiscalar: file PATH` of the file that was read, for `explain` and `check --least` with the reason",
    "a read finds the end too early": "the answer for the bytes that were read",
    "a file is cut while it is read": "the answer for the bytes that were read",
    "a file grows while it is read": "the answer for the longer file",
    "an open fails": "status 2, nothing on standard output, `multiscalar: file PATH` of that file, for `explain` and `check --least` with the reason",
    "an open interrupted": "the answer as ever, once or 1,000 times",
    "writes of 1, 7 or 100 bytes": "the answer as ever",
    "a write interrupted": "the answer as ever, for one interruption, 1,000, and one in two",
    "a write fails": "status 2, the bytes that were written before, `multiscalar: 2 Write`; for help status 2 alone",
    "a write on standard error fails": "status 2 and nothing on standard output",
    "standard output full or closed": "/dev/full, closed, a closed pipe: status 2, `multiscalar: 2 Write`; for help status 2 alone",
    "the other streams closed": "the status and the bytes of standard output as ever",
    "slow pipes, FIFOs as inputs": "the answer as ever",
    "standard input for a file": "a file of the name `-`, from a file or a pipe: the answer as ever; for two files status 2, nothing on standard output, `multiscalar: 5 InputTwice`",
    "standard input that fails": "a read of it fails or is interrupted 1,001 times, it is closed, a folder, or open for writing: status 2, nothing on standard output, "
                                 "`multiscalar: file -`, for `explain` and `check --least` with the reason; 1,000 interruptions: the answer as ever; an early end: the answer for the bytes that were read",
    "inputs without end": "of /dev/zero and /dev/full, also as standard input: program: `1 TooLong`, status 1; other files: status 2, the file named; in memory at most 16 MB above the limit",
    "empty inputs": "the answer for an empty file, of /dev/null and of an empty FIFO",
    "a missing file, a folder, a bad path": "status 2, nothing on standard output, `multiscalar: file PATH`, for `explain` and `check --least` with the reason",
    "a file of another user, as nobody": "status 2, nothing on standard output, `multiscalar: file PATH`, for `explain` and `check --least` with the reason",
    "files at the limit, and one byte above": "program: judged, and `1 TooLong`; other files: judged, and status 2 with the file named",
    "words that are not UTF-8": "status 2, nothing on standard output, `multiscalar: 1 Words`",
    "positioned reads: short": "of 1, 7, 100 or 4,096 bytes: the answer of one worker",
    "positioned reads: failed or interrupted": "one, all from one on, or one in some: the answer of one worker, since one thread then reads the file from its beginning",
    "positioned reads: one fails, then a read": "status 2, nothing on standard output, `multiscalar: file PATH` of that file, for `explain` and `check --least` with the reason; as ever, where not so many are made",
    "positioned reads: the end too early": "in a part: the answer of one worker, as before; after the parts: the answer for the bytes that were read",
    "positioned reads: the file is cut": "the answer for the bytes that were read: those that are left, where a part was short; else all parts and what was read after them",
    "positioned reads: the file grows": "the answer for the longer file",
    "positioned reads: files about as long as those that threads fetch": "the answer of one worker, from 262,142 to 262,146 bytes",
    "the size of a file is refused": "the answer as ever, also where the file is said to be a pipe",
    "a wrong size of a file": "the answer as ever, for sizes that are too small, too large, and none that a file can have",
}
MANY_RUNS = ["positioned reads: failed or interrupted", "positioned reads: the end too early", "positioned reads: the file is cut", "positioned reads: the file grows",
             "a read fails", "a read finds the end too early", "a file is cut while it is read", "a file grows while it is read", "a write fails"]
READ_ERRORS = [errno.EIO, errno.EAGAIN, errno.EISDIR, errno.EBADF, errno.ENOMEM, errno.ESTALE, errno.EINVAL, errno.EPERM]
OPEN_ERRORS = [errno.EACCES, errno.ENOENT, errno.EMFILE, errno.ENFILE, errno.ENOMEM, errno.ELOOP, errno.EIO, errno.EPERM, errno.ENXIO]
WRITE_ERRORS = [errno.EIO, errno.ENOSPC, errno.EPIPE, errno.EBADF, errno.EAGAIN, errno.EFBIG, errno.EDQUOT, 0]
INTERRUPTED = errno.EINTR
OTHER_REASON = "cannot be read"
REASONS = {errno.ENOENT: "no such file", errno.EISDIR: "is a directory", errno.EACCES: "no permission", errno.EPERM: "no permission",
           errno.ENOMEM: "out of memory", errno.EFBIG: "longer than 134217728 bytes"}
PROGRAM_LIMIT, FILE_LIMIT = 4194304, 134217728
WRITE_FAILED, NO_TEXT = b"multiscalar: 2 Write\n", b"multiscalar: 1 Words\n"
INPUT_TWICE = b"multiscalar: 5 InputTwice: only one file can be - (standard input)\n"


class Case:
    """The words of a run, the places of its files among them, and its answer."""

    def __init__(self, bench, words):
        self.bench, self.words = bench, words
        self.right = bench.run(words)
        self.places = [i for i, word in enumerate(words) if "/" in word]
        self.files = [words[i] for i in self.places]

    def with_file(self, which, path):
        """The words with another file in the place of the one of this number, from 0."""
        words = list(self.words)
        words[self.places[which]] = str(path)
        return words


def named(words, path, why, which=0):
    """The answer where the file of this number, 0 for the program, cannot be read; only `explain` and `check --least` say why: `why` is the
    system's error, or EFBIG for a file that is too long. Of a folder that is to be a program they say how its files are named."""
    if words[0] != "explain" and not (words[0] == "check" and "--least" in words):
        return 2, b"", f"multiscalar: file {path}\n".encode()
    more = f"; name its files, as in {path}/*.s" if why == errno.EISDIR and which == 0 else ""
    return 2, b"", f"multiscalar: file {path}: {REASONS.get(why, OTHER_REASON)}{more}\n".encode()


def unnamed(words, out):
    """What was written, without the names of the files that `explain` puts before a diagnostic and into those of a certificate, and
    without the command that it suggests, which names the two files where a shell takes them as they stand."""
    if words[0] != "explain":
        return out
    if "sarif" in words:
        out = re.sub(rb'"uri":"[^"]*"', b'"uri":"FILE"', out)
        out = re.sub(rb'(\\n|"text":")\S+?:(?=\d+:| )', rb"\1FILE:", out)
    out = re.sub(rb"(?m)^\S+?:(?=\d+:| )", b"FILE:", out)
    out = re.sub(rb"make (?:it anew|a certificate): multiscalar annotate --emit keep \S+ > [^\s\\]+", b"COMMAND", out)
    return re.sub(rb"a certificate of \S+ as it stands", b"FILE", out)


# Examples over which each way of running is tried, beside the subcommands that are tried over all.
SOME = ("count", "diamond", "five-findings")


def ways_of(folder, program, certificate):
    """Runs in steps, pictures, tables, traces, the least certificate, marks in the text, logs, and certificates that are explained."""
    yield ["explain", program, "--certificate", certificate]
    yield ["explain", "--no-warnings", program]
    yield ["explain", "--format", "sarif", program, "--certificate", certificate]
    yield ["annotate", "--emit", "marks", program]
    yield ["curve", "--units", "3", program, certificate]
    yield ["curve", "--units", "2", "--least", program]
    yield ["curve", "--units", "3", "--emit", "svg", program, certificate]
    yield ["explain", program, "--certificate", str(TOP / "examples" / "pair" / "certificate.cert2")]
    yield ["explain", program, "--certificate", str(TOP / "examples" / "README.md")]
    yield ["check", "--least", program]
    yield ["run", "--least", program]
    yield ["run", "--units", "1", "--emit", "svg", program, certificate]
    yield from (["run", "--units", "1", "--emit", emit, program, certificate] for emit in ("trace", "json"))
    for emit in ("report", "script", "summary", "svg", "trace", "json"):
        yield ["run", "--schedule", "steps", "--emit", emit, program, certificate]
    yield ["run", "--schedule", "steps", "--least", "--units", "16", "--predict", "1,0", "--emit", "summary", program]
    for script in sorted(folder.glob("s*.events")):
        yield from (["replay", "--emit", emit, program, certificate, str(script)] for emit in ("summary", "svg", "trace", "json"))
        yield ["replay", "--least", program, str(script)]


def cases(bench):
    """Each subcommand over the examples; what `run` prints must be known."""
    for folder in sorted(p for p in (TOP / "examples").iterdir() if (p / "program.s").exists()):
        program, certificate = str(folder / "program.s"), str(folder / "certificate.cert2")
        words = [["seq", program], ["print", program], ["annotate", "--emit", "cert", program]]
        if (folder / "certificate.cert2").exists():
            words += [["explain", program]]
            words += [["check", program, certificate], ["check", "--workers", "4", program, certificate]]
            words += [["replay", program, certificate, str(script)] for script in sorted(folder.glob("*.events"))]
            words += [["run", program, certificate, *(["--budget", "2000"] if folder.name == "spin" else [])]]
        if folder.name in SOME:
            words += ways_of(folder, program, certificate)
        yield from (Case(bench, w) for w in words)


def name_of(wanted):
    """What is said in the table of an answer that was wanted."""
    status, _, told = wanted
    if told in (WRITE_FAILED, NO_TEXT, INPUT_TWICE):
        return told.decode().split(": ")[1].strip()
    if told and told.startswith(b"multiscalar: file"):
        return "file named"
    return "status 2 alone" if status == 2 and told == b"" else "as it must be"


def inputs(every):
    """Each case with the number, from 0, of each of its files."""
    return [(case, which) for case in every for which in range(len(case.files))]


class Part:
    """One line of EXPECTED: its runs until the time is up, or one share of them, such as (0, 4), every fourth from the first."""

    def __init__(self, name, bench, end, share=(0, 1)):
        self.row, self.bench, self.end, self.share = Row(name), bench, end, share

    def over(self):
        return time.monotonic() > self.end

    def each(self, jobs, draw):
        """The jobs of the share in a drawn order, until the time is up."""
        jobs = jobs[self.share[0]::self.share[1]]
        draw.shuffle(jobs)
        for job in jobs:
            if self.over():
                self.row.part += f" (drawn, of {len(jobs)})"
                return
            yield job

    def expect(self, words, what, ended, wanted):
        """`wanted` is status, output and what is told; None in its place is anything."""
        given = (ended.status, unnamed(words, ended.out), ended.told)
        wanted = (wanted[0], wanted[1] and unnamed(words, wanted[1]), wanted[2])
        is_right = all(w is None or w == g for w, g in zip(wanted, given))
        if ended.counts and ended.counts[-1]:
            is_right, what = False, f"{what}, {ended.counts[-1]} files opened for writing"
        answer = name_of(wanted) if is_right else "did not end" if ended.status is None else f"status {ended.status}"
        text = f"{what}: {ended.out[:60]} {ended.told[:60]}, wanted {[w if w is None or isinstance(w, int) else w[:60] for w in wanted]}"
        self.row.seen(answer, words, text, not is_right)

    def run(self, case, what, wanted, *faults_of):
        self.expect(case.words, f"{what} {''.join(faults_of)}", self.bench.forked(case.words, *faults_of, counts=True), wanted)


def short_reads(part, every, draw):
    for case, size in part.each([(case, size) for case in every for size in (1, 7, 4096)], draw):
        part.run(case, "", case.right[:3], fault(READ, 1, EVERY, "s", size))


def interrupted_read(part, every, draw):
    jobs = [(case, n) for case in every for n in range(1, 20)] + [(case, n) for case in every for n in (-3, -10)]
    for case, n in part.each(jobs, draw):
        which = fault(READ, n, n, "e", INTERRUPTED) if n > 0 else fault(READ, 1, EVERY, "e", INTERRUPTED, -n, draw.randrange(9999))
        part.run(case, "", case.right[:3], fault(READ, 1, EVERY, "s", 64), which)


def interrupted_reads(count):
    def runs(part, every, draw):
        for case, which in part.each(inputs(every), draw):
            first = case.right.read_of.index(which + 1) + 1
            wanted = case.right[:3] if count == 1000 else named(case.words, case.files[which], INTERRUPTED)
            part.run(case, "", wanted, fault(READ, first, first + count - 1, "e", INTERRUPTED))
    return runs


def reads_of(case, size):
    """The file of each read, where each takes at most `size` bytes."""
    return case.bench.run(case.words, fault(READ, 1, EVERY, "s", size)).read_of


def failing_read(part, every, draw):
    jobs = [(case, n, error, file) for case in every for n, file in enumerate(reads_of(case, 200), 1) for error in READ_ERRORS]
    for case, n, error, file in part.each(jobs, draw):
        part.run(case, "", named(case.words, case.files[file - 1], error, file - 1), fault(READ, 1, EVERY, "s", 200), fault(READ, n, n, "e", error))


def prefix_answer(case, which, size, more=b""):
    """The answer where the file of this number has only its first bytes, and then others."""
    path = case.bench.folder / "prefix"
    with open(case.files[which], "rb") as file:
        path.write_bytes(file.read()[:size] + more)
    words = case.with_file(which, path)
    ended = case.bench.forked(words)
    return ended.status, unnamed(words, ended.out), None


def early_end(part, every, draw):
    jobs = []
    for case in every:
        files = reads_of(case, 20)
        jobs += [(case, n, file, 20 * files[:n - 1].count(file)) for n, file in enumerate(files, 1)]
    for case, n, file, size in part.each(jobs, draw):
        part.run(case, "", prefix_answer(case, file - 1, size), fault(READ, 1, EVERY, "s", 20), fault(READ, n, n, "z"))


def changed_while_read(how, more):
    """A copy of an input is cut, or made longer, before a read of it."""
    def runs(part, every, draw):
        copy = part.bench.folder / "changing"
        jobs = [(case, n, files[n - 1], files[:n - 1].count(files[n - 1])) for case in every
                for files in [reads_of(case, 100)] for n in range(1, len(files) + 1)]
        for case, n, file, earlier in part.each(jobs, draw):
            with open(case.files[file - 1], "rb") as source:
                text = source.read()
            copy.write_bytes(text)
            had = 100 * earlier
            value = draw.randint(0, len(text)) if how == "t" else draw.choice((1, 500))
            wanted = prefix_answer(case, file - 1, max(had, value) if how == "t" else len(text), more.encode() * value if how == "a" else b"")
            changed = fault(READ, 1, EVERY, "s", 100), fault(READ, n, n, how, value)
            ended = part.bench.forked(case.with_file(file - 1, copy), *changed, counts=True, target=str(copy), more=more)
            part.expect(case.words, f"file {file} before read {n}, {how} {value}", ended, wanted)
    return runs


def failing_open(part, every, draw):
    jobs = [(case, which, error) for case, which in inputs(every) for error in OPEN_ERRORS]
    for case, which, error in part.each(jobs, draw):
        part.run(case, "", named(case.words, case.files[which], error), fault(OPEN, which + 1, which + 1, "e", error))


def interrupted_open(part, every, draw):
    jobs = [(case, which, count) for case, which in inputs(every) for count in (1, 1000)]
    for case, which, count in part.each(jobs, draw):
        part.run(case, "", case.right[:3], fault(OPEN, which + 1, which + count, "e", INTERRUPTED))


def short_writes(part, every, draw):
    for case, size in part.each([(case, size) for case in every + helps(part.bench) for size in (1, 7, 100)], draw):
        part.run(case, "", case.right[:3], fault(WRITE, 1, EVERY, "s", size))


def interrupted_write(part, every, draw):
    jobs = [(case, how) for case in every + helps(part.bench) for how in range(12)]
    for case, how in part.each(jobs, draw):
        which = (fault(WRITE, 3, 1002, "e", INTERRUPTED) if how == 0 else
                 fault(WRITE, 1, EVERY, "e", INTERRUPTED, 2, draw.randrange(9999)) if how == 1 else fault(WRITE, how, how, "e", INTERRUPTED))
        part.run(case, "", case.right[:3], fault(WRITE, 1, EVERY, "s", 3), which)


def helps(bench):
    return [Case(bench, ["--help"]), Case(bench, ["run", "--help"])]


def failing_write(part, every, draw):
    """Writes of ten bytes, one of which fails or takes none."""
    jobs = [(case, n, error) for case in every + helps(part.bench) for error in WRITE_ERRORS
            for n in range(1, min(len(case.right.out) // 10, 300) + 2) if 10 * (n - 1) < len(case.right.out)]
    for case, n, error in part.each(jobs, draw):
        wanted = 2, case.right.out[:10 * (n - 1)], WRITE_FAILED if case.files else b""
        part.run(case, "", wanted, fault(WRITE, 1, EVERY, "s", 10), fault(WRITE, n, n, "e" if error else "z", error))


def failing_telling(part, every, draw):
    for case, error in part.each([(case, error) for case in every for error in WRITE_ERRORS], draw):
        part.run(case, "", (2, b"", b""), fault(OPEN, 1, 1, "e", errno.EIO), fault(TELL, 1, EVERY, "e" if error else "z", error))


def bad_outputs(part, every, draw):
    """/dev/full, no standard output, one that is open for reading only, and a pipe without a reader."""
    reader, closed = os.pipe()
    os.close(reader)
    with open("/dev/full", "wb") as full, open("/dev/null", "rb") as unwritable:
        outputs = {"/dev/full": full, "closed pipe": closed, "open for reading": unwritable, "closed": None}
        for case, name in part.each([(case, name) for case in every + helps(part.bench) for name in outputs], draw):
            closing = {"preexec_fn": lambda: os.close(1)} if name == "closed" else {}
            done = ending.run([part.bench.program, *case.words], stdin=subprocess.DEVNULL, stdout=outputs[name],
                              stderr=subprocess.PIPE, **closing)
            ended = faults.Ended(done.returncode, b"", done.stderr, None, None)
            part.expect(case.words, name, ended, (2, b"", WRITE_FAILED if case.files else b"") if case.right.out else case.right[:3])
    os.close(closed)


def bad_streams(part, every, draw):
    jobs = [(case, streams, is_missing) for case in every for streams in ((0,), (2,), (0, 2)) for is_missing in (False, True)]
    for case, streams, is_missing in part.each(jobs, draw):
        words = case.with_file(0, part.bench.folder / "missing") if is_missing else case.words
        done = ending.run([part.bench.program, *words], stdout=subprocess.PIPE, stderr=subprocess.DEVNULL,
                          preexec_fn=lambda: [os.close(stream) for stream in streams])
        ended = faults.Ended(done.returncode, done.stdout, b"", None, None)
        part.expect(words, f"closed {streams}", ended, (2, b"", b"") if is_missing else case.right[:2] + (None,))


def feed(path, text, size):
    """Writes a text into a FIFO, in pieces."""
    try:
        with open(path, "wb", buffering=0) as file:
            for at in range(0, len(text), size):
                file.write(text[at:at + size])
    except BrokenPipeError:
        pass


def from_fifo(part, case, which, text, size):
    """The answer where an input comes through a FIFO."""
    path = part.bench.folder / "fifo"
    path.unlink(missing_ok=True)
    os.mkfifo(path)
    writer = threading.Thread(target=feed, args=(path, text, size), daemon=True)
    writer.start()
    ended = part.bench.run(case.with_file(which, path))
    writer.join(10)
    return ended


def pipes(part, every, draw):
    jobs = [(case, which, size) for case in every for which in [*range(len(case.files)), -1] for size in (1, 1000)]
    for case, which, size in part.each(jobs, draw):
        if which >= 0:
            with open(case.files[which], "rb") as file:
                part.expect(case.words, f"FIFO for file {which}", from_fifo(part, case, which, file.read(), size), case.right[:3])
            continue
        child = subprocess.Popen([part.bench.program, *case.words], stdin=subprocess.DEVNULL, stdout=subprocess.PIPE, stderr=subprocess.PIPE)
        out = bytearray()
        while piece := os.read(child.stdout.fileno(), size):
            out += piece
        part.expect(case.words, "slow reader", faults.Ended(ending.until(child, child.wait), bytes(out), child.stderr.read(), None, None), case.right[:3])
        child.stdout.close()
        child.stderr.close()


def from_input(part, words, text):
    """A run that has this text on standard input, from a pipe, or from this open file."""
    given = {"input": text} if isinstance(text, bytes) else {"stdin": text}
    done = ending.run([part.bench.program, *words], capture_output=True, **given)
    return faults.Ended(done.returncode, done.stdout, done.stderr, None, None)


def standard_input(part, every, draw):
    for (case, which), is_pipe in part.each([(one, is_pipe) for one in inputs(every) for is_pipe in (False, True)], draw):
        words = case.with_file(which, "-")
        with open(case.files[which], "rb") as file:
            part.expect(words, f"- for file {which}", from_input(part, words, file.read() if is_pipe else file), case.right[:3])
            if which:
                words[case.places[which - 1]] = "-"
                part.expect(words, f"- for files {which - 1} and {which}", from_input(part, words, file), (2, b"", INPUT_TWICE))


def with_input(part, case, which, *faults_of):
    """A run that has the file of this number on standard input."""
    with open(case.files[which], "rb") as file:
        return part.bench.run(case.with_file(which, "-"), *faults_of, given=file)


def failing_input(part, every, draw):
    """Reads of standard input that fail, and standard inputs that cannot be read."""
    hows = [*READ_ERRORS, "interrupted 1,000 times", "interrupted 1,001 times", "ends early", "closed", "a folder", "open for writing"]
    for (case, which), how in part.each([(one, how) for one in inputs(every) for how in hows], draw):
        words = case.with_file(which, "-")
        reads = [n for n, file in enumerate(with_input(part, case, which, fault(READ, 1, EVERY, "s", 100)).read_of, 1) if file == 0]
        n, wanted = draw.choice(reads), named(words, "-", how, which)
        if how == "closed":
            ended = part.bench.run(words, limit=lambda: os.close(0))
            wanted = named(words, "-", errno.EBADF)
        elif how in ("a folder", "open for writing"):
            file = os.open(part.bench.folder, os.O_RDONLY) if how == "a folder" else os.open("/dev/null", os.O_WRONLY)
            ended = part.bench.run(words, given=file)
            os.close(file)
            wanted = named(words, "-", errno.EISDIR if how == "a folder" else errno.EBADF, which)
        else:
            count = 1000 if "1,000" in str(how) else 1001
            which_fault = (fault(READ, n, n, "z") if how == "ends early" else
                           fault(READ, n, n + count - 1, "e", INTERRUPTED) if isinstance(how, str) else fault(READ, n, n, "e", how))
            ended = with_input(part, case, which, fault(READ, 1, EVERY, "s", 100), which_fault)
            if how == "ends early":
                wanted = prefix_answer(case, which, 100 * reads.index(n))
            elif isinstance(how, str):
                wanted = case.right[:3] if count == 1000 else named(words, "-", INTERRUPTED)
        part.expect(words, f"{how}, read {n}", ended, wanted)


def measured(part, words, path=None):
    """How a run ends, and the most memory that it had, in bytes. A script that stays small starts it: what a
    child has touched counts from where its parent stood when it began. `path` is of standard input."""
    text = ("import resource, subprocess, sys\nstatus = subprocess.run(sys.argv[1:]).returncode\n"
            "print(status, resource.getrusage(resource.RUSAGE_CHILDREN).ru_maxrss, file=sys.stderr)\n")
    with open(path or "/dev/null", "rb") as given:
        done = ending.run([sys.executable, "-c", text, part.bench.program, *words], stdin=given, capture_output=True)
    *told, last = done.stderr.splitlines(keepends=True)
    status, kilobytes = map(int, last.split())
    return faults.Ended(status, done.stdout, b"".join(told), None, None), kilobytes * 1024


def endless(part, every, draw):
    # one case of each subcommand and number of files, and a check by several threads
    chosen = list({(case.words[0], len(case.files), "--workers" in case.words): case for case in every}.values())
    most = 0
    jobs = [(one, path, name) for one in inputs(chosen) for path in ("/dev/zero", "/dev/full") for name in (path, "-")]
    for (case, which), path, name in part.each(jobs, draw):
        ended, memory = measured(part, case.with_file(which, name), path)
        refused = None if case.words[0] == "explain" else b"program refused: 1 TooLong\n"
        part.expect(case.words, f"{path} as {name} for file {which}", ended, named(case.words, name, errno.EFBIG) if which else (1, refused, b""))
        limit = FILE_LIMIT if which else PROGRAM_LIMIT
        most = max(most, memory - limit)
        if memory > limit + 16e6:
            part.row.differences.append(f"memory {memory}: {' '.join(case.words)}: {path} for file {which}")
    part.row.answers[f"most memory above the limit {most / 1e6:.0f} MB"] = part.row.cases


def empty(part, every, draw):
    for (case, which), is_fifo in part.each([(one, is_fifo) for one in inputs(every) for is_fifo in (False, True)], draw):
        wanted = prefix_answer(case, which, 0)
        ended = from_fifo(part, case, which, b"", 1) if is_fifo else part.bench.run(case.with_file(which, "/dev/null"))
        part.expect(case.words, f"empty file {which}", ended, wanted)


def no_files(bench):
    """Paths of which none can be read, and the error of each."""
    folder = bench.folder
    loop = folder / "loop"
    if not loop.is_symlink():
        loop.symlink_to(loop)
        (folder / "file").write_bytes(b"")
    return [(folder / "missing", errno.ENOENT), (folder, errno.EISDIR), (loop, errno.ELOOP), (folder / "file" / "below", errno.ENOTDIR),
            ("", errno.ENOENT), (folder / ("n" * 300), errno.ENAMETOOLONG), ("/" + "d/" * 3000, errno.ENAMETOOLONG), ("/proc/self/mem", errno.EIO)]


def unreadable(part, every, draw):
    for (case, which), (path, error) in part.each([(one, path) for one in inputs(every) for path in no_files(part.bench)], draw):
        part.expect(case.words, f"{str(path)[:80]} for file {which}", part.bench.run(case.with_file(which, path)), named(case.words, path, error, which))


def forbidden(part, every, draw):
    """As another user, who may not read the file (a file whose mode forbids it, where this is not root)."""
    path = part.bench.folder / "secret"
    path.write_bytes(b"halt\n")
    path.chmod(0)
    folder = part.bench.folder / "for-nobody"
    folder.mkdir(exist_ok=True)
    folder.chmod(0o755)
    program = folder / "multiscalar"
    program.write_bytes(open(part.bench.program, "rb").read())
    program.chmod(0o755)
    as_nobody = {"user": "nobody"} if os.geteuid() == 0 else {}
    for case, which in part.each(inputs(every), draw):
        words = case.with_file(which, path)
        for place, number in zip(case.places, range(which)):
            copy = folder / f"file-{number}"
            copy.write_bytes(open(case.words[place], "rb").read())
            copy.chmod(0o644)
            words[place] = str(copy)
        done = ending.run([program, *words], stdin=subprocess.DEVNULL, capture_output=True, cwd="/", **as_nobody)
        part.expect(case.words, f"forbidden file {which}", faults.Ended(done.returncode, done.stdout, done.stderr, None, None), named(case.words, path, errno.EACCES))


def limits(part, every, draw):
    """Files of zeros without blocks, at the limit and one byte above."""
    path = part.bench.folder / "zeros"
    three = next(case for case in every if len(case.files) == 3)
    judged = {0: b"program refused: 2 NotAscii line 1\n", 1: b"certificate refused: 1 Header\n", 2: b"script refused: 1 Line 1\n"}
    for which, above in part.each([(which, above) for which in range(3) for above in (0, 1)], draw):
        with open(path, "wb") as file:
            file.truncate((FILE_LIMIT if which else PROGRAM_LIMIT) + above)
        wanted = named(three.words, path, errno.EFBIG) if which and above else (1, b"program refused: 1 TooLong\n" if above else judged[which], b"")
        part.expect(three.words, f"zeros for file {which}, {above} above", part.bench.run(three.with_file(which, path)), wanted)


def not_text(part, every, draw):
    for case, place in part.each([(case, place) for case in every for place in range(len(case.words) + 1)], draw):
        words = [os.fsencode(word) for word in case.words]
        words.insert(place, draw.choice((b"\xff", b"a\xc3", b"\xed\xa0\x80", b"--\x80")))
        part.expect(case.words, f"{words[place]} as word {place}", part.bench.run(words), (2, b"", NO_TEXT))


class SharedCase(Case):
    """A `check` whose certificate several workers fetch; right is what one worker answers."""

    def __init__(self, bench, workers, certificate):
        data = TOP / "crates" / "test_program" / "data"
        files = [str(data / "large.s"), str(certificate or data / "large.cert2")]
        super().__init__(bench, ["check", "--workers", "1", *files])
        self.words, self.workers = ["check", "--workers", str(workers), *files], workers
        with open(files[1], "rb") as file:
            self.text = file.read()

    def behind(self, size):
        """Where the parts end, for a file that is said to be so long."""
        return size // self.workers * self.workers


def shared_cases(bench):
    """A certificate with findings, for each number of workers; and one whose last line is a fault."""
    broken = bench.folder / "broken.cert2"
    broken.write_bytes((TOP / "crates" / "test_program" / "data" / "large.cert2").read_bytes()[:-2] + b"x\n")
    return [SharedCase(bench, workers, None) for workers in (2, 3, 4, 16)] + [SharedCase(bench, 4, broken)]


def with_preads(part, case, wanted, *faults_of):
    """A run of which positioned reads are known to have been made."""
    ended = part.bench.forked(case.words, *faults_of, counts=True)
    if ended.counts and not ended.counts[PREAD]:
        part.row.differences.append(f"no positioned reads: {' '.join(case.words)}")
    part.expect(case.words, "".join(faults_of), ended, wanted)


def short_preads(part, every, draw):
    for case, size in part.each([(case, size) for case in shared_cases(part.bench) for size in (1, 7, 100, 4096, EVERY)], draw):
        with_preads(part, case, case.right[:3], fault(PREAD, 1, EVERY, "s", size))


def pread_faults(draw, n, error):
    """A positioned read fails alone, with all after it, or one in some does."""
    return fault(PREAD, n, n, "e", error), fault(PREAD, n, EVERY, "e", error), fault(PREAD, 1, EVERY, "e", error, 2 + n, draw.randrange(9999))


def failing_pread(part, every, draw):
    jobs = [(case, which) for case in shared_cases(part.bench) for n in range(1, 40) for error in [INTERRUPTED, *READ_ERRORS]
            for which in pread_faults(draw, n, error)]
    for case, which in part.each(jobs, draw):
        with_preads(part, case, case.right[:3], fault(PREAD, 1, EVERY, "s", draw.choice((4096, EVERY))), which)


def failing_pread_and_read(part, every, draw):
    jobs = [(case, n, error) for case in shared_cases(part.bench) for n in range(1, 12) for error in READ_ERRORS]
    for case, n, error in part.each(jobs, draw):
        # one of the reads of one worker, but for that which finds the end
        first = case.right.read_of.index(2) + draw.randrange(1, case.right.read_of.count(2))
        which = fault(PREAD, n, n, "e", draw.choice([INTERRUPTED, *READ_ERRORS])), fault(READ, first, EVERY, "e", error)
        ended = part.bench.forked(case.words, *which, counts=True)
        wanted = named(case.words, case.files[1], 0) if ended.counts and ended.counts[PREAD] >= n else case.right[:3]
        part.expect(case.words, "".join(which), ended, wanted)


def told_sizes(case):
    """The size as it is, and smaller ones, so that more is read after the parts."""
    return len(case.text), 300000, 262144


def early_pread(part, every, draw):
    jobs = [(case, n, size) for case in shared_cases(part.bench) for n in range(1, 90) for size in told_sizes(case)]
    for case, n, size in part.each(jobs, draw):
        which = fault(PREAD, 1, EVERY, "s", 4096), fault(PREAD, n, n, "z"), fault(SIZE, 1, EVERY, "l", size)
        ended = part.bench.forked(case.words, *which, counts=True)
        offset = ended.preads[n - 1][0] if ended.preads and n <= len(ended.preads) else 0
        wanted = prefix_answer(case, 1, offset) if offset >= case.behind(size) else case.right[:3]
        part.expect(case.words, f"at {offset} {''.join(which)}", ended, wanted)


def left_of_cut(case, ended, size, value):
    """How many bytes were read of a file that was said to be of one size and was cut to another."""
    if 2 in ended.read_of:
        return value
    return case.behind(size) + sum(got for offset, got in ended.preads if offset >= case.behind(size))


def changed_before_pread(how, more):
    """A copy of the certificate is cut, or made longer, before a positioned read."""
    def runs(part, every, draw):
        copy = part.bench.folder / "changing"
        jobs = [(case, n, size) for case in shared_cases(part.bench) for n in range(1, 90) for size in told_sizes(case)]
        for case, n, size in part.each(jobs, draw):
            copy.write_bytes(case.text)
            value = draw.randint(draw.choice((0, case.behind(size) - 9)), len(case.text)) if how == "t" else draw.choice((1, 500))
            which = fault(PREAD, 1, EVERY, "s", 4096), fault(PREAD, n, n, how, value), fault(SIZE, 1, EVERY, "l", size)
            ended = part.bench.forked(case.with_file(1, copy), *which, counts=True, target=str(copy), more=more)
            if not ended.preads or n > len(ended.preads):
                wanted = case.right[:3]
            elif how == "t":
                wanted = prefix_answer(case, 1, left_of_cut(case, ended, size, value))
            else:
                wanted = prefix_answer(case, 1, len(case.text), more.encode() * value)
            part.expect(case.words, "".join(which), ended, wanted)
    return runs


def least_shared(part, every, draw):
    """Beginnings of a certificate, of about the length from which on several threads fetch."""
    jobs = [(case, size) for case in shared_cases(part.bench) for size in range(262142, 262147)]
    path = part.bench.folder / "beginning"
    for case, size in part.each(jobs, draw):
        path.write_bytes(case.text[:size])
        words = case.with_file(1, path)
        ended = part.bench.run(words)
        if ended.counts and bool(ended.counts[PREAD]) != (size >= 262144):
            part.row.differences.append(f"{ended.counts[PREAD]} positioned reads of {size} bytes: {' '.join(words)}")
        part.expect(words, f"{size} bytes", ended, part.bench.run([*words[:2], "1", *words[3:]])[:3])


def with_sizes(part, every):
    """The cases that ask for the size of a file."""
    return [case for case in every if case.right.counts[SIZE]] + shared_cases(part.bench)


def no_size(part, every, draw):
    hows = [("e", error) for error in (errno.EIO, errno.EACCES, errno.ENOSYS, errno.EOVERFLOW, errno.ENOMEM, errno.EBADF, INTERRUPTED)] + [("p", 0), ("z", 0)]
    for case, how in part.each([(case, how) for case in with_sizes(part, every) for how in hows], draw):
        part.run(case, "", case.right[:3], fault(SIZE, 1, EVERY, *how))


def wrong_size(part, every, draw):
    jobs = [(case, size) for case in with_sizes(part, every) for length in [os.path.getsize(case.files[1])]
            for size in (0, 1, length // 2, length - 1, length + 1, 2 * length, 262143, 262144, 300000, FILE_LIMIT, FILE_LIMIT + 1, 1 << 40, -1)]
    for case, size in part.each(jobs, draw):
        part.run(case, "", case.right[:3], fault(SIZE, 1, EVERY, "l", size))


RUNS = [short_reads, interrupted_read, interrupted_reads(1000), interrupted_reads(1001), failing_read, early_end,
        changed_while_read("t", ""), changed_while_read("a", "# more\n"), failing_open, interrupted_open, short_writes, interrupted_write,
        failing_write, failing_telling, bad_outputs, bad_streams, pipes, standard_input, failing_input, endless, empty, unreadable, forbidden, limits, not_text,
        short_preads, failing_pread, failing_pread_and_read, early_pread, changed_before_pread("t", ""), changed_before_pread("a", "# more\n"), least_shared,
        no_size, wrong_size]


def run(program, minutes, seed, only="", share=(0, 1), which=None):
    """The rows of all parts, or of the one named `which`, in about so many minutes; time that a part leaves goes to those after
    it, so the parts with the most runs come last."""
    end, draw, rows = time.monotonic() + 60 * minutes, random.Random(seed), {}
    resource.setrlimit(resource.RLIMIT_CORE, (0, resource.getrlimit(resource.RLIMIT_CORE)[1]))
    chosen = sorted(((name, runs) for name, runs in zip(EXPECTED, RUNS) if only in name and which in (None, name)), key=lambda one: one[0] in MANY_RUNS)
    with faults.Bench(program) as bench:
        every = list(cases(bench))
        for left, (name, runs) in zip(range(len(chosen), 0, -1), chosen):
            now = time.monotonic()
            part = Part(name, bench, now + max(end - now, 0) / left, share)
            runs(part, every, draw)
            rows[name] = part.row.line()
    return [rows[name] for name in EXPECTED if name in rows]


def whole(program, seed):
    """The rows of all runs of all parts, in as many processes at once as there are cores. A part with many runs has a row for each share."""
    many = len(os.sched_getaffinity(0))
    shares = [(name, (k, many)) for name in MANY_RUNS for k in range(many)] + [(name, (0, 1)) for name in EXPECTED if name not in MANY_RUNS]
    with multiprocessing.Pool(many) as parts:
        found = parts.starmap(run, [(program, 1e9, seed, "", share, name) for name, share in shares], chunksize=1)
    return [row for name in EXPECTED for (of, _), rows in zip(shares, found) if of == name for row in rows]


def main():
    parser = argparse.ArgumentParser(description=__doc__.splitlines()[0])
    parser.add_argument("program")
    parser.add_argument("--minutes", default=10, type=float)
    parser.add_argument("--seed", default=1, type=int)
    parser.add_argument("--only", default="", help="only the parts whose name has this")
    parser.add_argument("--list", action="store_true", help="print what is expected, and run nothing")
    args = parser.parse_args()
    if args.list:
        for name, expected in EXPECTED.items():
            print(f"{name}: {expected}")
        return 0
    wrong = 0
    for part, count, answers, differences in run(args.program, args.minutes, args.seed, args.only):
        print(f"{part}: {count} runs", *(f"{number} {answer}" for answer, number in answers.items()), sep=", ")
        for difference in differences:
            print("wrong:", difference)
        wrong += len(differences)
    print("wrong", wrong)
    return 1 if wrong else 0


if __name__ == "__main__":
    sys.exit(main())
