#!/usr/bin/env python3
"""Ends runs by signals, and looks at what is left of them.

    ended_runs.py PROGRAM [--minutes M] [--seed N]

The program handles no signal but ignores SIGPIPE (a write to a closed pipe then fails). So SIGINT, and each
other signal that ends a process, must end it at once, with the status of the signal, and on standard output a
beginning of the right bytes: nothing, where it had not begun to write. It writes no file of its own. In some
runs the signal comes in the middle of a drawn call of the C library (faults.py), in others after a
drawn time; some are stopped and go on, and must answer as ever. What differs is told, and the script ends with
status 1. Needs python3 and cc; it is no part of the tests.
"""
import argparse
import os
import random
import resource
import signal
import subprocess
import sys
import tempfile
import time

import ending
import faults
from failed_calls import cases
from faults import EVERY, GROW, OPEN, READ, TOP, WRITE, Row, fault

ENDING = [signal.SIGINT] * 5 + [signal.SIGTERM, signal.SIGHUP, signal.SIGQUIT, signal.SIGKILL, signal.SIGALRM, signal.SIGUSR1]
AT_ONCE = 1.0


def large(folder):
    """The words of runs that take a while."""
    subprocess.run([sys.executable, str(TOP / "bench" / "bench.py"), "--write", str(folder), "--certificate"], check=True)

    def of(*names):
        return [str(folder / name) for name in names]

    yield ["print", *of("labels.s")]
    yield ["print", *of("maximal.s")]
    yield ["annotate", *of("maximal.s")]
    yield ["seq", *of("long300000.s")]
    for workers in ("1", "4"):
        yield ["check", *of("maximal.s", "maximal.cert2"), "--workers", workers]
    yield ["replay", *of("steady.s", "steady.cert2", "steady4.events")]
    for units in ("1", "4", "16"):
        yield ["run", *of("steady.s", "steady.cert2"), "--units", units, "--budget", "20000"]
    yield ["run", *of("long300000.s", "long.cert2"), "--units", "1"]
    for emit in ("script", "svg", "trace"):
        yield ["run", *of("steady.s", "steady.cert2"), "--schedule", "steps", "--budget", "300000", "--emit", emit]
    yield ["run", *of("steady.s", "steady.cert2"), "--schedule", "steps", "--budget", "50000", "--emit", "json"]
    yield from (["curve", *of("steady.s", "steady.cert2"), "--budget", "50000", "--emit", emit] for emit in ("table", "svg"))
    yield ["annotate", *of("maximal.s"), "--emit", "marks"]
    yield ["explain", *of("late_fault.s"), "--format", "sarif"]
    yield from (["replay", *of("steady.s", "steady.cert2", "steady4.events"), "--emit", emit] for emit in ("svg", "json"))
    yield ["explain", *of("maximal.s"), "--certificate", *of("maximal.cert2")]
    yield ["check", "--least", *of("maximal.s")]


def heed_signals():
    """No signal is ignored, as SIGINT is in what a shell starts in the background."""
    for number in set(ENDING) - {signal.SIGKILL}:
        signal.signal(number, signal.SIG_DFL)


def state(folder):
    """The files below a folder, with sizes and times of change."""
    return sorted((str(path), path.stat().st_size, path.stat().st_mtime_ns) for path in folder.rglob("*") if path.is_file())


def in_a_call(row, bench, draw, end):
    """The signal comes in the middle of a call."""
    every = list(cases(bench))
    while time.monotonic() < end:
        case, kind, number = draw.choice(every), draw.choice((GROW, GROW, GROW, OPEN, READ, WRITE)), draw.choice(ENDING)
        if kind == WRITE and not case.right.out:
            continue  # right marks that cost nothing are explained without a write
        # memory as often as it is asked for; files as often as there are; some reads and writes of ten bytes
        most = {GROW: case.right.counts[GROW], OPEN: len(case.files), READ: 5, WRITE: max(1, len(case.right.out) // 10)}[kind]
        call = draw.randint(1, most)
        ended = bench.run(case.words, fault(READ, 1, EVERY, "s", 10), fault(WRITE, 1, EVERY, "s", 10), fault(kind, call, call, "k", number), limit=heed_signals)
        before = case.right.out[:10 * (call - 1)] if kind == WRITE else b""
        # where there are threads, another one may take the signal, a moment later
        has_threads = case.words[0] == "run" or "--workers" in case.words
        is_right = (ended.status, ended.told) == (-number, b"") and (ended.out == before or has_threads and case.right.out.startswith(ended.out))
        is_late = has_threads and kind != OPEN and ended[:3] == case.right[:3]
        row.seen("ended before it came" if is_late else "ended by it" if is_right else f"status {ended.status}", case.words,
                 f"call {call} of kind {kind}, signal {number}: status {ended.status} {ended.out[:60]} {ended.told[:60]}", not (is_right or is_late))


def start(bench, words, out, folder):
    return subprocess.Popen([bench.program, *words], stdin=subprocess.DEVNULL, stdout=out, stderr=subprocess.PIPE, cwd=folder, preexec_fn=heed_signals)


def status_of(child):
    """The status of a run, or None where it does not end, and for how long from now on it ran or was idle: it may have waited
    for a core besides."""
    watch = ending.Watch(child.pid, 0.05)
    try:
        status = ending.until(child, child.wait, watch)
    except subprocess.TimeoutExpired:
        status = None
    return status, watch.used + watch.idle


def at_a_time(row, bench, draw, end, chosen):
    """The signal comes after a drawn time; output goes to a file."""
    while time.monotonic() < end:
        words, right, seconds = draw.choice(chosen)
        number = draw.choice(ENDING)
        with tempfile.TemporaryFile(dir=bench.folder) as out, tempfile.TemporaryDirectory(dir=bench.folder) as folder:
            child = start(bench, words, out, folder)
            time.sleep(seconds * draw.random())
            child.send_signal(number)
            status, took = status_of(child)
            told, left = child.stderr.read(), os.listdir(folder)
            child.stderr.close()
            out.seek(0)
            put_out = out.read()
        is_late = (status, put_out, told) == right[:3]
        is_right = is_late or (status, told) == (-number, b"") and right.out.startswith(put_out)
        row.seen("ended before it came" if is_late else "ended by it" if is_right else f"status {status}", words,
                 f"signal {number}: status {status}, {len(put_out)} bytes, {told[:60]}, {took:.3f} s, {left}", not is_right or took > AT_ONCE or left)


def while_writing(row, bench, draw, end, chosen):
    """The signal comes while the program waits for a reader of its output."""
    chosen = [one for one in chosen if len(one[1].out) > 500000]
    while time.monotonic() < end:
        words, right, _ = draw.choice(chosen)
        number = draw.choice(ENDING)
        child = start(bench, words, subprocess.PIPE, bench.folder)
        got = os.read(child.stdout.fileno(), draw.choice((1, 1000, 60000)))
        child.send_signal(number)
        status, took = status_of(child)
        got += child.stdout.read()
        child.stdout.close()
        child.stderr.close()
        is_right = status == -number and right.out.startswith(got) and took < AT_ONCE
        row.seen("ended by it" if is_right else f"status {status}", words, f"signal {number}: status {status}, {len(got)} bytes, {took:.3f} s", not is_right)


def stopped(row, bench, draw, end, chosen):
    """The process is stopped and goes on, some times; SIGWINCH and SIGURG, which do not end it, come too."""
    while time.monotonic() < end:
        words, right, seconds = draw.choice(chosen)
        with tempfile.TemporaryFile(dir=bench.folder) as out:
            child = start(bench, words, out, bench.folder)
            for _ in range(draw.randint(1, 5)):
                time.sleep(seconds / 4 * draw.random())
                child.send_signal(signal.SIGSTOP)
                child.send_signal(signal.SIGWINCH)
                child.send_signal(signal.SIGURG)
                time.sleep(0.01)
                child.send_signal(signal.SIGCONT)
            status, _ = status_of(child)
            told = child.stderr.read()
            child.stderr.close()
            out.seek(0)
            put_out = out.read()
        is_right = (status, put_out, told) == right[:3]
        row.seen("as ever" if is_right else f"status {status}", words, f"{len(put_out)} bytes {told[:60]}", not is_right)


def run(program, minutes, seed):
    """The rows of all parts, in about so many minutes."""
    begin, draw = time.monotonic(), random.Random(seed)
    resource.setrlimit(resource.RLIMIT_CORE, (0, resource.getrlimit(resource.RLIMIT_CORE)[1]))
    rows = [Row(name) for name in ("signal in the middle of a call", "signal at a drawn time",
                                   "signal while output waits for a reader", "stopped and continued")]
    with faults.Bench(program) as bench, tempfile.TemporaryDirectory(prefix="multiscalar-signals-") as folder:
        in_a_call(rows[0], bench, draw, begin + 60 * minutes * 0.3)
        folder = type(TOP)(folder)
        chosen = []
        for words in large(folder):
            before = time.monotonic()
            right = bench.plain(words)
            chosen.append((words, right, time.monotonic() - before))
        files = state(folder)
        for row, part, left in zip(rows[1:], (at_a_time, while_writing, stopped), (3, 2, 1)):
            now = time.monotonic()
            part(row, bench, draw, now + max(begin + 60 * minutes - now, 0) / left, chosen)
        if state(folder) != files:
            rows[1].differences.append("a signal left other files than there were")
    return [row.line() for row in rows]


def main():
    parser = argparse.ArgumentParser(description=__doc__.splitlines()[0])
    parser.add_argument("program")
    parser.add_argument("--minutes", default=5, type=float)
    parser.add_argument("--seed", default=1, type=int)
    args = parser.parse_args()
    wrong = 0
    for part, count, answers, differences in run(args.program, args.minutes, args.seed):
        print(f"{part}: {count} runs", *(f"{number} {answer}" for answer, number in answers.items()), sep=", ")
        for difference in differences:
            print("wrong:", difference)
        wrong += len(differences)
    print("wrong", wrong)
    return 1 if wrong else 0


if __name__ == "__main__":
    sys.exit(main())
