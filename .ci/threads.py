#!/usr/bin/env python3
"""Refuses threads of `run` in turn, over the program that `rt ci` built.

    threads.py [--times N] [--program BUILT]

A library that is loaded before the C library refuses one thread of a run, or all from one on (fuzz/refused_threads.py).
Then `run` must print nothing, say `OutOfMemory` and end with status 2, so the threads that it made have ended, too; and
where no thread is refused it must end as ever. Anything else, a run that does not end among it, ends the script with
status 1.

Needs python3, cc and Linux.
"""
import argparse
import pathlib
import shutil
import subprocess
import sys
import tempfile
import time

TOP = pathlib.Path(__file__).resolve().parent.parent
sys.path.insert(0, str(TOP / "fuzz"))
import refused_threads

# Each number of units with one of workers, so of threads.
SIZES = ((1, 1), (2, 2), (4, 4), (16, 3), (16, 16))
EXAMPLES = ("count", "diamond")


def cases():
    """The words of each run, and how many threads it makes."""
    for name in EXAMPLES:
        files = [str(TOP / "examples" / name / text) for text in ("program.s", "certificate.cert2")]
        for units, workers in SIZES:
            yield ["run", *files, "--units", str(units), "--workers", str(workers)], workers


def differences(program, shim, counted, words, workers, times):
    """What is wrong with a run that makes this many threads; and how many runs that were."""
    usual = refused_threads.run(program, words, shim, 0, False, counted)
    made = int(counted.read_text())
    if made != workers or usual[0] != 0:
        return [f"{' '.join(words)}: {made} threads, status {usual[0]}"], 1
    wrong, tried = [], 1
    for number in range(1, workers + 2):
        for onwards in (False, True):
            for _ in range(times):
                answer = refused_threads.run(program, words, shim, number, onwards)
                tried += 1
                if not refused_threads.is_right(answer, usual, number <= workers):
                    wrong.append(f"{' '.join(words)}: thread {number}{' and on' if onwards else ''}: {answer}")
    return wrong, tried


def main():
    parser = argparse.ArgumentParser(description=__doc__.splitlines()[0])
    parser.add_argument("--times", default=3, type=int, help="how often each thread is refused")
    parser.add_argument("--program", default=TOP / "crates" / "multiscalar" / "out" / "multiscalar", type=pathlib.Path)
    args = parser.parse_args()
    missing = ([] if args.program.is_file() else [str(args.program)]) + ([] if shutil.which("cc") else ["cc"])
    if missing:
        print("threads: FAILED: missing:", *missing)
        return 1
    begin, wrong, tried = time.monotonic(), [], 0
    with tempfile.TemporaryDirectory(prefix="multiscalar-threads-") as name:
        folder = pathlib.Path(name)
        source, shim, counted = folder / "refuse.c", folder / "refuse.so", folder / "counted"
        source.write_text(refused_threads.SHIM)
        subprocess.run(["cc", "-O1", "-shared", "-fPIC", "-o", shim, source, "-ldl"], check=True)
        for words, workers in cases():
            found, runs = differences(args.program, shim, counted, words, workers, args.times)
            wrong, tried = wrong + found, tried + runs
    for difference in wrong:
        print("threads: wrong:", difference)
    print(f"threads: {'FAILED' if wrong else 'ok'}: {tried} runs, {len(wrong)} wrong, in {time.monotonic() - begin:.0f} seconds")
    return 1 if wrong else 0


if __name__ == "__main__":
    sys.exit(main())
