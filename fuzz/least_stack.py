#!/usr/bin/env python3
"""Runs the program with little stack, and looks whether it answers as with much.

    least_stack.py PROGRAM [--kib N] [--times N] [--search]

The system puts arguments and environment on the stack of the main thread, so they count for `ulimit -s`. Each command
is run with three sizes of the environment, some times each, since the system draws where the stack begins: up to 8 KiB
below its top. The limit is N KiB, by default 200, and what arguments and environment take. Another answer ends the
script with status 1. `--search` prints instead the least limit that suffices, and how much of it is not theirs.

Needs python3 and Linux.
"""
import argparse
import pathlib
import resource
import subprocess
import sys

EXAMPLES = pathlib.Path(__file__).resolve().parent.parent / "examples"
# P is the program of an example, C its certificate, S its script.
COMMANDS = [("count", line) for line in (
    "seq P", "print P", "annotate P", "annotate --emit marks P", "check P C", "check P C --workers 16", "check --least P",
    "explain P", "explain P --certificate C", "explain --format sarif P", "run P C --units 16", "run P C --units 16 --workers 3",
    "run P C --units 16 --schedule steps --emit svg", "curve P C --units 16", "replay P C S --units 2", "replay P C S --units 2 --emit json",
)] + [("five-findings", line) for line in ("explain P", "explain --format sarif P", "demonstrate P")]
SIZES = (100, 8000, 100000)


def environment(size):
    """An environment of about so many bytes."""
    return {"PATH": "/usr/bin:/bin", **{f"FILLED{at}": "x" * min(8000, size - at) for at in range(0, size, 8000)}}


def taken(words, env):
    """What arguments and environment take of the stack: their bytes, a pointer for each, and the program's name."""
    texts = [*words, *(f"{name}={value}" for name, value in env.items()), words[0]]
    return sum(len(text) + 9 for text in texts)


def answer(words, env, kib=0):
    """Status and bytes of a run, with a limit on the stack or without."""
    def limit():
        resource.setrlimit(resource.RLIMIT_STACK, (kib * 1024, kib * 1024))
    ended = subprocess.run(words, env=env, preexec_fn=limit if kib else None, capture_output=True, timeout=60)
    return ended.returncode, ended.stdout, ended.stderr


def suffices(words, env, kib, right, times):
    return all(answer(words, env, kib) == right for _ in range(times))


def least(words, env, right, times):
    """The least limit in KiB that suffices, a multiple of 4; and None if 1 MiB does not."""
    low, high = 64, 1024
    if not suffices(words, env, high, right, times):
        return None
    while high - low > 4:
        half = (low + high) // 8 * 4
        if suffices(words, env, half, right, times):
            high = half
        else:
            low = half
    return high


def cases(program):
    """The words of each command, and an environment."""
    for example, line in COMMANDS:
        names = {"P": "program.s", "C": "certificate.cert2", "S": "script.events"}
        words = [str(EXAMPLES / example / names[word]) if word in names else word for word in line.split()]
        for size in SIZES:
            yield f"{line} of {example}", [str(program), *words], environment(size)


def main():
    parser = argparse.ArgumentParser(description=__doc__.splitlines()[0])
    parser.add_argument("program", type=pathlib.Path)
    parser.add_argument("--kib", default=200, type=int)
    parser.add_argument("--times", default=20, type=int)
    parser.add_argument("--search", action="store_true")
    args = parser.parse_args()
    runs, wrong = 0, 0
    for name, words, env in cases(args.program.resolve()):
        theirs, right = taken(words, env), answer(words, env)
        if args.search:
            found = least(words, env, right, args.times)
            print(f"{name}: ulimit -s {found}, of which arguments and environment take {theirs / 1024:.1f} KiB, and not {found - theirs / 1024:.1f}"
                  if found else f"{name}: 1 MiB does not suffice")
            continue
        kib, runs = args.kib + -(-theirs // 1024), runs + args.times
        if not suffices(words, env, kib, right, args.times):
            wrong += 1
            print(f"least_stack: {name}: {kib} KiB do not suffice, of which arguments and environment take {theirs} bytes")
    if not args.search:
        print(f"least_stack: {runs} runs, {wrong} cases wrong")
    return 1 if wrong else 0


if __name__ == "__main__":
    sys.exit(main())
