#!/usr/bin/env python3
"""Looks for races with the thread sanitizer.

    races.py MODULE [--minutes M] [--seed N]

MODULE is the LLVM module of the program, which entry/capture.py makes, or the folder that entry/races.sh made of it. That script builds the program from it under
the thread sanitizer, and a control whose atomic accesses are all relaxed. `run` and `check` of the first are run as in
load.py, on one, two and all cores: a report of the sanitizer is a difference. In each run of the control it must find a race;
else it would say nothing that it finds none. Needs Debian's clang and the clang of the toolchain; it is no part of
the tests.
"""
import argparse
import os
import pathlib
import subprocess
import sys
import tempfile

import load

HERE = pathlib.Path(__file__).resolve().parent


def control(program, folder):
    """The row of the control: whether the sanitizer finds races there."""
    source, certificate = folder / "long.s", folder / "long.cert2"
    source.write_text(load.LONG_TASKS)
    certificate.write_bytes(load.call([program, "annotate", "--emit", "keep", str(source)])[1])
    answers, differences, runs = {}, [], 5
    for _ in range(runs):
        status, _, told = load.call([program, "run", str(source), str(certificate)])
        found = "races found" if b"data race" in told else "no race found"
        answers[found] = answers.get(found, 0) + 1
        if found == "no race found":
            differences.append(f"no race found in the control: status {status}")
    return "thread sanitizer, control with relaxed accesses", runs, answers, differences


def run(program, minutes, seed, module=None):
    """Rows for the table: those of load.py under the sanitizer, and the control. `program` is not looked at."""
    with tempfile.TemporaryDirectory() as name:
        folder = made = pathlib.Path(name)
        if os.path.isdir(module):
            made = pathlib.Path(module)
        else:
            built = subprocess.run([str(HERE / "entry" / "races.sh"), module, name], env=dict(os.environ, CONTROL="1"), capture_output=True, text=True)
            if built.returncode:
                return [("thread sanitizer", 0, {}, [f"not built: {built.stderr[-300:]}"])]
        rows = [(f"thread sanitizer, {part}", *rest) for part, *rest in load.run(str(made / "multiscalar_tsan"), minutes, seed, kinds=["all cores", "two cores", "one core"])]
        return rows + [control(str(made / "multiscalar_control"), folder)]


def main():
    options = argparse.ArgumentParser(description=__doc__, formatter_class=argparse.RawDescriptionHelpFormatter)
    options.add_argument("module", metavar="MODULE")
    options.add_argument("--minutes", type=float, default=3)
    options.add_argument("--seed", type=int, default=1)
    given = options.parse_args()
    rows = run(None, given.minutes, given.seed, os.path.abspath(given.module))
    for part, runs, answers, differences in rows:
        print(f"{part}: {runs} runs, {answers}, {len(differences)} differences", *differences[:5], sep="\n  ")
    sys.exit(1 if any(row[3] for row in rows) else 0)


if __name__ == "__main__":
    main()
