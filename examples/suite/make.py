#!/usr/bin/env python3
"""Makes the scripts of the suite: runs of its programs in steps, each event with what it did.

    make.py PROGRAM            makes all of them anew; PROGRAM is the built `multiscalar`
    make.py PROGRAM --check    says which are not as stored (status 1)

The script NAME-UNITS-PREDICT.script is what one command writes:

    multiscalar run --least --schedule steps --units UNITS --predict PREDICT --emit script --with-values programs/NAME.s
"""
import argparse
import pathlib
import subprocess
import sys

HERE = pathlib.Path(__file__).resolve().parent
UNITS = (1, 2, 4, 16)
# The programs of which runs with other predictions differ.
PREDICTED = ("branches", "calls", "indirect", "squash", "wrong-path")


def runs():
    """Each run: the name of its program, its units and how it predicts. With one unit nothing is predicted."""
    for program in sorted((HERE / "programs").glob("*.s")):
        for units in UNITS:
            several = program.stem in PREDICTED and units > 1
            for predict in ("first", "last", "1,0") if several else ("first",):
                yield program.stem, units, predict


def script_of(binary, name, units, predict):
    words = ["run", "--least", "--schedule", "steps", "--units", str(units), "--predict", predict,
             "--emit", "script", "--with-values", f"programs/{name}.s"]
    run = subprocess.run([binary, *words], cwd=HERE, capture_output=True, text=True)
    if run.returncode not in (0, 1) or not run.stdout.startswith("assign "):
        sys.exit(f"multiscalar {' '.join(words)}: status {run.returncode}\n{run.stdout}{run.stderr}")
    return run.stdout


def main():
    options = argparse.ArgumentParser(description=__doc__, formatter_class=argparse.RawDescriptionHelpFormatter)
    options.add_argument("program", metavar="PROGRAM", type=pathlib.Path)
    options.add_argument("--check", action="store_true")
    given = options.parse_args()
    binary, folder = given.program.resolve(), HERE / "scripts"
    made = {f"{name}-{units}-{predict}.script": script_of(binary, name, units, predict)
            for name, units, predict in runs()}
    stored = {file.name: file.read_text() for file in folder.glob("*.script")}
    other = sorted(name for name in made.keys() | stored.keys() if made.get(name) != stored.get(name))
    if given.check:
        for name in other:
            print(f"not as stored: {name}")
        print(f"{len(made)} scripts, {len(other)} not as stored")
        sys.exit(1 if other else 0)
    for name in other:
        (folder / name).unlink(missing_ok=True)
        if name in made:
            (folder / name).write_text(made[name])
    print(f"{len(made)} scripts, {len(other)} changed")


if __name__ == "__main__":
    main()
