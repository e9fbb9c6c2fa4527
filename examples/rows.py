#!/usr/bin/env python3
"""Runs the rows of examples as `rt ci` does, and shows where they differ.

PROGRAM is the built `test_program`. It runs in a copy of crates/test_program/data,
so that nothing is written there.
"""
import argparse
import difflib
import pathlib
import shutil
import subprocess
import sys
import tempfile

CRATE = pathlib.Path(__file__).resolve().parent.parent / "crates" / "test_program"


def main():
    options = argparse.ArgumentParser(description=__doc__, formatter_class=argparse.RawDescriptionHelpFormatter)
    options.add_argument("program", metavar="PROGRAM", type=pathlib.Path, nargs="?", default=CRATE / "out" / "test_program")
    program = options.parse_args().program
    if not program.is_file():
        options.error(f"there is no program {program}: prove it with rt run in {CRATE}")
    with tempfile.TemporaryDirectory() as room:
        data = pathlib.Path(room) / "data"
        shutil.copytree(CRATE / "data", data)
        words = [str(program.resolve()), *(CRATE / "args").read_text().splitlines()]
        ran = subprocess.run(words, cwd=data, input=(CRATE / "stdin").read_bytes(), capture_output=True)
    wanted = (CRATE / "stdout").read_text().splitlines()
    written = ran.stdout.decode("utf-8", "replace").splitlines()
    shown = list(difflib.unified_diff(wanted, written, "stdout", "written", n=0, lineterm=""))
    print(*shown, sep="\n" if shown else "")
    status = int((CRATE / "status").read_text())
    if ran.returncode != status:
        print(f"status {ran.returncode}, wanted {status}")
    is_right = not shown and ran.returncode == status
    print("all rows are right" if is_right else "not all rows are right")
    return 0 if is_right else 1


if __name__ == "__main__":
    sys.exit(main())
