#!/usr/bin/env python3
"""Compares the run-time routines for integers and floating point with the host's own arithmetic.

    compiler/try_routines.py [ROUNDS]

Each round takes random operands for every routine. The last line says how many comparisons differ; the status is 0
exactly if none does.
"""

import re
import subprocess
import sys
import tempfile
from pathlib import Path

HERE = Path(__file__).resolve().parent


def own_names() -> list[str]:
    """Gives each routine a name of its own, so that it is not taken for the host's."""
    text = "".join((HERE / "runtime" / it).read_text() for it in ("integers.c", "floats.c"))
    names = set(re.findall(r"^[a-z].*?\b__(\w+)\(", text, re.M))
    return [f"-D__{it}=own_{it}" for it in sorted(names)]


def main() -> int:
    rounds = sys.argv[1] if len(sys.argv) > 1 else "100000"
    with tempfile.TemporaryDirectory() as folder:
        built = f"{folder}/compare"
        words = ["gcc", "-O1", "-w", "-fno-builtin", "-frounding-math", *own_names(), "-o", built, str(HERE / "compare_routines.c"), "-lm"]
        subprocess.run(words, check=True)
        return subprocess.run([built, rounds], check=False).returncode


if __name__ == "__main__":
    sys.exit(main())
