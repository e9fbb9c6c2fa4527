#!/usr/bin/env python3
"""Compares the program with the independent model over random texts, by the scripts of fuzz/, all at once, for two minutes.

    model.py [PROGRAM] [--seed N] [--seconds S] [--only SCRIPT]

Each script gets the seed, by which it draws its texts, and the seconds: it begins no text after them. So on fewer cores fewer
texts are compared, and the time is the same. Without --seed it is made from the sources of the program and of the scripts: each
change of them draws new texts, and what passed once does not fail on another machine by chance. It is printed; with it a
script draws the same texts again, in the same order. A script that sees a difference says so, with the text, and then this one ends with
status 1; so it does where a script compares nothing, or does not end. PROGRAM is what `rt ci` built, if none is named.

Needs python3 and Linux.
"""
import argparse
import collections
import hashlib
import os
import pathlib
import re
import shutil
import signal
import subprocess
import sys
import tempfile
import time

TOP = pathlib.Path(__file__).resolve().parent.parent
BUILT = TOP / "crates" / "multiscalar" / "out" / "multiscalar"
# Each script, with what its last line counts: the texts that it compared.
SCRIPTS = {
    "explain.py": "programs|refused texts", "sarif.py": "programs|refused texts", "costly_marks.py": "programs",
    "marks.py": "programs|refused texts", "demonstrate.py": "right|wrong", "curve_picture.py": "pictures", "waveform.py": "dumps",
    "picture.py": "pictures", "timeline.py": "timelines",
}
# The seconds that a script has for its last text.
PATIENCE = 120
Ended = collections.namedtuple("Ended", "script status said")


def seed_of_sources():
    """A seed that another state of the sources changes."""
    files = [*TOP.glob("crates/*/src/**/*.rt"), *TOP.glob("fuzz/*.py")]
    digest = hashlib.sha256()
    for file in sorted(files):
        digest.update(f"{file.relative_to(TOP)}\n".encode() + file.read_bytes())
    return int.from_bytes(digest.digest()[:4], "big")


def start(script, program, seed, seconds, folder):
    """Starts a script; what it says goes to a file."""
    named = ["--program", program] if script == "picture.py" else [program]
    words = [sys.executable, TOP / "fuzz" / script, *named, "--seed", str(seed), "--seconds", str(seconds)]
    # The order of a set of names depends on this, and so may what is drawn. What the scripts keep goes with the folder.
    settings = {**os.environ, "PYTHONHASHSEED": "0", "PYTHONDONTWRITEBYTECODE": "1", "TMPDIR": str(folder)}
    with open(folder / f"{script}.said", "wb") as said:
        return subprocess.Popen(words, stdin=subprocess.DEVNULL, stdout=said, stderr=subprocess.STDOUT, env=settings, start_new_session=True)


def stop(process):
    """Ends a script and the programs that it started."""
    try:
        os.killpg(process.pid, signal.SIGKILL)
    except ProcessLookupError:
        pass
    process.wait()


def tried(scripts, program, seed, seconds, folder):
    """How each script ended, and what it said; a status of None is of one that did not end."""
    running, end = {it: start(it, program, seed, seconds, folder) for it in scripts}, time.monotonic() + seconds + PATIENCE
    try:
        for script, process in running.items():
            try:
                status = process.wait(timeout=max(0.0, end - time.monotonic()))
            except subprocess.TimeoutExpired:
                status = None
            said = (folder / f"{script}.said").read_text("utf-8", "backslashreplace")
            yield Ended(script, status, said.rstrip("\n").split("\n"))
    finally:
        for process in running.values():
            stop(process)


def compared(ended):
    """How many texts a script compared; 0 where it saw a difference or did not end."""
    counts = re.findall(rf"(\d+) (?:{SCRIPTS[ended.script]})\b", ended.said[-1]) if ended.status == 0 else []
    return sum(map(int, counts))


def main():
    parser = argparse.ArgumentParser(description=__doc__, formatter_class=argparse.RawDescriptionHelpFormatter)
    parser.add_argument("program", metavar="PROGRAM", type=pathlib.Path, nargs="?", default=BUILT)
    parser.add_argument("--seed", type=int, default=seed_of_sources())
    parser.add_argument("--seconds", type=float, default=105)
    parser.add_argument("--only", choices=SCRIPTS, action="append")
    args = parser.parse_args()
    if not args.program.is_file():
        print("model: FAILED: missing:", args.program)
        return 1
    begin, scripts, wrong, texts = time.monotonic(), args.only or list(SCRIPTS), 0, 0
    print(f"model: seed {args.seed}", flush=True)
    with tempfile.TemporaryDirectory(prefix="multiscalar-model-", ignore_cleanup_errors=True) as name:
        copy = shutil.copy(args.program, name)
        os.chmod(copy, 0o755)
        for it in tried(scripts, copy, args.seed, args.seconds, pathlib.Path(name)):
            count = compared(it)
            texts += count
            if count:
                print(f"model: {it.script}: {count} texts", flush=True)
            else:
                wrong += 1
                how = "did not end" if it.status is None else f"status {it.status}, nothing compared, or a difference"
                print(f"model: wrong: {it.script}: {how}", *it.said, sep="\n    ", flush=True)
    print(f"model: {'FAILED' if wrong else 'ok'}: {texts} texts, seed {args.seed}, {wrong} scripts wrong, in {time.monotonic() - begin:.0f} seconds")
    return 1 if wrong else 0


if __name__ == "__main__":
    sys.exit(main())
