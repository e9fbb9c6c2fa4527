#!/usr/bin/env python3
"""Tells where the program answers other bytes than it did when net.txt was recorded.

    net.py PROGRAM                  runs all command lines of net_lines.py, and compares with net.txt
    net.py --compare OLD NEW        runs them with two programs, and prints how each answer differs
    net.py --record PROGRAM         writes net.txt anew

That nothing changed is all that it says: net.txt holds what the program answered, right or not. For each command line it has
the status and the first 16 digits of the SHA-256 of standard output and of standard error (`-` where nothing was written); of the
texts that the command lines name it has one sum. Where a change of the bytes is meant, look at each with --compare (OLD is the
program of before), and record anew. A change of an example or a generator changes the texts: then record the program of before,
and see that only those lines of net.txt change that name such a text.

`--only WORDS` runs only the command lines that hold these words; `--keep FOLDER` writes the texts there, so that a command line can be
given by hand in the folder that stands before its colon. Needs Linux and python3.
"""
import argparse
import collections
import difflib
import hashlib
import multiprocessing
import os
import pathlib
import pty
import shutil
import subprocess
import sys
import tempfile
import threading
import time
import tty

import net_lines

TABLE = pathlib.Path(__file__).resolve().parent / "net.txt"
# The seconds after which a command line is given up.
PATIENCE = 100
MOST_TOLD = 30
Answer = collections.namedtuple("Answer", "status out err")


# ---------------------------------------------------------------- one command line
def read_all(end, into):
    """Adds what a terminal gets until its other end is closed."""
    try:
        while part := os.read(end, 65536):
            into.append(part)
    except OSError:
        pass


def on_terminal(program, line, folder, settings):
    """The answer where one stream, or each of the two, is a terminal of its own."""
    ends, streams, parts, readers = [], {}, {"stdout": [], "stderr": []}, []
    for name in parts:
        if line.terminal in (name, "both"):
            ours, its = pty.openpty()
            tty.setraw(its)  # so that a line feed stays one byte
            ends.append((ours, its))
            streams[name] = its
            readers.append(threading.Thread(target=read_all, args=(ours, parts[name])))
        else:
            streams[name] = subprocess.PIPE
    process = subprocess.Popen([program, *line.words], cwd=folder, env=settings, stdin=subprocess.DEVNULL, **streams)
    for _, its in ends:
        os.close(its)
    for reader in readers:
        reader.start()
    try:
        written = dict(zip(parts, process.communicate(timeout=PATIENCE)))
    finally:
        process.kill()
    for reader in readers:
        reader.join()
    for ours, _ in ends:
        os.close(ours)
    return Answer(process.returncode, *(b"".join(parts[name]) or written[name] or b"" for name in parts))


def answered(program, line, folder):
    """What a program answers to a command line; after standard output stands the file that was written."""
    settings = {} if line.no_color is None else {"NO_COLOR": line.no_color}
    if line.terminal:
        return on_terminal(program, line, folder, settings)
    with open(os.path.join(folder, line.stdin) if line.stdin else os.devnull, "rb") as given:
        ran = subprocess.run([program, *line.words], cwd=folder, env=settings, stdin=given, capture_output=True, timeout=PATIENCE)
    out = ran.stdout
    if line.writes:
        file = pathlib.Path(folder, line.writes)
        out += b"\n== the file ==\n" + (file.read_bytes() if file.exists() else b"there is none")
    return Answer(ran.returncode, out, ran.stderr)


def answer(program, line, root):
    """What a program answers; a command that writes does so in a copy of its folder."""
    folder = os.path.join(root, line.folder)
    try:
        if not line.writes:
            return answered(program, line, folder)
        with tempfile.TemporaryDirectory() as room:
            copy = shutil.copytree(folder, os.path.join(room, "copy"))
            return answered(program, line, copy)
    except subprocess.TimeoutExpired:
        return Answer("no end", b"", b"")


# ---------------------------------------------------------------- all of them, in as many processes as there are cores
def digest(written):
    return hashlib.sha256(written).hexdigest()[:16] if written else "-"


def row_of(job):
    (program,), line, root = job
    got = answer(program, line, root)
    return f"{got.status}\t{digest(got.out)}\t{digest(got.err)}"


def differences_of(job):
    """How the answers of two programs differ, in lines; nothing where they do not."""
    (old, new), line, root = job
    before, after = answer(old, line, root), answer(new, line, root)
    shown = [] if before.status == after.status else [f"status {before.status}, now {after.status}"]
    for name, one, two in (("standard output", before.out, after.out), ("standard error", before.err, after.err)):
        if one != two:
            texts = (it.decode("utf-8", "backslashreplace").splitlines() for it in (one, two))
            shown += difflib.unified_diff(*texts, f"{name} of before", f"{name} now", n=1, lineterm="")
            shown += [] if one.splitlines() != two.splitlines() else ["    (the ends of the lines differ)"]
    return shown


def spread(texts, root):
    for (folder, name), text in texts.items():
        path = pathlib.Path(root, folder, name)
        path.parent.mkdir(parents=True, exist_ok=True)
        path.write_bytes(text)


def copied(program, root, number):
    """A copy of a program, which is there for as long as it is needed, and may be executed."""
    copy = pathlib.Path(root, f"program-{number}", "multiscalar")
    copy.parent.mkdir()
    shutil.copy(program, copy)
    copy.chmod(0o755)
    return str(copy)


def over_all(work, programs, net, lines):
    """What `work` says of each command line and the programs, by its key."""
    cores = len(os.sched_getaffinity(0))
    with tempfile.TemporaryDirectory(prefix="multiscalar-net-") as root:
        spread(net.texts, root)
        copies = [copied(it, root, number) for number, it in enumerate(programs)]
        jobs = [(copies, line, root) for line in lines.values()]
        with multiprocessing.get_context("fork").Pool(cores) as pool:
            return dict(zip(lines, pool.map(work, jobs, chunksize=8)))


# ---------------------------------------------------------------- the table
def sum_of(texts):
    """One sum of all texts."""
    whole = hashlib.sha256()
    for (folder, name), text in sorted(texts.items()):
        whole.update(f"{folder}/{name} {len(text)}\n".encode() + text)
    return whole.hexdigest()[:16]


def read_table():
    """The sum of the recorded texts, and the recorded rows by their keys."""
    first, *lines = TABLE.read_text().splitlines()
    return first.split("\t")[1], dict(line.split("\t", 1) for line in lines)


def told(before, now):
    """How rows differ from recorded ones, in lines."""
    for key in sorted(before.keys() | now.keys()):
        if key not in now or key not in before:
            yield f"{key}: {'is no command line any more' if key in before else 'is not recorded'}"
        elif before[key] != now[key]:
            pairs = zip(("status", "standard output", "standard error"), before[key].split("\t"), now[key].split("\t"))
            yield f"{key}: {', '.join(name for name, one, two in pairs if one != two)}"


def looked_over(program, net, lines):
    """Compares with the recorded table. A recorded command line that is in the net but not asked for is passed over."""
    if not TABLE.is_file():
        print("net: FAILED: nothing is recorded: fuzz/net.py --record PROGRAM writes", TABLE.name)
        return 1
    begin = time.monotonic()
    texts, before = read_table()
    now = over_all(row_of, [program], net, lines)
    found = list(told({key: row for key, row in before.items() if key in lines or key not in net.lines}, now))
    for it in found[:MOST_TOLD]:
        print("net: changed:", it)
    if len(found) > MOST_TOLD:
        print(f"net: and {len(found) - MOST_TOLD} more")
    has_texts = texts == sum_of(net.texts)
    if not has_texts:
        print("net: the texts are not those that were recorded: an example or a generator of fuzz/ has changed")
    if found or not has_texts:
        print("net: fuzz/net.py --compare OLD NEW shows how the answers of two programs differ; --record PROGRAM records anew")
    failed = "ok" if has_texts and not found else "FAILED"
    print(f"net: {failed}: {len(lines)} command lines, {len(found)} changed, in {time.monotonic() - begin:.0f} seconds")
    return 0 if failed == "ok" else 1


def compared(old, new, net, lines):
    """Prints how two programs differ."""
    found = {key: shown for key, shown in over_all(differences_of, [old, new], net, lines).items() if shown}
    for key, shown in sorted(found.items()):
        print(key, *(f"    {it}" for it in shown), sep="\n")
    print(f"{len(lines)} command lines, {len(found)} answers differ")
    return 1 if found else 0


def recorded(program, net):
    rows = over_all(row_of, [program], net, net.lines)
    lines = [f"all texts\t{sum_of(net.texts)}", *(f"{key}\t{row}" for key, row in sorted(rows.items()))]
    TABLE.write_text("".join(f"{it}\n" for it in lines))
    print(f"recorded {len(rows)} command lines")
    return 0


def has_terminals():
    """Whether this system gives terminals to a program."""
    try:
        for end in pty.openpty():
            os.close(end)
    except OSError:
        return False
    return True


def main():
    options = argparse.ArgumentParser(description=__doc__, formatter_class=argparse.RawDescriptionHelpFormatter)
    options.add_argument("program", metavar="PROGRAM", nargs="?")
    options.add_argument("--compare", metavar=("OLD", "NEW"), nargs=2)
    options.add_argument("--record", metavar="PROGRAM")
    options.add_argument("--only", metavar="WORDS", default="")
    options.add_argument("--keep", metavar="FOLDER")
    given = options.parse_args()
    net = net_lines.whole()
    lines = {key: line for key, line in net.lines.items() if given.only in key}
    if not has_terminals():
        lines = {key: line for key, line in lines.items() if not line.terminal}
        print("net: this system has no terminal for a program: command lines on terminals are not run")
    programs = [os.path.abspath(it) for it in given.compare or [given.record or given.program] if it]
    for it in programs:
        if not os.path.isfile(it):
            options.error(f"there is no program {it}")
    if given.keep:
        spread(net.texts, given.keep)
    if given.compare:
        return compared(*programs, net, lines)
    if given.record:
        return recorded(*programs, net)
    if given.program:
        return looked_over(*programs, net, lines)
    return 0 if given.keep else options.error("give PROGRAM, --compare, --record or --keep")


if __name__ == "__main__":
    sys.exit(main())
