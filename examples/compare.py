#!/usr/bin/env python3
"""Runs the program on the examples and compares what it prints.

PROGRAM is the built `multiscalar`; without folders every example is run. Each
line of FOLDER/expected/commands has a file beside it, or a picture of docs/pictures,
the exit status that is wanted, and the words to run the program with, in FOLDER. A
command whose first word is no subcommand of PROGRAM is passed over and counted.
Some commands of the folder `refused` also run on a terminal, with the variable
NO_COLOR and without it.
"""
import argparse
import os
import pathlib
import pty
import subprocess
import sys
import tty

HERE = pathlib.Path(__file__).resolve().parent
# How many lines of an output that differs are shown.
MOST_LINES = 40
REFUSED = HERE / "refused"
# The value of NO_COLOR, None where it is not set; the stream that is a terminal; the words of a command, whose status
# is 1; and the file in `expected` with what the terminal shows. docs/COMMANDS.md says which: the table of options, for
# `explain --color`, and "Exit status and standard error".
ON_A_TERMINAL = [
    (None, "stdout", "explain mnemonic-misspelled.s", "mnemonic-misspelled-colours.txt"),
    ("1", "stdout", "explain mnemonic-misspelled.s", "mnemonic-misspelled.txt"),
    (None, "stdout", "explain --color auto mnemonic-misspelled.s", "mnemonic-misspelled-colours.txt"),
    ("", "stdout", "explain --color auto mnemonic-misspelled.s", "mnemonic-misspelled-colours.txt"),
    ("1", "stdout", "explain --color auto mnemonic-misspelled.s", "mnemonic-misspelled.txt"),
    ("0", "stdout", "explain --color auto mnemonic-misspelled.s", "mnemonic-misspelled.txt"),
    ("1", "stdout", "explain --color always mnemonic-misspelled.s", "mnemonic-misspelled-colours.txt"),
    (None, "stdout", "explain --color never mnemonic-misspelled.s", "mnemonic-misspelled.txt"),
    (None, "stderr", "seq mnemonic-misspelled.s", "mnemonic-misspelled-terminal.txt"),
]


def commands(folder):
    for line in (folder / "expected" / "commands").read_text().splitlines():
        file, status, *words = line.split()
        yield folder / "expected" / file, int(status), words


def shown(terminal):
    """What a terminal gets, until the program that writes to it has ended."""
    written = b""
    while True:
        try:
            part = os.read(terminal, 65536)
        except OSError:  # the other end is closed
            return written
        if not part:
            return written
        written += part


def run_on_terminal(program, words, stream, no_color):
    """The status, and what the given stream shows, which is a terminal; the other one is not."""
    environment = {name: value for name, value in os.environ.items() if name != "NO_COLOR"}
    environment["TERM"] = "xterm"
    if no_color is not None:
        environment["NO_COLOR"] = no_color
    ours, its = pty.openpty()
    tty.setraw(its)  # so that a line feed stays one byte
    streams = {"stdout": subprocess.DEVNULL, "stderr": subprocess.DEVNULL, stream: its}
    process = subprocess.Popen([program, *words], cwd=REFUSED, env=environment, stdin=subprocess.DEVNULL, **streams)
    os.close(its)
    written = shown(ours)
    os.close(ours)
    return process.wait(), written


def tell(title, status, wanted_status, written, file):
    """Says how a command differs from what is wanted."""
    print(title)
    print(f"  status {status}, wanted {wanted_status}")
    if written != file.read_bytes():
        print(f"  output is not that of {os.path.relpath(file, HERE)}:")
        lines = written.decode("ascii", "replace").splitlines()
        print(*[f"    {line}" for line in lines[:MOST_LINES]], sep="\n")
        if len(lines) > MOST_LINES:
            print(f"    and {len(lines) - MOST_LINES} more lines")


def tried_on_terminals(program):
    """How many commands on a terminal do what is wanted, and how many do not."""
    passed, failed = 0, 0
    for no_color, stream, command, name in ON_A_TERMINAL:
        file = REFUSED / "expected" / name
        status, written = run_on_terminal(program, command.split(), stream, no_color)
        if (status, written) == (1, file.read_bytes()):
            passed += 1
            continue
        failed += 1
        setting = "without NO_COLOR" if no_color is None else f"NO_COLOR={no_color}"
        tell(f"refused: multiscalar {command}, {stream} a terminal, {setting}", status, 1, written, file)
    return passed, failed


def has_terminals():
    """Whether this system gives terminals to a program."""
    try:
        for end in pty.openpty():
            os.close(end)
    except OSError:
        return False
    return True


def main():
    options = argparse.ArgumentParser(description=__doc__, formatter_class=argparse.RawDescriptionHelpFormatter)
    options.add_argument("program", metavar="PROGRAM", type=pathlib.Path)
    options.add_argument("folders", metavar="FOLDER", type=pathlib.Path, nargs="*")
    given = options.parse_args()
    if not given.program.is_file():
        options.error(f"there is no program {given.program}")
    program = str(given.program.resolve())
    folders = [folder.resolve() for folder in given.folders]
    folders = folders or sorted(path.parent.parent for path in HERE.glob("*/expected/commands"))
    known = {}
    passed, failed, absent = 0, 0, 0
    for folder in folders:
        for file, status, words in commands(folder):
            name = words[0]
            if name not in known:
                probe = subprocess.run([program, name, "--help"], capture_output=True)
                known[name] = probe.returncode == 0
            if not known[name]:
                absent += 1
                continue
            run = subprocess.run([program, *words], cwd=folder, capture_output=True)
            if run.returncode == status and run.stdout == file.read_bytes():
                passed += 1
                continue
            failed += 1
            tell(f"{folder.name}: multiscalar {' '.join(words)}", run.returncode, status, run.stdout, file)
            if run.stderr:
                print("  standard error: " + run.stderr.decode("utf-8", "replace").strip())
    if REFUSED in folders and has_terminals():
        right, wrong = tried_on_terminals(program)
        passed, failed = passed + right, failed + wrong
    elif REFUSED in folders:
        print(f"this system has no terminal for a program: {len(ON_A_TERMINAL)} commands were not run")
    print(f"{passed} as expected, {failed} not, {absent} of subcommands that are not there")
    sys.exit(1 if failed else 0)


if __name__ == "__main__":
    main()
