#!/usr/bin/env python3
"""Translates C for MIPS I, by GCC or clang, into annotated program text for multiscalar.

    c2ms.py program.c -o program.s             annotated program text
    c2ms.py program.c --run --units 4          translates, marks, checks and runs
    c2ms.py one.c two.S -o program.s           several files; GNU assembler files too

It is not proved, and nothing that is proved rests on it: `multiscalar check` judges the marks that it makes, but no one
checks that the instructions are those of the C program. compiler/try.py compares many programs. docs/FROM_C.md says what
it takes and what it refuses.
"""

import argparse
import contextlib
import errno
import os
import re
import signal
import stat
import subprocess
import sys
from pathlib import Path

from choice import SHAPES, Choice, Settings, result_of
from compiling import CompilerFailed, Compiling, program_of
from names import fault_of, shown, shown_lines
from refusal import Refused
from tasks import POLICIES
from releases import MODES
from search import Trials, chosen
from tool import Tool, ToolFailed
from whole_file import NotPut, bits_for, put


# Options that the compiler gets as they are.
FOR_COMPILER = re.compile("-(g.*|W.+|std=.+|m.+|U.+|ansi|pedantic(-errors)?|w)", re.S)


class OutputFailed(Exception):
    """Standard output takes no more; the text says why."""


class Parser(argparse.ArgumentParser):
    """Words that are wrong are shown, and help that nobody reads is no crash."""

    def error(self, message: str) -> None:
        super().error(shown(message))

    def print_help(self, file: object = None) -> None:
        write_out(self.format_help())


def arguments() -> argparse.Namespace:
    parser = Parser(prog="c2ms.py", description=__doc__, formatter_class=argparse.RawDescriptionHelpFormatter)
    add = parser.add_argument
    add("files", nargs="+", help="C (.c), assembler text with preprocessor (.S) or without (.s)")
    add("-o", dest="output", metavar="TEXT", help="where the program goes, whole or not at all; without -o and --run, or as -, to standard output")
    add("-O", dest="level", choices=["0", "1", "2", "3", "s", "g"], default="1", help="the compiler's optimization (1)")
    add("-I", dest="folders", metavar="FOLDER", action="append", default=[], help="where headers are")
    add("-D", dest="macros", metavar="NAME[=VALUE]", action="append", default=[], help="defines a macro")
    add("-f", dest="flags", metavar="FLAG", action="append", default=[], help="another flag -fFLAG for the compiler")
    others = "also for the compiler: -g.., -W.., -std=.., -m.., -U.., -ansi, -pedantic, -w"
    add("--for-compiler", dest="others", metavar="OPTION", action="append", default=[], help=others)
    add("--tasks", choices=[*POLICIES, "auto"], default="auto", help="where tasks begin (auto)")
    leaves = "whether functions that call nothing are tasks of their own or part of those that call them (auto)"
    add("--leaves", choices=["own", "joined", "auto"], default="auto", help=leaves)
    add("--release", choices=[*MODES, "auto"], default="auto", help="where release instructions are put (auto)")
    add("--code", choices=[*SHAPES, "auto"], default="auto", help="whether instructions change places and functions are copied where they are called (auto)")
    add("--search", type=seconds, default=2.0, metavar="SECONDS", help="about how long auto looks for a better cut than rules give (2)")
    add("--seed", type=int, default=1, metavar="N", help="what that search begins its choices with (1)")
    add("--plain", action="store_true", help="only create masks, forward bits and stops; targets in the order of the code")
    add("--units", type=int, default=4, metavar="N", help="for how many units the cut is chosen, and how many --run has, 1 to 16 (4)")
    add("--run", action="store_true", help="checks the program and runs it")
    add("--stack", type=int, default=1024, metavar="BYTES", help="what the stack has to have at least (1024)")
    add("--gcc", default="mipsel-linux-gnu-gcc", metavar="COMMAND", help="the compiler (mipsel-linux-gnu-gcc)")
    command = "the command multiscalar; else $MULTISCALAR, else the one built in these sources, else that on PATH"
    add("--multiscalar", metavar="COMMAND", help=command)
    add("--quiet", action="store_true", help="does not report what was chosen")
    return parser.parse_args(with_options_named(sys.argv[1:]))


def seconds(word: str) -> float:
    """A number of seconds from 0 to an hour."""
    number = float(word)
    if not 0 <= number <= 3600:
        raise ValueError
    return number


def with_options_named(words: list[str]) -> list[str]:
    """The words, with those that are for the compiler alone as values of --for-compiler."""
    end = words.index("--") if "--" in words else len(words)
    return [f"--for-compiler={it}" if FOR_COMPILER.fullmatch(it) else it for it in words[:end]] + words[end:]


def say(text: str) -> None:
    with contextlib.suppress(OSError):
        print(f"c2ms: {shown_lines(text)}", file=sys.stderr, flush=True)


def write_out(text: str) -> None:
    """Writes to standard output, and fails here rather than when Python ends."""
    try:
        if sys.stdout is None:
            raise OSError(errno.EBADF, "it is closed")
        sys.stdout.write(text)
        sys.stdout.flush()
    except OSError as error:
        if sys.stdout is not None:
            os.dup2(os.open(os.devnull, os.O_WRONLY), sys.stdout.fileno())
        raise OutputFailed(f"standard output: {error.strerror}") from None


def keep_numbers_of_streams() -> None:
    """So that no file that is opened gets the number of a stream that the caller closed."""
    while (number := os.open(os.devnull, os.O_RDWR)) < 3:
        pass
    os.close(number)
    if sys.stderr is None:
        sys.stderr = open(os.devnull, "w", encoding="utf-8")


def settings_of(words: argparse.Namespace) -> Settings:
    return Settings(words.tasks, words.leaves, words.release, words.code, words.units, words.plain, words.search, words.seed)


def look_for(files: list[str]) -> None:
    """A file that cannot be read raises OSError, before anything is compiled."""
    for file in files:
        if stat.S_ISDIR(os.stat(file).st_mode):
            raise IsADirectoryError(errno.EISDIR, os.strerror(errno.EISDIR), file)
        if not os.access(file, os.R_OK):
            raise PermissionError(errno.EACCES, os.strerror(errno.EACCES), file)


def put_out(words: argparse.Namespace, choice: Choice) -> None:
    if words.output not in (None, "-"):
        put(words.output, choice.text.encode("utf-8", "surrogateescape"))
    elif words.output or not words.run:
        write_out(choice.text)


def translate(words: argparse.Namespace) -> int:
    look_for(words.files)
    if words.output not in (None, "-"):
        bits_for(words.output)
    tool = Tool(words.multiscalar)
    compiling = Compiling(words.gcc, words.level, words.folders, words.macros, words.flags, words.others)
    program = program_of(words.files, compiling, words.stack)
    names = " ".join(shown(Path(it).name) for it in words.files)
    head = [f"Made by c2ms.py from {names}, {compiling.version()} -O{words.level}."]
    found = chosen(Trials(program, settings_of(words), tool, head))
    best = found.best
    put_out(words, best)
    if not words.quiet:
        say(best.summary())
        if best.last:
            say(found.speed_up_text())
            say(f"measured: {found.measured()}")
    return run(words, tool, best) if words.run else 0


def run(words: argparse.Namespace, tool: Tool, choice: Choice) -> int:
    """The status is what main returns, or what exit is given, modulo 256; that of `run` where the program did not halt."""
    done = tool.on(choice.text, "run", "--least", "--units", str(words.units))
    write_out(done.stdout)
    sys.stderr.write(done.stderr)
    if done.returncode:
        say(f"the status {done.returncode} is that of multiscalar run")
        return done.returncode
    result = result_of(choice, tool)
    if result is None:
        return 0
    say(f"exit {result}")
    return result & 255


def reasons_of(refused: Refused, files: list[str]) -> str:
    """Why a program is refused. What stands at no line of a file is said of all files."""
    said = ((str(place) or ", ".join(map(shown, files)), why) for place, why in refused.reasons)
    return "".join(f"{shown(place)}: refused: {shown(why)}\n" for place, why in said)


def answer() -> int:
    words = arguments()
    if not 1 <= words.units <= 16:
        say("--units takes 1 to 16")
        return 2
    try:
        return translate(words)
    except Refused as refused:
        sys.stderr.write(reasons_of(refused, words.files))
        return 1
    except CompilerFailed as failed:
        sys.stderr.write(shown_lines(str(failed)))
        return 1


def main() -> int:
    keep_numbers_of_streams()
    for it in (signal.SIGTERM, signal.SIGHUP):
        if signal.getsignal(it) == signal.SIG_DFL:
            signal.signal(it, lambda number, _: sys.exit(128 + number))
    try:
        return answer()
    except OSError as error:
        say(fault_of(error))
    except (OutputFailed, NotPut, ToolFailed, subprocess.SubprocessError) as failed:
        say(str(failed))
    except KeyboardInterrupt:
        return 130
    return 2


if __name__ == "__main__":
    sys.exit(main())
