"""From files to a program: the compiler, the reader, the run-time files, and the limits."""

import functools
import pickle
import re
import subprocess
import sys
from dataclasses import dataclass, replace
from pathlib import Path

from flow import without_unreached
from linking import MOST_INSTRUCTIONS, Program, lay_out, link, refuse_missing
from names import shown, shown_lines
from reader import read_unit
from refusal import Place, refuse
from tool import ToolFailed
from units import Unit

HERE = Path(__file__).resolve().parent
RUN_TIME = HERE / "runtime"
# Code without position independence, floating-point registers, and without a C library; but main is that of a program.
FLAGS = """-S -g1 -mabi=32 -mno-abicalls -fno-pic -fno-pie -msoft-float -G0 -fhosted -fno-builtin
-mno-check-zero-division -fno-stack-protector -fno-asynchronous-unwind-tables -fno-unwind-tables""".split()
FLAGS += ["-include", str(HERE / "include" / "freestanding.h")]
# GCC leaves delay slots empty where it is asked to. Clang has no MIPS I, and would read what asm has.
OF_GCC = ["-march=mips1", "-fno-delayed-branch"]
OF_CLANG = ["--target=mipsel-linux-gnu", "-march=mips2", "-fno-integrated-as"]


class CompilerFailed(Exception):
    """The compiler refused a file; the text is what it said."""


@dataclass(frozen=True)
class Compiling:
    """How the compiler is called."""

    gcc: str = "mipsel-linux-gnu-gcc"
    level: str = "1"
    folders: tuple[str, ...] | list[str] = ()
    macros: tuple[str, ...] | list[str] = ()
    flags: tuple[str, ...] | list[str] = ()
    # Options that it gets as they are.
    others: tuple[str, ...] | list[str] = ()
    shows_warnings: bool = True

    def version(self) -> str:
        return f"{Path(self.gcc).name} {version_line(self.gcc).rsplit(' ', 1)[-1]}"

    @property
    def is_clang(self) -> bool:
        return "clang" in version_line(self.gcc)

    def own_flags(self) -> list[str]:
        return OF_CLANG if self.is_clang else OF_GCC

    def call(self, words: list[str]) -> str:
        try:
            done = subprocess.run([self.gcc, *words], capture_output=True, text=True, errors="surrogateescape", check=False)
        except OSError as error:
            raise ToolFailed(f"{shown(self.gcc)}: {error.strerror}; on Debian: apt-get install gcc-mipsel-linux-gnu") from None
        if done.returncode:
            raise CompilerFailed(done.stderr)
        if self.shows_warnings:
            sys.stderr.write(shown_lines(done.stderr))
        return done.stdout

    def preprocessor_words(self) -> list[str]:
        return [*(f"-I{it}" for it in [*self.folders, HERE / "include"]), *(f"-D{it}" for it in self.macros)]

    def assembly(self, file: str) -> str:
        """What GCC makes of a C file, or the preprocessor of a file of assembler text."""
        if file.endswith(".s"):
            return Path(file).read_text(errors="surrogateescape")
        for it in self.flags:
            if it in ("pic", "PIC", "pie", "PIE"):
                raise refuse(Place(file), f"position-independent code needs tables that nothing here fills; leave out -f{it}")
        if file.endswith(".S"):
            target = [it for it in self.own_flags() if it.startswith("--target")]
            return self.call([*target, "-E", "-x", "assembler-with-cpp", *self.preprocessor_words(), as_word(file)])
        chosen = [f"-O{self.level}", *(f"-f{it}" for it in self.flags), *self.others]
        return self.call([*self.own_flags(), *FLAGS, *chosen, *self.preprocessor_words(), "-o", "-", as_word(file)])


@functools.cache
def version_line(gcc: str) -> str:
    return Compiling(gcc).call(["--version"]).split("\n", 1)[0]


def as_word(file: str) -> str:
    """A file's name that GCC takes for no option and for no file of options."""
    return f"./{file}" if file.startswith(("-", "@")) else file


@functools.cache
def run_time_unit(gcc: str, name: str, number: int) -> bytes:
    """A run-time file as it was read, for pickle: each program changes its own copy."""
    compiling = Compiling(gcc, "2", shows_warnings=False)
    if not compiling.is_clang:
        # What copies bytes must not become a call of itself.
        compiling = replace(compiling, flags=("no-tree-loop-distribute-patterns",))
    return pickle.dumps(read_unit(compiling.assembly(str(RUN_TIME / name)), name, number, is_run_time=True))


def run_time_files(gcc: str, missing: dict[str, Place]) -> list[Unit]:
    """The run-time files that define one of the missing names."""
    found: list[Unit] = []
    for number, name in enumerate(("small.S", "division.S", "integers.c", "floats.c"), 9000):
        if not missing:
            break
        unit = pickle.loads(run_time_unit(gcc, name, number))
        if unit.defined & set(missing):
            found.append(unit)
            missing = {it: place for it, place in missing.items() if it not in unit.defined}
    return found


def program_of(files: list[str], compiling: Compiling, least_stack: int) -> Program:
    """The whole program, laid out, without code that nothing reaches."""
    units = []
    for number, file in enumerate(files):
        if not re.search(r"\.[csS]$", file):
            raise refuse(Place(file), "the name ends in none of .c, .s and .S")
        units.append(read_unit(compiling.assembly(file), file, number))
    program = link(units, functools.partial(run_time_files, compiling.gcc))
    without_unreached(program)
    refuse_missing(program)
    if len(program.code) > MOST_INSTRUCTIONS:
        raise refuse(Place(), f"the program has {len(program.code)} instructions; there are at most {MOST_INSTRUCTIONS}")
    lay_out(program, least_stack)
    return program
