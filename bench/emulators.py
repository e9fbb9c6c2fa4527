#!/usr/bin/env python3
"""Times SPIM and QEMU beside `multiscalar seq` on the kernels. Needs python3,
and for SPIM `spim`, for QEMU `qemu-mipsel`, `mipsel-linux-gnu-as` and
`mipsel-linux-gnu-ld`: what is not installed is left out.

    emulators.py [--program PATH] [--rounds N] [--only WORD]

The kernels are rewritten for each: no tasks and marks, and calls of the system
for `out` and `halt`. Each program runs once in each round; the median processor
time counts, less that of the same process with a kernel that only halts. QEMU
runs a kernel fifty times in one process. What each prints must be the output.
"""
import argparse
import pathlib
import shutil
import statistics
import struct
import subprocess
import sys
import tempfile

import bench
import unproved

HERE = pathlib.Path(__file__).resolve().parent
# Where multiscalar's data memory begins; `sieve` adds up addresses.
DATA = 0x10010000


def rewritten(kernel, entry, out, halt):
    """The kernel as other assemblers read it: MAIN by another name, and texts for `out` of a register and `halt`."""
    lines = []
    for line in kernel.read_text().splitlines():
        line = line.split("#")[0].split("!")[0].replace("MAIN:", f"{entry}:")
        words = line.split()
        if words[:1] == ["out"]:
            line = out.format(words[1])
        elif words[:1] == ["halt"]:
            line = halt
        elif words[:1] == [".task"]:
            continue
        lines.append(line)
    return "\n".join(lines) + "\n"


class Multiscalar:
    name = "multiscalar"
    runs = 1

    def __init__(self, program):
        self.program = program

    def command(self, kernel, folder):
        return [self.program, "seq", kernel]

    def words(self, output):
        """The output, and how many instructions there were."""
        lines = output.decode().splitlines()
        self.count = int(lines[-1].split()[-2])
        return [int(line) for line in lines[:-1]]


class Spim:
    """It asks the kernel for the time before each instruction, which is most of its time: its figures are
    not its interpreter's speed, so no factor is written."""
    name = "SPIM"
    has_factor = False
    tools = ("spim",)
    runs = 1

    def command(self, kernel, folder):
        text = folder / f"{kernel.stem}.spim.s"
        # a word as a signed number and a line's end; service 10 ends the program
        out = "move $4, {}\nli $2, 1\nsyscall\nli $4, 10\nli $2, 11\nsyscall"
        text.write_text(".globl main\n.text\n" + rewritten(kernel, "main", out, "li $2, 10\nsyscall"))
        return ["spim", "-file", text]

    def words(self, output):
        # SPIM's own first line is no number
        return [int(line) % 2**32 for line in output.decode().splitlines() if line.lstrip("-").isdigit()]


class Qemu:
    """Linux's `write` for `out`, of the word's four bytes, and `exit` for `halt`. A kernel is too short
    for a translator, so it is run several times in one process; its data becomes 0 again between."""
    name = "QEMU"
    has_factor = True
    tools = ("qemu-mipsel", "mipsel-linux-gnu-as", "mipsel-linux-gnu-ld")
    runs = 50
    out = "la $5, OUTPUT\nsw {}, 0($5)\nli $4, 1\nli $6, 4\nli $2, 4004\nsyscall"
    start = f"""
        .globl __start
        .data
BEGIN:
        .text
__start:
        li $23, {runs}
"""
    end = """
        .text
AGAIN:
        addiu $23, $23, -1
        beq $23, $0, EXIT
        la $8, BEGIN
        la $9, OUTPUT
CLEAR:
        sw $0, 0($8)
        addiu $8, $8, 4
        bne $8, $9, CLEAR
        j MAIN
EXIT:
        li $2, 4001
        li $4, 0
        syscall
        .data
        .align 2
        .space 4
OUTPUT: .space 4
"""

    def command(self, kernel, folder):
        text, made, program = (folder / f"{kernel.stem}.{ending}" for ending in ("linux.s", "o", "elf"))
        text.write_text(self.start + rewritten(kernel, "MAIN", self.out, "j AGAIN") + self.end)
        subprocess.run(["mipsel-linux-gnu-as", "-mips32", "-o", made, text], check=True)
        subprocess.run(["mipsel-linux-gnu-ld", "-e", "__start", f"-Tdata={DATA:#x}", "-o", program, made], check=True)
        return ["qemu-mipsel", program]

    def words(self, output):
        return [word for word, in struct.iter_unpack("<I", output)]


def printed(words):
    return subprocess.run([*map(str, words)], stdin=subprocess.DEVNULL, capture_output=True, check=True).stdout


def timed(ours, others, kernel, empty, rounds, folder):
    """One kernel: what each took an instruction, in nanoseconds, multiscalar first."""
    every = [ours, *others]
    commands = [[it.command(empty, folder), it.command(kernel, folder)] for it in every]
    outputs = [it.words(printed(command[1])) for it, command in zip(every, commands)]
    for it, output in zip(others, outputs[1:]):
        if output != outputs[0] * it.runs:
            sys.exit(f"{kernel.stem}: {it.name} prints {output}, multiscalar {outputs[0]}")
    times = unproved.medians(rounds, *(words for command in commands for words in command))
    return [(full - base) / ours.count / it.runs * 1e9 for it, base, full in zip(every, times[::2], times[1::2])]


def main():
    options = argparse.ArgumentParser(description=__doc__, formatter_class=argparse.RawDescriptionHelpFormatter)
    options.add_argument("--program", help="the program to time, built already")
    options.add_argument("--rounds", type=int, default=15)
    options.add_argument("--only", default="", help="only the kernels whose name has this")
    given = options.parse_args()
    ours = Multiscalar(str(pathlib.Path(given.program).resolve()) if given.program else bench.built())
    others = [it() for it in (Spim, Qemu) if all(map(shutil.which, it.tools))]
    for it in (Spim, Qemu):
        absent = [tool for tool in it.tools if not shutil.which(tool)]
        if absent:
            print(f"{it.name} is left out: no {', '.join(absent)}")
    ratios = {it.name: [] for it in others}
    with tempfile.TemporaryDirectory(prefix="multiscalar-bench-") as name:
        folder = pathlib.Path(name)
        empty = bench.write(folder, "nothing.s", ".task MAIN create=- targets=-\nMAIN:\n        halt\n")
        for kernel in sorted((HERE / "kernels").glob("*.s")):
            if given.only not in kernel.stem:
                continue
            own, *theirs = timed(ours, others, kernel, empty, given.rounds, folder)
            line = f"{kernel.stem}: {own:.2f} ns an instruction"
            for it, each in zip(others, theirs):
                line += f"; {it.name} {each:.2f} ns"
                if it.has_factor:
                    ratios[it.name].append(each / own)
                    line += f", {each / own:.2f} times as long"
            print(line, flush=True)
    for name, all_of_it in ratios.items():
        if all_of_it:
            print(f"{name} takes {statistics.geometric_mean(all_of_it):.2f} times as long (geometric mean)")
    print(f"{given.rounds} rounds, medians")


if __name__ == "__main__":
    main()
