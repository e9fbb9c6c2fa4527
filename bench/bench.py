#!/usr/bin/env python3
"""Times the program. Needs python3 and nothing else.

    bench.py [--program PATH] [--rounds N] [--only WORD] [--list]

If PATH is not given, `multiscalar` at the top of the repository is called once
with --help, so that it builds what it runs, and that program is timed. Every
case is run once a round, in turn (so that a slow minute of the machine falls on
all of them), and the median of the rounds counts. Cases of a subcommand that
the program does not have yet are named and passed over.

What is timed is the whole process, as a user sees it. Where a figure is given
per instruction, per event or per byte, the time of the start-up case is taken
off first. The least user time of the rounds stands beside the median, since
other work on the machine changes it least. Generated texts are written to a
temporary folder and removed. Memory of less than this script's own, some 15
megabytes, cannot be told.

The kernels execute just under 1,000,000 instructions each. Their outputs were computed by other means: `nested` 3019712;
`recursion` 28657 (the 23rd Fibonacci number) and 46368 leaves; `sieve` 6542 primes and 94153687; `sort` 3087320, 4293733463,
518439932; `xorshift` 2558620850, 3374567292.
"""
import argparse
import itertools
import os
import pathlib
import statistics
import subprocess
import sys
import tempfile
import time

HERE = pathlib.Path(__file__).resolve().parent
TOP = HERE.parent
LONGEST_TEXT = 4194304
CODE, TASKS, TARGETS, REGION = 4096, 1024, 16, 65536
RING = 50


# Texts ---------------------------------------------------------------------

def long_name(number):
    """A name of 32 bytes, the longest there is."""
    return f"task_{number:027d}"


def mixed_instruction(index, names):
    """One row of the instruction table after another; the registers vary with
    the index. Each goes on to the next instruction, branches also elsewhere."""
    d, s, t = 8 + index % 16, 8 + index // 3 % 16, 8 + index // 7 % 16
    place = names[index * 37 % TASKS]
    rows = [
        f"addu ${d},${s},${t}", f"subu ${d},${s},${t}", f"and ${d},${s},${t}", f"or ${d},${s},${t}",
        f"xor ${d},${s},${t}", f"nor ${d},${s},${t}", f"slt ${d},${s},${t}", f"sltu ${d},${s},${t}",
        f"sll ${d},${s},{index % 32}", f"srl ${d},${s},{index % 32}", f"sra ${d},${s},{index % 32}",
        f"sllv ${d},${s},${t}", f"srlv ${d},${s},${t}", f"srav ${d},${s},${t}",
        f"addiu ${d},${s},{-32768 + index}", f"slti ${d},${s},{index}", f"sltiu ${d},${s},{-index}",
        f"andi ${d},${s},{65535 - index}", f"ori ${d},${s},{index}", f"xori ${d},${s},{index}", f"lui ${d},{index}",
        f"mult ${s},${t}", f"multu ${s},${t}", f"mfhi ${d}", f"mflo ${d}", f"mthi ${s}", f"mtlo ${s}",
        f"lw ${d},{index}(${s})", f"lh ${d},{index}(${s})", f"lbu ${d},{-index}(${s})",
        f"sw ${d},{index}(${s})", f"sh ${d},{index}(${s})", f"sb ${d},{-index}(${s})",
        f"beq ${s},${t},{place}", f"bne ${s},${t},{place}", f"blez ${s},{place}", f"bgez ${s},{place}",
        f"jal {names[(index + 1) // 4] if index % 4 == 3 else f'@{index + 1}'}", f"out ${s}",
    ]
    return rows[index % len(rows)]


def maximal_program():
    """4,096 instructions in one loop, 1,024 tasks of 16 targets, 65,536 bytes
    in each region. Every task reaches every instruction."""
    names = [long_name(number) for number in range(TASKS)]
    create = ",".join(f"${r}" for r in [*range(8, 24), 31, 32, 33])
    lines = [f".start {names[0]}"]
    for number, name in enumerate(names):
        targets = ",".join(names[(number * 61 + k * 67) % TASKS] for k in range(TARGETS))
        lines.append(f".task {name} create={create} targets={targets}")
    for index in range(CODE):
        if index % 4 == 0:
            lines.append(f"{names[index // 4]}:")
        lines.append(f"j {names[0]}" if index == CODE - 1 else mixed_instruction(index, names))
    for section in (".data", ".rodata"):
        lines.append(section)
        lines += [f".word 0x{word * 2654435761 % 2**32:08x}" for word in range(REGION // 4)]
    return "\n".join(lines) + "\n"


def ring_program(tasks, create="$8,$9", last="xor $9,$9,$8 !f"):
    """A ring of tasks, each of which reaches four instructions."""
    lines = []
    for task in range(tasks):
        lines.append(f".task T{task} create={create} targets=T{(task + 1) % tasks}")
    for task in range(tasks):
        lines += [f"T{task}:", "addiu $8,$8,1 !f", "addu $9,$9,$8", last, f"j T{(task + 1) % tasks} !s"]
    return "\n".join(lines) + "\n"


def maximal_certificate():
    """1,024 lists of 4,096 entries for the maximal program. All instructions
    lie on one loop, so each may yet write every register that any of them writes."""
    mask = sum(1 << r for r in [*range(8, 24), 31, 32, 33])
    body = "".join(f"{index} {mask:016x}\n" for index in range(CODE))
    yield "cert 2\n"
    for number in range(TASKS):
        yield f"task {long_name(number)}\n{body}"


def padded(text, filler):
    """The text, and the filler's lines before it as often as they fit into the
    longest text, the last of them made longer by a comment."""
    out, room = [], LONGEST_TEXT - len(text)
    for line in filler:
        if len(line) + 1 > room - 64:
            break
        out.append(line + "\n")
        room -= len(line) + 1
    out.append("#" * (room - 1) + "\n")
    return "".join(out) + text


SMALL = ".task A create=- targets=-\nA: halt\n"


def comment_text():
    return padded(SMALL, itertools.repeat("        # nothing but this comment, again and again"))


def label_text():
    """As many labels as fit, each on a line of its own, and a jump to the first."""
    return padded(".task L0 create=- targets=-\nj L0\n", (f"L{number:x}:" for number in range(LONGEST_TEXT)))


def statement_text():
    """Statements that give no bytes, so that nothing but reading them costs."""
    return padded(".text\n" + SMALL, itertools.chain([".data"], itertools.repeat(".space 0x0")))


def late_fault_text():
    """The longest text whose last line has the only fault."""
    text = comment_text()
    return text[:-len(SMALL)] + ".task A create=- targets=-\nA: halT\n"


def loop_nest():
    """Two thousand loops, one in the other; only the innermost writes."""
    depth = 2000
    lines = [".task A create=$9 targets=-", "A:"]
    lines += ["addu $0,$0,$0"] * depth + ["addiu $9,$9,1"]
    lines += [f"bne $8,$0,@{depth - 1 - level}" for level in range(depth)] + ["halt"]
    return "\n".join(lines) + "\n"


def zigzag():
    """A path that goes from the first instruction to the last, to the second,
    to the last but one, and so on; only its end writes."""
    order = [index // 2 if index % 2 == 0 else CODE - 1 - index // 2 for index in range(CODE)]
    code = [""] * CODE
    for here, there in zip(order, order[1:]):
        code[here] = f"j @{there}"
    code[order[-2]], code[order[-1]] = "addiu $9,$9,1", "halt"
    return ".task A create=$9 targets=-\nA:\n" + "\n".join(code) + "\n"


STEADY = ".task A create=$8 targets=A\nA: addiu $8,$8,1 !f\nj A !s\n"
STEADY_CERTIFICATE = "cert 2\ntask A\n0 0000000000000100\n1 0000000000000000\n"


def long_task(rounds):
    """One task that goes round a loop of three instructions: its log of operand
    reads grows with each, and so does a lease."""
    return (".task A create=$8,$9 targets=-\n"
            f"A: lui $8,{rounds >> 16}\nori $8,$8,{rounds & 65535}\n"
            "LOOP: addu $9,$9,$8\naddiu $8,$8,-1\nbne $8,$0,LOOP\nout $9\nhalt\n")


LONG_TASKS = (3000, 30000, 300000)
LONG_TASK_CERTIFICATE = ("cert 2\ntask A\n" + "".join(f"{index} 0000000000000300\n" for index in range(5))
                         + "5 0000000000000000\n6 0000000000000000\n")


def steady_script(units, most):
    """A full queue of the one task of STEADY: the oldest retires, a new one is
    assigned, takes its register over the ring, and executes."""
    events = ["assign A"] * units
    for k in range(units):
        events += [f"transfer {k} $8"] if k else []
        events += [f"exec {k}"] * 2
    last = units - 1
    turn = ["retire", "assign A"] + ([f"transfer {last} $8"] if last else []) + [f"exec {last}"] * 2
    events += turn * ((most - len(events)) // len(turn))
    return events


# Running -------------------------------------------------------------------

class Run:
    """What one run of the program took: seconds, those of the processor in the
    program itself, most memory in bytes, status, output."""

    def __init__(self, program, words, keep):
        sink = subprocess.PIPE if keep else subprocess.DEVNULL
        begin = time.perf_counter()
        child = subprocess.Popen([program, *map(str, words)], stdout=sink, stderr=subprocess.DEVNULL)
        self.output = child.stdout.read() if keep else b""
        _, status, usage = os.wait4(child.pid, 0)
        self.seconds = time.perf_counter() - begin
        child.returncode = os.waitstatus_to_exitcode(status)
        self.status = child.returncode
        self.user = usage.ru_utime
        self.memory = usage.ru_maxrss * 1024


class Case:
    def __init__(self, name, words, per=None, count=None, wanted=0, keep=False):
        self.name, self.words = name, words
        self.per, self.count, self.wanted, self.keep = per, count, wanted, keep
        self.runs = []

    def subcommand(self):
        return self.words[0]


def number_before(output, word):
    """The number after `after` or before `word`, as in `halted after 18 instructions`."""
    words = output.decode().split()
    return int(words[words.index(word) - 1])


def write(folder, name, parts):
    path = folder / name
    with open(path, "w", encoding="ascii", newline="\n") as file:
        for part in [parts] if isinstance(parts, str) else parts:
            file.write(part)
    return path


def built():
    """The program itself, which the launcher at the top builds and then runs."""
    launcher = TOP / "multiscalar"
    if subprocess.run([launcher, "--help"], stdout=subprocess.DEVNULL).returncode != 0:
        sys.exit(f"{launcher} --help failed")
    program = TOP / "crates" / "multiscalar" / "out" / "multiscalar"
    return str(program if program.exists() else launcher)


def has(program, subcommand):
    return subprocess.run([program, subcommand, "--help"], capture_output=True).returncode == 0


def write_texts(folder, with_certificate):
    """All texts that are generated, in the folder."""
    for name, text in [("maximal", maximal_program()), ("comments", comment_text()), ("labels", label_text()),
                       ("statements", statement_text()), ("late_fault", late_fault_text()), ("nest", loop_nest()),
                       ("zigzag", zigzag()), ("steady", STEADY), ("ring", ring_program(RING)), ("long_ring", ring_program(TASKS)),
                       ("wrong_ring", ring_program(TASKS, "$8", "xor $9,$9,$8"))]:
        write(folder, f"{name}.s", text)
    write(folder, "steady.cert2", STEADY_CERTIFICATE)
    write(folder, "long.cert2", LONG_TASK_CERTIFICATE)
    write(folder, "empty.events", "")
    for units in (1, 4, 16):
        write(folder, f"steady{units}.events", "\n".join(steady_script(units, 1000000)) + "\n")
    for rounds in LONG_TASKS:
        write(folder, f"long{rounds}.s", long_task(rounds))
    if with_certificate:
        write(folder, "maximal.cert2", maximal_certificate())


def lines_in(path):
    with open(path, "rb") as file:
        return sum(1 for _ in file)


def cases(program, folder, known):
    """The cases, in the order in which they are reported; the first is the start-up."""
    count = TOP / "examples" / "count"
    kernels = sorted((HERE / "kernels").glob("*.s"))
    out = [Case("start-up: seq of count", ["seq", count / "program.s"])]
    for kernel in kernels:
        words = ["seq", kernel]
        executed = number_before(Run(program, words, True).output, "instructions") if known("seq") else None
        out.append(Case(f"seq of {kernel.stem}", words, "instruction", executed))
    for file, name, wanted in [("maximal", "maximal program", 0), ("comments", "longest text, comments", 0),
                               ("labels", "longest text, labels", 0), ("statements", "longest text, statements", 0),
                               ("late_fault", "longest text, fault in the last line", 1)]:
        path = folder / f"{file}.s"
        size = path.stat().st_size
        out.append(Case(f"print of the {name} ({size} bytes)", ["print", path], "byte", size, wanted))
    maximal, certificate = folder / "maximal.s", folder / "maximal.cert2"
    size = certificate.stat().st_size if certificate.exists() else 0
    for workers in (1, 4):
        words = ["check", "--workers", workers, maximal, certificate]
        out.append(Case(f"check of the maximal certificate ({size} bytes), workers {workers}", words, "byte", size))
    ring, ring_certificate = folder / "ring.s", folder / "ring.cert2"
    if known("annotate"):
        ring_certificate.write_bytes(Run(program, ["annotate", "--emit", "keep", ring], True).output)
    for workers in (1, 4):
        words = ["check", "--workers", workers, ring, ring_certificate]
        out.append(Case(f"check of {4 * RING} instructions in {RING} tasks, workers {workers}", words))
    for file, name, size in [("maximal", "maximal program", CODE * TASKS), ("nest", "loop nest", 4002), ("zigzag", "zigzag path", CODE)]:
        words = ["annotate", "--emit", "keep", folder / f"{file}.s"]
        out.append(Case(f"annotate --emit keep of the {name}", words, "entry", size))
    # the same program, right, and wrong in one register of each task
    long_ring = folder / "long_ring.s"
    out.append(Case(f"annotate --emit keep of {TASKS} tasks", ["annotate", "--emit", "keep", long_ring]))
    out.append(Case(f"explain of {TASKS} tasks, right", ["explain", long_ring]))
    out.append(Case(f"explain of {TASKS} tasks, {TASKS} findings", ["explain", folder / "wrong_ring.s"], wanted=1))
    steady, steady_certificate = folder / "steady.s", folder / "steady.cert2"
    for units in (1, 4, 16):
        script = folder / f"steady{units}.events"
        words = ["replay", "--units", units, steady, steady_certificate, script]
        out.append(Case(f"replay of a script, units {units}", words, "event", lines_in(script)))
    out.append(Case("replay of the empty script", ["replay", "--units", 1, steady, steady_certificate, folder / "empty.events"]))
    for rounds in LONG_TASKS:
        words = ["run", "--units", 1, folder / f"long{rounds}.s", folder / "long.cert2"]
        out.append(Case(f"run of one task of {3 * rounds + 4} instructions", words, "instruction", 3 * rounds + 4))
    for kernel in kernels:
        marked, certificate = folder / f"{kernel.stem}.s", folder / f"{kernel.stem}.cert2"
        if known("annotate"):
            marked.write_bytes(Run(program, ["annotate", kernel], True).output)
            certificate.write_bytes(Run(program, ["annotate", "--emit", "cert", kernel], True).output)
        for units in (1, 4):
            words = ["run", "--units", units, "--budget", 1000000, marked, certificate]
            out.append(Case(f"run of {kernel.stem}, units {units}, one million events", words, "event", 1000000, None))
    return out


def main():
    options = argparse.ArgumentParser(description="Times the program.")
    options.add_argument("--program", help="the program to time, built already")
    options.add_argument("--rounds", type=int, default=7)
    options.add_argument("--only", default="", help="only the cases whose name has this")
    options.add_argument("--list", action="store_true", help="only name the cases")
    options.add_argument("--write", metavar="FOLDER", help=argparse.SUPPRESS)
    options.add_argument("--certificate", action="store_true", help=argparse.SUPPRESS)
    given = options.parse_args()
    if given.write:
        write_texts(pathlib.Path(given.write), given.certificate)
        return
    program = str(pathlib.Path(given.program).resolve()) if given.program else built()
    answers = {}

    def known(subcommand):
        if subcommand not in answers:
            answers[subcommand] = has(program, subcommand)
        return answers[subcommand]

    with tempfile.TemporaryDirectory(prefix="multiscalar-bench-") as name:
        # by a process of its own, so that this one stays small: what a child has
        # touched counts from where its parent stood when it began
        writer = [sys.executable, __file__, "--write", name] + (["--certificate"] if known("check") else [])
        subprocess.run(writer, check=True)
        every = cases(program, pathlib.Path(name), known)
        if given.list:
            print("\n".join(case.name for case in every))
            return
        chosen = [case for case in every if given.only in case.name]
        if every[0] not in chosen:
            chosen.insert(0, every[0])
        absent = [case for case in chosen if not known(case.subcommand())]
        chosen = [case for case in chosen if known(case.subcommand())]
        for _ in range(given.rounds):
            for case in chosen:
                case.runs.append(Run(program, case.words, case.keep))
        report(chosen, absent)


def report(chosen, absent):
    print(f"{'milliseconds':>12} {'least user':>10} {'megabytes':>10}  case")
    start = statistics.median(run.seconds for run in chosen[0].runs) if chosen else 0
    for case in chosen:
        seconds = statistics.median(run.seconds for run in case.runs)
        memory = max(run.memory for run in case.runs) / 1e6
        user = min(run.user for run in case.runs)
        line = f"{seconds * 1e3:12.2f} {user * 1e3:10.2f} {memory:10.1f}  {case.name}"
        if case.count:
            each = max(seconds - start, 0) / case.count * 1e9
            line += f": {each:.2f} ns per {case.per}"
            if case.per == "byte":
                line += f", {case.count / max(seconds, 1e-9) / 1e6:.0f} MB/s"
        wrong = {run.status for run in case.runs} - {case.wanted}
        if case.wanted is not None and wrong:
            line += f"  (status {sorted(wrong)}, wanted {case.wanted})"
        print(line)
    for case in absent:
        print(f"{'-':>12} {'-':>10} {'-':>10}  {case.name}: no subcommand {case.subcommand()} yet")


if __name__ == "__main__":
    main()
