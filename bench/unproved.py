#!/usr/bin/env python3
"""Times the proved program beside plain Rust programs without proofs. Needs
python3, rt and rustc.

    unproved.py [--program PATH] [--rounds N] [--builds N] [--only WORD]

The programs of unproved/ do the same work with the same structures: the plain
machine on the kernels, events on a machine with 1, 4 and 16 units, reading and
checking the largest certificate, and printing the maximal program. They are run
in turn with the proved ones, so that a slow minute of the machine falls on both.
Of the certificate and the events the least processor time of the rounds counts,
user and system time, since most of it goes into memory that is touched for the
first time; of the kernels and the printer the median.

How a compiler lays out a loop moves its time by a third, so the programs of
unproved/ are built several times, with the functions at other alignments, and the
proved ones are linked as often, at the same alignments: the median of the builds
counts. Where the two differ in events, tasks or registers, the script ends. The programs of events are
`small` (`sll $0,$0,0` and `j`), `registers` (a loop that computes and branches), `loop` (which also loads
read-only data) and `sending` (tasks of eight instructions that forward two registers and need one of the task
before).
--program PATH times a multiscalar that is built already, with its object file beside it, if there is one, else as it is; events
build a program of their own.
emulators.py runs the same kernels in SPIM and QEMU.
"""
import argparse
import pathlib
import resource
import shutil
import statistics
import subprocess
import tempfile

import bench
import machine

HERE = pathlib.Path(__file__).resolve().parent
EVENTS = 900000
# Short tasks, of at most 12 events each; each of 1, 4 and 16 units executes as many of them.
TASKS = 72000


def compiled(name, folder, build=0):
    """Builds a program of unproved/; the builds differ in how functions are aligned."""
    program = pathlib.Path(folder) / f"unproved_{name}_{build}"
    layout = ["-C", f"llvm-args=-align-all-functions={4 + build}"] if build else []
    words = ["rustc", "--edition", "2021", "-O", *layout, "-o", program, HERE / "unproved" / f"{name}.rs"]
    subprocess.run(words, check=True)
    return program


def linked(program, folder, builds):
    """A proved program as it was built and, where its object file lies beside it, linked again for each further build."""
    program, kit = pathlib.Path(program), pathlib.Path(shutil.which("rt")).resolve().parent.parent
    made = program.with_name(f"{program.name}.o")
    programs = [program]
    for build in range(1, builds if made.exists() else 1):
        aligned, to = pathlib.Path(folder) / "aligned.o", pathlib.Path(folder) / f"{program.name}_{build}"
        subprocess.run(["objcopy", "--set-section-alignment", f".text.*={16 << build}", made, aligned], check=True)
        words = [kit / "bin" / "rattle-link", "--target", "x86_64-unknown-linux-gnu", "--toolchain", kit / "toolchain", "-o", to, aligned]
        subprocess.run([*words, kit / "c" / "liblibc_c.a", kit / "c" / "libos_c.a"], check=True, capture_output=True)
        programs.append(to)
    return programs


def spent(words):
    """The processor time of one run, in seconds."""
    start = resource.getrusage(resource.RUSAGE_CHILDREN)
    subprocess.run([*map(str, words)], stdout=subprocess.DEVNULL, check=True)
    end = resource.getrusage(resource.RUSAGE_CHILDREN)
    return end.ru_utime + end.ru_stime - start.ru_utime - start.ru_stime


def least(rounds, *commands):
    """The least processor time of each command, run in turn."""
    times = [[spent(words) for words in commands] for _ in range(rounds)]
    return [min(column) for column in zip(*times)]


def medians(rounds, *commands):
    """The median processor time of each command, run in turn."""
    times = [[spent(words) for words in commands] for _ in range(rounds)]
    return [statistics.median(column) for column in zip(*times)]


def kernels(rounds, builds, proved, folder):
    """The plain machine: nanoseconds an instruction, the same process with a program of 18 taken off."""
    folder = pathlib.Path(folder)
    small = HERE.parent / "examples" / "count" / "program.s"
    ours = [[program, "seq"] for program in linked(proved, folder, builds)]
    theirs = [[compiled("plain", folder, build)] for build in range(builds)]
    ratios = []
    for kernel in sorted((HERE / "kernels").glob("*.s")):
        first = subprocess.run([proved, "seq", kernel], capture_output=True, check=True, text=True).stdout.split()
        count = int(first[first.index("instructions") - 1])
        times = medians(rounds, *([*words, text] for words in ours + theirs for text in (small, kernel)))
        each = [(full - base) / count * 1e9 for base, full in zip(times[::2], times[1::2])]
        own, other = statistics.median(each[:len(ours)]), statistics.median(each[len(ours):])
        ratios.append(own / other)
        print(f"{kernel.stem}: {own:.2f} ns an instruction, without proofs {other:.2f} ns: {own / other:.2f} times, "
              f"{len(ours)} and {builds} builds, {rounds} rounds", flush=True)
    print(f"all kernels: {statistics.geometric_mean(ratios):.2f} times, {len(ours)} and {builds} builds, {rounds} rounds")


def printing(rounds, builds, proved, folder):
    program = pathlib.Path(folder) / "program.s"
    program.write_text(bench.maximal_program())
    ours = [[each, "print", program] for each in linked(proved, folder, builds)]
    times = medians(rounds, *ours, *([compiled("printer", folder, build), program] for build in range(builds)))
    own, other = statistics.median(times[:len(ours)]), statistics.median(times[len(ours):])
    print(f"print of {program.stat().st_size} bytes: {own * 1e3:.1f} ms, without proofs {other * 1e3:.1f} ms: "
          f"{own / other:.2f} times, {len(ours)} and {builds} builds, {rounds} rounds")


def event_cases(name):
    """The rows of a program: what they are, and the words of both programs for few events and for many."""
    if name == "sending":
        kinds = [("tasks", "tasks at the head", units) for units in (1, 4, 16)]
        kinds += [("ahead", "tasks ahead, in bursts", units) for units in (4, 16)]
        return [(f"{said}, {units:2} units", *[[what, units, 0], [what, units, TASKS]] * 2) for what, said, units in kinds]
    round_it = [(f"{units:2} units", *[["events", units, 0], ["events", units, EVENTS]] * 2) for units in (1, 4, 16)]
    many = EVENTS // 64
    # The program without proofs takes no log and no history to begin with.
    return round_it + [
        (f"{what} of 64", [what, 0, 0, 1], [what, 0, 0, many], [what, 1], [what, many]) for what in ("single", "bursts")
    ]


def counts(few, many):
    """By how much each count that a program writes is greater for many events than for few."""
    written = [subprocess.run([*map(str, words)], capture_output=True, check=True, text=True).stdout for words in (few, many)]
    base, full = ([int(word) for word in text.split()] for text in written)
    # Of events ahead of the head the proved program writes a time, too.
    kept = 1 if "single" in many or "bursts" in many else len(full)
    return [after - before for before, after in zip(base[:kept], full)]


def event_row(rounds, ours, theirs):
    """The times of one event of a row; `ours` and `theirs` have a pair of commands for each build."""
    told, *others = [counts(*build) for build in ours + theirs]
    if any(told != other for other in others):
        raise SystemExit(f"{ours[0][1]}: {told}, others {others}")
    events = EVENTS if "events" in ours[0][1] else told[0]
    times = least(rounds, *(words for build in ours + theirs for words in build))
    each = [(full - base) / events for base, full in zip(times[::2], times[1::2])]
    return each[:len(ours)], each[len(ours):]


def events(rounds, builds, proved, folder):
    """Events round the ring; events of a unit ahead of the head, and a lease, a burst and its check-in; short tasks."""
    folder = pathlib.Path(folder)
    own, plain = linked(proved, folder, builds), [compiled("machine", folder, build) for build in range(builds)]
    programs = {"small": machine.SMALL, "registers": machine.REGISTERS, "loop": machine.LOOP, "sending": machine.SENDING}
    for name, text in programs.items():
        file = folder / name
        file.write_text(text)
        for said, few, many, plain_few, plain_many in event_cases(name):
            ours = [([program, file, *few], [program, file, *many]) for program in own]
            theirs = [([program, name, *plain_few], [program, name, *plain_many]) for program in plain]
            times = event_row(rounds, ours, theirs)
            ns, plain_ns = (statistics.median(each) * 1e9 for each in times)
            least_ratio, most_ratio = min(times[0]) / min(times[1]), max(times[0]) / max(times[1])
            print(f"{name}, {said}: {ns:5.1f} ns an event, without proofs {plain_ns:5.1f} ns: {ns / plain_ns:.2f} times "
                  f"(of the fastest builds {least_ratio:.2f}, of the slowest {most_ratio:.2f}), {len(own)} and {builds} builds, "
                  f"{rounds} rounds", flush=True)


def certificate(rounds, builds, proved, folder):
    program, text = pathlib.Path(folder) / "program.s", pathlib.Path(folder) / "program.cert"
    program.write_text(bench.maximal_program())
    text.write_text("".join(bench.maximal_certificate()))
    size = text.stat().st_size
    ours = [[each, "check", program, text] for each in linked(proved, folder, builds)]
    times = least(rounds, *ours, *([compiled("checker", folder, build), program, text] for build in range(builds)))
    own, other = statistics.median(times[:len(ours)]), statistics.median(times[len(ours):])
    print(f"certificate of {size} bytes: {size / own / 1e6:.0f} MB/s, without proofs {size / other / 1e6:.0f} MB/s: "
          f"{own / other:.2f} times, {len(ours)} and {builds} builds, {rounds} rounds")


def main():
    options = argparse.ArgumentParser(description=__doc__, formatter_class=argparse.RawDescriptionHelpFormatter)
    options.add_argument("--rounds", type=int, default=12)
    options.add_argument("--builds", type=int, default=3)
    options.add_argument("--only", default="", help="certificate, events, kernels or print")
    options.add_argument("--program", help="the program to time, built already")
    given = options.parse_args()
    rounds, builds = given.rounds, given.builds

    def proved():
        return given.program or bench.built()

    with tempfile.TemporaryDirectory(prefix="multiscalar-bench-") as folder:
        if given.only in "kernels":
            kernels(rounds, builds, proved(), folder)
        if given.only in "print":
            printing(rounds, builds, proved(), folder)
        if given.only in "certificate":
            certificate(rounds, builds, proved(), folder)
        if given.only in "events":
            events(rounds, builds, machine.built(pathlib.Path(folder)), folder)


if __name__ == "__main__":
    main()
