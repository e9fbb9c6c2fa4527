#!/usr/bin/env python3
"""Compares translated programs with the same C built for the host and for MIPS in QEMU.

    compiler/try.py                    the programs of compiler/programs and 300 of csmith: half an hour of one core
    compiler/try.py --quick            a minute of it
    compiler/try.py --seq              compares what `seq` prints alone

Each program is translated at -O0 to -O3, by GCC and, for its own programs, by clang, its code as it was, moved or with
copies of functions, cut and marked in several ways, checked, and run: `seq`, `run` on 1, 4 and 16 units, and `replay
--strict` of the script of a run with its values; its own programs once on their second input, too. What is printed must be
what the host prints (not of csmith's programs, whose meaning depends on the size of long) and what the program prints that
GCC makes for MIPS32 and QEMU runs. The last line says how many agree; the status is 0 exactly if none differs. Results are
kept in compiler/out, so a run that was stopped goes on where it was; a change of a program or of the translator makes its
results void.

It needs gcc, gcc-mipsel-linux-gnu, qemu-user, libc6-dev-mipsel-cross, csmith and libcsmith-dev; without clang-14 it says
so and leaves that out. try_steps.py measures.
"""

import argparse
import hashlib
import json
import random
import re
import resource
import shutil
import signal
import subprocess
import sys
import tempfile
import time
from collections import Counter
from concurrent.futures import FIRST_COMPLETED, Future, ProcessPoolExecutor, wait
from dataclasses import dataclass
from pathlib import Path
from typing import Iterator

from choice import Shape, Way, judge, result_of, written
from compiling import CompilerFailed, Compiling, program_of
from linking import Program
from refusal import Refused
from tool import Tool, ToolFailed

HERE = Path(__file__).resolve().parent
OUT = HERE / "out"
CSMITH_HEADERS = "/usr/include/csmith"
LEVELS = "0123"
GCC, CLANG = "mipsel-linux-gnu-gcc", "clang-14"
WAYS = [
    Way("calls", "own", "none"),
    Way("calls", "joined", "early", "copied and moved"),
    Way("outer", "joined", "late"),
    Way("loops", "own", "early", "moved"),
    Way("loops", "joined", "late", "copied"),
    Way("blocks", "own", "early", "copied and moved"),
    Way("outer-exits", "own", "late", "moved"),
    Way("loops-exits", "joined", "early", "copied"),
]
UNITS = (1, 4, 16)
# Sizes that often fit 4,096 instructions; three kinds, in turn.
CSMITH = [
    "--max-funcs 2 --max-block-depth 2 --max-block-size 3 --max-expr-complexity 4 --max-array-len-per-dim 4 --no-bitfields",
    "--max-funcs 4 --max-block-depth 2 --max-block-size 3 --max-expr-complexity 5 --max-array-len-per-dim 5 --packed-struct",
    "--max-funcs 5 --max-block-depth 3 --max-block-size 4 --max-expr-complexity 6 --max-array-len-per-dim 6 --no-volatiles",
]
FOR_ALL = "--no-argc --no-float --concise --max-array-dim 2"


@dataclass(frozen=True)
class Trial:
    """One program at one level, cut in one way."""

    source: str
    level: str
    way: Way
    is_csmith: bool
    compiler: str = GCC
    macros: tuple[str, ...] = ()

    def name(self) -> str:
        return " ".join([Path(self.source).stem, self.compiler, f"-O{self.level}", *self.macros, str(self.way)])


def command(words: list[str], seconds: int = 20) -> tuple[int, str]:
    """The status, -1 after so many seconds of processor time: what else the machine does makes nothing too long."""

    def limit() -> None:
        resource.setrlimit(resource.RLIMIT_CPU, (seconds, seconds + 1))

    done = subprocess.run(words, capture_output=True, text=True, check=False, cwd=OUT, preexec_fn=limit)
    if done.returncode in (-signal.SIGXCPU, -signal.SIGKILL):
        return -1, "too long"
    return done.returncode, done.stdout + (done.stderr if done.returncode else "")


def includes(is_csmith: bool) -> list[str]:
    return [str(HERE / "include"), *([str(HERE / "csmith"), CSMITH_HEADERS] if is_csmith else [])]


def files_of(source: str) -> list[str]:
    """A program's files: its C and, if there is one of the same name, its assembler text."""
    assembly = Path(source).with_suffix(".S")
    return [source, str(assembly)] if assembly.exists() else [source]


class References:
    """What a program prints elsewhere, and its status after that; None where it takes too long there."""

    def __init__(self, folder: Path) -> None:
        self.folder = folder
        self.known: dict[tuple[str, tuple[str, ...]], list[str] | None] = {}

    def of(self, trial: Trial) -> list[str] | None:
        key = trial.source, trial.macros
        if key not in self.known:
            self.known[key] = self.found(trial)
        return self.known[key]

    def found(self, trial: Trial) -> list[str] | None:
        given = [f"-I{it}" for it in includes(trial.is_csmith)] + [f"-D{it}" for it in trial.macros]
        built = str(self.folder / "reference")
        files = files_of(trial.source)
        compilers = [["mipsel-linux-gnu-gcc", "-static", "-fno-pic", "-fno-pie", "-mno-abicalls", "-DMULTISCALAR_HOST"]]
        compilers += [] if trial.is_csmith or len(files) > 1 else [["gcc"]]
        printed = []
        for compiler in compilers:
            status, said = command([*compiler, "-w", "-O1", *given, "-o", built, *files], 60)
            if status:
                raise SystemExit(f"{trial.source}: {said}")
            status, said = command([*(["qemu-mipsel"] if "-static" in compiler else []), built], 5)
            if status < 0:
                return None
            printed.append([*said.split(), str(status)])
        if any(it != printed[0] for it in printed):
            raise SystemExit(f"{trial.source}: the host and QEMU print different words, or have different results")
        return printed[0]


class Trials:
    def __init__(self, tool: Tool, folder: Path, is_in_order: bool) -> None:
        self.tool, self.folder, self.is_in_order = tool, folder, is_in_order
        self.references = References(folder)
        self.programs: dict[tuple, Program | Exception] = {}

    def program(self, trial: Trial) -> Program:
        key = trial.source, trial.level, trial.compiler, trial.macros
        if key not in self.programs:
            if len(self.programs) > 30:
                self.programs.clear()
            try:
                compiling = Compiling(trial.compiler, trial.level, includes(trial.is_csmith), list(trial.macros), shows_warnings=False)
                self.programs[key] = program_of(files_of(trial.source), compiling, 1024)
            except (Refused, CompilerFailed) as fault:
                self.programs[key] = fault
        found = self.programs[key]
        if isinstance(found, Exception):
            raise found
        return found

    def result(self, trial: Trial) -> str:
        """`same`, or `refused: ..`, `too long: ..` or `different: ..`."""
        wanted = self.references.of(trial)
        if wanted is None:
            return "too long: in QEMU"
        try:
            shape = Shape(self.program(trial), trial.way.code, self.tool)
            choice = judge(written(shape, trial.way, self.tool, [], trial.way.release == "none"), self.tool)
        except Refused as refused:
            return f"refused: {refused.reasons[0][1]}"
        except (CompilerFailed, ToolFailed) as failed:
            return f"different: {failed}"
        (self.folder / "program.s").write_text(choice.text)
        *words, status = wanted
        found = self.runs(words)
        if found == "same" and str((result_of(choice, self.tool) or 0) & 255) != status:
            return f"different: main returns {result_of(choice, self.tool)}, elsewhere {status}"
        return found

    def runs(self, wanted: list[str]) -> str:
        text = str(self.folder / "program.s")
        status, said = command([self.tool.command, "seq", text])
        lines = said.split("\n")[:-1]
        if status == 3 or status < 0:
            return "too long: more than 1000000 instructions"
        if lines[:-1] != wanted or not lines[-1].startswith("halted"):
            return f"different: seq: {' '.join(lines[-3:])}"
        if self.is_in_order:
            return "same"
        ends = set()
        for units in UNITS:
            status, said = command([self.tool.command, "run", "--least", "--units", str(units), text], 60)
            if status == 3 or status < 0:
                return f"too long: more than 1000000 events on {units} units"
            lines = said.split("\n")[:-1]
            if lines[:-2] != wanted or status:
                return f"different: run on {units} units: {' '.join(lines[-3:])}"
            ends.add(tuple(lines[-2:]))
        if len(ends) > 1:
            return f"different: the runs end as {ends}"
        return self.replayed(text)

    def replayed(self, text: str) -> str:
        script = self.folder / "run.events"
        words = ["--least", "--units", "4"]
        first, events = command([self.tool.command, "run", *words, "--emit", "script", "--with-values", text], 60)
        script.write_text(events)
        second, said = command([self.tool.command, "replay", "--strict", *words, text, str(script)], 60)
        if min(first, second) < 0 or first == 3:
            return "too long: the script of a run on 4 units"
        if second or not said.startswith(f"as expected: {events.count(chr(10))} events;"):
            return f"different: replay: {said[:200]}"
        return "same"


def digest_of_translator() -> str:
    found = sorted(it for pattern in ("*.py", "runtime/*", "include/**/*", "csmith/*") for it in HERE.glob(pattern))
    # What chooses among cuts changes none of them.
    files = [it for it in found if it.is_file() and not it.name.startswith(("try", "c2ms", "search", "bounds"))]
    return hashlib.sha256(b"".join(it.read_bytes() for it in files)).hexdigest()[:12]


class Kept:
    """Results of earlier runs, by what they depend on."""

    def __init__(self, file: Path, translator: str) -> None:
        self.file, self.translator = file, translator
        self.results: dict[str, str] = {}
        if file.exists():
            for line in file.read_text().splitlines():
                row = json.loads(line)
                self.results[row["key"]] = row["result"]

    def key(self, trial: Trial) -> str:
        source = hashlib.sha256(b"".join(Path(it).read_bytes() for it in files_of(trial.source))).hexdigest()[:12]
        return f"{self.translator} {source} {trial.name()}"

    def get(self, trial: Trial) -> str | None:
        return self.results.get(self.key(trial))

    def put(self, trial: Trial, result: str) -> None:
        self.results[self.key(trial)] = result
        with self.file.open("a") as file:
            file.write(json.dumps({"key": self.key(trial), "result": result}) + "\n")


def own_trials() -> list[Trial]:
    """Each program by GCC at each level in each way, and once on its second input; by clang at each level in one way of two."""
    sources = sorted(str(it) for it in (HERE / "programs").glob("*.c"))
    trials = [Trial(source, level, way, False) for source in sources for level in LEVELS for way in WAYS]
    trials += [Trial(source, LEVELS[n % 4], WAYS[n // 4 % 8], False, GCC, ("SECOND",)) for n, source in enumerate(sources)]
    if not shutil.which(CLANG):
        print(f"{CLANG} is not there, and is not tried")
        return trials
    pairs = [(source, level) for source in sources for level in LEVELS]
    return trials + [Trial(source, level, way, False, CLANG) for n, (source, level) in enumerate(pairs) for way in WAYS[n % 2 :: 2]]


def csmith_trials(count: int, first: int) -> list[Trial]:
    """Each program of csmith at one level and in one way; both change from program to program."""
    trials = []
    for number in range(first, first + count):
        source = OUT / f"csmith{number}.c"
        if not source.exists():
            made = ["csmith", "--seed", str(number), *FOR_ALL.split(), *CSMITH[number % len(CSMITH)].split()]
            half = source.with_suffix(".half")
            status, said = command([*made, "--output", str(half)], 60)
            if status:
                raise SystemExit(f"csmith: {said}")
            half.rename(source)
        trials.append(Trial(str(source), LEVELS[number // 3 % len(LEVELS)], WAYS[number // 2 % len(WAYS)], True))
    return trials


def table(rows: list[tuple[Trial, str]]) -> str:
    lines = [f"{'programs':<10} {'level':<6} {'way':<52} {'same':>6} {'refused':>8} {'too long':>9} {'different':>10}"]
    groups: dict[tuple[str, str, str], Counter] = {}
    for trial, result in rows:
        kind = "csmith" if trial.is_csmith else "by clang" if trial.compiler == CLANG else "second" if trial.macros else "own"
        for key in ((kind, f"-O{trial.level}", str(trial.way)), (kind, "all", "all")):
            groups.setdefault(key, Counter())[result.split(":")[0]] += 1
    for (kind, level, way), counts in sorted(groups.items()):
        row = f"{counts['same']:>6} {counts['refused']:>8} {counts['too long']:>9} {counts['different']:>10}"
        lines.append(f"{kind:<10} {level:<6} {way:<52} {row}")
    return "\n".join(lines)


def reasons(rows: list[tuple[Trial, str]]) -> str:
    counts = Counter(re.sub(r"\d+", "N", result) for _, result in rows if result.startswith(("refused", "too long")))
    return "\n".join(f"{count:>6}  {reason}" for reason, count in counts.most_common())


def arguments() -> argparse.Namespace:
    parser = argparse.ArgumentParser(description=__doc__, formatter_class=argparse.RawDescriptionHelpFormatter)
    parser.add_argument("--quick", action="store_true", help="stops after a minute")
    parser.add_argument("--seconds", type=float, default=7200, help="stops after so long (7200)")
    parser.add_argument("--csmith", type=int, default=300, metavar="N", help="how many programs of csmith (300)")
    parser.add_argument("--first", type=int, default=1, metavar="SEED", help="the first seed (1)")
    parser.add_argument("--workers", type=int, default=1, metavar="N", help="how many processes share the work (1)")
    parser.add_argument("--seq", action="store_true", help="compares `seq` alone, which each run of accepted marks prints if it halts")
    parser.add_argument("--anew", action="store_true", help="takes nothing from earlier runs")
    parser.add_argument("--multiscalar", metavar="COMMAND", help="the command multiscalar")
    return parser.parse_args()


def in_turn(trials: list[Trial]) -> list[Trial]:
    """All trials, mixed in the same way each time: first one of each program by each compiler at each level, then another."""
    mixed = random.Random(1).sample(trials, len(trials))
    before: Counter = Counter()
    turns: dict[Trial, int] = {}
    for trial in mixed:
        key = trial.source, trial.compiler, trial.level, trial.macros
        turns[trial] = before[key]
        before[key] += 1
    return sorted(mixed, key=turns.get)


# What a worker has.
WORKER: list[Trials] = []


def begin_worker(command: str, folder: str, is_in_order: bool) -> None:
    WORKER.append(Trials(Tool(command), Path(tempfile.mkdtemp(dir=folder)), is_in_order))


def trial_result(trial: Trial) -> str:
    try:
        return WORKER[0].result(trial)
    except SystemExit as failed:
        return f"different: {failed}"


def tried(wanted: list[Trial], command: str, is_in_order: bool, workers: int, end: float) -> Iterator[tuple[Trial, str]]:
    """The results, as they come, until the time is over."""
    waiting = list(reversed(wanted))
    folder = tempfile.TemporaryDirectory()
    with folder as at, ProcessPoolExecutor(workers, initializer=begin_worker, initargs=(command, at, is_in_order)) as pool:
        running: dict[Future, Trial] = {}
        while waiting or running:
            while waiting and len(running) < 2 * workers and time.monotonic() < end:
                trial = waiting.pop()
                running[pool.submit(trial_result, trial)] = trial
            if not running:
                return
            for future in wait(running, return_when=FIRST_COMPLETED).done:
                yield running.pop(future), future.result()


def look_for_tools() -> None:
    """Without these every trial would seem to differ."""
    missing = [it for it in ("gcc", GCC, "qemu-mipsel", "csmith") if not shutil.which(it)]
    missing += [it for it in (CSMITH_HEADERS, "/usr/mipsel-linux-gnu/include") if not Path(it).is_dir()]
    if missing:
        raise SystemExit(f"try: not there: {', '.join(missing)}")


def main() -> int:
    words = arguments()
    look_for_tools()
    OUT.mkdir(exist_ok=True)
    try:
        tool = Tool(words.multiscalar)
    except ToolFailed as failed:
        raise SystemExit(f"try: {failed}") from None
    kept = Kept(OUT / ("seq.jsonl" if words.seq else "try.jsonl"), digest_of_translator())
    end = time.monotonic() + (50 if words.quick else words.seconds)
    wanted = in_turn(own_trials() + csmith_trials(30 if words.quick else words.csmith, words.first))
    rows = {} if words.anew else {trial: kept.get(trial) for trial in wanted if kept.get(trial)}
    for trial, result in tried([it for it in wanted if it not in rows], tool.command, words.seq, words.workers, end):
        kept.put(trial, result)
        rows[trial] = result
    found = list(rows.items())
    for trial, result in found:
        if result.startswith("different"):
            print(f"{trial.name()}: {result}")
    print(table(found))
    print(reasons(found))
    count = Counter(result.split(":")[0] for result in rows.values())
    left = len(set(wanted)) - len(rows)
    print(f"{count['same']} agree, {count['different']} differ, {count['refused']} refused, {count['too long']} too long, {left} not tried")
    return 1 if count["different"] else 0


if __name__ == "__main__":
    sys.exit(main())
