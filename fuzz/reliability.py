#!/usr/bin/env python3
"""Runs everything that looks for faults, and prints one table.

    reliability.py --program PATH [--minutes M] [--seed N] [--lanes N] [--rows FOLDER] [--only PART] [--whole] [--calls FILE]
                   [--fuzzer FILE] [--fuzzers N] [--kept FOLDERS] [--cases N] [--runs N] [--module FILE] [--patience N] [--write DOCUMENT]

The parts of SHARES are run each as a process of its own, `--lanes` at once, the longest first, each for its share of
the minutes. What they find stands in the table in the order of SHARES. `--rows` names a folder that keeps the rows of each part as
soon as it is done, with the program's SHA-256 and the seed: a later call with the same program makes no such part again,
and its table has all that is kept of this program; parts of several seeds add up. A part that cannot be run, or of
which something is missing, is named with the reason, in the table's heading.

`--fuzzer` is the libFuzzer program that entry/build.sh makes; one, or so many at once as `--fuzzers` says, go on for their minutes,
or with `--cases` until so many are made, from the cases of the folders `--kept` (parted by colons) or else from seeds. The cases that
are kept are then run beside the model. `--module` is the LLVM module of the program (entry/capture.py), for the thread sanitizer;
`--calls` is the program of public calls that `refused_calls.py --keep` keeps. With `--runs`, threads under load go on until there are so many
runs of `run`. With `--whole`, nothing is drawn where all can be made: each growth of the examples and of those calls, several
growths in a row, each call that fails, all seeds and kept cases of hostile bytes, all inputs that are worst for time, however long that takes.

Each part answers rows: the part, the number of runs, how often each answer was seen, and the differences, one line each with what
reproduces it; they go to standard error as soon as a part is done, with its minutes. The table that is printed has all rows;
--write puts one row for each part in place of the figures of fuzz/results.txt. The script ends with status 1 if there is any difference.
Needs python3, cc, and what the modules say; what makes answers of the model is run by pypy3 where there is one.
"""
import argparse
import ast
import collections
import concurrent.futures
import hashlib
import importlib
import json
import os
import pathlib
import platform
import re
import shutil
import subprocess
import sys
import tempfile
import time
import traceback

# The parts, and their shares of the minutes.
SHARES = {
    "every_growth": 5,
    "growths_in_a_row": 5,
    "refused_growths": 5,
    "refused_calls": 3,
    "limits": 2,
    "failed_calls": 7,
    "ended_runs": 2,
    "schedules": 2,
    "load": 8,
    "races": 2,
    "model": 4,
    "fuzzer": 12,
    "kept_cases": 1,
    "seeds": 1,
    "worst_times": 1,
    "selftest": 6,
}
# What the document says of each part.
TOLD = {
    "every_growth": "each allocation of the examples refused alone",
    "growths_in_a_row": "several in a row, or all, from each on",
    "refused_growths": "draws of these, of one in 10 or 100, and in texts at the limits; little address space, small stacks",
    "refused_calls": "each allocation of public calls refused, and the call made again",
    "limits": "texts at the limits: answers and memory",
    "failed_calls": "opens, reads and writes that fail, are short or interrupted; odd files and streams",
    "ended_runs": "signals",
    "schedules": "each number of units, predictor and number of workers, over and over",
    "load": "threads under load, with small means, and refused",
    "races": "thread sanitizer, and a control",
    "model": "random texts beside the model",
    "fuzzer": "hostile bytes, the program whole in one process",
    "kept_cases": "what the fuzzer kept, beside the model",
    "seeds": "what it begins with, beside the model",
    "worst_times": "inputs that are worst for time, at sizes n, 2n and 4n",
    "selftest": "faults planted, to see whether these scripts find them",
}
# Parts that are there with --whole alone; without, refused_growths draws from them.
OF_WHOLE = ("every_growth", "growths_in_a_row")
# Parts that ask the model, and so are quicker under pypy3.
OF_MODEL = ("model", "kept_cases", "seeds")
# A part that begins when another has ended, since it takes what that one kept.
BEHIND = {"kept_cases": "fuzzer"}
# One of these a part needs, and the reason that is told where none is there.
NEEDS = {
    "refused_calls": (["calls"], "no --calls, which refused_calls.py keeps"),
    "races": (["module"], "no --module, which entry/capture.py makes"),
    "fuzzer": (["fuzzer"], "no --fuzzer, which entry/build.sh makes"),
    "kept_cases": (["fuzzer", "kept"], "no --fuzzer and no --kept"),
}
HERE = pathlib.Path(__file__).resolve().parent
BEGIN, END = "# figures\n", "# end of figures\n"
sys.path.insert(0, str(HERE))


# Scripts with a model of their own beside that of fuzz.py, and what each looks at.
BESIDE = {"explain.py": "findings and refused texts, explained", "costly_marks.py": "warnings", "sarif.py": "logs of `explain`",
          "marks.py": "marks in the text", "curve.py": "tables of `curve`", "curve_picture.py": "pictures of `curve`"}


def beside_models(program, minutes, seed):
    """The row of fuzz.py, which has half of the time, and those of the scripts of BESIDE."""
    share = minutes / 2 / len(BESIDE)
    return [*beside_model(program, minutes / 2, seed), *(beside_its_model(program, share, seed, name) for name in BESIDE)]


def beside_its_model(program, minutes, seed, name):
    """The row of a script: its last line says how many programs, texts and tables it tried; where there is a difference, it fails."""
    done = subprocess.run([sys.executable, str(HERE / name), program, "--seconds", str(60 * minutes), "--seed", str(seed)], capture_output=True, text=True)
    last = done.stdout.splitlines()[-1] if done.stdout else ""
    tried = sum(int(count) for count in re.findall(r"(\d+) (?:programs|refused texts|tables|pictures)", last))
    differences = [f"{name} --seed {seed}: {(done.stdout + done.stderr)[-300:]!r}"] if done.returncode or not tried else []
    return f"{BESIDE[name]}, beside the model", tried, {"as the model": tried}, differences


def beside_model(program, minutes, seed):
    """The row of fuzz.py: random and broken texts beside the model."""
    with tempfile.TemporaryDirectory() as folder:
        found = pathlib.Path(folder) / "findings.txt"
        done = subprocess.run([sys.executable, str(HERE / "fuzz.py"), program, "--seconds", str(60 * minutes), "--seed", str(seed), "--out", str(found)],
                              capture_output=True, text=True)
        last = re.match(r"(\{.*?\}) findings (\d+)", done.stdout.splitlines()[-1] if done.stdout else "")
        if not last:
            return [("random texts beside the model", 0, {}, [f"the script failed: {done.stderr[-200:]}"])]
        counts = ast.literal_eval(last.group(1))
        differences = re.findall(r"(?m)^==== .*", found.read_text()) if found.exists() else []
        missing = int(last.group(2)) - len(differences)
        differences += ["like one of these"] * missing
        answers = {f"`{job}` as the model": count for job, count in counts.items()}
        return [("random texts beside the model", sum(counts.values()), answers, differences)]


def call_by_call(calls, minutes, whole):
    """The row of refused_calls.py: the growths of public calls, one by one."""
    rows = part("refused_calls").whole(calls) if whole else part("refused_calls").run(calls, minutes)
    cases, runs = sum(row.cases for row in rows), sum(row.runs for row in rows)
    growths = sum(row.growths for row in rows)
    answers = sum((row.answers for row in rows), collections.Counter())
    name = f"{len(rows)} public calls in {cases} cases, each of their {growths:,} growths refused, and the call made again"
    return [(name, runs, answers, [one for row in rows for one in row.differences])]


def part(name):
    """The module of a part."""
    return importlib.import_module(name)


def runs_of(args):
    """What makes the rows of each part; each is given the program, the minutes and a seed."""
    corpus = str(args.rows / "corpus")
    kept = os.pathsep.join(part("hostile").corpora(corpus, args.fuzzers)) if args.fuzzer else args.kept
    return {
        "every_growth": lambda program, _, seed: [part("refused_growths").whole(program, "each growth refused alone", seed)],
        "growths_in_a_row": lambda program, _, seed: [part("refused_growths").whole(program, "several in a row, or all, from each on", seed)],
        "refused_growths": lambda *given: part("refused_growths").run(*given, rest=args.whole),
        "refused_calls": lambda _, minutes, __: call_by_call(args.calls, minutes, args.whole),
        "limits": lambda program, *_: part("limits").by_subcommand(program),
        "failed_calls": lambda program, minutes, seed: part("failed_calls").whole(program, seed) if args.whole else part("failed_calls").run(program, minutes, seed),
        "ended_runs": lambda *given: part("ended_runs").run(*given),
        "schedules": lambda *given: part("schedules").run(*given),
        "load": lambda *given: part("load").run(*given, runs=args.runs),
        "races": lambda *given: part("races").run(*given, args.module),
        "model": beside_models,
        "fuzzer": lambda _, minutes, seed: [part("hostile").fuzzed(args.fuzzer, args.kept, minutes, seed, args.cases, corpus, args.fuzzers)],
        "kept_cases": lambda program, minutes, seed: [part("hostile").compared(program, kept, minutes, seed, args.whole)],
        "seeds": lambda program, minutes, seed: [part("hostile").compared(program, None, minutes, seed, args.whole)],
        "worst_times": lambda program, minutes, seed: [part("hostile").timed(program, 1e9 if args.whole else minutes, seed)],
        "selftest": lambda *given: part("selftest").run(*given, args.fuzzer, args.calls, args.patience),
    }


def lacks(args):
    """Each part that is left out, and why."""
    return {name: why for name, (needed, why) in NEEDS.items() if not any(getattr(args, one) for one in needed)}


def rows_of(name, run, program, minutes, seed):
    """The rows of a part; one that fails itself gives a difference."""
    begin = time.monotonic()
    try:
        rows = list(run(program, minutes, seed))
    except Exception:
        rows = [(name, 0, {}, [f"the script failed: {traceback.format_exc().strip().splitlines()[-1]}"])]
    print(f"{name}: {(time.monotonic() - begin) / 60:.1f} minutes, {sum(row[1] for row in rows)} runs, "
          f"{sum(len(row[3]) for row in rows)} differences", *list(table(rows))[2:-1], *(f"difference: {it}" for row in rows for it in row[3]),
          sep="\n", file=sys.stderr, flush=True)
    return rows


class Rows:
    """The folder that keeps the rows of each part, by seed. Those of another program are not looked at, and written over."""

    def __init__(self, folder, program):
        self.folder, self.digest = folder, hashlib.sha256(pathlib.Path(program).read_bytes()).hexdigest()
        folder.mkdir(exist_ok=True)

    def place(self, name, seed):
        return self.folder / f"{name}-{seed}.json"

    def keep(self, name, seed, minutes, rows):
        """Keeps the rows of a part, and how long it took."""
        text = json.dumps({"program": self.digest, "part": name, "seed": seed, "day": time.strftime("%Y-%m-%d"), "minutes": minutes, "rows": rows}, indent=1)
        unfinished = self.folder / f"{name}-{seed}.unfinished"
        unfinished.write_text(text)
        unfinished.rename(self.place(name, seed))

    def has(self, name, seed):
        return self.place(name, seed) in (path for path, _ in self.every())

    def every(self):
        """What is kept of this program, with its file."""
        for path in sorted(self.folder.glob("*-*.json")):
            kept = json.loads(path.read_text())
            if kept["program"] == self.digest:
                yield path, kept

    def of(self, name):
        """What is kept of a part, in the order of the seeds."""
        return sorted((kept for _, kept in self.every() if kept["part"] == name), key=lambda kept: kept["seed"])


def one_part(name, args, minutes, rows):
    """Runs a part here, and keeps its rows."""
    begin = time.monotonic()
    found = rows_of(name, runs_of(args)[name], args.program, minutes, args.seed)
    rows.keep(name, args.seed, (time.monotonic() - begin) / 60, found)


def in_lanes(names, args, minutes, rows):
    """Runs the parts as processes, so many at once as there are lanes, the longest first; a row for each that fails itself."""
    begun = {}
    with concurrent.futures.ThreadPoolExecutor(args.lanes) as lanes:
        for name in sorted(names, key=lambda name: (name in BEHIND, -SHARES[name])):
            begun[name] = lanes.submit(in_a_process, name, args, minutes[name], begun.get(BEHIND.get(name)))
    return [(name, 0, {}, [f"the script failed: status {it.result()}"]) for name, it in begun.items() if not rows.has(name, args.seed)]


def in_a_process(name, args, minutes, before):
    """Runs a part as a process of its own, when the one before it has ended: its status."""
    if before:
        before.result()
    python = shutil.which("pypy3") if name in OF_MODEL else None
    words = [python or sys.executable, __file__, *sys.argv[1:], "--rows", str(args.rows), "--alone", name, "--minutes", str(minutes)]
    return subprocess.run(words, stdout=subprocess.DEVNULL).returncode


def added(every):
    """The rows of some runs of a part; those of one name are added."""
    rows = {}
    for name, runs, answers, differences in every:
        _, before, seen_before, found = rows.get(name, (name, 0, {}, []))
        rows[name] = name, before + runs, collections.Counter(seen_before) + collections.Counter(answers), found + differences
    return rows.values()


def figure(number):
    return f"{number:,}"


def seen(cases, answers):
    """The answers, the most frequent first; of many kinds only some."""
    kinds = sorted(answers.items(), key=lambda one: -one[1])
    shown = [answer if count == cases else f"{answer}: {figure(count)}" for answer, count in kinds[:8]]
    if len(kinds) > 8:
        shown.append(f"{len(kinds) - 8} other answers: {figure(sum(count for _, count in kinds[8:]))}")
    return ", ".join(shown).replace("|", "\\|")


def table(rows):
    """The rows in the form of the document."""
    yield "| Part | Runs | Seen | Differences |"
    yield "|---|---|---|---|"
    for part, cases, answers, differences in rows:
        yield f"| {part} | {figure(cases)} | {seen(cases, answers)} | {len(differences)} |"
    yield f"| all | {figure(sum(row[1] for row in rows))} | | {sum(len(row[3]) for row in rows)} |"


def known(row):
    """How many runs a row has: those that were made, or all from which they were drawn."""
    drawn = re.search(r"\(drawn, of (\d+)\)", row[0])
    return max(row[1], int(drawn.group(1))) if drawn else row[1]


def summary(by_part):
    """One row for each part, in the form of the document."""
    yield "| What was tried | Runs | Drawn from | Differences |"
    yield "|---|---|---|---|"
    for name, rows in by_part.items():
        made, every = sum(row[1] for row in rows), sum(map(known, rows))
        yield f"| {TOLD[name]} | {figure(made)} | {figure(every) if every > made else ''} | {sum(len(row[3]) for row in rows)} |"
    found = [row for rows in by_part.values() for row in rows]
    yield f"| all | {figure(sum(row[1] for row in found))} | | {sum(len(row[3]) for row in found)} |"


def machine():
    """What this runs on."""
    with open("/proc/cpuinfo") as file:
        is_virtual = re.search(r"^flags.*\bhypervisor\b", file.read(), re.MULTILINE)
    kind = "virtual machine" if is_virtual else "machine"
    memory = os.sysconf("SC_PAGE_SIZE") * os.sysconf("SC_PHYS_PAGES") / 1e9
    return f"a {kind} of {os.cpu_count()} cores and {memory:.0f} GB, Linux {platform.release().split('-')[0]}"


def heading(rows, left_out):
    """On what, for how long in all, and with what seeds this was run."""
    kept = [(name, rows.of(name)) for name in SHARES if rows.of(name)]
    days = sorted({run["day"] for _, runs in kept for run in runs})
    took = sum(run["minutes"] for _, runs in kept for run in runs)
    seeds = collections.defaultdict(list)
    for name, runs in kept:
        seeds[", ".join(str(run["seed"]) for run in runs)].append(name)
    usual = max(seeds, key=lambda seed: len(seeds[seed]), default="")
    others = "".join(f"; {', '.join(names)}: {seed}" for seed, names in seeds.items() if seed != usual)
    yield (f"{' and '.join(days)}, on {machine()}. The program's SHA-256 begins with {rows.digest[:16]}. "
           f"The parts took {took:.0f} minutes in all. Seed {usual}{others}.")
    if left_out:
        yield ""
        yield f"Left out: {'; '.join(left_out)}."


def arguments():
    parser = argparse.ArgumentParser(description=__doc__, formatter_class=argparse.RawDescriptionHelpFormatter)
    parser.add_argument("--program", required=True, type=os.path.abspath)
    parser.add_argument("--minutes", default=30, type=float)
    parser.add_argument("--seed", default=1, type=int)
    parser.add_argument("--lanes", default=1, type=int, help="so many parts at once")
    parser.add_argument("--rows", type=pathlib.Path, metavar="FOLDER", help="keep the rows here, and take those that are kept of this program")
    parser.add_argument("--only", default=[], action="append", choices=list(SHARES), help="this part; may be given again for others")
    parser.add_argument("--whole", action="store_true", help="draw nothing where all can be made")
    parser.add_argument("--calls", type=os.path.abspath, help="the program that refused_calls.py keeps")
    parser.add_argument("--fuzzer", type=os.path.abspath, help="the libFuzzer program")
    parser.add_argument("--fuzzers", default=1, type=int, help="so many fuzzers at once, which share the cases out")
    parser.add_argument("--kept", help="folders of kept cases, parted by colons")
    parser.add_argument("--cases", type=int, help="go on fuzzing until so many cases are made")
    parser.add_argument("--runs", type=int, help="go on with load until there are so many runs of `run`")
    parser.add_argument("--module", type=os.path.abspath, help="the program's LLVM module")
    parser.add_argument("--patience", default=1.0, type=float, help="how many times the usual seconds selftest.py gives a script")
    parser.add_argument("--write", type=pathlib.Path, metavar="DOCUMENT", help="put a row for each part into this document")
    parser.add_argument("--alone", choices=list(SHARES), help=argparse.SUPPRESS)
    return parser.parse_args()


def write(document, text):
    """Puts the text in place of the figures of a document."""
    whole = document.read_text()
    before, rest = whole.split(BEGIN)
    document.write_text(before + BEGIN + text + END + rest.split(END)[1])


def make(args, rows):
    """Runs the parts that are asked for and not kept yet; a row for each that fails itself."""
    asked = [name for name in SHARES if (not args.only or name in args.only) and (args.whole or name not in OF_WHOLE) and name not in lacks(args)]
    names = [name for name in asked if not rows.has(name, args.seed)]
    shares = sum(SHARES[name] for name in asked)
    minutes = {name: args.minutes * args.lanes * SHARES[name] / shares for name in names}
    print("minutes of each part:", ", ".join(f"{name} {minutes[name]:.1f}" for name in names), file=sys.stderr, flush=True)
    return in_lanes(names, args, minutes, rows)


def tell(args, rows, failed):
    """Prints the table of all that is kept of the program and of what failed, and writes it; whether there is no difference."""
    missing = lacks(args)
    left_out = [f"{name}: {missing.get(name, 'not asked for')}" for name in SHARES if not rows.of(name) and (args.whole or name not in OF_WHOLE)]
    by_part = {name: [*added(one for kept in rows.of(name) for one in kept["rows"]), *(row for row in failed if row[0] == name)] for name in SHARES}
    by_part = {name: some for name, some in by_part.items() if some}
    found = [row for some in by_part.values() for row in some]
    begin = [*heading(rows, left_out), ""]
    print("\n".join([*begin, *table(found), ""]))
    for difference in (difference for row in found for difference in row[3]):
        print("difference:", difference)
    if args.write:
        write(args.write, "\n".join([*begin, *summary(by_part), ""]))
    return not any(row[3] for row in found)


def main():
    args = arguments()
    with tempfile.TemporaryDirectory() as folder:
        args.rows = (args.rows or pathlib.Path(folder)).resolve()
        rows = Rows(args.rows, args.program)
        if args.alone:
            one_part(args.alone, args, args.minutes, rows)
            return 0
        return 0 if tell(args, rows, make(args, rows)) else 1


if __name__ == "__main__":
    sys.exit(main())
