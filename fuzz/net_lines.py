"""The command lines of net.py, and the texts that they name.

The texts stand in the repository (examples, the suite, the tutorial, docs/RULES.md), or are made by the generators of this
folder. Each made text has a seed of its own, so that none depends on how many were made before it. A command line is run in
the folder of its text, so no path of the machine is ever printed. Of what threads do only the report of a run is asked for, of
programs that end and whose tasks have no loop inside: no unit can then use up the budget on a wrong path.
"""
import collections
import itertools
import pathlib
import random
import re
import shlex

import accepted as generator
import costly_marks
import explain
import marks
import model
import programs
import sarif
from accepted import accepted, events_for
from corners import corners, large

TOP = pathlib.Path(__file__).resolve().parent.parent
# `stdin` is the name of the file on standard input, `terminal` what of stdout and stderr is a terminal, and `writes` the
# name of the file that the command writes; None where there is none.
Line = collections.namedtuple("Line", "folder words stdin terminal no_color writes", defaults=(None,) * 4)
SOURCES = (".s", ".cert1", ".cert2", ".events", ".script")
# How many texts are made of each kind: right marks, wrong marks, marks that cost speed, texts that may be refused.
RIGHT, WRONG, COSTLY, BROKEN, CORNERS = 110, 100, 50, 100, 40
UNITS = (1, 4, 16)
PREDICTIONS = ("first", "last", "1,0", "3,1,2,0,15")

OF_TEXT = (
    "seq --budget 3000", "print", "print --listing", "annotate", "annotate --emit cert", "annotate --emit keep", "annotate --emit marks",
    "annotate --report", "explain", "explain --no-warnings", "explain --werror", "explain --color always", "explain --format sarif",
    "explain --format json", "check --least", "check --least --format json", "demonstrate", "demonstrate --units 3 --emit svg",
)
OF_REFUSED = ("seq", "explain", "explain --format sarif", "explain --format json", "explain --color always")
OF_RUN = ("report", "script", "script --with-values", "summary", "svg", "svg --axis events", "svg --from 3 --to 9", "trace", "json", "perfetto", "waits", "vcd", "kanata")
OF_TABLES = ("summary --format csv", "waits --format csv")
OF_REPLAY = ("answers", "summary", "svg", "trace", "json", "perfetto", "state")
OF_CURVE = ("--units 4", "--units 16", "--units 4 --emit svg", "--units 16 --emit svg", "--units 3 --progress", "--units 8 --predict last")
FORMATS = ("text", "sarif", "json")


def key(line):
    """A command line as the table has it."""
    said = shlex.join(line.words)
    said = f"NO_COLOR={line.no_color} {said}" if line.no_color is not None else said
    said += f" < {line.stdin}" if line.stdin else ""
    said += f" ({line.terminal} on a terminal)" if line.terminal else ""
    return f"{line.folder}: {said}"


class Net:
    """Texts by folder and name, and command lines by their keys."""

    def __init__(self):
        self.texts, self.lines = {}, {}

    def put(self, folder, name, text):
        self.texts[folder, name] = text if isinstance(text, bytes) else text.encode("latin-1")

    def add(self, folder, command, *files, **how):
        line = Line(folder, (*(shlex.split(command) if isinstance(command, str) else command), *files), **how)
        self.lines[key(line)] = line

    def add_all(self, folder, commands, *files):
        for command in commands:
            self.add(folder, command, *files)


def seeded(*seed):
    """Seeds all generators, and returns a chooser with the same seed."""
    for chooser in (generator.R, programs.R, explain.R, marks.R, costly_marks.R, random):
        chooser.seed(" ".join(map(str, seed)))
    return random.Random(" ".join(map(str, seed)))


def run_in_steps(units, emit, budget=3000, predict="first"):
    guess = "" if predict == "first" else f" --predict {predict}"
    return f"run --least --schedule steps --units {units} --budget {budget}{guess} --emit {emit}"


def may_use_threads(text):
    """Whether the program ends soon, and no task of it has a loop inside."""
    try:
        program = model.assemble(text)
    except model.Fault:
        return False
    loops = any(j <= i for _, entry, _, _ in program.tasks for i in model.members(program, entry) for j in model.inner(program, i))
    return not loops and model.seq_text(text, 3000)[1] != 3


def add_threads(net, folder, name):
    """Runs by threads, whose reports do not depend on the schedule."""
    if may_use_threads(net.texts[folder, name]):
        net.add_all(folder, (f"run --least --units {units} --workers {workers}" for units, workers in ((1, 1), (4, 2), (16, 16))), name)


# ---------------------------------------------------------------- texts of the repository
def put_folder(net, source, folder):
    """Copies the texts of a folder, and returns their names by ending."""
    names = collections.defaultdict(list)
    for path in sorted(source.iterdir()):
        if path.suffix in SOURCES:
            net.put(folder, path.name, path.read_bytes())
            names[path.suffix].append(path.name)
    return names


def add_example(net, folder):
    """A small example: every form of every subcommand."""
    names = put_folder(net, TOP / "examples" / folder, folder)
    net.add_all(folder, OF_TEXT, "program.s")
    net.add_all(folder, (run_in_steps(units, emit) for units, emit in itertools.product(UNITS, OF_RUN)), "program.s")
    net.add_all(folder, (run_in_steps(3, emit, 30, "last") for emit in ("report", "svg", "waits", "vcd")), "program.s")
    net.add_all(folder, (f"curve --least --budget 3000 {how}" for how in (*OF_CURVE, "--units 4 --format csv")), "program.s")
    net.add_all(folder, (run_in_steps(3, emit) for emit in OF_TABLES), "program.s")
    add_threads(net, folder, "program.s")
    for certificate in names[".cert1"] + names[".cert2"]:
        net.add(folder, "check", "program.s", certificate)
        net.add(folder, "check --workers 4", "program.s", certificate)
        net.add(folder, f"explain program.s --certificate {certificate}")
        net.add(folder, "run --schedule steps --budget 3000", "program.s", certificate)
    for script in names[".events"]:
        net.add_all(folder, (f"replay --least --units 3 --emit {emit}" for emit in (*OF_REPLAY, OF_TABLES[0])), "program.s", script)
        net.add_all(folder, ("replay --least --units 2 --until 7 --emit state", "replay --least --strict --units 2"), "program.s", script)
        net.add_all(folder, (f"explain --format {form} --script {script}" for form in FORMATS), "program.s")


def add_suite(net):
    """The suite: what each program is, and its scripts, which say what their events did."""
    suite = TOP / "examples" / "suite"
    names = put_folder(net, suite / "programs", "suite")
    for folder in ("scripts", "by-hand"):
        put_folder(net, suite / folder, "suite")
    choices = itertools.cycle(OF_REPLAY)
    for name in names[".s"]:
        net.add_all("suite", ("seq", "print", "explain", "annotate", "curve --least --units 4 --emit svg", "check --least", "demonstrate"), name)
        net.add_all("suite", (run_in_steps(units, emit) for units, emit in ((4, "svg"), (16, "waits"), (4, "vcd"), (16, "json"))), name)
    for _, script in sorted(it for it in net.texts if it[0] == "suite" and it[1].endswith(".script")):
        program, units = re.match(r"(.+)-(\d+)-", script).groups()
        net.add("suite", f"replay --least --strict --units {units}", f"{program}.s", script)
        if units == "2":
            net.add("suite", "replay --least --strict --complete --format json --units 2", f"{program}.s", script)
        if units == "4":
            net.add("suite", f"replay --least --units {units} --emit {next(choices)}", f"{program}.s", script)
            spoil_script(net, script, f"{program}.s", units)


def spoil_script(net, script, program, units):
    """A script of the suite one of whose lines expects something else, or is none."""
    choose = seeded("suite", script)
    lines = net.texts["suite", script].decode().split("\n")[:-1]
    at = choose.randrange(len(lines))
    number = re.search(r"\d+$", lines[at])
    changes = [lines[at] + " : stops 0x400000", "exec 17", "retire : ends halted", lines[at].replace("$8", "$34"), "step 99"]
    lines[at] = choose.choice([f"{lines[at][:number.start()]}{int(number[0]) ^ 1}"] if number else changes)
    name = f"wrong-{script}"
    net.put("suite", name, "\n".join(lines) + "\n")
    net.add_all("suite", (f"replay --least --strict{more} --units {units}" for more in ("", " --complete", " --format json")), program, name)


def add_texts_of_repository(net):
    examples = TOP / "examples"
    for path in sorted(examples.glob("*/program.s")):
        if (path.parent / "certificate.cert2").exists():
            add_example(net, path.parent.name)
    for folder in ("tutorial", "warnings"):
        names = put_folder(net, examples / folder, folder)
        for name in names[".s"]:
            net.add_all(folder, OF_TEXT, name)
            net.add_all(folder, (run_in_steps(4, emit) for emit in ("svg", "summary", "trace", "waits")), name)
            net.add_all(folder, (f"curve --least --budget 3000 {how}" for how in OF_CURVE[:4]), name)
            add_threads(net, folder, name)
    for path in sorted((examples / "from-c").iterdir()):
        names = put_folder(net, path, path.name) if path.is_dir() and path.name != "expected" else {".s": []}
        for name in names[".s"]:
            net.add_all(path.name, ("seq", "print", "explain", "annotate --emit marks", "curve --least --units 4 --emit svg"), name)
            net.add_all(path.name, (run_in_steps(4, emit) for emit in ("svg", "svg --axis events", "summary", "waits")), name)
    for name in put_folder(net, examples / "refused", "refused")[".s"]:
        net.add_all("refused", OF_REFUSED, name)
    add_suite(net)


# ---------------------------------------------------------------- one wrong mark for each rule
def changes_of_rules(text, certificate):
    """For each rule the program of docs/RULES.md, or its certificate, with a change that breaks it."""
    change = lambda old, new, where=text: where.replace(old, new, 1)
    for rule, old, new in ((1, "3 0000000000000000\n4 0000000000000000\n", ""), (2, "1 0000000000000200\n", ""),
                           (3, "1 0000000000000200", "1 0000000000000000"), (4, "0 0000000000000300", "0 0000000000000100")):
        yield rule, text, change(old, new, certificate)
    jumps = "targets=A,B\n.task B create=- targets=-\n"
    for rule, old, new in (
            (5, "create=$8,$9", "create=$8"), (6, "slti $9,$8,4", "slti $8,$8,4"), (7, "addiu $8,$8,1 !f", "release $9"),
            (8, "addiu $8,$8,1 !f", "release $10"), (9, "targets=A,B", "targets=A"), (10, "halt\n", ""),
            (11, "halt", "jr $31"), (12, "targets=A,B", "targets=A,B,@1"), ("9-stop", "bne $9,$0,A !s", "bne $9,$0,A !st"),
            ("9-end", "halt", "addu $8,$8,$8 !s"), ("9-branch", "bne $9,$0,A !s", "bne $9,$0,@1 !s"),
            ("10-branch", "bne $9,$0,A !s", "bne $9,$0,@5"), ("12-two", jumps, jumps.replace("A,B", "@4,@3,A"))):
        yield rule, change(old, new), certificate


def add_rules(net):
    page = (TOP / "docs" / "RULES.md").read_text()
    blocks = re.findall(r"^```\n(.*?)^```$", page, re.M | re.S)
    text, *others = [it for it in blocks if it.startswith(".task")]
    certificate = next(it for it in blocks if it.startswith("cert"))
    for rule, program, beside in [("none", text, certificate), *changes_of_rules(text, certificate)]:
        name, cert = f"rule{rule}.s", f"rule{rule}.cert2"
        net.put("rules", name, program)
        net.put("rules", cert, beside)
        net.add_all("rules", ("check", "run --schedule steps --budget 3000"), name, cert)
        net.add_all("rules", (f"explain --format {form} --certificate {cert}" for form in FORMATS), name)
        net.add_all("rules", ("check --least", "explain --color always", "annotate --report", "demonstrate", "demonstrate --emit svg"), name)
    for number, it in enumerate(others):
        net.put("rules", f"block{number}.s", it)
        net.add_all("rules", OF_TEXT, f"block{number}.s")


# ---------------------------------------------------------------- texts that are made
def add_right(net, number, runs, replays):
    """A program whose marks are right: runs, its certificate or one that does not fit, and a script."""
    choose = seeded("right", number)
    program, lists = accepted()
    text, name, cert, script = model.print_program(program), f"r{number}.s", f"r{number}.cert2", f"r{number}.events"
    net.put("made", name, explain.laid_out(text) if number % 2 else text)
    for _ in range(3):
        units, emit, predict = next(runs)
        net.add("made", run_in_steps(units, emit, choose.choice([7, 60, 400, 3000]), predict), name)
    if number % 2:
        net.add("made", f"curve --least --budget 1000 {OF_CURVE[number // 2 % len(OF_CURVE)]}", name)
    net.add("made", OF_TEXT[number % len(OF_TEXT)], name)
    if number % 3 == 0:
        add_threads(net, "made", name)
    certificate = model.cert_text(lists, program)
    net.put("made", cert, explain.spoiled(certificate) if number % 4 else certificate)
    net.add("made", "check", name, cert)
    net.add("made", f"explain --format {FORMATS[number % 3]} --certificate {cert}", name)
    units = choose.choice([1, 2, 3, 4, 16])
    events = events_for(model.Machine(program, units), choose.choice([5, 30, 100]))
    net.put("made", script, "\n".join(events) + "\n")
    net.add("made", f"replay --least --units {units} --emit {next(replays)}", name, script)
    if number % 3 == 1:
        add_wrong_script(net, choose, events, name, f"w{script}", number)


def add_wrong_script(net, choose, events, program, name, number):
    """A script with a line that is none."""
    junk = ("", "exec", "exec x", "exec 99", "assign", "assign Nobody", "transfer 1", "transfer 1 $34", "drain 0 8", "squash -1",
            "retire 1", "Exec 0", "exec  0", "exec 0 ", "# why", "step", "exec 0 : $8=", "exec 0 : sends $8=1", "drop 0\r", "fault :")
    lines = list(events)
    lines[choose.randrange(len(lines))] = junk[number // 3 % len(junk)]
    net.put("made", name, "\n".join(lines) + choose.choice(["\n", ""]))
    net.add("made", choose.choice(["replay --least", "replay --least --strict", "replay --least --emit trace"]), program, name)
    net.add_all("made", (f"explain --format {form} --script {name}" for form in ("text", FORMATS[1 + number % 2])), program)


def add_wrong(net, number, forms):
    """A program with marks that may be wrong."""
    seeded("wrong", number)
    text, name = explain.plant(explain.plant(model.print_program(accepted()[0]))), f"w{number}.s"
    net.put("made", name, marks.laid_out(text) if number % 2 else explain.laid_out(text))
    net.add_all("made", ("explain", next(forms)), name)


def add_costly(net, number, forms):
    """A program with right marks that may cost speed."""
    seeded("costly", number)
    text, name = explain.laid_out(costly_marks.loosened(model.print_program(accepted()[0]))), f"c{number}.s"
    net.put("made", name, text)
    net.add_all("made", ("explain", next(forms)), name)


def add_broken(net, number, forms):
    """A text in many spellings, that may be refused."""
    seeded("broken", number)
    name, kind = f"b{number}.s", number % 4
    text = programs.program() if kind < 2 else model.print_program(accepted()[0])
    text = explain.plant_fault(text) if kind == 2 else sarif.broken(text) if kind == 3 else text
    net.put("made", name, text.encode("latin-1", "replace"))
    net.add_all("made", ("explain", next(forms)), name)


def add_made_texts(net):
    runs = itertools.cycle(seeded("runs").sample(runs := list(itertools.product(UNITS, OF_RUN, PREDICTIONS)), len(runs)))
    replays = itertools.cycle(OF_REPLAY)
    forms, refused = itertools.cycle(OF_TEXT), itertools.cycle(OF_REFUSED)
    for number in range(RIGHT):
        add_right(net, number, runs, replays)
    for number in range(WRONG):
        add_wrong(net, number, forms)
    for number in range(COSTLY):
        add_costly(net, number, forms)
    for number in range(BROKEN):
        add_broken(net, number, refused)
    every = corners()
    for number in range(CORNERS):
        net.put("made", f"k{number}.s", every[number * len(every) // CORNERS])
        net.add_all("made", ("explain", next(refused)), f"k{number}.s")


# ---------------------------------------------------------------- long runs, limits, words, terminals
def add_long(net):
    """Runs of more than 2,000 events, and texts at their limits."""
    long = (TOP / "examples" / "count" / "program.s").read_text().replace("slti $10,$8,", "slti $10,$8,30", 1)
    net.put("long", "long.s", long)
    net.put("long", "spin.s", (TOP / "examples" / "spin" / "program.s").read_bytes())
    for name, budget in (("long.s", 6000), ("spin.s", 2600)):
        net.add_all("long", (run_in_steps(units, emit, budget, predict) for emit in OF_RUN for units, predict in ((1, "first"), (16, "last"))), name)
        net.add_all("long", (f"curve --least --budget {budget} {how}" for how in OF_CURVE[1:4]), name)
    findings = "".join(f".task T{k} create=- targets=-\n" for k in range(600)) + "".join(f"T{k}: addiu $8,$8,{k} !f\nj T{k}\n" for k in range(600))
    net.put("long", "findings.s", findings)
    net.add_all("long", ("check --least", "explain", "explain --format sarif", "explain --format json"), "findings.s")
    net.put("long", "mistakes.s", ".task A create=- targets=-\nA: halt\n" + "nop $8\n" * 1200)
    net.add_all("long", OF_REFUSED, "mistakes.s")
    chosen = ("tasks 1024", "tasks 1025", "code 4096", "code 4097", ".data 65536", ".rodata 65537", "length 4194304", "length 4194305", "many marks", "a long big number")
    for what, text in large():
        if what in chosen:
            name = re.sub(r"\W+", "-", what) + ".s"
            net.put("long", name, text)
            net.add_all("long", ("print", "explain"), name)


WRONG_WORDS = (
    "", "help", "sequ a.s", "seq", "seq a.s b.s", "seq --budget a.s", "seq --budget 0 a.s", "seq --budget 1000001 a.s", "seq --budget 1x a.s",
    "seq --units 4 a.s", "seq --bugdet 4 a.s", "seq missing.s", "print -x a.s", "print --output= a.s", "annotate --emit marked a.s",
    "annotate --in-place --emit cert a.s", "annotate --in-place -o b.s a.s", "annotate --in-place -", "explain", "explain --format xml a.s",
    "explain --color yes a.s", "explain --certificate a.s", "explain --fix w.s", "explain --fix --in-place -", "explain --fix --in-place -o b.s w.s",
    "explain --fix -o b.s --format json w.s", "explain --fix -o b.s w.s a.s", "explain --in-place w.s", "explain --certificate c --format sarif a.s b.s", "explain - -", "check a.s",
    "check --least a.s c", "check a.s c d", "check --workers 0 --least a.s", "check --workers 17 --least a.s", "check --least --least a.s",
    "replay --least a.s", "replay --least a.s e --units 0", "replay --least a.s e --units 17", "replay --least a.s e --emit vcd",
    "replay --least --strict --emit trace a.s e", "replay --least --strict --until 4 a.s e", "replay --least --until 0 a.s e", "run a.s",
    "run --least a.s c", "run --least --schedule step a.s", "run --least --emit vcd a.s", "run --least --emit waits a.s", "run --least --emit kanata a.s", "run --least --schedule steps --from 2 a.s", "run --least --emit svg --from 2 a.s", "run --least --schedule steps --emit svg --from 3 --to 2 a.s", "run --least --axis steps a.s",
    "run --least --axis steps --emit svg a.s", "run --least --with-values a.s", "run --least --predict 16 a.s", "run --least --predict 1,,2 a.s",
    "run --least --predict fisrt a.s", "run --least --workers 0 a.s", "run --least --budget 0 a.s", "curve a.s", "curve --least --emit json a.s",
    "curve --least --units 17 a.s", "curve --least --workers 2 a.s", "demonstrate", "demonstrate --units 0 a.s", "demonstrate --steps 0 a.s",
    "demonstrate --least a.s", "demonstrate --emit text a.s", "--least", "-o out seq a.s",
)
GOOD_WORDS = (
    "--help", "-h", "seq --help", "print --help", "annotate --help", "explain --help", "check --help", "replay --help", "run --help",
    "curve --help", "demonstrate --help", "explain a.s w.s", "check --least a.s w.s a.s", "check --least a.s missing.s w.s", "explain a.s missing.s",
    "check --least w.s x.s", "explain w.s x.s a.s", "seq ./a.s", "check a.s c --workers 16", "check w.s c", "replay a.s c e", "run --schedule steps a.s c", "curve a.s c",
    "demonstrate --steps 10 w.s", "demonstrate --units 1 w.s",
)
ON_TERMINALS = ("explain w.s", "explain x.s", "explain --color auto a.s w.s", "explain --color never w.s", "explain --certificate c w.s",
                "explain --format json w.s", "seq x.s", "check --least w.s", "annotate w.s", "annotate a.s", "curve --least --progress --units 3 a.s",
                "seq missing.s", "seq --bugdet 4 a.s", "run --least --schedule steps trap.s")


def add_words(net):
    """Words, right and wrong; standard input, results in files, and terminals."""
    count = TOP / "examples" / "count"
    for name, text in (("a.s", (count / "program.s").read_bytes()), ("c", (count / "certificate.cert2").read_bytes()),
                       ("e", (count / "script.events").read_bytes()), ("d", b"cert 2\n"), ("x.s", (TOP / "examples" / "refused" / "mnemonic-misspelled.s").read_bytes()),
                       ("w.s", (TOP / "examples" / "five-findings" / "program.s").read_bytes()),
                       ("trap.s", b".task A create=- targets=-\nA: lw $8,1($0)\nhalt\n")):
        net.put("words", name, text)
    net.add_all("words", WRONG_WORDS + GOOD_WORDS)
    for words in ("seq -", "print -", "explain -", "annotate --emit marks -", "check --least -", "run --least --schedule steps --emit svg -", "explain - w.s"):
        for name in ("a.s", "w.s", "x.s"):
            net.add("words", words, stdin=name)
    net.add("words", "check a.s -", stdin="c")
    net.add("words", "replay --least a.s -", stdin="e")
    net.add("words", "explain --script - a.s", stdin="e")
    for words in ("annotate -o out a.s", "annotate --output=out w.s", "print -oout a.s", "print -o out x.s", "explain --format sarif -o out w.s",
                  "run --least --schedule steps --emit svg -o out a.s", "curve --least --units 2 -o out a.s"):
        net.add("words", words, writes="out")
    for words in ("explain --fix -o out a.s", "explain --fix -o out w.s", "explain --fix -o out x.s", "explain --fix -o out --certificate c w.s"):
        net.add("words", words, writes="out")
    for words in ("explain --fix --in-place w.s", "explain --fix --in-place x.s", "explain --fix --in-place a.s", "annotate --in-place w.s", "annotate --in-place --report w.s", "annotate --in-place x.s", "annotate --in-place a.s"):
        net.add("words", words, writes=words.split()[-1])
    for words in ON_TERMINALS:
        for terminal in ("stdout", "stderr", "both"):
            net.add("words", words, terminal=terminal)
        net.add("words", words, terminal="both", no_color="1")
    net.add("words", "explain w.s", terminal="both", no_color="")
    net.add("words", "explain --color always w.s", terminal="both", no_color="1")


def whole():
    """The net: all texts and command lines."""
    net = Net()
    add_texts_of_repository(net)
    add_rules(net)
    add_made_texts(net)
    add_long(net)
    add_words(net)
    return net
