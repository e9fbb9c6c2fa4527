#!/usr/bin/env python3
"""Makes what pages, man page and completions take from the sources, so that it is written once.

    docs/make.py [PROGRAM]             writes it
    docs/make.py --check [PROGRAM]     names what is not as it would be written, with status 1

Options and subcommands come from the table of `--help` (crates/command_line/src/table.rt), values from job.rt there,
instructions and their operands from the instruction table of mips_instructions (what each does, in words, is below), faults
from the enums, limits from the constants, crates from crates.txt and the first sentence of each, the examples of the rules
from the rows of test_program, what a caller must ensure (docs/REQUIRES.txt) from the contracts, and figures of bench/ and
fuzz/ from their results.txt. A made part is between two comments, `made: NAME` and `end of NAME`, in a page, the man page or
a completion; the first line of such a page says so.
With PROGRAM, the built `multiscalar`, its `--help` must have each option and each text of the table.
"""
import argparse
import difflib
import functools
import pathlib
import re
import subprocess
import sys
import textwrap

TOP = pathlib.Path(__file__).resolve().parent.parent
CRATES = TOP / "crates"
TEXT = r'"((?:[^"\\]|\\.)*)"'
# The lists of values in job.rt; those of `annotate --emit`, `--axis` and `--predict` are matched there, not listed.
LISTS = {("explain", "format"): "FORMATS", ("check", "format"): "CHECK_FORMATS", ("explain", "color"): "COLORS", ("run", "schedule"): "SCHEDULES",
         ("replay", "emit"): "REPLAY_EMITS", ("run", "emit"): "RUN_EMITS", ("curve", "emit"): "CURVE_EMITS",
         ("demonstrate", "emit"): "DEMONSTRATE_EMITS"}
VALUES = {("annotate", "emit"): "text cert keep marks", ("run", "axis"): "events steps", ("replay", "format"): "text json csv", ("run", "format"): "text csv",
          ("curve", "format"): "text csv", ("run curve", "predict"): "first last"}

# What the instructions of each row of the instruction table do, in words.
EFFECTS = {
    "Three": "sum, difference, bit operations; `slt`, `sltu`: 1 if rs is less than rt, signed or unsigned, else 0",
    "ShiftBy": "rt shifted by n, 0 to 31: left, right with zeros, right with copies of the sign",
    "ShiftVar": "the same shifts, by the low 5 bits of rs",
    "Imm": "sum of rs and n, -32768 to 32767; `slti`, `sltiu`: 1 if rs is less than n, else 0. All extend n by its sign; then `slti` compares as signed, `sltiu` as unsigned",
    "Logic": "bit operation on rs and n, 0 to 65535",
    "Lui": "n times 65,536; n is 0 to 65535",
    "Mult": "the 64-bit product, signed or unsigned: high half to HI, low half to LO",
    "MoveFrom": "HI or LO to rd",
    "MoveTo": "rs to HI or LO",
    "Load": "word, half, byte at base + n, n from -32768 to 32767; `lh` and `lb` extend the sign, `lhu` and `lbu` extend with zeros",
    "Store": "rt, its low 16 or its low 8 bits to base + n",
    "BranchTwo": "to T if equal, if not equal",
    "BranchOne": "to T if rs, signed, is <= 0, > 0, < 0, >= 0",
    "Jump": "to T",
    "JumpLink": "to T; register 31 becomes the address of the next instruction",
    "JumpReg": "to the address in rs",
    "JumpLinkReg": "to the address in rs, which is read first; rd becomes the address of the next instruction",
    "Out": "appends rs to the output",
    "Release": "does nothing in `seq`; on the multiscalar machine it sends the listed registers to the later tasks",
    "Halt": "ends the run",
}

# Words that a crate's name leaves out.
PARTICLES = "a the of by at in to and one how what is are that program text".split()

source = lambda path: (CRATES / path).read_text()
one_line = lambda text: re.sub(r"\s+", " ", text).strip()


# ---------------------------------------------------------------- what the sources know
def constants():
    found = {}
    for file in sorted(CRATES.glob("*/src/**/*.rt")):
        for name, value in re.findall(r"^\s*(?:pub(?:\(crate\))? )?const (\w+): \w+ = ([\d_]+);", file.read_text(), re.M):
            found.setdefault((file.relative_to(CRATES).parts[0], name), int(value.replace("_", "")))
    return found


def subcommands():
    """Name, one line, usages and long help of each."""
    rows = re.findall(rf"\(\s*{TEXT},\s*{TEXT},\s*UsageBy::\w+,\s*{TEXT},\s*{TEXT},\s*\)", source("command_line/src/table.rt"), re.S)
    return [(name, about, [it.strip() for it in usage.split("\n")], long) for name, about, usage, long in rows]


def arguments():
    """Subcommands, name, letter, value, default and help of each option; and of each file, with no name of an option."""
    table = source("command_line/src/table.rt")
    for of, name, kind, inside, said in re.findall(rf"\(\s*{TEXT},\s*{TEXT},\s*Kind::(\w+)(?:\(([^)]*)\))?,\s*{TEXT},\s*\)", table, re.S):
        if kind in ("File", "FreeFile", "Files"):
            continue
        words = re.findall(TEXT, inside)
        letter = re.findall(r"'(\w)'", inside)
        value = "N" if "Number" in kind else words[0] if words else None
        default = words[-1] if kind in ("Word", "Number") else None
        note = re.search(r"\n\n\[default: (.*)\]$", said)
        yield of.split(), name, letter, value, note[1] if note else default, one_line(said[:note.start()] if note else said)


def names():
    return [it[0] for it in subcommands()]


def options_of(subcommand):
    return [it for it in arguments() if subcommand in it[0]]


def values(of, name):
    key = (" ".join(of), name)
    if key in LISTS:
        listed = re.search(rf"static {LISTS[key]}: .*? = \[(.*?)\];", source("command_line/src/job.rt"), re.S)[1]
        return re.findall(r'\("(\w+)"', listed)
    return VALUES.get(key, "1 2 4 8 16" if name in ("units", "workers") else "").split()


def variants(path, enum):
    """Number, name and comment of each variant that has a number in its comment."""
    body = re.search(rf"^pub enum {enum} \{{\n(.*?)^\}}", source(path), re.M | re.S)[1]
    for comment, name in re.findall(r"((?:^ *///.*\n)+)(?:^ *#.*\n)*^ *(\w+)", body, re.M):
        said = one_line(comment.replace("///", ""))
        number, _, said = said.partition(": ")
        if number.isdigit() and name not in ("OutOfMemory", "Foreign"):
            yield int(number), name, said.rstrip(".")


def faults(path, enum):
    return "\n".join(f"- `{number} {name}`: {said}" for number, name, said in variants(path, enum))


def table(first, second, rows):
    return "\n".join([f"| {first} | {second} |", "|---|---|", *(f"| {one} | {other} |" for one, other in rows)])


def instructions():
    """The rows of the instruction table: mnemonics, operands of the first, effects."""
    text = source("mips_instructions/specs/InstructionTable.antt")
    enum = re.search(r"^pub enum Form \{\n(.*?)^\}", source("mips_instructions/src/instruction.rt"), re.M | re.S)[1]
    operands = {name: "" if said.startswith("No") else re.search("`(.*)`", said)[1] for said, name in re.findall(r"/// (.*)\n *(\w+),", enum)}
    words = {kind: re.findall(rf'^{list_of} \S+ = codes "(\w+)"', text, re.M) for kind, list_of in re.findall(r"^word_of \(mnemonic\.(\w+) kind\) = (\w+) kind", text, re.M)}
    words |= {kind: [word] for kind, word in re.findall(r'^word_of mnemonic\.(\w+) = codes "(\w+)"', text, re.M)}
    forms = dict(re.findall(r"^form_of \(?mnemonic\.(\w+)(?: kind\))? = form\.(\w+)", text, re.M))
    rows = re.findall(r"^row \(?(\w+)", text, re.M)
    assert set(rows) == set(EFFECTS) and set(words) == set(forms), "the instruction table has other rows"
    spelled = lambda kind: " ".join([f"`{f'{words[kind][0]} {operands[forms[kind]]}'.strip()}`", *(f"`{it}`" for it in words[kind][1:])])
    return table("Text", "Effect", ((spelled(kind), EFFECTS[kind]) for kind in rows))


def examples():
    """The rows of the table of the rules: for each rule, and 0 for the marks that are right, its files, and what each subcommand says."""
    found, files = [], {}
    for part in re.split(r"^# Rule .*$", source("test_program/data/rows/rules"), flags=re.M):
        files = files | {name: re.findall(r"^\| (.*)$", lines, re.M) for name, lines in re.findall(r"^@ (.*)\n((?:\|.*\n)*)", part, re.M)}
        said = re.findall(r"^\$ (\w+).*\n((?:>.*\n)*)= (\d)$", part, re.M)
        found.append((files, {name: (re.findall("^> (.*)$", lines, re.M), status) for name, lines, status in said}))
    return found


def accepted():
    """The program and the certificate that each example of a rule changes."""
    files, said = examples()[0]
    blocks = (line for lines in files.values() for line in ("```", *lines, "```", ""))
    return "\n".join([f"This program and this certificate are accepted (`{said['check'][0][0]}`):", "", *blocks]).rstrip()


def example(rule):
    """What is changed to break a rule, the finding, the error and the help of `explain`, and what a run shows."""
    (right, _), (wrong, said) = (examples()[it] for it in (0, rule))
    changes = [line for name in right for line in difflib.ndiff(right[name], wrong[name]) if line[0] in "+-"]
    finding, counted = said["check"][0]
    assert f" rule {rule} " in finding and counted == "refused 1", f"the row of rule {rule}"
    told = [it for it in said["explain"][0] if re.match(r"\S+: (error|help): ", it)] if "explain" in said else []
    shown, status = said.get("demonstrate", ([], "3"))
    return "\n".join(["```", *changes, "", finding, *told, *(shown[-1:] if status == "1" else []), "```"])


def limits():
    of = constants()
    rows = (("instructions", "mips_instructions", "MOST_INSTRUCTIONS", ""), ("tasks", "task_descriptor", "MOST_TASKS", ""),
            ("targets of a task", "task_descriptor", "MOST_TARGETS", ""), ("data memory", "task_descriptor", "MOST_BYTES", " bytes"),
            ("read-only data", "task_descriptor", "MOST_BYTES", " bytes"), ("a name", "task_descriptor", "MOST_NAME", " bytes"),
            ("program text", "annotated_asm", "MOST_TEXT", " bytes"), ("any other file", "program_edge", "MOST_FILE", " bytes"),
            ("units of a machine", "limits", "MOST_UNITS", ""), ("workers", "limits", "MOST_WORKERS", ""),
            ("events of a machine", "limits", "MOST_EVENTS", ""), ("`--budget`", "limits", "MOST_BUDGET", ""))
    return "\n".join(f"- {what}: {of[crate, name]:,}{unit}" for what, crate, name, unit in rows)


# The rows of bench/results.txt that compare with a program without proofs, by the beginnings of their names.
SPEEDS = {"`seq` of five kernels": ("seq of the five",), "`print` of the largest program": ("print of",), "the largest certificate, read and checked": ("the certificate",),
          "one event of the machine": ("Exec of", "the same of registers", "the same of loop"), "a burst of 64 steps": ("a burst of 64 with lease and check-in:",),
          "short tasks that send": ("sending",)}


def speeds():
    """What bench/results.txt has, in short."""
    text = (TOP / "bench/results.txt").read_text()
    rows = [re.split(r" *\| *", line.strip("| ")) for line in re.findall(r"^\|.*\|$", text, re.M)]
    figures = lambda names, column: [it for row in rows if row[0].startswith(names) for it in re.findall(r"[\d.]+", row[column])]
    of = lambda *given: " to ".join(dict.fromkeys((min(found := figures(*given), key=float), max(found, key=float))))
    date = re.search(r"^\(a\), \(b\): unproved.py, ([\w ]+),", text, re.M)[1]
    low, _, high = of(SPEEDS["one event of the machine"], 1).partition(" to ")
    return "\n".join([f"[results.txt](results.txt) has all, measured on {date} on a virtual machine with four cores. Compared with a program without proofs that does the same work:", "",
                      table("", "Times as long", ((what, of(names, 3)) for what, names in SPEEDS.items())), "",
                      f"`seq` takes {of(('seq of the kernels, beside QEMU',), 3)} times as long as QEMU's user mode. A machine executes an instruction in {float(low):.0f} to {float(high):.0f} ns."])


def search():
    """How many runs looked for bugs, by the figures that reliability.py wrote."""
    text = (TOP / "fuzz/results.txt").read_text()
    date, (runs, differences) = re.search(r"^# figures\n([\d-]+),", text, re.M)[1], re.search(r"^\| all \| ([\d,]+) \|.*\| (\d+) \|$", text, re.M).groups()
    return f"writes [results.txt](results.txt): {runs} runs on {date}, {differences} difference{'s' if differences != '1' else ''}."


def crates():
    """The layers of crates.txt, with the first words of each crate, unless they say its name again; tests in one line."""
    lines = []
    for line in (TOP / "crates.txt").read_text().splitlines()[1:]:
        if line.startswith("#"):
            lines += ["", f"**{line[2:]}**", ""]
        elif line.strip():
            name = re.match(r"\w+", line)[0]
            file = next(it for it in (CRATES / name / "src" / "lib.rt", CRATES / name / "src" / "main.rt") if it.is_file())
            comment = " ".join(re.findall(r"^//! ?(.*)$", file.read_text(), re.M))
            comment = re.sub(r" \([^)]*ISCA[^)]*\)", "", one_line(comment))
            said = re.match(r"(?:\S+ ){,1}\S+:(?:(?: \S+){,6},)?[^,]*?(?=[:;.,]( |$))|.*?(?=[:;.]( |$))", comment)[0]
            said = (re.match(r"(?:\S+ ){3,}?\S+(?=, )", said) or [said])[0] if said.count(" ") > 10 and ": " not in said else said
            said = said[:1].lower() + said[1:]
            is_name = all(it in PARTICLES or it.removesuffix("s").removesuffix("ed") in name for it in re.findall(r"\w+", said))
            more = name.startswith("test_") and lines[-1].startswith("- ")
            lines.append((lines.pop() + ", " if more else "- ") + f"`{name}`" + ("" if is_name or name.startswith("test_") else f": {said}"))
    return "\n".join(lines).strip()


def required():
    """The `requires` of public functions, by crate; functions with the same ones together."""
    lines = []
    for name in re.findall(r"^(\w+)[^\n]*:", (TOP / "crates.txt").read_text(), re.M):
        rows = {}
        for file in sorted((CRATES / name / "src").glob("**/*.rt")) if not name.startswith("test") else ():
            text = file.read_text()
            for found in re.finditer(r"^( *)pub fn (\w+)(.*?)^\1[{}]", text, re.M | re.S):
                clauses = tuple(map(one_line, re.findall(r"^\s*requires(?: \w+)? \{(.*?)\}\s*$", found[3], re.M | re.S)))
                owner = re.findall(r"^impl(?:<[^>]*>)? (?:[\w<>, ]+ for )?(\w+)", text[:found.start()], re.M) if found[1] else []
                if clauses:
                    rows.setdefault(clauses, []).append("::".join([*owner[-1:], found[2]]))
        lines += [name] * bool(rows) + [f"    {', '.join(names)}: {', '.join(clauses)}" for clauses, names in rows.items()]
    return "\n".join(lines)


# ---------------------------------------------------------------- pages
def commands():
    """Each subcommand with its options, their values and, after a `=`, what they are if not given."""
    lines = ["```"]
    for name, _, usages, _ in subcommands():
        words = ["[-o FILE]"]
        for of, option, _, value, default, _ in options_of(name):
            listed = values(of, option) if option not in ("units", "workers") else []
            own = f" = {default}" if default in (*listed, "first") or (default or "").isdigit() else ""
            listed = [*listed, "LIST"] if option == "predict" else listed
            words.append(f"[--{option}{' ' + ('|'.join(listed) or value) if value else ''}{own}]")
        words = [it.replace(" ", "\0") for it in words if it != "[--least]" and not it.startswith("[--output")]
        for number, usage in enumerate(usages):
            whole = re.sub("[<>]", "", usage).replace("[OPTIONS]", "[..]" if number else " ".join(words))
            lines += textwrap.wrap(whole, 118, subsequent_indent="    ", break_on_hyphens=False)
    return "\n".join([*lines, "```"]).replace("\0", " ")


def status():
    said = re.search(rf"pub const STATUS: &str = {TEXT}", source("command_line/src/help.rt"), re.S)[1]
    return re.findall(r"^  (\d)  (.*(?:\n     .*)*)", said, re.M), said


# ---------------------------------------------------------------- man page and completions
def roff(text):
    """Paragraphs, and indented lines as they are."""
    lines, literal = [], False
    for line in text.replace("\\", "\\e").split("\n"):
        if line.startswith("  ") != literal:
            literal = not literal
            lines.append(".Bd -literal -offset indent" if literal else ".Ed")
        line = line.strip() if literal else re.sub(r"`([^`]*)`", r"\\fB\1\\fR", line)
        lines.append(("\\&" if line[:1] in (".", "'") else "") + line.replace("--", "\\-\\-") if line else ".Pp")
    return "\n".join(lines + [".Ed"] * literal)


def synopsis():
    lines = []
    for name, _, usages, _ in subcommands():
        for usage in usages:
            lines += [".Nm", f".Cm {name}"]
            lines += [f".Op Fl -{option}" + (f" Ar {value}" if value else "") for _, option, _, value, _, _ in options_of(name) if option != "least"]
            files = re.sub("[<>]", "", usage.split("[OPTIONS] ")[1]).replace("...", " ...")
            lines += [".Fl -least"] * files.startswith("--least") + [f".Ar {files.removeprefix('--least ')}"]
    return "\n".join(lines)


def details():
    long = re.search(rf"pub const PROGRAM_LONG: &str =\s*{TEXT}", source("command_line/src/help.rt"), re.S)[1]
    lines = [roff(long)]
    for name, _, _, said in subcommands():
        lines += [f".Ss {name}", roff(said.split("\n\nFor example")[0]), ".Bl -tag -width Ds"]
        for _, option, letter, value, default, told in options_of(name):
            spelled = "".join(f"Fl {it} , " for it in letter) + f"Fl -{option}" + (f" Ar {value}" if value else "")
            lines += [f".It {spelled}", roff(told + (f" (default: {default})" if default else "")) + "."]
        lines.append(".El")
    return "\n".join(lines)


def statuses():
    rows, said = status()
    lines = [".Bl -tag -width Ds", *(f".It {number}\n{roff(one_line(it))}." for number, it in rows), ".El", ".Pp"]
    return "\n".join([*lines, roff(re.split(r"^  3  .*\n(?:     .*\n)*", said, flags=re.M)[1].strip())])


def short(said):
    """What an option does, in a few words."""
    said = re.split(r" ?[:.;(]", re.sub(r"^With --[\w-]+ \w+(?: and --[\w-]+ \w+)?: ", "", said))[0]
    return re.sub(r"[][]", "", said[:1].lower() + said[1:]).replace("'", "’")


def bash_options():
    return "\n".join(f"        {name}) echo \"{' '.join('--' + it[1] for it in options_of(name))} --help\" ;;" for name in names())


def bash_values():
    rows = [(of, name, values(of, name)) for of, name, _, value, *_ in arguments() if value not in (None, "FILE")]
    return "\n".join(f"        {' | '.join(f'{it}:--{name}' for it in of)}) echo \"{' '.join(listed) or ' '}\" ;;" for of, name, listed in rows)


def zsh_options():
    lines = []
    for name in names():
        words = []
        for of, option, letter, value, _, told in options_of(name):
            taken = f":{value}:({' '.join(values(of, option))})" if values(of, option) else f":{value}:_files" if value == "FILE" else f":{value}:" if value else ""
            words += [f"'{it}[{short(told)}]{taken}'" for it in (f"--{option}", *(f"-{it}" for it in letter))]
        lines.append(f"        {name}) _arguments {' '.join(words)} '--help' '*:file:_files' ;;")
    return "\n".join(lines)


def fish_options():
    lines = []
    for of, name, letter, value, _, said in arguments():
        taken = f" -x -a '{' '.join(values(of, name))}'" if values(of, name) else " -r" if value == "FILE" else " -x" if value else ""
        lines.append(f"complete -c multiscalar -n '__fish_seen_subcommand_from {' '.join(of)}' -l {name}{''.join(f' -s {it}' for it in letter)}{taken} -d '{short(said)}'")
    return "\n".join(lines)


# ---------------------------------------------------------------- the whole
PARTS = {
    "limits": limits, "instructions": instructions, "accepted marks": accepted,
    **{f"rule{it}": functools.partial(example, it) for it in range(1, 13)}, "crates": crates, "requires": required, "commands": commands,
    "speeds": speeds, "search": search,
    "exit status": lambda: table("Status", "When", ((number, one_line(said)) for number, said in status()[0])),
    "traps": lambda: faults("mips_plain/src/outcome.rt", "Trap"),
    "faults of a text": lambda: faults("annotated_asm/src/fault.rt", "AsmFault"),
    "faults of a program": lambda: faults("task_descriptor/src/program.rt", "BuildFault"),
    "faults of a certificate": lambda: faults("mask_certificate/src/fault.rt", "CertFault"),
    "faults of a script": lambda: faults("event_script/src/fault.rt", "ScriptFault"),
    "refusals": lambda: faults("machine_model/src/event.rt", "Refused"),
    "synopsis": synopsis, "details": details, "statuses": statuses,
    "bash names": lambda: f'        names="{" ".join(names())} help"', "bash options": bash_options, "bash values": bash_values,
    "zsh names": lambda: "\n".join(f"        '{name}:{short(about)}'" for name, about, *_ in subcommands()), "zsh options": zsh_options,
    "fish names": lambda: f"set -l subcommands {' '.join(names())}",
    "fish subcommands": lambda: "\n".join(f"complete -c multiscalar -n \"not __fish_seen_subcommand_from $subcommands help\" -a {name} -d '{short(about)}'"
                                          for name, about, *_ in subcommands()),
    "fish options": fish_options,
}


def made(text):
    """A text with its made parts as they are to be."""
    part = lambda found: f"{found[1]} made: {found[2]}{found[3]}\n{PARTS[found[2]]()}\n{found[1]} end of {found[2]}{found[3]}"
    return re.sub(r'^([ \t]*(?:<!--|#|\.\\")) made: ([\w ]+?)( -->|)$\n.*?^\1 end of \2\3$', part, text, flags=re.M | re.S)


def anchors(text):
    """The names by which links lead to the headings of a page; a heading that has another name now may keep the old one in `<a id=..>`."""
    heads = re.findall(r"^#+ (.*)$", re.sub(r"^```.*?^```$", "", text, flags=re.M | re.S), re.M)
    return set(re.findall(r'^<a id="([\w-]+)"></a>$', text, re.M)) | {re.sub(r"[^\w -]", "", re.sub(r"\[([^]]*)\]\([^)]*\)", r"\1", it)).lower().replace(" ", "-") for it in heads}


def links():
    """The links of pages, and those of the rules of SARIF, that lead to no file or no heading."""
    pages = sorted(it for it in TOP.glob("**/*.md") if not {"out", "node_modules"} & set(it.relative_to(TOP).parts))
    found = [(it, link) for it in pages for link in re.findall(r"\]\(([^)\s]+)\)", re.sub(r"^```.*?^```$", "", it.read_text(), flags=re.M | re.S))]
    found += [(TOP / "docs/REQUIRES.txt", link) for link in re.findall(r'"([A-Z]+\.md#[^"]*)"', source("diagnostic_log/src/rules.rt"))]
    for page, link in found:
        file, _, anchor = link.partition("#")
        to = page.parent / file if file else page
        if not re.match(r"\w+:", link) and (not to.exists() or anchor and anchor not in anchors(to.read_text())):
            yield f"{page.relative_to(TOP)} has a link to {link}"


def differences(program):
    """What `--help` of the built program has otherwise than the table; links that lead nowhere."""
    yield from links()
    for name in names() if program else ():
        said = one_line(subprocess.run([program, name, "--help"], capture_output=True, text=True, check=True).stdout)
        yield from (f"{name} --help lacks --{it[1]}: {it[5]}" for it in options_of(name) if f"--{it[1]}" not in said or it[5] not in said)
        more = set(re.findall(r"(?<=\s)--([a-z-]+) ?(?:<\w+> )?(?=[A-Z])", said.split(" Options: ")[1])) - {it[1] for it in options_of(name)} - {"help"}
        yield from (f"{name} --help has --{it}, and the table does not" for it in sorted(more))


def main():
    options = argparse.ArgumentParser(description=__doc__, formatter_class=argparse.RawDescriptionHelpFormatter)
    options.add_argument("--check", action="store_true")
    options.add_argument("program", metavar="PROGRAM", nargs="?", type=pathlib.Path)
    given = options.parse_args()
    files = [TOP / "man/multiscalar.1", *sorted((TOP / "completions").iterdir()), *sorted((TOP / "docs").glob("*.md")), TOP / "docs/REQUIRES.txt", TOP / "bench/README.md", TOP / "fuzz/README.md"]
    found = list(differences(given.program and given.program.resolve()))
    for path in files:
        new = made(path.read_text())
        if new != path.read_text() and given.check:
            found.append(f"{path.relative_to(TOP)} is not as docs/make.py makes it")
        elif new != path.read_text():
            path.write_text(new)
    print(*found, sep="\n") if found else print("pages, man page and completions are as the sources have it")
    sys.exit(1 if found else 0)


if __name__ == "__main__":
    main()
