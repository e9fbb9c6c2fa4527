#!/usr/bin/env python3
"""Compares what `explain` says with the model, and makes each change that it proposes.

Takes random programs whose marks are right, plants wrong marks, and lays the text out anew: labels on
lines of their own or before their statement, blanks, comments, blank lines. It reads the log of each: its errors
must be what the model tells, at the same places; each path must be a path inside the task that leads where the rule
says, and none may be shorter; one that is told in short, since a stop may mend it and the one before, has none. Where a
task ends at a place where no task begins, and no other stop may be meant, it must say to remove the stop exactly where
each task that reaches it goes right without it. Then it makes the changes of each fix alone, and what the error stands for
must be gone; of one that puts a stop where a task goes on into a target, that edge. The changes of all fixes are made together, too:
the log, and the last line of the text, must say that the marks are right then exactly where the model finds nothing.
Of a refused text the model's first fault must be told. Every third program is explained together with a certificate:
that of the program, one with a wrong mask or a line too few, or a text that is none. It asks for no warnings, which
`costly_marks.py` compares. PROGRAM is the built `multiscalar`.
"""
import argparse
import collections
import copy
import functools
import json
import os
import random
import re
import subprocess
import sys
import tempfile
import time

import accepted as generator
from accepted import accepted
from model import CertFault, Fault, REGNAMES, TOK, assemble, cert_parse, cert_text, certify, dests, exits, inner, members, print_program, verdict

R = random.Random()
MASK = {5, 8}
MOST_SHOWN = 1000
# How many fixes are tried alone, where all together do not make the marks right.
MOST_TRIED = 15


def columns(line):
    """The columns at which the tokens of a line begin, from 1."""
    starts, pos, line = [], 0, line.removesuffix("\r")
    while pos < len(line):
        match = TOK.match(line, pos)
        if match.lastgroup not in ("ws", "comment"):
            starts.append((match.start() + 1, match.group()))
        pos = match.end()
    return starts


def places(text):
    """Line and column of each task and of each instruction, the latter with how many bytes it has."""
    tasks, code = [], []
    for number, line in enumerate(text.split("\n"), 1):
        starts = columns(line)
        while len(starts) >= 2 and starts[1][1] == ":":
            starts = starts[2:]
        if not starts:
            continue
        column, head = starts[0]
        if head == ".task":
            tasks.append((number, column))
        elif not head.startswith("."):
            end = starts[-1][0] + len(starts[-1][1])
            code += [(number, column, end - column)] * instructions(head, starts)
    return tasks, code


def lists(text):
    """For each task, the column and the width of its `create=`, of its `targets=` and of each target."""
    all_lists = []
    for line in text.split("\n"):
        starts = columns(line)
        while len(starts) >= 2 and starts[1][1] == ":":
            starts = starts[2:]
        if not starts or starts[0][1] != ".task":
            continue
        words = [k for k in range(2, len(starts)) if k + 1 < len(starts) and starts[k + 1][1] == "="]
        create, targets = words[0], words[1]
        ends = [column + len(token) for column, token in starts]
        all_lists.append(((starts[create][0], ends[targets - 1] - starts[create][0]),
                          (starts[targets][0], ends[-1] - starts[targets][0]),
                          [(column, len(token)) for column, token in starts[targets + 2:] if token != ","]))
    return all_lists


def meant(program, text, finding):
    """The line, the column and the width of what a finding is about."""
    task, index, rule, _ = finding
    tasks, code = places(text)
    create, targets, each = lists(text)[task]
    if rule in MASK:
        return tasks[task][0], *create
    if rule == 12:
        begins = {t[1] for t in program.tasks}
        return tasks[task][0], *next(at for j, at in zip(program.tasks[task][3], each) if j not in begins)
    return code[index]


def instructions(head, starts):
    """How many instructions a line with this mnemonic stands for."""
    if head == "la":
        return 2
    if head != "li":
        return 1
    sign, digits = next(it.groups() for it in (re.fullmatch(r"(-?)(0x[0-9a-fA-F]+|\d+)", t) for _, t in starts) if it)
    value = int(digits, 16 if digits.startswith("0x") else 10) * (-1 if sign else 1) & 0xFFFFFFFF
    return 1 if value < 0x10000 or value >= 0xFFFF8000 else 2


def subject(error):
    """What an error is about: all that a create mask lacks is one, by whichever rule it is told."""
    return (error[0], "mask") if error[2] in MASK else error


def told(program):
    """What is told of a program, in the order of the checker: task, index, rule and registers. All that a create mask lacks is one error."""
    findings, errors = verdict(program, certify(program)), []
    for task in range(len(program.tasks)):
        own = [it for it in findings if it[0] == task]
        lacking = [it for it in own if it[2] in MASK]
        if lacking:
            errors.append((task, lacking[0][1], lacking[0][2], tuple(sorted({it[3] for it in lacking}))))
        errors += [(*it[:3], (it[3],)) for it in own if it[2] not in MASK]
    return errors


def shown(program, text):
    """Those that are shown of a text, in the order of the places where they stand."""
    return sorted(told(program)[:MOST_SHOWN], key=lambda error: tuple(meant(program, text, error))[:2])


def label_of(text, index):
    """The label of an instruction: at the front of its line, or alone in the line before; None where there is none."""
    code, lines = places(text)[1], text.split("\n")
    line = code[index][0]
    if index and code[index - 1][0] == line:
        return None
    own, above = ([token for _, token in columns(it)] for it in (lines[line - 1], lines[line - 2] if line > 1 else ""))
    if own[1:2] == [":"]:
        return own[0]
    return above[0] if above[1:] == [":"] else None


def spot(program, text, index):
    """How an instruction is named, as a pattern; without the text of the program any name will do."""
    if text is None:
        return r"(?:@\d+|\w+)"
    return index < len(program.code) and label_of(text, index) or f"@{index}"


def place_of(program, text, index):
    """How a place is named, as a pattern: the task that begins there, its label, or its line."""
    begins = {entry: name for name, entry, *_ in reversed(program.tasks)}
    if index in begins or index >= len(program.code):
        return begins.get(index) or ("the end of the program" if index == len(program.code) else f"@{index}")
    if text is None:
        return r"(?:line \d+|\w+)"
    return label_of(text, index) or f"line {places(text)[1][index][0]}"


@functools.lru_cache(maxsize=4)
def spellings(text):
    """How a text first writes each register that it names, by number; a comment names none."""
    first = {}
    for line in text.split("\n"):
        for _, token in columns(line):
            if token.startswith("$"):
                first.setdefault(REGNAMES[token[1:]], token)
    return first


def spelled(text, register):
    """How a register is written: as the text first writes it, else by its number, and HI and LO by their names."""
    return spellings(text).get(register, {32: "$hi", 33: "$lo"}.get(register, f"${register}"))


def sentence(program, error, text, any_place=False):
    """What an error says of a program with this text, as a pattern, in which places may have any name."""
    number, index, rule, registers = error
    task, listed = program.tasks[number][0], ",".join(re.escape(spelled(text, r)) for r in registers if r is not None)
    text = None if any_place else text
    targets, begins = program.tasks[number][3], {it[1] for it in program.tasks}
    ends = [j for j in [*exits(program, index), *inner(program, index)] if (j not in targets if rule == 9 else j >= len(program.code))]
    place = "(?:" + "|".join(place_of(program, text, j) for j in ends) + ")"
    one = "|".join(place_of(program, text, j) + (", which is not one of its targets" if j in begins else ", where no task begins") for j in ends)
    wrong = next((j for j in targets if j not in begins), 0)
    return {
        5: f"the create mask of task {task} lacks {listed}",
        8: f"the create mask of task {task} lacks {listed}",
        6: f"task {task} forwards {listed} here and may write it again",
        7: f"task {task} releases {listed} here and may write it again",
        9: rf"(?:if the branch is (?:not )?taken, )?task {task} ends here and leads to "
           rf"(?:{one}|{place}, or to {place} if the branch is taken; neither is one of its targets)",
        10: f"task {task} can continue from here to {place}, where there is no instruction",
        11: f"this jump to an address in a register has to end task {task}",
        12: f"task {task} lists the target {spot(program, text, wrong)}, where no task begins",
    }[rule]


def excerpt(text, line, column, width):
    """The two rows that show a part of a line of a text."""
    shown, number = text.split("\n")[line - 1].removesuffix("\r"), str(line)
    below = "".join("\t" if c == "\t" else " " for c in shown[:column - 1])
    return [f"{number:>5} | {shown}", f"{' ' * max(5, len(number))} | {below}^{'~' * (width - 1)}"]


def distance(program, start, sought, on):
    """How many edges a shortest path from start to what is sought has, of one edge at least where it goes on."""
    layer, seen, count = {start}, set(), 0
    while layer:
        if (count or not on) and any(sought(i) for i in layer):
            return count
        seen |= layer if count or not on else set()
        layer = {j for i in layer for j in inner(program, i) if j < len(program.code)} - seen
        count += 1
    return None


def queries(program, error):
    """Where each path that shows an error begins, what it leads to, and whether it goes on by an edge."""
    task, index, rule, registers = error
    entry = program.tasks[task][1]
    findings = [it for it in verdict(program, certify(program)) if it[0] == task and it[2] in MASK]
    if rule in MASK:
        for r in registers[:5]:
            first = next(it for it in findings if it[3] == r)
            writes = lambda i, r=r: r in dests(program.code[i][0])
            yield (entry, writes, False) if first[2] == 5 else (entry, lambda i, at=first[1]: i == at, False)
    elif rule in (6, 7):
        yield index, lambda i: registers[0] in dests(program.code[i][0]), True
    elif rule in (9, 10, 11) and entry != index:
        yield entry, lambda i: i == index, False


def lines_lead(program, code, lines, start, sought, count):
    """Whether the lines are those of a path of so many edges from start to what is sought; a pseudo-instruction is one step."""
    second = lambda i, j: j == i + 1 and code[i][0] == code[j][0]
    at = {(start, 0)} if code[start][0] == lines[0] else set()
    for _ in range(count):
        ahead = {(i, j, k) for i, k in at for j in inner(program, i) if j < len(code)}
        at = {(j, k if second(i, j) else k + 1) for i, j, k in ahead if second(i, j) or lines[k + 1:k + 2] == [code[j][0]]}
    return any(sought(i) and k + 1 == len(lines) for i, k in at)


def region_of(place):
    """Line, column and width of a place in a log; None where it has no line."""
    region = place["physicalLocation"].get("region")
    return region and (region["startLine"], region["startColumn"], region["endColumn"] - region["startColumn"])


def paths_of(result):
    """The lines of each path of a result."""
    return [[region_of(step["location"])[0] for step in flow["threadFlows"][0]["locations"]] for flow in result["codeFlows"]]


def needless(program, task, index):
    """Whether a task, and each other one that reaches a stop, goes right without it, as far as exits are concerned."""
    bare, begins = copy.copy(program), {it[1] for it in program.tasks}
    bare.code = [*program.code[:index], (*program.code[index][:2], None), *program.code[index + 1:]]
    listed = [set(it[3]) for k, it in enumerate(program.tasks) if k == task or index in members(program, it[1])]
    reached = members(bare, index)
    stays = all(j < len(bare.code) for i in reached for j in inner(bare, i))
    ends = all(bare.code[i][2] == "s" for i in reached if bare.code[i][0][0] in ("jr", "jalr"))
    return stays and ends and all(begins.intersection(*listed) >= set(exits(bare, i)) for i in reached)


def removes_wrongly(program, error, result):
    """Whether the help for an exit removes a stop that is needed, or lets a task begin after one that is not."""
    if error[2] != 9:
        return False
    advice = re.split("; if it is meant to continue, |; else ", result["relatedLocations"][-1]["message"]["text"])[-1]
    removes = re.match(r"remove !s[tn]?: the task then goes on, ", advice)
    return bool(removes or advice.startswith("let ")) and bool(removes) != needless(program, *error[:2])


def differs(program, text, results):
    """What is wrong with what was said of a program; None where nothing is."""
    code, errors = places(text)[1], told(program)
    said = [it for it in results if it["level"] == "error"]
    if len(said) != min(len(errors), MOST_SHOWN) or len(results) != len(said) + (len(errors) > MOST_SHOWN):
        return f"{len(said)} errors for {len(errors)}"
    for error, result in zip(shown(program, text), said):
        if result["ruleId"] != f"rule{error[2]}" or region_of(result["locations"][0]) != tuple(meant(program, text, error)):
            return f"the rule or the place of {error}"
        if not re.fullmatch(sentence(program, error, text) + r"\.", result["message"]["text"]):
            return f"the sentence of {error}"
        if removes_wrongly(program, error, result):
            return f"the stop of {error}"
        advice = [it for it in [HALT.sub("", advice_of(result), count=1)] if STOP.match(it)]
        in_short = bool(advice) and error != next(it for it in errors if it[0] == error[0])
        if any(("; if it is meant to continue, " in it) == in_short for it in advice):
            return f"what to do about {error}"
        asked, paths = [] if in_short else list(queries(program, error)), paths_of(result)
        if len(asked) != len(paths):
            return f"{len(paths)} paths of {error}"
        for (start, sought, on), path in zip(asked, paths):
            if not lines_lead(program, code, path, start, sought, distance(program, start, sought, on)):
                return f"a path of {error}"
    return None


def advice_of(result):
    """What a result says to do."""
    return result["relatedLocations"][-1]["message"]["text"]


def changes_of(result):
    """The changes of a result's fix: the line, the columns where the part begins and ends, and what is put there."""
    for it in result["fixes"][0]["artifactChanges"][0]["replacements"] if result["fixes"] else ():
        region = it["deletedRegion"]
        yield region["startLine"], region["startColumn"], region["endColumn"], it.get("insertedContent", {}).get("text", "")


def with_changes(text, changes):
    """The text with these changes."""
    lines = text.split("\n")
    for line, begin, end, put in sorted(changes, key=lambda it: (-it[0], -it[1], -it[2])):
        lines[line - 1] = lines[line - 1][:begin - 1] + put + lines[line - 1][end - 1:]
    return "\n".join(lines)


def changed(text, result):
    """The text with the changes of a result's fix; None where it has none."""
    return with_changes(text, list(changes_of(result))) if result["fixes"] else None


def all_changed(text, results):
    """The text with the changes of all fixes, each made once; None where two want the same part, or there is none."""
    changes = list(dict.fromkeys(it for result in results for it in changes_of(result)))
    if not changes or any(a[0] == b[0] and a[1] < b[2] and b[1] < a[2] for k, a in enumerate(changes) for b in changes[:k]):
        return None
    return with_changes(text, reversed(changes))


def right_line(results):
    """What the text says last where the fixes of these results make the marks right."""
    errors = [it for it in results if it["level"] == "error"]
    fixes = [it for it in errors if it["fixes"]]
    if len(fixes) == len(errors):
        which = "this fix" if len(fixes) == 1 else f"these {len(fixes)} fixes"
    else:
        lines = [str(it) for it in dict.fromkeys(region_of(it["locations"][0])[0] for it in fixes)]
        which = f"the fix of line {lines[0]}" if len(lines) == 1 else f"the fixes of lines {', '.join(lines[:-1])} and {lines[-1]}"
    return f"with {which} the marks are right"


# What comes before other advice where a halt may be forgotten.
HALT = re.compile(r"write halt after line \d+, if the program ends there; else ")
STOP = re.compile(r"(?:put !s[tn]?|write !s[tn]? in place of !s[tn]?) on line (\d+)(?: and write targets=\S+)?, where ")


def stops(program, after, error, text, advice):
    """Whether a change puts a stop on the line that it names, where the task of an error goes on into one of its targets then.
    In place of one on the other edge of a branch, that edge goes on, to where no task begins."""
    edges = lambda p: {(i, j) for i in range(len(p.code)) for j in inner(p, i)}
    gone, more, code = edges(program) - edges(after), edges(after) - edges(program), places(text)[1]
    begins, (_, entry, _, targets) = {it[1] for it in program.tasks}, after.tasks[error[0]]
    line, other_edge = int(STOP.match(advice).group(1)), advice.startswith(("write !st ", "write !sn "))
    at_line = all(code[i][0] == line for i, _ in gone | more)
    return at_line and (other_edge or not more) and not any(j in begins for _, j in more) and any(j in begins and j in targets for _, j in gone)


def code_of(fault):
    """The identifier of a fault of a program text."""
    return "refused-" + "-".join(word for word in fault.text()[len("program refused: "):-1].split(" line ")[0].split()[:4])


def refused_so(fault, text, results):
    """Whether what is said tells the first fault of a text, at its line if it has one; all that is said is an error in a line of it."""
    line = places(text)[1][fault.index][0] if fault.index is not None else fault.line
    codes = {"-".join(it["ruleId"].split("-")[:5]) for it in results if not line or (region_of(it["locations"][0]) or [0])[0] == line}
    lines = text.count("\n") + 1
    return code_of(fault) in codes and all(
        it["level"] == "error" and (region_of(it["locations"][0]) or [1])[0] <= lines or it["ruleId"] == "more" for it in results)


def remarks(program, text):
    """The identifiers of what is said of the text of a certificate."""
    try:
        lists = cert_parse(text, program)
    except CertFault as fault:
        return ["-".join(["certificate", *fault.text()[len("certificate refused: "):-1].split()[:2]])]
    found, least = verdict(program, lists), certify(program)
    own, masks = [it for it in found if it[2] <= 4], set()
    if not own:
        return ["certificate-unfit"] if len(found) > len(verdict(program, least)) else []
    if [len(it) for it in lists] != [len(it) for it in least]:
        return ["certificate-unfit"]
    codes = []
    for task, index, rule, _ in own:
        if rule < 3 or (task, index) not in masks:
            codes.append(f"rule{rule}")
        masks |= {(task, index)} if rule >= 3 else set()
    return codes[:MOST_SHOWN]


def plant(text):
    """The text with a mark or two that may be wrong."""
    registers = ["$8", "$9", "$10", "$11", "$12", "$31", "$33"]
    for _ in range(R.choice([0, 1, 1, 2, 3])):
        lines = text.split("\n")
        k = R.randrange(len(lines))
        line, kind = lines[k], R.randrange(8)
        if kind == 0:
            line = re.sub(r"create=\$\d+,?", "create=", line)
            line = line.replace("create= ", "create=- ")
        elif kind == 1 and not line.startswith(".") and not line.endswith(":") and "!f" not in line:
            line = re.sub(r"( !s[tn]?)?$", r" !f\1", line, count=1)
        elif kind == 2:
            line = re.sub(r"(targets=[^\n]*),[\w@]+", r"\1", line)
        elif kind == 3:
            line = re.sub(r" !s[tn]?$", "", line)
        elif kind == 4 and line and line[0] not in "." and not line.endswith(":"):
            line = "release " + ",".join(R.sample(registers, R.choice([1, 2])))
        elif kind == 5 and line.startswith(".task"):
            line += f",@{R.randrange(12)}" if "targets=-" not in line else ""
        elif kind == 6 and re.match(r"(j|beq|bne) ", line):
            line = re.sub(r"[\w@]+( !.*)?$", lambda m: f"@{R.randrange(40)}" + (m.group(1) or ""), line, count=1)
        elif kind == 7 and line and not re.match(r"\.|halt", line) and not line.endswith(":") and "!s" not in line:
            line += R.choice([" !s", " !st", " !sn"]) if re.match("b", line) else " !s"
        lines[k] = line
        text = "\n".join(lines)
    return text


def spoiled(certificate):
    """The certificate, or one that does not fit or is none."""
    lines, kind = certificate.split("\n")[:-1], R.randrange(7)
    k = R.randrange(len(lines))
    if kind == 1:
        lines[k] = re.sub(r"[0-9a-f]$", lambda m: f"{int(m.group(), 16) ^ 1 << R.randrange(4):x}", lines[k])
    elif kind == 2:
        del lines[k]
    elif kind == 3:
        lines[k] = R.choice(["", "cert 3", "task", "task NONE", "5", "0 0000000000000000", "4096 0000000000000000", lines[k] + " "])
    elif kind == 4:
        lines = lines[:k]
    elif kind == 5:
        lines.insert(k, R.choice(lines))
    return "\n".join(lines) + ("\n" if lines and R.random() < .95 else "")


def plant_fault(text):
    """The text with something that may be a fault of the program as a whole."""
    lines = text.split("\n")
    tasks = [line.split()[1] for line in lines if line.startswith(".task")]
    other, kind = R.choice(tasks + ["Odd"]), R.randrange(8)
    at = R.randrange(len(lines))
    if kind == 0:
        lines[at] = R.choice([f"{other}: ", f"X: {other}: ", f"X: Y: X: {other}: "]) + lines[at]
    elif kind == 1:
        lines.insert(at, R.choice([f".task {other} create=- targets=-", f".start {other}", f"Z: .start {other}"]))
    elif kind == 2:
        lines = [*lines, ".text", f"{other}4:", f".task {other}4 create=- targets=-"]
    elif kind == 3:
        again = [k for k, line in enumerate(lines) if line.startswith(f"{other}:")]
        if again:
            lines[again[0]] = f"Twin: {lines[again[0]]}"
            lines.insert(R.randrange(len(lines)), ".task Twin create=$8 targets=-")
    elif kind == 4:
        lines = [line.replace("create=", R.choice(["create=$0,", "create=$8,$zero,"])).replace(",-", "")
                 if R.random() < .5 else line for line in lines]
    elif kind == 5:
        lines = [line for line in lines if not line.startswith(".start")]
        lines.insert(at, f"{R.choice(['', 'Q: '])}nop")
    elif kind == 6:
        what, count = R.choice([("  nop", 4097), ("li $8,70000", 2049), (".task T{} create=- targets=-", 1025)])
        lines[at:at] = [what.format(k) for k in range(count)]
        if what.startswith(".task"):
            lines += [".text", *(f"T{k}: nop" for k in range(count))]
    else:
        lines += [R.choice([".data", ".rodata"]), *R.choices([".space 30000", ".byte 1,2", ".word 7", "D: .space 40000"], k=6)]
    return "\n".join(lines)


def laid_out(text):
    """The program in another layout."""
    lines, held = [], ""
    for line in text.split("\n")[:-1]:
        if line.endswith(":") and R.random() < .5:
            held += line + R.choice(["", " ", "  ", "\t"])
            continue
        if R.random() < .1:
            lines.append(R.choice(["", "# why", "   ", "\t# x: y"]))
        line = line.replace(",", ", ") if R.random() < .2 and not line.startswith(".task") else line
        tail = R.choice(["", "", "", "  # so", " "])
        lines.append((R.choice(["", "", "  ", "\t"]) if not held else "") + held + line + tail)
        held = ""
    return "\n".join(lines + ([held] if held else [])) + "\n"


class Bench:
    def __init__(self, program):
        self.program = os.path.abspath(program)
        self.folder = tempfile.mkdtemp(prefix="explain")
        self.counts = collections.Counter()

    def explain(self, text, *options, certificate=None):
        """What is written, the status, and what is said on standard error."""
        with open(os.path.join(self.folder, "p.s"), "w", encoding="latin-1", newline="") as file:
            file.write(text)
        if certificate is not None:
            with open(os.path.join(self.folder, "c"), "wb") as file:
                file.write(certificate)
        words = ["explain", *options, "p.s"] + (["--certificate", "c"] if certificate is not None else [])
        run = subprocess.run([self.program, *words], cwd=self.folder, capture_output=True)
        return run.stdout.decode("latin-1"), run.returncode, run.stderr.decode("latin-1")

    def results(self, text, *options, certificate=None):
        """The results of the log, and the status; and, as `mends`, whether all fixes together are said to make the marks right."""
        log, status, complaint = self.explain(text, "--format", "sarif", *options, certificate=certificate)
        if complaint:
            raise ValueError(complaint)
        run = json.loads(log)["runs"][0]
        self.mends = run.get("properties") == {"fixesMakeMarksRight": True}
        return run["results"], status

    def judged_wrongly(self, text, results, mends):
        """Whether all fixes together make the marks right, but it is not said, or the other way round."""
        fixes, after = [it for it in results if it["fixes"]], all_changed(text, results)
        if len(fixes) > MOST_TRIED:
            return None
        try:
            are_right = after is not None and not told(assemble(after.encode("latin-1")))
        except Fault:
            are_right = False
        self.counts["texts that all fixes mend"] += are_right
        last = self.explain(text, "--no-warnings")[0].split("\n")[-2:][0]
        if mends != are_right or (are_right and last != right_line(results)) or (not are_right and last.endswith(" the marks are right")):
            return f"{len(fixes)} fixes together: {mends}, {last!r}:\n{after}"

    def wrong_certificate(self, text, program, said):
        """What is wrong with what is said of a certificate: after what is said without one stand the remarks."""
        certificate = spoiled(cert_text(certify(program), program)).encode()
        wanted = remarks(program, certificate)
        results, status = self.results(text, "--no-warnings", certificate=certificate)
        self.counts["certificates"] += 1
        self.counts["certificates that do not fit"] += bool(wanted)
        if results[:len(said)] != said or sorted(it["ruleId"] for it in results[len(said):] if it["ruleId"] != "more") != sorted(wanted) or status != bool(said or wanted):
            return f"of the certificate {certificate!r}: {[it['ruleId'] for it in results[len(said):]]}, not {wanted}"

    def wrong(self, text):
        results, status = self.results(text, "--no-warnings")
        mends = self.mends
        try:
            program = assemble(text.encode("latin-1"))
        except Fault as fault:
            self.counts["refused texts"] += 1
            return None if status == 1 and refused_so(fault, text, results) else "a refused text"
        self.counts["programs"] += 1
        self.counts["errors"] += len(results)
        if status != (1 if results else 0):
            return f"status {status}, {len(results)} results"
        beside = self.wrong_certificate(text, program, results) if R.random() < 1 / 3 else None
        return beside or differs(program, text, results) or self.unmended(program, text, results, mends) or self.judged_wrongly(text, results, mends)

    def unmended(self, program, text, results, mends):
        """An error that is there after the changes of its fix. Where all fixes together make the marks right, one alone may leave it."""
        for error, result in zip(shown(program, text), results):
            after = changed(text, result)
            if after is None:
                self.counts["helps in words"] += 1
                continue
            changed_program = assemble(after.encode("latin-1"))
            if STOP.match(result["fixes"][0]["description"]["text"]):
                self.counts["stops put"] += 1
                if not stops(program, changed_program, error, text, result["fixes"][0]["description"]["text"]):
                    return f"a stop put for {error}:\n{after}"
                if not mends and len(results) <= MOST_TRIED and error in told(changed_program):
                    return f"{error} is there after its stop:\n{after}"
                continue
            left = told(changed_program)
            alike = lambda errors: sum((it[0], *it[2:]) == (error[0], *error[2:]) for it in errors)
            is_left = alike(left) >= alike(told(program)) if len(changed_program.code) != len(program.code) else error in left
            if any(it[0] == error[0] and it[2] in MASK for it in left) if error[2] in MASK else is_left:
                return f"{error} is there after its fix:\n{after}"
            self.counts["fixes that mend"] += 1
            self.counts["fixes after which other errors are there"] += not {subject(it) for it in left} <= {subject(it) for it in told(program)}
        return None


def main():
    options = argparse.ArgumentParser(description=__doc__, formatter_class=argparse.RawDescriptionHelpFormatter)
    options.add_argument("program", metavar="PROGRAM")
    options.add_argument("--seconds", type=float, default=60)
    options.add_argument("--seed", type=int, default=int(time.time()))
    given = options.parse_args()
    R.seed(given.seed)
    generator.R.seed(given.seed)
    bench, end = Bench(given.program), time.time() + given.seconds
    while time.time() < end:
        text = plant(print_program(accepted()[0]))
        text = laid_out(plant_fault(text) if R.random() < .5 else text)
        what = bench.wrong(text)
        if what:
            print(f"seed {given.seed}: {what}\n{text}{bench.explain(text)[0]}")
            sys.exit(1)
    print(", ".join(f"{n} {what}" for what, n in bench.counts.items()), f"seed {given.seed}")


if __name__ == "__main__":
    main()
