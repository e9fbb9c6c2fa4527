#!/usr/bin/env python3
"""Changes one place of right marks, and makes what `explain` proposes until nothing changes.

    one_place.py PROGRAM [--changes N] [--seed N] [--show KIND]

The programs of calls/ have calls and returns. A change adds, removes or moves a forward bit, a stop, a target, a register of a
create mask, a `.task` or a `release`. Of a text with errors all fixes are made that do not want the same part of it, and of one
without, those of the warnings; then `explain` is asked again. It counts how the texts end:

    right      the marks are right, and `seq` writes what it wrote of the program
    no fix     an error is left for which words alone say what to do
    astray     the marks are right, but the run by tasks ends otherwise than `seq`
    wrong      `seq` writes something else, or a text comes back

The last line has these counts; the status is 1 where a text ends wrong. With --show each text that ends so is printed, with what
was said of it last. Needs python3.
"""
import argparse
import collections
import json
import pathlib
import random
import re
import subprocess
import sys
import tempfile
import time

FOLDER = pathlib.Path(__file__).resolve().parent / "calls"
MOST_ROUNDS = 40
R = random.Random()


class Bench:
    def __init__(self, program):
        self.program = str(pathlib.Path(program).resolve())
        self.folder = pathlib.Path(tempfile.mkdtemp(prefix="one_place"))

    def run(self, text, *words):
        """The status and the standard output of a command about a text."""
        (self.folder / "p.s").write_bytes(text.encode())
        done = subprocess.run([self.program, *words, "p.s"], cwd=self.folder, capture_output=True)
        return done.returncode, done.stdout.decode()

    def said(self, text):
        """What is said of a text."""
        return [json.loads(line) for line in self.run(text, "explain", "--format", "json")[1].splitlines()]

    def outputs(self, text):
        """What `seq` writes, and how the run by tasks ends."""
        plain = self.run(text, "seq")
        parts = self.run(text, "run", "--schedule", "steps", "--units", "4", "--least")
        return plain, parts


# ---------------------------------------------------------------- changes
def is_code(line):
    words = re.sub(r"^\s*(\w+:)?\s*", "", line.split("#")[0])
    return bool(words) and not words.startswith(".")


def parts_of(line):
    """The line up to its comment, and the comment."""
    code, sign, comment = line.partition("#")
    return code.rstrip(), " " + sign + comment if sign else ""


def with_list(line, key, change):
    """The line of a task with another list; None where nothing changes."""
    match = re.search(key + r"=(\S+)", line)
    items = [] if match.group(1) == "-" else match.group(1).split(",")
    new = change(list(items))
    if new is None or new == items:
        return None
    return line[:match.start(1)] + (",".join(new) or "-") + line[match.end(1):]


def other_list(line, key, choices):
    """Takes an item out of a list, adds one, or puts another in its place."""
    def change(items):
        kind = R.randrange(3)
        if kind == 0 and items:
            del items[R.randrange(len(items))]
        elif kind == 1:
            items.insert(R.randint(0, len(items)), R.choice(choices))
        elif items:
            items[R.randrange(len(items))] = R.choice(choices)
        return list(dict.fromkeys(items))
    return with_list(line, key, change)


def stops(code):
    """The stops that an instruction may have."""
    return ["!s", "!st", "!sn"] if re.search(r"\b(b\w+)\s+\$", code) else ["!s"]


def with_mark(line, kind):
    """The line with a forward bit or a stop more, less, or another."""
    code, comment = parts_of(line)
    if kind == "forward":
        if "!f" in code:
            return re.sub(r"\s*!f", "", code) + comment
        return re.sub(r"(\s*!s[tn]?)?$", r" !f\1", code, count=1) + comment
    found = re.search(r"\s*!s[tn]?\b", code)
    choices = [it for it in stops(code) if not found or it != found.group().strip()]
    if found and (not choices or R.random() < .6):
        return code[:found.start()] + code[found.end():] + comment
    if found:
        code = code[:found.start()] + code[found.end():]
    return f"{code} {R.choice(choices)}{comment}"


def moved_stop(lines, k):
    """The text with the stop of a line on a line beside it."""
    other = k + R.choice([-1, 1])
    code, comment = parts_of(lines[k])
    found = re.search(r"\s*!s[tn]?\b", code)
    if not found or not 0 <= other < len(lines) or not is_code(lines[other]) or "!s" in lines[other]:
        return None
    there, note = parts_of(lines[other])
    new = list(lines)
    new[k] = code[:found.start()] + code[found.end():] + comment
    new[other] = there + " !s" + note
    return new


def released(lines, k):
    """The text with a release more, less, or of another register."""
    line, register = lines[k], f"${R.choice([2, 4, 8, 9, 16, 17, 29, 31])}"
    if "release" in line:
        kind = R.randrange(2)
        label = re.match(r"\s*(\w+:)?\s*", line).group()
        if kind and "," in line:
            return [*lines[:k], re.sub(r",\s*\$\w+", "", line, count=1), *lines[k + 1:]]
        return [*lines[:k], label + ("nop" if ":" in label else ""), *lines[k + 1:]]
    return [*lines[:k + 1], f"        release {register}", *lines[k + 1:]]


def changed(text):
    """The text with one place changed, and the kind of the change; None where nothing changes."""
    lines = text.split("\n")
    tasks = [k for k, line in enumerate(lines) if line.startswith(".task")]
    code = [k for k, line in enumerate(lines) if is_code(line)]
    names = [lines[k].split()[1] for k in tasks]
    kind = R.choice(["forward", "stop", "stop", "move", "target", "target", "mask", "task", "release"])
    new, k = None, R.choice(tasks if kind in ("target", "mask", "task") else code)
    if kind in ("forward", "stop"):
        new = with_mark(lines[k], kind)
    elif kind == "target":
        new = other_list(lines[k], "targets", names)
    elif kind == "mask":
        new = other_list(lines[k], "create", [f"${n}" for n in (2, 4, 5, 8, 9, 16, 29, 31)])
    elif kind == "task":
        return "\n".join(lines[:k] + lines[k + 1:]), kind
    elif kind == "move":
        moved = moved_stop(lines, k)
        return moved and "\n".join(moved), kind
    else:
        return "\n".join(released(lines, k)), kind
    return new and "\n".join([*lines[:k], new, *lines[k + 1:]]), kind


# ---------------------------------------------------------------- fixes
def clash(change, other):
    """Whether two changes want the same part of a text."""
    return (change["line"] == other["line"] and change["column"] < other["column"] + other["width"]
            and other["column"] < change["column"] + change["width"])


def chosen(said):
    """The changes of the fixes of all errors, or else of all warnings, that do not want the same part."""
    errors = [it for it in said if it["severity"] == "error"]
    changes = []
    for it in errors or said:
        fix = it["help"]["replacements"] if it["help"] else []
        if not any(change != other and clash(change, other) for change in fix for other in changes):
            changes += [change for change in fix if change not in changes]
    return changes


def with_changes(text, changes):
    lines = text.split("\n")
    for it in sorted(changes, key=lambda it: (-it["line"], -it["column"], -it["width"])):
        line = lines[it["line"] - 1].encode()
        begin = it["column"] - 1
        lines[it["line"] - 1] = (line[:begin] + it["text"].encode() + line[begin + it["width"]:]).decode()
    return "\n".join(lines)


def settled(bench, text):
    """The text when no fix changes it any more, what was said of it, and whether a text came back."""
    seen = {text}
    for _ in range(MOST_ROUNDS):
        said = bench.said(text)
        new = with_changes(text, chosen(said))
        if new == text:
            return text, said, False
        text = new
        if text in seen:
            return text, said, True
        seen.add(text)
    return text, bench.said(text), True


def ending(bench, text, wanted):
    """How a text ends, and the text."""
    last, said, is_circle = settled(bench, text)
    if is_circle:
        return "wrong", last, said
    if any(it["severity"] == "error" for it in said):
        return "no fix", last, said
    plain, parts = bench.outputs(last)
    if plain[1].split("\n")[:-2] != wanted[0][1].split("\n")[:-2]:
        return "wrong", last, said
    if "halted" not in parts[1] and parts != wanted[1]:
        return "astray", last, said
    return "right", last, said


def main():
    options = argparse.ArgumentParser(description=__doc__, formatter_class=argparse.RawDescriptionHelpFormatter)
    options.add_argument("program", metavar="PROGRAM")
    options.add_argument("--changes", type=int, default=700)
    options.add_argument("--seed", type=int, default=int(time.time()))
    options.add_argument("--show", action="append", default=[])
    given = options.parse_args()
    R.seed(given.seed)
    bench = Bench(given.program)
    programs = {it.name: it.read_text() for it in sorted(FOLDER.glob("*.s"))}
    wanted = {name: bench.outputs(text) for name, text in programs.items()}
    for name, text in programs.items():
        if [it for it in bench.said(text) if it["severity"] == "error"] or "halted" not in wanted[name][1][1]:
            sys.exit(f"{name}: its marks are wrong, or its run does not end")
    counts, tried = collections.Counter(), set()
    while len(tried) < given.changes:
        name = R.choice(list(programs))
        text, kind = changed(programs[name])
        if not text or text == programs[name] or text in tried:
            continue
        tried.add(text)
        how, last, said = ending(bench, text, wanted[name])
        counts[how] += 1
        if how in given.show:
            lines = [f"{a!r} -> {b!r}" for a, b in zip(programs[name].split("\n"), text.split("\n")) if a != b][:2]
            print(f"--- {how}: {name}, {kind}: {'; '.join(lines)}")
            for it in said[:4]:
                print(f"    {it['line']}: {it['message']}; {it['help'] and it['help']['message']}")
    print(", ".join(f"{counts[it]} {it}" for it in ("right", "no fix", "astray", "wrong")) + f" of {len(tried)}, seed {given.seed}")
    sys.exit(bool(counts["wrong"]))


if __name__ == "__main__":
    main()
