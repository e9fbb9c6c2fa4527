#!/usr/bin/env python3
"""Compares `annotate --emit marks` with the model, over random programs in random layouts.

Takes random programs, plants wrong marks, and lays their texts out anew: blanks and tabs or none between
tokens, labels before statements, names of registers, CRs, comments that look like marks, `li` for two
instructions, marks in either order. What is printed must be the author's text with the model's marks; its
canonical text must be that of `annotate --emit text`; asked for its marks again, it must come back as it is;
and without its `!f` and create masks it must be the text that was given. PROGRAM is the built `multiscalar`.
"""
import argparse
import collections
import os
import random
import re
import subprocess
import sys
import tempfile
import time

import accepted as generator
import explain
import programs
from accepted import accepted
from model import Fault, TOK, assemble, print_program, propose, tokens

R = random.Random()
NAME_BYTES = re.compile(r"[A-Za-z0-9_]")
LONGEST = 4_194_304


def pieces(line):
    """The tokens of a line with the places at which they begin and end."""
    found, at = [], 0
    while at < len(line):
        match = TOK.match(line, at)
        if match.lastgroup not in ("ws", "comment"):
            found.append((match.group(), match.start(), match.end()))
        at = match.end()
    return found


def own(line):
    """The tokens of the statement of a line."""
    found = pieces(line)
    while len(found) >= 2 and found[1][0] == ":":
        found = found[2:]
    return found


def spelled(create):
    return ",".join(f"${r}" for r in sorted(create)) or "-"


def with_forward(line, found, wanted):
    """A line whose instruction carries a forward bit or none."""
    marks = [token for token in found if token[0].startswith("!")]
    now = [token for token in marks if token[0] == "!f"]
    if wanted and not now:
        end = found[len(found) - len(marks) - 1][2]
        return line[:end] + " !f" + line[end:]
    if now and not wanted:
        begin = found[found.index(now[0]) - 1][2]
        return line[:begin] + line[now[0][2]:]
    return line


def with_create(line, found, now, wanted):
    """A line whose task has a create mask."""
    if now == wanted:
        return line
    second = [k for k, token in enumerate(found) if token[0] == "="][1]
    begin, end = found[3][2], found[second - 2][2]
    touches = " " if NAME_BYTES.match(line[end:]) else ""
    return line[:begin] + spelled(wanted) + touches + line[end:]


def marked(text):
    """The text with the marks that the model proposes."""
    program = assemble(text.encode("latin-1"))
    proposed = propose(program)
    code, tasks, lines = 0, 0, []
    for line in text.split("\n"):
        found = own(line.removesuffix("\r"))
        head = found[0][0] if found else "."
        if head == ".task":
            line = with_create(line, found, program.tasks[tasks][2], proposed.tasks[tasks][2])
            tasks += 1
        elif not head.startswith("."):
            code += explain.instructions(head, [(0, token) for token, _, _ in found])
            line = with_forward(line, found, proposed.code[code - 1][1])
        lines.append(line)
    return "\n".join(lines)


def unmarked(text):
    """The text without its `!f` and its create masks."""
    lines = []
    for line in text.split("\n"):
        found = own(line.removesuffix("\r"))
        if found and found[0][0] == ".task":
            second = [k for k, token in enumerate(found) if token[0] == "="][1]
            rest = line[found[second - 2][2]:]
            line = line[:found[3][2]] + (rest if rest.startswith((" ", "\t")) else " " + rest)
        else:
            for token, begin, end in reversed(found):
                if token == "!f":
                    line = line[:begin].rstrip(" \t") + line[end:]
        lines.append(line)
    return "\n".join(lines)


def gap(left, right):
    """What stands between two tokens."""
    needed = NAME_BYTES.match(right) and not re.fullmatch(r"[,():=]", left) and not (left == "-" and not right[0].isdigit())
    return R.choice([" ", " ", "  ", "\t"] + ([] if needed else ["", "", "", ""]))


def joined(words):
    line = words[0]
    for left, right in zip(words, words[1:]):
        line += gap(left, right) + right
    return line


def respelled(words):
    """A statement with other names of its registers, and its marks in either order."""
    words = [programs.reg(int(w[1:])) if re.fullmatch(r"\$\d+", w) else w for w in words]
    marks = [w for w in words if w.startswith("!")]
    if len(marks) == 2 and R.random() < .5:
        words = [w for w in words if not w.startswith("!")] + marks[::-1]
    return words


PAIR = re.compile(r"lui (\$\d+),(\d+)\nori \1,\1,(\d+)((?: ![a-z]+)*)\n")


def loaded(match):
    """`li` in place of two instructions, where it stands for two."""
    high, low = int(match.group(2)), int(match.group(3))
    if high == 0 or (high == 0xFFFF and low >= 0x8000) or R.random() < .2:
        return match.group(0)
    return f"li {match.group(1)},{high << 16 | low}{match.group(4)}\n"


def laid_out(text):
    """The program in another layout."""
    lines, held = [], ""
    for line in PAIR.sub(loaded, text).split("\n")[:-1]:
        words = [token for token, _, _ in pieces(line)]
        if not words:
            continue
        if words[-1] == ":" and R.random() < .6:
            held += joined(words) + R.choice(["", " ", "\t"])
            continue
        if R.random() < .1:
            lines.append(R.choice(["", "# !f", "   ", "\t# .task A create=$8 targets=-"]))
        tail = R.choice(["", "", "", "  # so !f", " ", "#!f", "\t"])
        lines.append(R.choice(["", "", "  ", "\t"]) + held + joined(respelled(words)) + tail)
        held = ""
    end = R.choice(["\n", "\n", "\r\n", None])
    lines += [held] if held else []
    ends = [end or R.choice(["\n", "\r\n"]) for _ in lines]
    if R.random() < .2:
        ends[-1] = R.choice(["", "\r"])
    return "".join(line + end for line, end in zip(lines, ends))


class Bench:
    def __init__(self, program):
        self.program = os.path.abspath(program)
        self.folder = tempfile.mkdtemp(prefix="marks")
        self.counts = collections.Counter()

    def call(self, text, *words):
        with open(os.path.join(self.folder, "p.s"), "wb") as file:
            file.write(text.encode("latin-1"))
        run = subprocess.run([self.program, *words, "p.s"], cwd=self.folder, capture_output=True)
        return run.stdout.decode("latin-1"), run.returncode, run.stderr.decode("latin-1")

    def wrong(self, text):
        """What is wrong with what is printed of a text; None where nothing is."""
        said, status, complaint = self.call(text, "annotate", "--emit", "marks")
        try:
            assemble(text.encode("latin-1"))
        except Fault as fault:
            self.counts["refused texts"] += 1
            return None if (said, status, complaint) == (fault.text(), 1, "") else "a refused text"
        wanted = marked(text)
        self.counts["programs"] += 1
        self.counts["changed lines"] += sum(a != b for a, b in zip(text.split("\n"), wanted.split("\n")))
        if (said, status, complaint) != (wanted, 0, ""):
            return "the text"
        if unmarked(said) != unmarked(text):
            return "a byte outside the marks"
        if self.call(said, "print") != self.call(text, "annotate", "--emit", "text"):
            return "the program"
        if self.call(said, "annotate", "--emit", "marks") != (said, 0, ""):
            return "the marks of the marked text"
        return None

    def too_long(self):
        """A text of the greatest length that gains a byte is refused; one that loses one is not."""
        front = ".task A create=- targets=A\nA: j A !s\nB: lui $8,1"
        for text, status in (
                (front + "\n", 0), (front.replace("create=-", "create=$8") + "\n", 0),
                (".task A create=- targets=A\nA: lui $8,1\nj A !s\n", 1), (".task A create=$8 targets=A\nA: lui $8,1 !f\nj A !s\n", 0)):
            long = text + "#" * (LONGEST - len(text))
            said, got, complaint = self.call(long, "annotate", "--emit", "marks")
            if (got, complaint) != (status, "") or (status == 1) != (said == "marks refused: 1 TooLong\n"):
                return f"a text at the limit: {text}"
        return None


def main():
    options = argparse.ArgumentParser(description=__doc__, formatter_class=argparse.RawDescriptionHelpFormatter)
    options.add_argument("program", metavar="PROGRAM")
    options.add_argument("--seconds", type=float, default=60)
    options.add_argument("--seed", type=int, default=int(time.time()))
    given = options.parse_args()
    for source in (R, generator.R, explain.R, programs.R):
        source.seed(given.seed)
    bench, end = Bench(given.program), time.time() + given.seconds
    what = bench.too_long()
    if what:
        sys.exit(what)
    while time.time() < end:
        text = laid_out(explain.plant(print_program(accepted()[0])))
        what = bench.wrong(text)
        if what:
            print(f"seed {given.seed}: {what}\n{text}\n{bench.call(text, 'annotate', '--emit', 'marks')[0]}")
            sys.exit(1)
    print(", ".join(f"{n} {what}" for what, n in bench.counts.items()), f"seed {given.seed}")


if __name__ == "__main__":
    main()
