#!/usr/bin/env python3
"""Draws hostile runs: command lines, broken texts, strange names, and files of all states that are to take a result.

    draws.py PROGRAM [--runs N | --minutes M] [--seed N] [--lanes N] [--only KIND]

Four kinds. `command lines`: right and wrong words of each subcommand, and right and wrong texts, beside the model, as hostile.py
compares its cases. `broken texts`: programs, certificates and scripts with noise, long lines, control bytes, or of nothing but these;
beside the model. `strange names`: files, folders and links whose names steer terminals, end lines or mean something to a shell; the
answer must be that for another name, but for the name. `files for results`: what `-o` names is new, old, a link, a folder, a device or
another's, or files are left over, disks are full, streams closed, calls fail or a signal comes; the file then holds the result, whole,
or is as it was, and nothing else has changed. All runs must end with a status 0 to 3, within the time of hostile.py, and write
nothing that steers a terminal.

Each difference is told with the seed and the draw by which it came; `--draw SEED NUMBER` makes that one again. The last line of a
kind counts its draws; one may be several runs. What differs is told, and the script ends with status 1. Needs python3, cc and bash; as root it
also acts as nobody. It is no part of the tests.
"""
import argparse
import collections
import concurrent.futures
import errno
import html
import json
import os
import pathlib
import random
import re
import resource
import shutil
import signal
import stat
import subprocess
import sys
import tempfile
import time
import traceback
import urllib.parse

import ending
import faults
from hostile import (CHOICES, FILES, FLAGS, NO_PLACES, NUMBERS, OPTIONS, PREDICTS, STEERING, VALUES, Runner, explain, is_refusal, judged, seeds,
                     slow_alone)
from model import Steps, assemble, run_text

# A program for the call after one that was ended.
EXAMPLE = str(faults.TOP / "examples" / "count" / "program.s")

# What a text may be made of that is no program's.
PIECES = [b"\0", b"\r", b"\r\n", b"\x1b[31m", b"\x1b]0;x\x07", b"\x9b2J", b"\xc2\x9b", "\u202e".encode(), "\u2066".encode(), "\ufeff".encode(), "\u2028".encode(), b"\xff\xfe", b"\xed\xa0\x80",
          b"\t", b" ", b"#", b":", b",", b"$", b"$34", b"@", b"@4097", b"!f", b"!s", b"!st", b"\n", b"\n\n", b"'", b"\"", b"\\", b"&#27;", b"</text>", b"--", "\u00e9".encode(),
          "\U0001d4b3".encode(), b"A" * 40, b"9" * 30, b"0x", b"-", b"=", b"[0x10010000]=5", b"sends $8=1", b"ends halted", b"stops 4194304", b"cert 2", b"task A", b"assign T0", b"exec 0",
          b".data", b".task", b".start", b"halt", b"li $8,-1", b"step 1", b"program refused: 3 Token line 1\n", b"p:1:1: error: x [rule 5]\n"]


def noisy(draw, text):
    """A text with a few changes that leave little of what it was, or much."""
    text = bytearray(text)
    for _ in range(draw.choice([1, 1, 1, 2, 3, 10])):
        at, kind = draw.randrange(len(text) + 1), draw.randrange(8)
        end = min(len(text), at + draw.choice([1, 1, 4, 40, 400]))
        if kind <= 2:
            text[at:at] = draw.choice(PIECES)
        elif kind == 3:
            text[at:at + 1] = bytes([draw.randrange(256)])
        elif kind == 4:
            del text[at:end]
        elif kind == 5:
            text[at:at] = text[at:end] * draw.choice([1, 1, 2, 50])
        elif kind == 6:
            text[at:at] = draw.choice(PIECES) * draw.choice([30, 300, 3000])
        else:
            text[at:end] = draw.choice(PIECES)
    return bytes(text[:60000])


class Pool:
    """Small programs that end soon, with a certificate and a script, and others whose marks are wrong or that are none; they are made anew again and again."""

    def __init__(self, seed):
        self.draw, self.made = random.Random(seed), []
        seeds.R.seed(seed)
        explain.R.seed(seed)

    def ending(self):
        while True:
            program, lists = seeds.accepted(self.draw.choice([3, 5, 8]))
            text = seeds.print_program(program).encode("latin-1")
            if run_text(text, seeds.cert_text(lists, program, 2).encode(), 200)[1] != 3:
                break
        units = seeds.R.choice([1, 2, 4])
        valued = seeds.R.random() < 0.5
        script = Steps(assemble(text), units, 40).script().encode() if valued else "\n".join(seeds.events_for(seeds.Machine(program, units), seeds.R.choice([5, 30]))).encode()
        return {"p": text, "c": seeds.cert_text(lists, program, 2).encode(), "s": script}

    def texts(self, is_right=False):
        """Three texts; `is_right` asks for marks that are right."""
        if len(self.made) < 40 or self.draw.random() < 0.1:
            self.made = [*self.made[-80:], self.ending()]
        texts, kind = dict(self.draw.choice(self.made)), self.draw.randrange(6)
        if kind == 0 and not is_right:
            texts["p"] = explain.plant(texts["p"].decode("latin-1")).encode("latin-1")
        elif kind == 1 and not is_right:
            texts["p"] = seeds.program().encode("latin-1", "replace")
        return texts


def value_of(draw, name, key):
    """A value of an option, which may be a wrong one."""
    if draw.random() < 0.07:
        return draw.choice(["", "0", "-1", "17", "1000001", "x", "-", "--", "+3", "007", "first", "1,,2", "16", "\x1b[2J", "a\nb", "\u202e", "99999999999999999999", "svg "])
    if key in NUMBERS:
        return str(draw.choice([1, 2, 3, 4, 16]) if NUMBERS[key] == 16 else draw.choice([1, 7, 60, 400]))
    if key == "emit":
        return draw.choice(CHOICES.get(name, ("svg",)))
    if key in VALUES:
        return draw.choice(VALUES[key])
    return draw.choice({"predict": PREDICTS, "output": ("z", "z", "./z", "p", "c", "-", "z\x1b[2J\n", *NO_PLACES), "certificate": ("c", "c", "s", "-", "missing"), "script": ("s", "s", "c")}.get(key, ("x",)))


def command_line(draw, pool):
    """Words that may be right or wrong, and texts."""
    name = draw.choice([*FILES] * 4 + ["help", "--help", "-V", "", "sequ", "\x1b[2J", "-x", "--"])
    keys = draw.sample([*OPTIONS.get(name, ("units",)), "output"], draw.choice([0, 1, 2, 2, 3]) if name in OPTIONS and len(OPTIONS[name]) > 2 else draw.randrange(2))
    keys = {*keys, *({"least"} if "least" in OPTIONS.get(name, ()) and draw.random() < 0.5 else ()), *({"budget"} if "budget" in OPTIONS.get(name, ()) else ())}
    if draw.random() < 0.05:
        keys.add(draw.choice([*NUMBERS, *FLAGS, *VALUES, "bud", "certificate"]))
    most = FILES.get(name, (1, 1))[1] - ("least" in keys)
    files = [[it] for it in "pcs"[:most]] if "least" not in keys or name != "replay" else [["p"], ["s"]]
    if draw.random() < 0.15:
        files = [[draw.choice(["p", "c", "s", "-", "missing", "", "./p", "p\n", "\x9b"])] for _ in range(draw.choice([0, 1, 2, 3, 5]))]
    for key in sorted(keys):
        value = value_of(draw, name, key)
        words = [f"--{key}"] if key in FLAGS else draw.choice([[f"--{key}={value}"], [f"--{key}", value]])
        if key == "output" and draw.random() < 0.5:
            words = draw.choice([[f"-o{value}"], ["-o", value], [f"-o={value}"]])
        files.insert(draw.randrange(len(files) + 1), words)
    words = [name, *(word for some in files for word in some)]
    if draw.random() < 0.06:
        at = draw.randrange(len(words))
        words[at:at + draw.randrange(2)] = draw.choice([["--"], ["-h"], ["--help"], [], [words[at]] * 2, ["\u2066\x07"], ["-"]])
    words = [word.encode() for word in words]
    if draw.random() < 0.03:
        words[-1] = noisy(draw, words[-1]).replace(b"\0", b"")[:200]
    return words, pool.texts()


def looks(draw, text):
    """Words that have something judge a text that stands in this place."""
    wide = ["--units", str(draw.choice([1, 2, 4])), "--budget", "60"]
    told = ["explain", "--format", draw.choice(VALUES["format"]), *draw.choice([[], ["--no-warnings"]])]
    if text == "c":
        return draw.choice([["check", "--workers", str(draw.choice([1, 3])), "p", "c"], [*told, "--certificate", "c", "p"], ["run", "--schedule", "steps", *wide, "p", "c"], ["replay", "p", "c", "s"]])
    if text == "s":
        return draw.choice([["replay", "--least", "--emit", draw.choice(CHOICES["replay"]), "p", "s"], ["replay", "--least", "--strict", *draw.choice(([], ["--complete"], ["--format", "json"])), "p", "s"], [*told, "--script", "s", "p"]])
    return draw.choice([["seq", "--budget", "60", "p"], ["print", "p"], ["annotate", "--emit", draw.choice(CHOICES["annotate"]), "p"], told + ["p"], ["explain", "p", "p"],
                        ["check", "--least", "p"], ["check", "--least", "p", "missing", "-"], ["run", "--least", "--schedule", "steps", *wide, "--emit", draw.choice(CHOICES["run"]), "p"],
                        ["curve", "--least", *wide, "p"], ["demonstrate", "--units", "2", "--steps", "100", "p"], ["replay", "--least", "p", "s"], ["annotate", "--report", "p"]])


def hostile_text(draw, pool):
    """Words, and texts of which one is broken in some way."""
    place, texts = draw.choice("pppcs"), pool.texts()
    kind = draw.randrange(8)
    if kind == 0:
        texts[place] = bytes(draw.randrange(256) for _ in range(draw.choice([0, 1, 3, 30, 300])))
    elif kind == 1 and place == "p":
        texts[place] = draw.choice(CORNERS).encode("latin-1")
    elif kind == 2:
        texts[place] = b"\n".join(draw.choice(PIECES) for _ in range(draw.choice([1, 5, 50])))
    elif kind == 3 and place == "s":
        texts[place] = "".join(f"{line} : {draw.choice(['$8=1', 'sends $9=0', 'out=3', 'ends halted', '$8 = 0x1, $9=2', 'stops 0x400000', '[0x10010000]=0'])}\n"
                               for line in texts["s"].decode().splitlines()).encode()
    else:
        texts[place] = noisy(draw, texts[place])
    return [word.encode() for word in looks(draw, place)], texts


CORNERS = seeds.corners()


# Parts of names of files.
NAME_PARTS = ["a", ".s", " ", "\n", "\r", "\t", "\x1b[2J", "\x1b]0;x\x07", "\x7f", "\x9b2J", "\u202e", "\u2066", "\u200b", "\ufeff", "\u2028", "\u00e9", "\U0001d4b3", "'", "\"", "$(x)", "`x`",
              "&amp;", "<b>", "\\", "%41", "#", "?", "*", "~", ":1:1: error: x [rule 5]", "-", "=", ",", ";", "|", "\n::error::", "\n2 programs: 2 right, 0 wrong, 0 not judged\n"]
WIDE = ["--units", "2", "--budget", "60"]
# What is at the name N, and calls with it: a file with the program, the certificate or the script; nothing; a folder; a link.
NAMING = {
    "file": [["check", "--least", "N", "p"], ["explain", "N"], ["explain", "N", "p"], ["explain", "--no-warnings", "N"], ["explain", "--format", "json", "N"], ["explain", "--format", "sarif", "N"],
             ["annotate", "--report", "N"], ["curve", "--progress", "--least", *WIDE, "N"], ["curve", "--emit", "svg", "--least", *WIDE, "N"], ["explain", "--color", "always", "N"], ["explain", "p", "N", "c"],
             *(["run", "--least", "--schedule", "steps", *WIDE, "--emit", it, "N"] for it in ("svg", "json", "perfetto", "vcd", "waits")), ["replay", "--least", "--emit", "svg", "N", "s"],
             ["replay", "--least", "--emit", "json", "N", "s"], ["demonstrate", "N"], ["demonstrate", "--emit", "svg", "N"], ["print", "N"], ["seq", "-o", "N", "p"]],
    "certificate": [["explain", "--certificate", "N", "p"], ["explain", "--format", "json", "--certificate", "N", "p"], ["explain", "--format", "sarif", "--certificate", "N", "p"], ["check", "p", "N"], ["explain", "p", "N"]],
    "script": [["explain", "--script", "N", "p"], ["explain", "--format", "sarif", "--script", "N", "p"], ["replay", "--least", "p", "N"], ["explain", "N"]],
    "nothing": [["seq", "N"], ["explain", "N"], ["check", "N", "c"], ["check", "p", "N"], ["replay", "--least", "p", "N"], ["explain", "--script", "N", "p"], ["check", "--least", "p", "N"], ["seq", "-o", "N/b", "p"],
                ["seq", "--N", "p"], ["seq", "--N=1", "p"], ["seq", "p", "N"], ["run", "--least", "--emit", "N", "p"], ["annotate", "--emit", "N", "p"], ["run", "--least", "--predict", "N", "p"], ["N"],
                ["curve", "--least", "--predict", "N", "p"], ["seq", "--budget", "N", "p"], ["help", "N"], ["help", "seq", "N"], ["explain", "--color=N", "p"], ["explain", "--format=N", "p"]],
    "folder": [["explain", "N"], ["check", "--least", "N"], ["print", "N"], ["seq", "-o", "N", "p"], ["explain", "--certificate", "N", "p"]],
    "link": [["seq", "-o", "L", "p"], ["annotate", "--in-place", "L"], ["explain", "L"]],
}


def shown(name):
    """A name as lines for people have it: bytes that are no printable text as `\\x` and two digits; those above 127 are, unless they spell what steers."""
    readable = not STEERING.search(re.sub("[\0-\x7f]", "", name))
    return b"".join(bytes([b]) if 32 <= b <= 126 or b >= 128 and readable else b"\\x%02x" % b for b in name.encode()).decode()


def titled(name):
    """A name as pictures have it, in ASCII and of at most 60 bytes."""
    data = name.encode()
    ascii_name = "".join(chr(b) if 32 <= b <= 126 else f"\\x{b:02x}" for b in data[:60]) + (".." if len(data) > 60 else "")
    return html.escape(ascii_name, quote=False).replace("\"", "&quot;")


# A name in a command that is proposed, and what stands before it.
PROPOSED = re.compile(r"(multiscalar demonstrate |annotate --emit keep | > |explain PROGRAM --certificate )((?:\$'(?:[^'\\\n]|\\.)*'|'[^'\n]*'|\\'|[A-Za-z0-9%+,./:@_-])+)")


def of_shell(word):
    """What a shell makes of a word."""
    if re.fullmatch(r"[A-Za-z0-9%+,./:@_-]+", word):
        return word
    return subprocess.run(["bash", "-c", f"printf %s. {word}"], capture_output=True).stdout.decode("utf-8", "replace")[:-1]


def unnamed(text, name):
    """An answer in which a name stands as QQ wherever it is shown; in a command a shell must read it as it is. Of JSON the values are taken."""
    if text.startswith("{"):
        return [unnamed_value(json.loads(line), name) for line in text.splitlines()]
    text = PROPOSED.sub(lambda it: it[1] + (shown(name) if of_shell(it[2]) == name else it[2]), text)
    for form in sorted({shown(name), titled(name), name}, key=len, reverse=True):
        text = text.replace(form, "QQ")
    return text


def unnamed_value(value, name):
    if isinstance(value, dict):
        return {key: unnamed(urllib.parse.unquote(it), name) if key == "uri" else unnamed_value(it, name) for key, it in value.items() if key != "partialFingerprints"}
    return [unnamed_value(it, name) for it in value] if isinstance(value, list) else unnamed(value, name) if isinstance(value, str) else value


def of_name(runner, words, texts, kind, name):
    """The answer of a call with what is said to be at a name: the status, the streams, and what is in the file then."""
    runner.clear(texts)
    at = runner.folder / name
    if kind == "folder":
        at.mkdir()
    elif kind != "nothing":
        at.write_bytes(texts[{"certificate": "c", "script": "s"}.get(kind, "p")])
    if kind == "link":
        (runner.folder / "L").symlink_to(name)
    status, out, told = runner([it.replace("N", name) if re.match("(--.*)?N", it) else it for it in words], {})
    return status, *(it.decode("utf-8", "surrogateescape") for it in (out, told)), at.read_bytes() if at.is_file() else b""


def strange_name(runner, draw, pool):
    """A strange name: the answer is that for another name, but for the name; nothing of it steers a terminal or ends a line, and a command that is proposed has it."""
    name = "Q7z" + "".join(draw.choice(NAME_PARTS) for _ in range(draw.choice([1, 2, 3, 6, 20])))[:60]
    kind, texts = draw.choice([*NAMING, "file", "file", "nothing"]), pool.texts()
    words = draw.choice(NAMING[kind])
    if any(it.startswith("--N") for it in words):
        name = name.replace("=", "")  # it would end there
    if draw.random() < 0.2:
        texts["p"] = noisy(draw, texts["p"])
    here, plain = (of_name(runner, words, texts, kind, it) for it in (name, "QQ"))
    said = here[1] + here[2]
    found = STEERING.search(re.sub(r"\x1b\[[0-9;]*m", "", said) if "--color" in words else said)
    seen, call = f"a strange name of {'a ' * (kind != 'nothing') + kind}: status {here[0]}", f"{words}, {name!r}, {texts['p'][:300]!r}"
    if found:
        return seen, f"{call}: {found.group()!r} in {said[max(0, found.start() - 80):found.end() + 20]!r}"
    if here[0] not in (0, 1, 2, 3):
        return seen, f"{call}: status {here[0]}"
    first, second = ((it[0], unnamed(it[1], one), unnamed(it[2], one), it[3]) for it, one in ((here, name), (plain, "QQ")))
    return seen, None if first == second else f"{call}: {first_difference(str(first), str(second))}"


def first_difference(one, two):
    at = next((k for k, (a, b) in enumerate(zip(one, two)) if a != b), min(len(one), len(two)))
    return f"{one[max(0, at - 90):at + 90]!r} in place of {two[max(0, at - 90):at + 90]!r}"


NOBODY = 65534
UMASK = os.umask(0o022)
os.umask(UMASK)


def as_nobody():
    os.setgroups([])
    os.setgid(NOBODY)
    os.setuid(NOBODY)


def limited(kind, most):
    return lambda: resource.setrlimit(kind, (most, most))


def leaving(folder, count, how):
    """Before the program begins, files are there of the names that it tries first: its number is that of the process that makes them."""
    def leave():
        for k in range(count):
            path = f"{folder}/b.{os.getpid() + k}.new"
            os.mkdir(path) if how == "folder" else os.symlink("p", path) if how == "link" else os.close(os.open(path, os.O_CREAT | os.O_WRONLY, 0o600))
    return leave


def old(folder, draw):
    (folder / "b").write_bytes(b"old\n" * draw.choice([0, 1, 9999]))
    os.chmod(folder / "b", draw.choice([0o644, 0o600, 0o444, 0o755, 0o4755, 0o000]))
    return "b"


def there(folder, how):
    """Makes what is at the name b."""
    how(folder / "b")
    return "b"


def fails(draw, kind, first, *hows, size=None):
    """From some call of a kind on each fails in one way; writes take so many bytes."""
    how, value = draw.choice(hows)
    return [faults.fault(kind, draw.randrange(1, first + 1), faults.EVERY, how, value), *([faults.fault(faults.WRITE, 1, faults.EVERY, "s", size)] if size else [])]


def as_folder(folder, mode, state):
    os.chmod(folder, mode)
    return state


# The state of the file that is to take a result: its name; whether it takes it (None: it may); what happens before the program begins; the
# calls that fail; the streams that are closed. Each gets the folder, the source of draws and the size of the result.
STATES = {
    "a new file": lambda f, d, n: ("b", True),
    "an old file": lambda f, d, n: (old(f, d), True),
    "the program itself": lambda f, d, n: ("p", True),
    "a hard link": lambda f, d, n: (there(f, lambda it: os.link(f / "p", it)), True),
    "a path": lambda f, d, n: (d.choice(["./b", "x/../b", str(f / "b"), ".//b", "x/b"]), True),
    "a long name": lambda f, d, n: ("n" * d.choice([200, 230]), True),
    "a name that is too long": lambda f, d, n: ("n" * d.choice([250, 255, 256, 5000]), False),
    "a link": lambda f, d, n: (there(f, lambda it: it.symlink_to(d.choice(["p", "x", "nothing", "b", "/dev/null", "/proc/self/fd/1"]))), False),
    "a folder": lambda f, d, n: (d.choice(["x", ".", "..", "x/", "x/.", "/"]), False),
    "a pipe": lambda f, d, n: (there(f, os.mkfifo), False),
    "a device": lambda f, d, n: (d.choice(["/dev/null", "/dev/full", "/dev/stdout", "/proc/self/fd/1"]), False),
    "no folder": lambda f, d, n: (d.choice(["y/b", "p/b", "b/", "", "y/../b", "p/"]), False),
    "files left over": lambda f, d, n: ("b", True, leaving(f, d.choice([1, 2, 20, 63]), d.choice(["file", "file", "folder", "link"]))),
    "too many files left over": lambda f, d, n: ("b", False, leaving(f, 64, d.choice(["file", "folder", "link"]))),
    "a limit that suffices": lambda f, d, n: (d.choice(["b", old(f, d)]), True, limited(resource.RLIMIT_FSIZE, d.choice([n, n + 1, 2 * n]))),
    "a limit on the size of files": lambda f, d, n: (d.choice(["b", old(f, d)]), n == 0, limited(resource.RLIMIT_FSIZE, d.choice([0, max(n - 1, 0), d.randrange(max(n, 1))]))),
    "few open files": lambda f, d, n: (old(f, d), None, limited(resource.RLIMIT_NOFILE, d.randrange(4, 12))),
    "little memory": lambda f, d, n: (old(f, d), None, limited(resource.RLIMIT_AS, d.randrange(9000, 60000) * 1024), ["STACK"]),
    "a small stack": lambda f, d, n: (old(f, d), True, limited(resource.RLIMIT_STACK, 300 * 1024)),
    "closed streams": lambda f, d, n: (lambda it: (d.choice(["b", old(f, d)]), True, lambda: [os.close(one) for one in it], [], it))(d.choice([[0], [1], [2], [0, 1], [1, 2], [0, 2], [0, 1, 2]])),
    "writes that fail": lambda f, d, n: (old(f, d), None, None, fails(d, faults.WRITE, 3, ("e", errno.ENOSPC), ("e", errno.EIO), ("e", errno.EDQUOT), ("z", 0), size=10)),
    "short and interrupted writes": lambda f, d, n: (old(f, d), True, None, [faults.fault(faults.WRITE, 1, faults.EVERY, "e", errno.EINTR, 2, d.randrange(99)), faults.fault(faults.WRITE, 1, faults.EVERY, "s", d.choice([1, 7, 100]))]),
    "opens that fail": lambda f, d, n: (old(f, d), None, None, fails(d, faults.OPEN, 5, ("e", errno.EMFILE), ("e", errno.EACCES), ("e", errno.EROFS), ("e", errno.ENOSPC), ("e", errno.EIO))),
    "a state that is not told": lambda f, d, n: (old(f, d), None, None, fails(d, faults.SIZE, 4, ("e", errno.EACCES), ("e", errno.EIO), ("e", errno.ELOOP), ("p", 0), ("l", 1 << 60))),
    "a signal": lambda f, d, n: (old(f, d), None, None, fails(d, d.choice([faults.WRITE, faults.OPEN]), 4, *(("k", it) for it in (signal.SIGINT, signal.SIGTERM, signal.SIGKILL, signal.SIGHUP)), size=10)),
    "the folder of another": lambda f, d, n: as_folder(f, 0o755, (d.choice(["b", old(f, d)]), False, as_nobody)),
    "the file of another": lambda f, d, n: as_folder(f, d.choice([0o777, 0o1777]), (old(f, d), False, as_nobody)),
    "a folder for all": lambda f, d, n: as_folder(f, d.choice([0o777, 0o1777]), ("b", True, as_nobody)),
}
# What is written.
RESULTS = [["print", "p"], ["seq", "--budget", "200", "p"], ["annotate", "p"], ["annotate", "--emit", "keep", "p"], ["annotate", "--emit", "marks", "--report", "p"], ["explain", "p"],
           ["explain", "--format", "sarif", "p"], ["explain", "--format", "json", "p"], ["check", "--least", "p"], ["check", "p", "c"], ["replay", "--least", "p", "s"], ["replay", "--strict", "--least", "p", "s"],
           ["curve", "--least", "--progress", *WIDE, "p"], ["demonstrate", "--units", "2", "--steps", "100", "p"], *(["run", "--least", "--schedule", "steps", *WIDE, "--emit", it, "p"] for it in ("report", "svg", "json", "vcd"))]


def listed(folder):
    """What stands in a folder and in its folder x: kind, mode, owner, number and bytes."""
    every = {}
    for it in sorted([*folder.iterdir(), *(folder / "x").iterdir()]):
        about = it.lstat()
        every[str(it)] = stat.S_IFMT(about.st_mode), stat.S_IMODE(about.st_mode), (about.st_uid, about.st_gid), about.st_ino if it != folder / "x" else 0, it.read_bytes() if stat.S_ISREG(about.st_mode) else b""
    return every


def in_folder(runner, words, folder, before=None, failing=()):
    """A call in a folder."""
    bench, runner.calls = runner.bench, runner.calls + 1
    if not failing:
        done = ending.run([bench.program, *words], cwd=folder, stdin=subprocess.DEVNULL, capture_output=True, preexec_fn=before)
        return done.returncode, done.stdout, done.stderr
    where, bench.where = bench.where, folder
    ended = bench.run(words, *(it for it in failing if it != "STACK"), limit=before, **({"STACK": "262144"} if "STACK" in failing else {}))
    bench.where = where
    return ended[:3]


def result_file(runner, draw, pool):
    """A result goes into a file of some state, whole, or not at all; nothing else in its folder changes, and nothing that is left blocks a later call."""
    state, texts, words = draw.choice([*STATES][:None if os.geteuid() == 0 else -3]), pool.texts(), draw.choice(RESULTS)
    if draw.random() < 0.1:
        texts["p"] = noisy(draw, texts["p"])
    runner.write(texts)
    right, folder = runner(words, {}), runner.bench.folder / "work"
    shutil.rmtree(folder, ignore_errors=True)
    (folder / "x").mkdir(parents=True)
    for name, text in texts.items():
        (folder / name).write_bytes(text)
    target, takes, *more = STATES[state](folder, draw, len(right[1]))
    before, failing, closed = (*more, *[None, [], []][len(more):])
    had = listed(folder)
    answer = in_folder(runner, [*words, "-o", target], folder, before, failing)
    wrong = file_fault(words[0], os.path.normpath(folder / target), takes, closed, had, listed(folder), answer, right, state)
    if not wrong and (answer[0] < 0 or draw.random() < 0.2) and (folder / "b").is_file() and not (folder / "b").is_symlink():
        again = in_folder(runner, ["seq", "--budget", "9", "-o", "b", EXAMPLE], folder)
        wrong = "" if again[0] in (0, 3) and not again[2] else f"a later call: {again}"
    return f"{state}: status {'of a signal' if answer[0] < 0 else answer[0]}", wrong and f"{words}, {texts['p'][:300]!r}, {state}, {target[:50]!r}, {failing}: {wrong}"


def file_fault(name, path, takes, closed, had, has, answer, right, state):
    """What is wrong with the files of a folder after a call, or with its answer beside the one without a file for the result."""
    (status, out, told), changed = answer, {it for it in {*had, *has} if had.get(it) != has.get(it)}
    if state.endswith("left over"):
        changed -= {it for it in has if it not in had and it.endswith(".new")}
    is_result = not is_refusal(name, right[1])
    # a refusal goes to standard output, where a call that fails cuts it
    is_begun = not out or not is_result and right[1].startswith(out)
    is_whole = path in has and has[path][0] == stat.S_IFREG and has[path][4] == right[1]
    if status is None or status > 3 or status < 0 and state != "a signal":
        return f"status {status}, {told[:200]!r}"
    if status < 0:
        return "" if all(it == path and is_whole or it not in had and it.endswith(".new") for it in changed) and is_begun else f"written {out[:60]!r}, files {changed} after a signal"
    if STEERING.search((b"" if name == "annotate" else out).decode("utf-8", "surrogateescape") + told.decode("utf-8", "surrogateescape")):
        return f"a byte that steers: {told!r}"
    if status == 2 and (takes is None or takes is False and is_result or 1 in closed and not is_result and right[1]):
        lines = told.splitlines()
        is_told = 2 in closed or lines and lines[-1].startswith(b"multiscalar: ") and (len(lines) == 1 or right[2])
        return "" if is_told and is_begun and not changed else f"told {told!r}, written {out[:60]!r}, changed {changed}"
    if takes is False and is_result or status != right[0] or told != (b"" if 2 in closed else right[2]):
        return f"status {status} where it is {right[0]}, told {told[:200]!r}"
    if not is_result:
        return "" if not changed and out == (b"" if 1 in closed else right[1]) else f"changed {changed}, written {out[:60]!r} of a refusal"
    mode, owner = (had[path][1] & 0o777, had[path][2]) if path in had else (0o666 & ~UMASK, (NOBODY, NOBODY) if state == "a folder for all" else (os.getuid(), os.getgid()))
    if out or changed != {path} or not is_whole or has[path][1:3] != (mode, owner):
        return f"changed {changed}, whole: {is_whole}, mode {has.get(path, (0, 0))[1]:o}, written {out[:60]!r}"
    return ""


def beside_model(make):
    """A kind of run: words and texts that are drawn, beside the model."""
    return lambda runner, draw, pool: judged(runner, *make(draw, pool))


# Shares of the runs, and the kinds.
KINDS = {"command lines": (3, beside_model(command_line)), "broken texts": (5, beside_model(hostile_text)), "strange names": (3, strange_name), "files for results": (2, result_file)}


def draw_some(program, seed, runs, end, only=""):
    """So many draws of all kinds, or as many as there is time for: the answers by kind, the differences, and the slow ones. All comes from the seed."""
    draw, pool, answers, differences = random.Random(seed), Pool(seed), collections.Counter(), []
    with tempfile.TemporaryDirectory() as name, Runner(program, pathlib.Path(name) / "at") as runner:
        for number in range(runs):
            if time.monotonic() > end or len(differences) >= 20:
                break
            kind = only or draw.choices([*KINDS], [share for share, _ in KINDS.values()])[0]
            try:
                seen, fault = KINDS[kind][1](runner, draw, pool)
            except Exception:
                seen, fault = "the script failed", "; ".join(traceback.format_exc().strip().splitlines()[-3:])
            answers[f"{kind}, {seen}"] += 1
            if fault:
                differences.append(f"seed {seed}, draw {number}, {kind}: {fault}")
        return answers, differences, runner.slow, runner.calls


# How many draws have one seed.
AT_ONCE = 500


def drawn(program, minutes, seed, runs=None, lanes=1, only=""):
    """The row of draws, each of one run of the program or of some: for some minutes, or so many. So many processes make them."""
    end, parts = float("inf") if runs else time.monotonic() + 60 * minutes, -(-runs // AT_ONCE) if runs else 10 ** 6
    answers, differences, slow, calls = collections.Counter(), [], [], 0
    with concurrent.futures.ProcessPoolExecutor(lanes) as pool:
        waiting, numbers = set(), iter(range(parts))
        while True:
            while len(waiting) < lanes and time.monotonic() < end and len(differences) < 100 and (number := next(numbers, None)) is not None:
                waiting.add(pool.submit(draw_some, program, seed * 10 ** 6 + number, min(AT_ONCE, runs - number * AT_ONCE) if runs else AT_ONCE, end, only))
            if not waiting:
                break
            done, waiting = concurrent.futures.wait(waiting, return_when=concurrent.futures.FIRST_COMPLETED)
            for seen, wrong, slower, called in (it.result() for it in done):
                answers, differences, slow, calls = answers + seen, differences + wrong, slow + slower, calls + called
                print(f"{sum(answers.values()):,} draws, {calls:,} runs, {len(differences)} differences", *wrong[:3], file=sys.stderr, sep="\n  ", flush=True)
    differences += slow_alone(program, slow)
    kinds = collections.Counter()
    for it, count in answers.items():
        kinds[it.split(",")[0]] += count
    return f"draws of hostile runs ({', '.join(f'{it}: {count:,}' for it, count in kinds.items())})", calls, dict(answers), differences


def main():
    options = argparse.ArgumentParser(description=__doc__, formatter_class=argparse.RawDescriptionHelpFormatter)
    options.add_argument("program", metavar="PROGRAM", type=os.path.abspath)
    options.add_argument("--minutes", type=float, default=4)
    options.add_argument("--runs", type=int, help="make so many draws, however long that takes")
    options.add_argument("--seed", type=int, default=1)
    options.add_argument("--lanes", type=int, default=1, help="how many processes make them")
    options.add_argument("--only", default="", choices=KINDS)
    options.add_argument("--draw", type=int, nargs=2, metavar=("SEED", "NUMBER"), help="makes one draw again")
    given = options.parse_args()
    if given.draw:
        answers, differences, *_ = draw_some(given.program, given.draw[0], given.draw[1] + 1, float("inf"), given.only)
        print(*answers, *differences, sep="\n")
        sys.exit(1 if differences else 0)
    part, runs, answers, differences = drawn(given.program, given.minutes, given.seed, given.runs, given.lanes, given.only)
    for it, count in sorted(answers.items()):
        print(f"  {it}: {count}")
    for it in differences[:20]:
        print(f"  DIFFERENCE {it[:2000]}")
    print(f"{part}: {runs:,} runs, {len(differences)} differences")
    sys.exit(1 if differences else 0)


if __name__ == "__main__":
    main()
