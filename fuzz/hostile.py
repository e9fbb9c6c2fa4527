#!/usr/bin/env python3
"""Hostile bytes: the program on inputs that a fuzzer kept, and on those that are worst for time.

    hostile.py PROGRAM [--minutes M] [--seed N] [--only WORD] [--kept FOLDERS] [--fuzzer FILE] [--cases N] [--keep FOLDER]

Three parts. `fuzzed`: libFuzzer over the whole program in one process (entry/README.md); it needs the
fuzzer that entry/build.sh makes, named by --fuzzer or HOSTILE_FUZZER, and is left out without one; with --cases it goes on
until it has made so many, however long that takes, and --keep names the folder that keeps what it finds, from which a later call goes on; what it made
before counts. `model`: each case
that the fuzzer kept (--kept or HOSTILE_KEPT) is given to PROGRAM, and bytes and status are compared with model.py, and with
the rules of the command line below; all kept cases are, however long it takes, on all cores. Without kept cases, those of
entry/seeds.py are, until the minutes are over. `time`: inputs that are worst for
time, each at sizes n, 2n and 4n: four times the size may take eight times as long at most, and none more than a
second. Where the answer grows more than the input does, as that of `explain` with its paths, its bytes are the size. Needs python3. It is no part of the tests.
"""
import argparse
import collections
import concurrent.futures
import hashlib
import json
import multiprocessing
import os
import pathlib
import random
import re
import shutil
import subprocess
import sys
import tempfile
import time
import traceback

HERE = pathlib.Path(__file__).resolve().parent
sys.path.insert(0, str(HERE / "entry"))
import costly_marks
import curve
import demonstrate
import explain
import faults
import kanata
import marks
import picture
import sarif
import seeds
import timeline
import waveform
from model import (Fault, ScriptFault, Steps, accepted_program, allowed_script, annotate_text, assemble, certify, check_text, csv_of,
                   least_cert, print_text, replay_text, run_text, script_parse, seq_text, strict_text, traced_run, verdict)

UNITS, BUDGETS = (1, 2, 3, 4, 16), (1, 7, 60, 400, 3000)
EMITS, PREDICTS = ("text", "cert", "keep"), ("first", "last", "1,0", "3,1,2,0,15")
RUN_EMITS = ("report", "script", "summary", "svg")
# The least and the greatest number of files; `--least` stands in the place of one of `check`, `run`, `replay` and `curve`. `explain` and
# `check --least` take any number of programs.
FILES = {"seq": (1, 1), "print": (1, 1), "annotate": (1, 1), "explain": (1, 1), "check": (1, 2), "run": (1, 2), "replay": (2, 3), "curve": (1, 2),
         "demonstrate": (1, 1)}
NUMBERS = {"budget": 1000000, "from": 1000000, "to": 1000000, "units": 16, "workers": 16, "until": 1000000, "steps": 1000000}
# Options that have no value.
FLAGS = ("least", "no-warnings", "fix", "in-place", "report", "strict", "complete", "with-values", "progress")
OPTIONS = {"seq": ("budget",), "print": (), "annotate": ("emit", "in-place", "report"), "explain": ("certificate", "script", "no-warnings", "format", "color", "fix", "in-place"),
           "check": ("least", "workers"), "replay": ("least", "units", "emit", "until", "strict", "complete", "format"), "demonstrate": ("units", "steps", "emit"),
           "run": ("least", "schedule", "units", "workers", "budget", "predict", "emit", "format", "axis", "from", "to", "with-values"),
           "curve": ("least", "units", "budget", "predict", "emit", "format", "progress")}
CHOICES = {"annotate": (*EMITS, "marks"), "replay": ("answers", "summary", "svg", "trace", "json", "perfetto", "state"),
           "run": (*RUN_EMITS, "trace", "json", "perfetto", "waits", "vcd", "kanata"), "curve": ("table", "svg"), "demonstrate": ("events", "svg")}
FORMATS = {"explain": ("text", "sarif", "json"), "replay": ("text", "json", "csv"), "run": ("text", "csv"), "curve": ("text", "csv")}
VALUES = {"schedule": ("threads", "steps"), "color": ("auto", "always", "never"), "axis": ("events", "steps")}
VERSION = "multiscalar 0.1.0 (proved with rattle-kit-13f logic dac8208d650f15bf)\n"
# The first byte of a case picks one of so many jobs, but for its highest bit.
JOBS = 24
# The model goes no further than so many events, and says nothing of longer runs but how they may end.
MODEL_EVENTS = 6000


def parts_of(case):
    """The texts of a case, parted as entry.c parts them."""
    texts, at, rest = [], 0, case
    for _ in range(3):
        cut = re.search(rb"(?:\A|\n)%%\n", rest)
        if not cut:
            break
        end = cut.end() - 3
        texts.append(rest[:end])
        rest = rest[cut.end():]
    return (texts + [rest] + [b""] * 3)[:4]


def jobs_of(case):
    """The words of each call that a case stands for, and its texts by the names of their files."""
    if len(case) < 2:
        return [], {}
    job, options = case[0] % 128 % JOBS, case[1]
    first, *others = parts_of(case[2:])
    if job == 6:
        words = first[:4095].split(b"\0")[0]
        return [words.split(b"\n")[:-1] if words.endswith(b"\n") else words.split(b"\n") if words else []], dict(zip("pcs", others))
    return [[w.encode() for w in call] for call in calls_of(job, options)], dict(zip("pcs", [first, *others[:2]]))


def calls_of(job, options):
    """The calls of a job, as entry.c makes them; of those jobs whose answers must agree, some."""
    units, budget, guess = ["--units", str(UNITS[options % 5])], ["--budget", str(BUDGETS[options // 5 % 5])], ["--predict", PREDICTS[options % 4]]
    run, steps = ["run", *units, "--workers", "1", *budget, *guess], ["run", "--schedule", "steps", *units, *budget, *guess]
    if job in (7, 15):
        return [["seq", "--budget", "1500", "p"], ["print", "p"], ["annotate", "--emit", "keep", "p"], ["explain", "p"]]
    if job == 14:
        steps = ["run", "--schedule", "steps", "--least", *units, "--budget", "600", "--predict", PREDICTS[options // 5 % 4]]
        return [["explain", "p"], ["check", "--least", "p"], *([*steps, "--emit", emit, "p"] for emit in RUN_EMITS)]
    if job > 15:
        return newer_calls(job, options, units, budget, guess)
    least = [["check", "--least", "--workers", str(options % 16 + 1), "p"], [*run, "--least", "p"], ["replay", "--least", *units, "p", "s"]]
    return [{0: ["seq", *budget, "p"], 1: ["print", "p"], 2: ["annotate", "--emit", EMITS[options % 3], "p"],
             3: ["check", "--workers", str(options % 16 + 1), "p", "c"], 4: ["replay", *units, "p", "c", "s"],
             5: [*run, "--emit", "script" if options & 16 else "report", "p", "c"],
             8: ["explain", "--certificate", "c", "p"], 9: [*steps, "--emit", RUN_EMITS[options // 25 % 4], "p", "c"],
             10: ["replay", *units, "--emit", "svg" if options & 16 else "summary", "p", "c", "s"],
             11: [*run, "--emit", "svg" if options & 16 else "summary", "p", "c"], 12: least[options // 16 % 3], 13: ["explain", "p"]}[job]]


def newer_calls(job, options, units, budget, guess):
    """The calls of the jobs from 16 on: `curve`, the log of `explain`, marks in the text, and traces."""
    emit = ["--emit", "json" if options & 32 else "trace"]
    traced = ["run", *units, *budget, *guess, *emit]
    by_steps = ["run", "--schedule", "steps", "--least", *units, "--budget", "600", "--predict", PREDICTS[options // 5 % 4]]
    drawn = ["--emit", "svg"] if options & 64 else []
    return {16: [["curve", *units, *budget, *guess, *drawn, *(["--least", "p"] if options & 128 else ["p", "c"])]],
            17: [["explain", "--format", "sarif", *(["--no-warnings"] if options & 32 else []), *(["--certificate", "c"] if options & 16 else []), "p"]],
            18: [["annotate", "--emit", "marks", "p"]],
            19: [[*traced, *(["--schedule", "steps"] if options & 16 else ["--workers", "1"]), "p", "c"]],
            20: [["replay", *units, *emit, "p", "c", "s"]],
            21: [[*by_steps, *emit, "p"], ["curve", "--least", *by_steps[4:], "p"]],
            22: [["explain", *words, *(["--certificate", "c"] if options & 16 else []), "p"] for words in ([], ["--no-warnings"])],
            23: [["replay", *units, "--emit", "trace", "p", "c", "s"], ["replay", *units, "p", "c", "s"]]}[job]


def asked(words):
    """What the words ask for: None for wrong words, "help", "version", or the job with its options and files."""
    try:
        words = [w.decode() for w in words]
    except UnicodeDecodeError:
        return None
    if not words:
        return None
    name, rest = words[0], words[1:]
    if name in ("--help", "--version"):
        return name[2:]
    if name[:2] in ("-h", "-V"):
        return {"-h": "help", "-V": "version"}[name[:2]]
    if name == "help":
        return "help" if not rest or rest[0] in ("help", *FILES) and len(rest) == 1 else None
    if name not in FILES:
        return None
    options, files, at, plain = {}, [], 0, False
    while at < len(rest):
        word = rest[at]
        at += 1
        if plain or not word.startswith("-") or word == "-":
            if name not in ("explain", "check") and len(files) == FILES[name][1]:
                return None
            files.append(word)
            continue
        if word == "--":
            plain = True
            continue
        key, has, value = word[2:].partition("=")
        if word[1] == "o":
            key, has, value = "output", word[2:], word[2:].removeprefix("=")
        elif word[1] != "-":
            return "help" if word[1] == "h" else None
        if key == "help":
            return None if has else "help"
        if key not in (*OPTIONS[name], "output") or key in options or key in FLAGS and has:
            return None
        if not has and key not in FLAGS:
            if at == len(rest) or rest[at].startswith("-") and rest[at] != "-":
                return None
            value, at = rest[at], at + 1
        if not is_value(name, key, value):
            # a number is judged where it stands, the other values after all words
            if key in NUMBERS:
                return None
            value = None
        options[key] = value
    least, most = FILES[name]
    wants = most - ("least" in options) if "least" in OPTIONS[name] else max(least, len(files))
    is_of_several = len(files) > 1 and (name == "explain" or "least" in options)
    inputs = [*files, *(options[it] for it in ("certificate", "script") if it in options)]
    if None in options.values() or not fit(name, options, files) or inputs.count("-") > 1 or len(files) != wants and not (is_of_several and name in ("explain", "check")):
        return None
    return name, options, files


def fit(name, options, files):
    """Whether options go with one another and with so many files."""
    emit, in_steps = options.get("emit"), options.get("schedule") == "steps"
    if name == "explain" and ("fix" in options or "in-place" in options):
        return ("fix" in options and len(files) == 1 and files != ["-"] and options.get("format", "text") == "text"
                and (options.get("output") not in (None, "-")) != ("in-place" in options) and not {"output", "in-place"} <= {*options})
    if len(files) > 1 and (name == "explain" or name == "check" and "least" in options):
        return not {"certificate", "script"} & {*options} and options.get("format", "text") == "text" and options.get("output", "-") == "-"
    if "in-place" in options:
        return "output" not in options and files != ["-"] and emit in (None, "marks", "text")
    if "strict" in options:
        return emit in (None, "answers") and "until" not in options and options.get("format") != "csv"
    if name == "replay" and "complete" in options:
        return False
    if name != "explain" and "format" in options and (options["format"] == "json" or emit not in {"curve": (None, "table"), "run": ("summary", "waits")}.get(name, ("summary",))):
        return False
    return name != "run" or ((in_steps or emit not in ("waits", "vcd", "kanata")) and ("with-values" not in options or emit == "script")
                             and ("axis" not in options or emit == "svg" and (in_steps or options["axis"] == "events"))
                             and (not {"from", "to"} & {*options} or in_steps and emit == "svg" and options.get("axis") != "events"
                                  and int(options.get("from", 1)) <= int(options.get("to", 1000000))))


def is_value(name, key, value):
    if key in NUMBERS:
        return bool(re.fullmatch(r"\+?[0-9]+", value)) and 1 <= int(value) <= NUMBERS[key]
    if key == "emit":
        return value in CHOICES[name]
    if key == "format":
        return value in FORMATS[name]
    if key in VALUES:
        return value in VALUES[key]
    if key != "predict":
        return True
    return value in ("first", "last") or bool(re.fullmatch(r"[0-9]{1,2}(,[0-9]{1,2}){0,63}", value)) and all(int(it) <= 15 for it in value.split(","))


def wanted(words, held, call):
    """What the model answers: (output, status), or a function of the output and status that says whether they fit. The files have these
    texts, by their names; `call` makes another call of the program."""
    what = asked(words)
    if what is None:
        return lambda out, status: status == 2 and not out
    if what == "help":
        return lambda out, status: status == 0 and "Usage:" in out
    if what == "version":
        return VERSION, 0
    name, options, files = what
    held = by_path(held)
    if len(files) > 1 and name in ("check", "explain") and ("least" in options or name == "explain"):
        return wanted_of_several(name, options, files, held, call)
    beside = [options[it] for it in ("certificate", "script") if it in options]
    if any(it not in held for it in [*files, *beside]):
        return lambda out, status: status == 2 and not out
    given = [held[it] for it in files]
    if "least" in options:
        given.insert(1, least_cert(given[0]))
    if name == "seq":
        return seq_text(given[0], int(options.get("budget", 1000000)))
    if name == "print":
        return print_text(given[0])
    if name == "annotate":
        emit = options.get("emit", "marks" if "in-place" in options else "text")
        return wanted_marks(given[0]) if emit == "marks" else annotate_text(given[0], emit)
    if name == "check":
        return check_text(*given)
    if name == "explain":
        fits = wanted_explanation(given[0], {it: held[options[it]] for it in ("certificate", "script") if it in options}, options)
        # the status is that of the text with the fixes, which the model does not make
        return fits if "fix" not in options else lambda out, status: status in (0, 1) and (fits(out, 0) or fits(out, 1))
    if name == "demonstrate":
        return wanted_demonstration(given[0], options)
    called = "" if files[0] == "-" else os.path.basename(files[0])
    if name == "curve":
        return wanted_curve(options, given, called)
    if name == "replay":
        return wanted_replay(options, given, called)
    return wanted_run(options, given, called, call)


def by_path(held):
    """The texts by all that names them; standard input is the program's."""
    return {**held, **{f"./{name}": text for name, text in held.items()}, "-": held["p"]}


def told_so(words, held, told):
    """Whether standard error is told what it must be where the status is not 2: mostly nothing."""
    what = asked(words)
    name, options, files = what if isinstance(what, tuple) else ("", {}, [])
    held = by_path(held)
    text = held.get(files[0], b"") if files else b""
    if "progress" in options:
        most = int(options.get("units", 16))
        accepted, _ = accepted_program(text, least_cert(text) if "least" in options else held[files[1]])
        return told == "".join(f"multiscalar: {files[0]}: {k} of {most} runs\n" for k in range(1, most + 1) if accepted)
    if "fix" in options:
        return re.fullmatch(r"multiscalar: .*: (no fix|1 fix|\d+ fixes) applied, (all marks are right|1 error left|(more than )?\d+ errors left)\n", told) is not None
    if "report" not in options or wanted_marks(text)[1]:
        return told == ""
    program = assemble(wanted_marks(text)[0].encode("latin-1"))
    errors = explain.told(program)
    said = f"{len(errors)} left to fix by hand" if errors else "all marks are right"
    *_, last = told.splitlines()
    return last == f"multiscalar: {files[0]}: {said}" and len(re.findall(r"(?m)^[^|\n]*?: error: ", told)) == min(len(errors), explain.MOST_SHOWN)


def wanted_of_several(name, options, files, held, call):
    """What is said of each program in turn, and then of how many; the greatest status, 2 where one could not be read."""
    said, statuses = "", []
    for file in files:
        if file not in held or name == "explain" and held[file].startswith(b"cert "):
            statuses.append(2)
        elif name == "check":
            report, status = check_text(held[file], least_cert(held[file]))
            said, statuses = said + "".join(f"{file}: {line}\n" for line in report.splitlines()), [*statuses, status]
        else:
            report, status = call(["explain", *(["--no-warnings"] if "no-warnings" in options else []), "--color", options.get("color", "auto"), "--", file])
            if not wanted_explanation(held[file], {}, options)(report, status):
                return lambda out, status: False
            said, statuses = said + report, [*statuses, status]
    right, wrong, unread = (statuses.count(it) for it in range(3))
    return f"{said}{len(files)} programs: {right} right, {wrong} wrong, {unread} not judged\n", max(statuses)


def wanted_marks(text):
    """The text with the marks that the model proposes."""
    try:
        marked = marks.marked(text.decode("latin-1"))
    except Fault as fault:
        return fault.text(), 1
    return (marked, 0) if len(marked) <= marks.LONGEST else ("marks refused: 1 TooLong\n", 1)


def wanted_curve(options, given, name):
    """The table of the steps that curve.py makes, unless one of its runs is too long for the model."""
    program, said = accepted_program(*given)
    if not program:
        return said, 1
    budget, predict = int(options.get("budget", 1000000)), options.get("predict", "first")
    rows = []
    for units in range(1, int(options.get("units", 16)) + 1):
        rows.append(curve.Steps(program, units, budget, predict, MODEL_EVENTS))
        if not rows[-1].over():
            return lambda out, status: status in (0, 1, 3) and out.startswith((curve.HEADING, "units,", "<svg "))
    rows = [row.row() for row in rows]
    text, status = curve.table(rows)
    text = csv_of(text) if options.get("format") == "csv" else text
    return (picture_of(rows, name, budget, predict), status) if options.get("emit") == "svg" else (text, status)


def picture_of(rows, name, budget, predict):
    """The picture of the rows of `curve`, of a program of this name."""
    import curve_picture

    said = curve_picture.caption(name, budget, predict)
    return curve_picture.picture([(units, *row) for units, row in enumerate(rows, 1)], said)


def wanted_explanation(text, beside, options):
    """Whether an answer tells the model's errors or its warnings of a text, in their order, and what is wrong with a certificate and a script."""
    source, form = text.decode("latin-1"), options.get("format", "text")
    try:
        program, refused = assemble(text), None
    except Fault as fault:
        program, refused = None, fault
    fits_of = {"sarif": results_fit, "json": objects_fit, "text": lines_fit}[form]

    def fits(out, status):
        if form == "text" and options.get("color") == "always":
            out = re.sub(r"\x1b\[[0-9;]*m", "", out)
        try:
            return fits_of(out, status, source, program, refused, beside, "no-warnings" in options)
        except (ValueError, KeyError, TypeError, AttributeError, IndexError):
            return False

    return fits


def remarks_of(program, beside):
    """The codes of what is said of a certificate and of a script; of a text that is refused there may be more with the code of its first fault."""
    codes = list(explain.remarks(program, beside["certificate"])) if "certificate" in beside else []
    if "script" in beside:
        try:
            script_parse(beside["script"], program)
        except ScriptFault as fault:
            codes.append("-".join(["script", *fault.text()[len("script refused: "):-1].split()[:2]]))
    return codes


def are_remarks(codes, program, beside):
    """Whether these are the codes of what is to be said of a certificate and of a script, in this order."""
    wanted = remarks_of(program, beside)
    if any(it.startswith(("certificate-", "script-")) and it != "certificate-unfit" for it in wanted):
        return set(wanted) <= set(codes) and all(it.split("-")[0] in {it.split("-")[0] for it in wanted} for it in codes)
    return sorted(codes) == sorted(wanted)


def is_remark(code):
    return code.startswith(("certificate-", "script-")) or code in ("rule1", "rule2", "rule3", "rule4")


def parted(codes):
    """How many codes are of the program, and those of what is beside it."""
    own = next((k for k, code in enumerate(codes) if is_remark(code)), len(codes))
    return own, [it for it in codes[own:] if it != "more"]


def results_fit(out, status, source, program, refused, beside, no_warnings):
    """Whether a log has the results that the model tells."""
    results = sarif.read_log(out.encode("latin-1"))
    if status != any(it["level"] == "error" for it in results):
        return False
    if refused:
        return explain.refused_so(refused, source, results)
    own, codes = parted([it["ruleId"] for it in results])
    warned = [] if no_warnings else costly_marks.told(program, source)
    is_wrong = explain.told(program)
    return are_remarks(codes, program, beside) and (not explain.differs(program, source, results[:own]) if is_wrong else costly_marks.said_of(results[:own]) == warned)


def objects_fit(out, status, source, program, refused, beside, no_warnings):
    """Whether lines of JSON have the places, codes and sentences that the model tells."""
    said = [json.loads(line) for line in out.splitlines()]
    place = lambda it: (it["line"], it["column"], it["width"])
    if status != any(it["severity"] == "error" for it in said):
        return False
    if refused:
        line = explain.places(source)[1][refused.index][0] if refused.index is not None else refused.line
        codes = {"-".join(it["code"].split("-")[:5]) for it in said if not line or it["line"] == line}
        return explain.code_of(refused) in codes and all(it["severity"] == "error" or it["code"] == "more" for it in said)
    own, codes = parted([it["code"] for it in said])
    errors = [(f"rule{it[2]}", tuple(explain.meant(program, source, it)), explain.sentence(program, it, source)) for it in explain.shown(program, source)]
    if errors:
        told = [it for it in said[:own] if it["code"] != "more"]
        return are_remarks(codes, program, beside) and len(told) == len(errors) and all(
            (it["code"], place(it)) == wanted[:2] and re.fullmatch(wanted[2], it["message"]) for it, wanted in zip(told, errors))
    warned = [] if no_warnings else [(*it[:2], it[2].removesuffix(".")) for it in costly_marks.told(program, source)]
    return are_remarks(codes, program, beside) and [(it["code"], place(it), it["message"]) for it in said[:own] if it["code"] != "more"] == warned


def lines_fit(out, status, source, program, refused, beside, no_warnings):
    """Whether the text form has the codes and sentences that the model tells."""
    if refused:
        told = re.sub(r"(BadMark) \d+$", r"\1", refused.text()[len("program refused: "):-1])
        return status == 1 and f" [{told}]\n" in out
    errors = [explain.sentence(program, it, source, any_place=True) for it in explain.shown(program, source)]
    said = [it.groups() for line in out.split("\n") if (it := re.match(r"[^|]*?: (error|warning): (.*?)(?: \[([^]]*)\])?$", line))]
    codes = [(it[2] or "").replace("rule ", "rule") for it in said if it[0] == "error"]
    known = {re.sub(r"^(certificate|script)-(\d+)-", r"\2 ", it) for it in remarks_of(program, beside)}
    short = [re.sub(r"^(\d+ \w+) \d+$", r"\1", it) for it in codes[len(errors):]]
    warned = [it[2].removesuffix(".") for it in costly_marks.told(program, source)] if not errors and not no_warnings else []
    wrong, exact = [it[1] for it in said if it[0] == "error"], not any(" " in it for it in known)
    return status == bool(errors or known) and bool(known) == bool(short) and {it for it in known if it != "certificate-unfit"} <= set(short) \
        and (not exact or len(short) == len(remarks_of(program, beside))) \
        and all(re.fullmatch(*pair) for pair in zip(errors, wrong)) and len(wrong) >= len(errors) and [it[1] for it in said if it[0] == "warning"] == warned


def wanted_demonstration(text, options):
    """What `demonstrate` says: of right marks that they are right; of others a run that the model's machine makes, too, or that there is none."""
    try:
        program = assemble(text)
    except Fault as fault:
        return fault.text(), 1
    found = verdict(program, certify(program))
    if not found:
        return "the marks are right: no run shows anything\n", 0
    is_known = not any(it[2] in (10, 11) for it in found)

    def fits(out, status):
        if status == 3:
            is_tried = int(options.get("steps", 10000)) >= demonstrate.EVENTS
            return out.startswith("no run found on up to ") and not (is_known and is_tried and demonstrate.own_harm(program))
        if status != 1 or options.get("emit") == "svg":
            return status == 1 and is_well_formed(out)
        return not is_known or demonstrate.Bench.replayed(None, program, text.decode("latin-1"), out.split("\n")) is None

    return fits


def is_picture(out, script, units, counted="event"):
    """Whether a text is the picture of a script, by its events or its steps."""
    try:
        return not list(picture.faults_of(out, script, units, counted))
    except (picture.tree.ParseError, AttributeError, TypeError, ValueError):
        return False


def is_timeline(out, script, units, by_steps):
    """Whether a text is the timeline of a script; of none it must be one of JSON."""
    try:
        return bool(json.loads(out)["traceEvents"]) if script is None else not list(timeline.faults_of(out, script, units, by_steps))
    except (ValueError, KeyError, TypeError):
        return False


def is_waveform(out, program, units, events):
    """Whether a text is the value change dump of some events."""
    try:
        wanted, found = list(waveform.moments(program, units, events)), waveform.parse(out)
    except (AssertionError, ValueError, KeyError, StopIteration, RuntimeError):
        return False
    return len(wanted) == len(found) and all(values.get(name, ...) == right[name] for values, right in zip(found, wanted) for name in right)


def is_verdict(out, said):
    """Whether an object of JSON tells the verdict of a strict replay that these lines tell."""
    verdict, first = json.loads(out), said.partition("\n")[0]
    if verdict["verdict"] == "departs":
        return first == f"line {verdict['line']}: {verdict['message']}"
    return first.startswith(f"as expected: {verdict['events']} event") and (verdict["not_listed"] > 0) == ("not listed" in said)


def wanted_replay(options, given, name):
    """What `replay` writes of a program of this name; a picture is that of the events that were allowed."""
    units, emit, until = int(options.get("units", 4)), options.get("emit", "answers"), int(options.get("until", 1000000))
    program, said = accepted_program(*given[:2])
    if program and "strict" in options:
        said, status = strict_text(program, given[2], units, "complete" in options, given[0])
        return (lambda out, ended: ended == status and is_verdict(out, said)) if options.get("format") == "json" else (said, status)
    if emit not in ("svg", "perfetto") or not program:
        said, status = replay_text(*given, units, emit, until, name)
        return (csv_of(said) if options.get("format") == "csv" and said.startswith("assigned") else said), status
    try:
        script_parse(given[2], program)
        script, stands = allowed_script(program, b"".join(line + b"\n" for line in given[2].removesuffix(b"\n").split(b"\n")[:until]) if given[2] else b"", units)
    except ScriptFault as fault:
        return fault.text(), 1
    shows = is_picture if emit == "svg" else lambda out, script, units: is_timeline(out, script, units, False)
    return lambda out, status: status == stands and shows(out, script, units)


def wanted_run(options, given, name, call):
    """Of a program of this name a run in steps is known; one of threads ends as one unit does, if its budget allows, and its script is replayed by the model.
    A script with values is one that the program itself finds as expected."""
    units, budget, emit = int(options.get("units", 4)), int(options.get("budget", 1000000)), options.get("emit", "report")
    program, said = accepted_program(*given)
    if not program:
        return said, 1
    in_steps = options.get("schedule") == "steps"
    run = Steps(program, units, budget, options.get("predict", "first"), MODEL_EVENTS) if in_steps else None
    if "with-values" in options:
        return lambda out, status: is_valued(program, units, out, run) and status in (0, 1, 3) and call(["replay", "--strict", "--units", str(units), "p", "c", "s"], dict(
            zip("pcs", [*given, out.encode("latin-1")])))[1] == 0
    if {"from", "to"} & {*options}:
        return lambda out, status: is_well_formed(out) and status in (0, 1, 3)
    if in_steps:
        emit = f"{emit} csv" if options.get("format") == "csv" else emit
        return wanted_steps(run, program, units, emit, name, options.get("axis", "steps"))
    one = run_text(*given, MODEL_EVENTS)

    def fits(out, status):
        if emit in ("trace", "json"):
            told, statuses = traced_run(*given, units, out, name, options.get("predict", "first"), budget)
            return out == told and status in statuses and (status == 3 or one[1] in (status, 3))
        if options.get("format") == "csv":
            return status in (one[1], 3) and out.startswith("assigned,")
        if emit in ("summary", "svg", "perfetto"):
            return status in (one[1], 3) and (is_summary(out, one, status) if emit == "summary" else is_well_formed(out) if emit == "svg" else is_timeline(out, None, units, False))
        if emit == "script":
            closing = replay_text(*given, out.encode(), units)
            return "refused" not in closing[0] and status in (0, 1, 3)
        if status == 3:
            words = out.splitlines()
            return words[-1] == "out of budget" and one[0].splitlines()[:len(words) - 1] == words[:-1]
        return (out, status) == one or one[1] == 3

    return fits


def is_valued(program, units, out, run):
    """Whether a script with values has the events of a run in steps, or of threads allowed ones; each transfer says something,
    while an `exec` of `nop` has nothing to say."""
    lines = [line.partition(" : ") for line in out.splitlines()]
    plain = "".join(f"{event}\n" for event, _, _ in lines)
    if any(not said for event, _, said in lines if event.startswith(("transfer", "drain"))):
        return False
    if run:
        return not run.over() or plain == run.script()
    return allowed_script(program, plain.encode("latin-1"), units)[0] == plain


def is_summary(out, one, status):
    """Whether the rows of a table add up, and its last has as many retired tasks and instructions as one unit has, if both runs ended."""
    first, *rows = out.splitlines()
    *tasks, every = [[int(number) for number in row.split()[:7]] for row in rows]
    retired = re.search(r"(?m)^retired (\d+) c (\d+) h", one[0])
    adds_up = all(row[0] == sum(row[1:5]) for row in tasks) and every == [sum(column) for column in zip(*tasks)]
    return first.startswith("assigned  retired ") and rows[-1].endswith("  (all)") and adds_up and (3 in (one[1], status) or [every[1], every[5]] == [int(it) for it in retired.groups()])


def is_well_formed(out):
    """Whether a text is XML that is a picture."""
    try:
        return picture.tree.fromstring(out).tag == picture.SVG + "svg"
    except picture.tree.ParseError:
        return False


def is_log(out):
    """Whether this is a log of instructions."""
    try:
        return kanata.read(out) is not None
    except (AssertionError, KeyError, ValueError):
        return False


def wanted_steps(run, program, units, emit, name, axis):
    """What a run in steps of a program of this name writes, unless the model gave it up."""
    if not run.over():
        return lambda out, status: status in (0, 1, 3)
    if emit in ("svg", "perfetto", "vcd"):
        shows = {"svg": lambda out: is_picture(out, run.script(), units, axis.removesuffix("s")), "perfetto": lambda out: is_timeline(out, run.script(), units, True),
                 "vcd": lambda out: is_waveform(out, program, units, run.events)}[emit]
        return lambda out, status: status == run.status() and shows(out)
    if emit == "kanata":
        return lambda out, status: status == run.status() and is_log(out)
    return run.written(emit, name), run.status()


def allowed_seconds(words, out):
    """A second; for `curve` one for each of its runs, and one for each 30 MB of an answer, as a trace of a million events has."""
    what = asked(words)
    runs = int(what[1].get("units", 16)) if isinstance(what, tuple) and what[0] == "curve" else 1
    return max(runs, 1 + len(out) / 30e6)


class Runner:
    """Runs the program in a folder that holds the three texts. `slow` has the words and texts of the runs that took
    longer than is allowed."""

    def __init__(self, program, folder):
        folder.mkdir(exist_ok=True)
        self.bench, self.folder, self.slow, self.seconds, self.calls = faults.Bench(program, folder), folder, [], 0.0, 0

    def __enter__(self):
        return self

    def __exit__(self, *how):
        self.bench.__exit__(*how)

    def write(self, texts):
        """Puts texts into the folder."""
        for name, text in texts.items():
            (self.folder / name).write_bytes(text)
        self.texts = texts

    def clear(self, texts):
        """Leaves these texts alone in the folder."""
        for it in self.folder.iterdir():
            if it.is_dir() and not it.is_symlink():
                it.rmdir()
            elif it.name not in texts:
                it.unlink()
        self.write(texts)

    def __call__(self, words, texts):
        if texts:
            self.write(texts if isinstance(texts, dict) else dict(zip("pcs", texts)))
        ended = self.bench.forked(words, given=str(self.folder / "p"))
        self.calls += 1
        if ended.status is not None:
            self.seconds = self.bench.seconds
            if self.seconds > allowed_seconds([os.fsencode(w) for w in words], ended.out):
                self.slow.append((words, self.texts))
        return ended[:3]


# Files in which no result can be.
NO_PLACES = ("", "missing/z")


def files_of(folder):
    """The files of a folder by their names: number, size and bytes."""
    return {it.name: (it.stat().st_ino, it.read_bytes()) for it in folder.iterdir()}


def answered(runner, words, texts):
    """The answer of a call, with what it put into a file in place of what it wrote, and what is wrong with the files: only the one that
    the words name may be another, and then it holds the result, and no refusal."""
    runner.clear(texts)
    before = files_of(runner.folder)
    status, out, told = runner(words, {})
    after, what = files_of(runner.folder), asked(words)
    _, options, files = what if isinstance(what, tuple) else ("", {}, [])
    target = os.path.normpath(files[0]) if "in-place" in options else os.path.normpath(options["output"]) if options.get("output", "-") != "-" else None
    changed = sorted(it for it in {*before, *after} if before.get(it) != after.get(it))
    if not changed:
        wrong = "no file is written" if target and status != 2 and not is_refusal(what[0], out) else ""
    elif changed != [target] or target not in after or status == 2 or "fix" not in options and (out or is_refusal(what[0], after[target][1])):
        wrong = f"files {changed} are others"
    elif "fix" in options:
        wrong = ""
    else:
        wrong, out = "", after[target][1]
    return status, out, told, wrong


def is_refusal(name, answer):
    """Whether an answer is no result: a refused text, or findings where a subcommand was not asked for them."""
    return re.match(rb"(program|certificate|script|marks) refused: ", answer) is not None and name != "check" or (
        name in ("run", "replay", "curve") and re.fullmatch(rb"(\w+ \d+ rule \d+ \S+\n)+refused \d+\n", answer) is not None)


def is_no_place(folder, name):
    """Whether no result can be put into a file of this name: it is empty, or its folder is not there."""
    return name is not None and (not name or not (folder / os.path.dirname(name)).is_dir())


def difference(runner, words, texts):
    """What was answered, and what differs from the model."""
    if any(b"\0" in w for w in words):
        return "no words", None

    def call(more, others=texts):
        runner.write(others)
        status, out, _ = runner(more, {})
        return out.decode("latin-1"), status

    want = wanted(words, texts, call)
    status, out, told, wrong = answered(runner, words, texts)
    wrong = wrong or steering(words, out, told)
    out = out.decode("latin-1")
    seen = f"{words[0].decode('latin-1')[:11] if words and words[0].decode('latin-1') in FILES else 'words'}: status {status}"
    fits = want(out, status) if callable(want) else (out, status) == want
    what = asked(words)
    if status == 2 and isinstance(what, tuple) and is_no_place(runner.folder, what[1].get("output")):
        # a result has no place to go to; a refusal needs none; before that the runs of `curve` may have been told
        is_result = callable(want) or want[1] != 2 and not is_refusal(what[0], want[0].encode("latin-1"))
        *before, last = told.splitlines() or [b""]
        is_told = last.endswith(b": no such folder") and all("progress" in what[1] and re.search(rb": \d+ of \d+ runs$", it) for it in before)
        fits = fits or is_result and not out and is_told
    if fits and not wrong and (bool(told) if status == 2 else told_so(words, texts, told.decode("latin-1"))):
        return seen, None
    told_want = want[0][-80:] if not callable(want) else "what fits"
    return seen, f"{[w.decode('latin-1') for w in words]}: status {status}, {out[-80:]!r}, {told[:60]!r}{wrong and ', ' + wrong}; the model: {told_want!r}"


def judged(runner, words, texts):
    """As `difference`; a fault of the model is a difference, too."""
    try:
        return difference(runner, words, texts)
    except Exception:
        return "the model failed", f"{words}: " + "; ".join(traceback.format_exc().strip().splitlines()[-3:])


def compare(program, end, cases):
    """Compares cases until a time: how many there was time for, the answers, the differences, and the longest time."""
    compared, answers, differences = 0, collections.Counter(), []
    with tempfile.TemporaryDirectory() as name:
        with Runner(program, pathlib.Path(name)) as runner:
            for case in cases:
                if time.monotonic() > end:
                    break
                calls, texts = jobs_of(case)
                for words in calls:
                    seen, fault = judged(runner, words, texts)
                    answers[seen] += 1
                    if fault:
                        differences.append(f"case {case.hex() if len(case) < 200 else case[:60].hex() + '..'}: {fault}")
                compared += 1
            return compared, answers, differences, runner.slow


# What steers a terminal, ends a line, turns its direction, or is no text: nothing of it may be written, but for a line feed, and a tab of an excerpt.
STEERING = re.compile("[\0-\x08\x0b-\x1f\x7f-\x9f\u061c\u200b-\u200f\u2028-\u202e\u2060-\u2069\ufeff\ud800-\udfff]")


def steering(words, out, told):
    """What of an answer would steer a terminal; marks in the author's own text and colours that were asked for may."""
    what = asked(words)
    _, options, _ = what if isinstance(what, tuple) else ("", {}, [])
    if options.get("emit") == "marks" or "in-place" in options and "fix" not in options:
        out = b""
    text = (out + told).decode("utf-8", "surrogateescape")
    found = STEERING.search(re.sub(r"\x1b\[[0-9;]*m", "", text) if options.get("color") == "always" else text)
    return f"a byte that steers: {text[max(0, found.start() - 30):found.end() + 10]!r}" if found else ""


def slow_alone(program, slow):
    """Those of some slow runs that take longer than is allowed also with no other beside them, three times: workers poll while they wait, so
    on a busy machine they use more of the processor."""
    with tempfile.TemporaryDirectory() as name, Runner(program, pathlib.Path(name)) as runner:
        for words, texts in slow:
            runner.slow.clear()
            for _ in range(3):
                runner(words, texts)
            if len(runner.slow) == 3:
                yield f"{words}: longer than is allowed, {runner.seconds:.2f} s"


def compared(program, kept, minutes, seed, whole=False):
    """The kept cases, or seeds where there are none, beside the model: all of them, or until the minutes are over."""
    cases = [p.read_bytes() for folder in kept.split(os.pathsep) for p in sorted(pathlib.Path(folder).iterdir())] if kept else list(seeds.cases(2000, seed))
    end = float("inf") if whole else time.monotonic() + 60 * minutes
    random.Random(seed).shuffle(cases)
    many = int(subprocess.run(["nproc"], capture_output=True, check=True).stdout)  # pypy3 cannot say how many cores it may use
    parts = [(program, end, cases[k::8 * many]) for k in range(8 * many)]
    done, answers, differences, slow = 0, collections.Counter(), [], []
    with multiprocessing.Pool(many) as pool:
        for count, seen, faults, slower in pool.starmap(compare, parts, chunksize=1):
            done, answers, differences, slow = done + count, answers + seen, differences + faults, slow + slower
    differences += slow_alone(program, slow)
    return f"{'kept cases of hostile bytes' if kept else 'seeds of hostile bytes'} beside the model ({done:,} of {len(cases):,})", sum(answers.values()), dict(answers), differences


# A case is kept where it comes to a new edge; shorter ones are as good, and quicker.
FUZZING = ["-entropic=0", "-max_len=2048", "-timeout=900", "-rss_limit_mb=4000", "-reload=0"]


def begun(corpus, kept, seed):
    """Puts cases to begin with into a folder: the kept ones, or else seeds."""
    for number, from_folder in enumerate(kept.split(os.pathsep) if kept else ()):
        for it in pathlib.Path(from_folder).iterdir():
            shutil.copy(it, corpus / f"{number}-{it.name}")
    if not kept:
        for k, case in enumerate(seeds.cases(2000, seed)):
            (corpus / f"seed-{k}").write_bytes(case)


class Rounds:
    """Calls of libFuzzer over one folder of cases. Each writes what it did, its log and the cases that ended it into a folder
    beside that one; so what was done before one is stopped counts, too."""

    def __init__(self, fuzzer, corpus):
        digest = hashlib.sha256(pathlib.Path(fuzzer).read_bytes()).hexdigest()
        self.fuzzer, self.corpus, self.told = fuzzer, corpus, corpus.with_name(f"{corpus.name}-{digest[:16]}")
        self.told.mkdir(exist_ok=True)
        self.cases, self.calls, self.most, self.answers, self.differences = 0, 0, [0.0, 0], collections.Counter(), []
        for number in range(1, 1 + len(list(self.told.glob("log-*")))):
            self.add(number)

    def another(self, length, dictionary, seed):
        """One more, so long: how many cases it made."""
        number, before = 1 + len(list(self.told.glob("log-*"))), self.cases
        words = [self.fuzzer, *FUZZING, length, f"-dict={dictionary}", f"-seed={seed + number}", f"-artifact_prefix={self.told}/found-{number}-", str(self.corpus)]
        with open(self.told / f"log-{number}", "wb") as log:
            subprocess.run(words, stdout=log, stderr=log, env=dict(os.environ, HOSTILE_STATUS=str(self.told / f"status-{number}")))
        self.add(number)
        return self.cases - before

    def add(self, number):
        """Adds what one of these calls did."""
        status, log = self.told / f"status-{number}", (self.told / f"log-{number}").read_bytes()
        told = dict(line.rsplit(" ", 1) for line in status.read_text().splitlines()) if status.exists() else {}
        self.cases, self.calls = self.cases + int(told.get("cases", 0)), self.calls + int(told.get("calls", 0))
        self.most = [max(self.most[0], float(told.get("worst_seconds", 0))), max(self.most[1], int(told.get("worst_peak", 0)))]
        for key, count in told.items():
            if ":" in key:
                self.answers[key.replace(":", ": status ")] += int(count)
        why = re.search(rb"HOSTILE: [^\n]*|SUMMARY: [^\n]*", log)
        for kind in ("crash", "timeout", "oom"):
            for it in sorted(self.told.glob(f"found-{number}-{kind}-*")):
                self.differences.append(f"{why.group().decode('latin-1') if why else 'ended'}: case {it.read_bytes().hex()}")


def row_of(every):
    """The row of all that some fuzzers did."""
    cases, calls = sum(it.cases for it in every), sum(it.calls for it in every)
    seconds, heap = (max(it.most[k] for it in every) for k in (0, 1))
    name = f"fuzzed, the program whole in one process, by libFuzzer: {cases:,} cases, at most {seconds:.2f} s and {heap / 1e6:.0f} MB of heap"
    answers = sum((it.answers for it in every), collections.Counter())
    return name, calls, dict(answers), [one for it in every for one in it.differences]


def corpora(folder, many):
    """The folders in which so many fuzzers keep their cases."""
    return [folder if many == 1 else f"{folder}-{k}" for k in range(1, many + 1)]


def fuzzed(fuzzer, kept, minutes, seed, cases=None, keep=None, many=1):
    """The row of so many fuzzers at once, each with a seed of its own, for some minutes, or until they have made so many cases together:
    the calls of the program, by job and status. What they keep goes to the folders of `corpora`, if `keep` names one, and a later
    call goes on from there."""
    with tempfile.TemporaryDirectory() as name, concurrent.futures.ThreadPoolExecutor(many) as lanes:
        folders = corpora(keep or f"{name}/corpus", many)
        each = cases and -(-cases // many)
        return row_of([*lanes.map(lambda k: fuzz(fuzzer, kept, minutes, seed + 100 * k, each, folders[k]), range(many))])


def fuzz(fuzzer, kept, minutes, seed, cases, keep):
    """One fuzzer."""
    end = float("inf") if cases else time.monotonic() + 60 * minutes
    with tempfile.TemporaryDirectory() as name:
        corpus, dictionary = pathlib.Path(keep), pathlib.Path(name) / "dictionary"
        corpus.mkdir(exist_ok=True)
        if not any(corpus.iterdir()):
            begun(corpus, kept, seed)
        dictionary.write_text(seeds.dictionary())
        rounds = Rounds(fuzzer, corpus)
        while (rounds.cases < cases if cases else time.monotonic() < end - 1) and len(rounds.differences) < 20:
            length = f"-runs={cases - rounds.cases}" if cases else f"-max_total_time={max(1, int(end - time.monotonic()))}"
            if not rounds.another(length, dictionary, seed):
                rounds.differences.append("the fuzzer ends before its first case")
                break
        return rounds


ALL = ",".join(f"${k}" for k in range(8, 28))
HEAD = ".task A create=- targets=-\nA: halt\n"


def labels(count, prefix=""):
    return "".join(f"{prefix}L{k}:" for k in range(count))


def nested(count):
    """Loops one in the other: instruction k of the first half is left for its partner in the second."""
    half = count // 2
    body = "".join(f"addiu ${8 + k % 20},$8,1\n" for k in range(half)) + "".join(f"bne $8,$9,@{half - 1 - k}\n" for k in range(half - 1))
    return f".task A create={ALL} targets=A\nA: " + body + "halt\n"


def backwards(count):
    """A chain of blocks that is entered at its last and goes to its first: what one pass finds goes one block."""
    lines = ["A: j @%d" % (count - 1)] + ["addiu $%d,$8,1" % (8 + k % 20) if k % 2 else "j @%d" % max(k - 3, 1) for k in range(1, count)]
    return f".task A create={ALL} targets=A\n" + "\n".join(lines) + "\n"


# With the standard library's FoldHasher from its own seed, all names of 32 letters that begin so have one hash: its state after the
# first 16 letters is the 8 letters that follow, and so the next factor is zero, whatever the last 8 letters are.
ALIKE = "XhORumEyUXRDkdbRzxW4OGOA{:08}"


def many_tasks(count, targets=1, name="T{}"):
    names = [name.format(k) for k in range(count)]
    return "".join(f".task {n} create=$8 targets={','.join(names[(k + 1 + j) % count] for j in range(targets))}\n" for k, n in enumerate(names)) + "".join(f"{n}: addiu $8,$8,1 !f !s\n" for n in names[:-1]) + f"{names[-1]}: j {names[0]} !s\n"


def keep(runner, text, n):
    """The certificate of the program as it stands."""
    return runner(["annotate", "--emit", "keep", "p"], [text])[1]


def findings(runner, text, n):
    """A certificate whose masks have every register and none by turns."""
    made = keep(runner, text, n)
    return re.sub(rb"(?m)^(\d+) [0-9a-f]{16}$", lambda it: it.group(1) + (b" 00000003ffffffff" if int(it.group(1)) % 2 else b" 0000000000000000"), made)


def late_writes(count):
    """Releases of a register that is written at the end alone: each finding's path goes there."""
    return ".task A create=$9 targets=A\nA: " + "release $9\n" * (count - 2) + "addiu $9,$9,1 !f\nj A !s\n"


# Each: a name, the words, where {n} is the size, the size n, the program text of a size, and if need be its certificate and script.
RING = many_tasks(8)
STEPS = "run --schedule steps --units 16 --budget {n} --emit"
WORST = [
    ("labels on one line", "seq", 100000, lambda n: labels(n) + HEAD, None, None),
    ("labels, a line each", "print", 100000, lambda n: labels(n).replace(":", ":\n") + HEAD, None, None),
    ("labels with 24 letters in common", "print", 30000, lambda n: labels(n, "x" * 24) + HEAD, None, None),
    ("uses of one label", "print", 1000, lambda n: HEAD + "j A\n" * n, None, None),
    ("uses of many labels", "print", 1000, lambda n: HEAD + "".join(f"X{k}: j X{n - 1 - k}\n" for k in range(n)), None, None),
    ("labels that are not there", "print", 100000, lambda n: HEAD + "".join(f"j X{k}\n" for k in range(n)), None, None),
    ("one label again and again", "print", 100000, lambda n: "A:\n" * n + HEAD, None, None),
    ("a long list of words", "print", 4000, lambda n: HEAD + ".data\n.word " + ",".join(["4294967295"] * n) + "\n", None, None),
    ("a long list of bytes, too many", "print", 500000, lambda n: HEAD + ".data\n.byte " + ",".join(["1"] * n) + "\n", None, None),
    ("a long create list", "print", 250000, lambda n: f".task A create={','.join(['$8'] * n)} targets=-\nA: halt\n", None, None),
    ("a long target list", "print", 500000, lambda n: f".task A create=- targets={','.join(['A'] * n)}\nA: halt\n", None, None),
    ("a long release", "print", 250000, lambda n: f".task A create=- targets=-\nA: release {','.join(['$8'] * n)}\nhalt\n", None, None),
    ("marks without end", "print", 250000, lambda n: HEAD + "nop" + " !q" * n + "\n", None, None),
    ("a long number", "print", 1000000, lambda n: HEAD + "li $8," + "9" * n + "\n", None, None),
    ("a long name", "print", 1000000, lambda n: HEAD + "n" * n + "\n", None, None),
    ("a long comment", "print", 1000000, lambda n: HEAD + "#" * n + "\n", None, None),
    ("blanks", "print", 1000000, lambda n: " " * n + HEAD, None, None),
    ("empty lines", "print", 1000000, lambda n: "\n" * n + HEAD, None, None),
    ("carriage returns", "print", 500000, lambda n: "\r\n" * n + HEAD, None, None),
    ("zero bytes", "print", 1000000, lambda n: "\0" * n, None, None),
    ("space after space, too much", "print", 50000, lambda n: HEAD + ".data\n" + ".space 65536\n" * n, None, None),
    ("loops one in the other", "annotate", 1000, nested, None, None),
    ("loops one in the other, checked", "check", 1000, nested, keep, None),
    ("a chain taken backwards", "annotate", 1000, backwards, None, None),
    ("a chain taken backwards, checked", "check", 1000, backwards, keep, None),
    ("tasks with 16 targets", "check", 256, lambda n: many_tasks(n, 16), keep, None),
    ("tasks with 16 targets, annotated", "annotate", 256, lambda n: many_tasks(n, 16), None, None),
    ("findings of every register", "check", 1000, nested, findings, None),
    ("lines of a certificate, out of order", "check", 500000, lambda n: HEAD, lambda r, t, n: b"cert 2\ntask A\n" + b"0 0000000000000000\n" * n, None),
    ("one line of a certificate", "check", 2000000, lambda n: HEAD, lambda r, t, n: b"cert 2\ntask A\n" + b"0" * n, None),
    ("events that are refused", "replay", 200000, lambda n: RING, keep, lambda n: b"exec 15\n" * n),
    ("events by the name of the last task", "replay", 200000, lambda n: many_tasks(1024), keep, lambda n: b"assign T1023\n" * n),
    ("tasks that come and go", "replay", 100000, lambda n: RING, keep, lambda n: b"assign T0\nassign T1\nexec 1\ndrop 1\ndrop 0\nexec 0\nretire\n" * (n // 7)),
    ("one line of a script", "replay", 2000000, lambda n: RING, keep, lambda n: b"x" * n),
    ("findings with long paths", "explain", 1000, late_writes, None, None),
    ("lines with a fault, explained", "explain", 50000, lambda n: HEAD + "nop $8\n" * n, None, None),
    ("a label that is near one of many", "explain", 50000, lambda n: HEAD + labels(n).replace(":", ":\n") + "j L\n", None, None),
    ("findings of every register, explained", "explain", 1000, nested, findings, None),
    ("lines of a certificate, out of order, explained", "explain", 500000, lambda n: HEAD, lambda r, t, n: b"cert 2\ntask A\n" + b"0 0000000000000000\n" * n, None),
    ("loops one in the other, with the least certificate", "check --least", 1000, nested, None, None),
    ("a chain taken backwards, with the least certificate", "check --least", 1000, backwards, None, None),
    ("a run in steps", STEPS + " report", 100000, lambda n: RING, keep, None),
    ("a run in steps, its script", STEPS + " script", 100000, lambda n: RING, keep, None),
    ("a run in steps, its table", STEPS + " summary", 100000, lambda n: RING, keep, None),
    ("a run in steps, its picture", STEPS + " svg", 100000, lambda n: RING, keep, None),
    ("a short run in steps, its picture", STEPS + " svg", 500, lambda n: RING, keep, None),
    ("a run in steps of 1,024 tasks, its picture", STEPS + " svg", 100000, lambda n: many_tasks(1024, 16), keep, None),
    ("tasks that come and go, as a table", "replay --emit summary", 100000, lambda n: RING, keep, lambda n: b"assign T0\nassign T1\nexec 1\ndrop 1\ndrop 0\nexec 0\nretire\n" * (n // 7)),
    ("tasks that come and go, as a picture", "replay --emit svg", 100000, lambda n: RING, keep, lambda n: b"assign T0\nassign T1\nexec 1\ndrop 1\ndrop 0\nexec 0\nretire\n" * (n // 7)),
    ("a run in steps, its trace", STEPS + " trace", 50000, lambda n: RING, keep, None),
    ("a run in steps of 1,024 tasks, its trace", STEPS + " trace", 50000, lambda n: many_tasks(1024, 16), keep, None),
    ("tasks that come and go, as a trace", "replay --emit trace", 50000, lambda n: RING, keep, lambda n: b"assign T0\nassign T1\nexec 1\ndrop 1\ndrop 0\nexec 0\nretire\n" * (n // 7)),
    ("events that are refused, as a trace", "replay --emit trace", 200000, lambda n: RING, keep, lambda n: b"exec 15\n" * n),
    ("a run in steps, as lines of JSON", STEPS + " json", 10000, lambda n: RING, keep, None),
    ("tasks that come and go, as lines of JSON", "replay --emit json", 10000, lambda n: RING, keep, lambda n: b"assign T0\nassign T1\nexec 1\ndrop 1\ndrop 0\nexec 0\nretire\n" * (n // 7)),
    ("events that are refused, as lines of JSON", "replay --emit json", 20000, lambda n: RING, keep, lambda n: b"exec 15\n" * n),
    ("runs on 1 to 16 units, as a picture", "curve --emit svg --budget {n}", 20000, lambda n: RING, keep, None),
    ("runs on 1 to 16 units", "curve --budget {n}", 20000, lambda n: RING, keep, None),
    ("runs of 1,024 tasks on 1 to 16 units, with the least certificate", "curve --least --budget {n}", 10000, lambda n: many_tasks(1024, 16), None, None),
    ("findings with long paths, as a log", "explain --format sarif", 1000, late_writes, None, None),
    ("findings of every register, as a log", "explain --format sarif", 1000, nested, findings, None),
    ("lines with a fault, as a log", "explain --format sarif", 50000, lambda n: HEAD + "nop $8\n" * n, None, None),
    ("marks in the text, loops one in the other", "annotate --emit marks", 1000, nested, None, None),
    ("marks in the text, many tasks", "annotate --emit marks", 256, lambda n: many_tasks(n, 16).replace("create=$8", "create=-").replace(" !f", ""), None, None),
    ("marks in the text, a long create list", "annotate --emit marks", 250000, lambda n: f".task A create={','.join(['$8'] * n)} targets=-\nA: halt\n", None, None),
    ("marks in the text, blanks before them", "annotate --emit marks", 1000, lambda n: ".task A create=$8 targets=A\nA: " + ("addiu $8,$8,1" + " " * 1000 + "!f\n") * n + "j A !s\n", None, None),
    ("marks in the text, between comments", "annotate --emit marks", 150000, lambda n: HEAD + "# !f\n" * n, None, None),
    ("a loop that does not end", "seq --budget {n}", 250000, lambda n: ".task B create=- targets=-\nB: lui $11,4097\nA: mult $8,$9\nlw $10,0($11)\nsw $8,0($11)\nbne $8,$9,A\nj A\n", None, None),
    ("labels that have one hash without a key", "print", 30000, lambda n: "".join(f"{ALIKE.format(k)}:" for k in range(n)) + HEAD, None, None),
    ("events by the name of the last task, whose hash all tasks have", "replay", 2000, lambda n: many_tasks(1024, name=ALIKE), keep, lambda n: f"assign {ALIKE.format(1023)}\n".encode() * n),
]


def texts_of(runner, n, text, certificate, script):
    """The texts of an input of size n."""
    given = [text(n).encode("latin-1")]
    if certificate:
        given.append(certificate(runner, given[0], n))
    if script:
        given.append(script(n))
    return given


def timed(program, minutes, seed, only=""):
    """Inputs that are worst for time: the time at n, 2n and 4n, the least of three."""
    end = time.monotonic() + 60 * minutes
    tried, answers, differences = 0, collections.Counter(), []
    with tempfile.TemporaryDirectory() as name, Runner(program, pathlib.Path(name)) as runner:
        begins = min((runner(["print", "p"], [HEAD.encode()]), runner.seconds)[1] for _ in range(5))
        for title, job, size, text, certificate, script in random.Random(seed).sample(WORST, len(WORST)):
            if time.monotonic() > end or only not in title:
                continue
            took, sizes, first, slow = [1e9] * 3, [1] * 3, b"", 0
            for _ in range(3):  # again where other work may have made it slow
                for k, n in enumerate((size, 2 * size, 4 * size)):
                    given = texts_of(runner, n, text, certificate, script)
                    words = [*job.replace("{n}", str(n)).split(), *"pcs"[:len(given)]]
                    for _ in range(3):
                        status, out, told = runner(words, given)
                        tried, first = tried + 1, out[:24].split(b"\n")[0]
                        if status not in (0, 1, 3) or told:
                            differences.append(f"{title}, n = {n}: status {status}, {told[:60]!r}")
                        took[k], sizes[k] = min(took[k], max(runner.seconds - begins, 0.0002)), sum(map(len, given)) + len(out)
                slow = took[2] / took[0] / max(4, sizes[2] / sizes[0])
                if took[2] <= 1 and (slow <= 2 or took[2] <= 0.005):
                    break
            said = f"{title} ({job}: {first.decode('latin-1')!r}): " + ", ".join(f"{it:.4f}" for it in took)
            print(said, file=sys.stderr, flush=True)
            is_slow = took[2] > 1 or (slow > 2 and took[2] > 0.005)
            answers["beyond" if is_slow else "at most twice linear"] += 1
            if is_slow:
                differences.append(f"{said} s at n = {size}, 2n and 4n: {slow:.1f} times linear")
    inputs = sum(answers.values())
    return f"{inputs} inputs that are worst for time{'' if inputs == len(WORST) else f' (of {len(WORST)})'}, at n, 2n and 4n", tried, dict(answers), differences


def run(program, minutes, seed, only="", kept=None, fuzzer=None, cases=None):
    """Rows for the table: (part, cases, answers seen, differences)."""
    kept, fuzzer = kept or os.environ.get("HOSTILE_KEPT"), fuzzer or os.environ.get("HOSTILE_FUZZER")
    rows = []
    if only in "time":
        rows.append(timed(program, minutes / 4 if not only else minutes, seed))
    if only in "fuzzed" and fuzzer:
        rows.append(fuzzed(fuzzer, kept, minutes / 2 if not only else minutes, seed, cases))
    if only in "model":
        rows.append(compared(program, kept, minutes * (1 if only else 1 / 4 if fuzzer else 3 / 4), seed))
    return rows


def main():
    options = argparse.ArgumentParser(description=__doc__, formatter_class=argparse.RawDescriptionHelpFormatter)
    options.add_argument("program", metavar="PROGRAM")
    options.add_argument("--minutes", type=float, default=4)
    options.add_argument("--seed", type=int, default=1)
    options.add_argument("--only", default="", choices=("", "time", "fuzzed", "model"))
    options.add_argument("--kept", help="folders of kept cases, parted by colons")
    options.add_argument("--fuzzer")
    options.add_argument("--cases", type=int, help="go on fuzzing until so many cases are made")
    options.add_argument("--keep", help="the folder of the cases that fuzzing keeps")
    given = options.parse_args()
    if given.cases:
        rows = [fuzzed(os.path.abspath(given.fuzzer), given.kept, 0, given.seed, given.cases, given.keep)]
    else:
        rows = run(os.path.abspath(given.program), given.minutes, given.seed, given.only, given.kept, given.fuzzer)
    for part, cases, answers, differences in rows:
        print(f"{part}: {cases} cases, {len(differences)} differences")
        for it, count in sorted(answers.items()):
            print(f"  {it}: {count}")
        for it in differences[:20]:
            print(f"  DIFFERENCE {it[:600]}")
    sys.exit(1 if any(row[3] for row in rows) else 0)


if __name__ == "__main__":
    main()
