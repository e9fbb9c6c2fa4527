#!/usr/bin/env python3
"""Runs the program on texts at the limits that take the most memory, and looks at answers, memory and time.

    limits.py PROGRAM [--only WORD]
    limits.py PROGRAM --gate [--only WORD]

A certificate of 134,217,728 bytes is judged and one of a byte more is not, by `check` with one worker and four, by
`explain`, by `run` and by `replay`; so with an event script. Certificates and scripts without end are refused within the memory
of the limit. The other texts are those that were found to take the most memory: as many labels, targets or numbers
as a program text can name, and as many entries, events and answers as the longest files give; the most tasks that each go through the
most instructions, with every register in their create masks, and in those of a certificate; and the longest runs, by
threads and in steps, with each `--emit`, and traces whose events say as much as they can. Of each run the
largest memory is compared with BOUNDS. The script ends with status 1 where
an answer or the memory is another, and says the seconds, which depend on the machine; those of hostile masks may be a
second of the processor, and one for each 30 MB that are read and written. Needs python3, Linux, 400 MB
in the temporary folder and 3 GB of memory; it is no part of the tests.

With --gate: texts that take long, or much memory, where an answer is sought carelessly. Each run may take
three times the processor's time of `check --least` of the same program, or a second if that is
more, which a slower machine has longer, and 512 MB; a trace of a
long script 26 MB, as it is written while its events are played. A run that takes more is made again, twice, as other processes may
have slowed it, and is ended some two seconds after its time. `.ci/run` runs this after `rt ci`.
"""
import argparse
import collections
import itertools
import os
import pathlib
import resource
import string
import subprocess
import sys
import tempfile
import time

TOP = pathlib.Path(__file__).resolve().parent.parent
COUNT = TOP / "examples" / "count"
PROGRAM_LIMIT, FILE_LIMIT = 4_194_304, 134_217_728

# The most memory of a subcommand, in millions of bytes, as it is counted from the limits.
# In bytes, and then MB; a refused text is counted below. A list that grows has room for up to twice its
# entries; the process takes 3 MB more, and the C library keeps up to 10 MB of what was given back.
# - program text: 4,194,304; for each a token of 48; for each two a label of 88, or a target twice in 48: 4 + 201 +
#   201
# - certificate: 134,217,728; 16 for each line of 11, 134 + 268; at last 4,194,304 entries of 16, 134 + 67
# - script: 134,217,728; 8 for each line of 6, 134 + 268; answers of `replay` 27 for each, 1,074
# - machine: 1,000,000 events, reads, commits and words, 68
# - output: 1,000,000 words or events, 34; table or picture of a run: 24 for each life, 8 for each event, 64
# - trace of a run: 1,007 for each of 1,000,000 events, if 15 of 16 are an `assign` at which 33 registers arrive, as
#   JSON 1,820; that of a script is written while its events are played
BOUNDS = {"seq": 410, "print": 410, "annotate": 410, "explain": 490, "check": 545, "run": 545, "replay": 1760, "curve": 545}
# `explain` reads a refused text once more, with places. The most is where a name is unknown beside a list of targets in one
# long line: the text, a token of 48 bytes and a place of 16 for each byte, and for each two a target that is kept twice in
# 48: 4.2 + 201.3 + 67.1 + 201.3 MB. The process takes 3 MB, and of what was given back before, the C library keeps up to
# 10 MB. With a certificate it takes what `check` takes.
# What a trace takes, as text and as lines of JSON; `replay` writes it while the events are played.
TRACED = {"run": 1300, "replay": 1760}
AS_JSON = {"run": 2100, "replay": 1760}
EMITS = ("report", "script", "summary", "svg", "trace")

# How much more than the limit a file without end may take.
ENDLESS = (FILE_LIMIT + 16_000_000) / 1e6

Ended = collections.namedtuple("Ended", "status out told memory seconds processor written")

# The most tasks and instructions of a program, each register that a mask can name, and the mask of all of them.
TASKS, INSTRUCTIONS = 1024, 4096
EVERY, FULL = ",".join(f"${r}" for r in range(1, 34)), "00000003fffffffe"


def bound_of(subcommand, emit):
    return {"trace": TRACED, "json": AS_JSON}.get(emit, BOUNDS)[subcommand]


def writes_json(program):
    """Whether the help of the program names traces as lines of JSON."""
    return b"json" in subprocess.run([program, "replay", "--help"], capture_output=True).stdout


def ran(program, words, folder, most=None, at_terminal=False):
    """A run, with the greatest memory in millions of bytes. If it may take so many seconds of the processor, it is ended some two after them.
    At a terminal, what it tells there is not read: a line or two."""
    out, told = folder / "out", folder / "told"
    begin = time.monotonic()
    ours, its = os.openpty() if at_terminal else (None, None)
    process = os.fork()
    if process == 0:
        if most is not None:
            resource.setrlimit(resource.RLIMIT_CPU, (int(most) + 2, int(most) + 2))
        os.dup2(os.open(out, os.O_WRONLY | os.O_CREAT | os.O_TRUNC), 1)
        errors = os.open(told, os.O_WRONLY | os.O_CREAT | os.O_TRUNC)
        os.dup2(its if at_terminal else errors, 2)
        os.execv(program, [program, *words])
    _, status, usage = os.wait4(process, 0)
    for end in (ours, its) if at_terminal else ():
        os.close(end)
    with open(out, "rb") as file:
        first = file.read(200)
    return Ended(os.waitstatus_to_exitcode(status), first, told.read_bytes(), usage.ru_maxrss * 1024 / 1e6, time.monotonic() - begin,
                 usage.ru_utime + usage.ru_stime, out.stat().st_size)


def filled(path, head, line, longer, size):
    """Writes a head and then equal lines, the last of them a byte longer, so that the file is just so long; answers
    how many lines that are."""
    count, rest = divmod(size - len(head), len(line))
    with open(path, "wb") as file:
        file.write(head + line * (count - rest) + longer * rest)
    return head.count(b"\n") + count


def certificate(path, mask="0" * 16, size=FILE_LIMIT):
    """A certificate whose second list has one index over and over, with lines as short as they get."""
    head = b"cert 2\ntask A\ntask B\n" if len(mask) == 16 else b"cert 1\ntask A\ntask B\n"
    return filled(path, head, f"7 {mask}\n".encode(), f"70 {mask}\n".encode(), size)


def script(path, size=FILE_LIMIT):
    """A script of as many events as it can have."""
    return filled(path, b"", b"fault\n", b"retire\n", size)


def names():
    """Names, the shortest first."""
    for length in itertools.count(1):
        for letters in itertools.product(string.ascii_letters + "_", repeat=length):
            yield "".join(letters)


def programs(folder):
    """Program texts of 4,194,304 bytes, what refuses them, and the place that `explain` tells (docs/FORMATS.md)."""
    labels, room = [], PROGRAM_LIMIT
    for name in names():
        room -= len(name) + 1
        if room < 0:
            break
        labels.append(name)
    half = PROGRAM_LIMIT // 2
    texts = {
        "one label many times": (b"a:" * half, b"8 Duplicate line 1", b":1:3: "),
        "many labels": ((":".join(labels) + ":").encode(), b"10 Build 2 NoTask", b": "),
        "many targets": (b".task A create=- targets=" + b"A," * (half - 20) + b"A\nA: halt\n", b"10 Build 1 TooMany", b":1:18: "),
        "an unknown name beside many targets": (b".task A create=- targets=" + b"A," * (half - 24) + b"A\nA: j X\nhalt\n", b"9 Unknown line 2", b":1:18: "),
        "many targets, the last of them unknown": (b".task A create=- targets=" + b"A," * (half - 24) + b"X\nA: j A\nhalt\n", b"9 Unknown line 1", b":1:18: "),
        "many words": (b".data\n.word " + b"0," * (half - 20) + b"0\n", b"10 Build 1 TooMany", b":2:1: "),
        "many instructions": (b"nop\n" * (PROGRAM_LIMIT // 4), b"10 Build 1 TooMany", b":4097:1: "),
    }
    for name, (text, refusal, place) in texts.items():
        path = folder / f"{name}.s"
        path.write_bytes(text)
        for subcommand in ("seq", "print", "annotate"):
            yield name, [subcommand, path], 1, b"program refused: " + refusal + b"\n", BOUNDS[subcommand]
        yield name, ["explain", path], 1, bytes(path) + place + b"error: ", BOUNDS["explain"]
        yield name, ["explain", "--format", "sarif", path], 1, b'{"$schema"', BOUNDS["explain"]
    yield from accepted_labels(folder, labels)


def accepted_labels(folder, labels):
    """A program with as many labels as a text can have."""
    path = folder / "labels.s"
    path.write_text(".task A create=$8 targets=A\nA: addiu $9,$9,1 !f\n" + ":".join(it for it in labels[:-100] if it != "A") + ":\nj A !s\n")
    kind = "many labels of a program"
    yield kind, ["annotate", "--emit", "marks", path], 0, b".task A create=$9 targets=A\n", BOUNDS["annotate"]
    yield kind, ["explain", path], 1, bytes(path) + b":1:9: error: ", BOUNDS["explain"]
    path.write_text(path.read_text().replace("create=$8", "create=$9"))
    yield kind, ["run", "--least", "--budget", "10", "--emit", "trace", path], 3, b"1 assign A: ok\n", TRACED["run"]
    yield kind, ["curve", "--least", "--budget", "10", path], 3, b"units ", BOUNDS["curve"]


def writes(index):
    """An instruction that writes one register; 33 in a row write every one."""
    register = index % 33 + 1
    return {32: "mthi $1", 33: "mtlo $1"}.get(register, f"addiu ${register},${register},1")


def through(create, instruction, tasks=TASKS):
    """A program of so many tasks with this create mask, of which each goes through all of the most instructions, over and over, and
    may go on to the next task."""
    marks = "".join(f".task T{k} create={create} targets=T{(k + 1) % tasks}\n" for k in range(tasks))
    body = "".join((f"T{k // 4}: " if k % 4 == 0 and k < 4 * tasks else "") + f"{instruction(k)}\n" for k in range(INSTRUCTIONS - 2))
    return f"{marks}{body}bne $8,$0,T0\njr $31 !s\n"


def full(path, tasks=TASKS):
    """A certificate of such a program, with every register in the mask of each instruction."""
    entries = "".join(f"{k} {FULL}\n" for k in range(INSTRUCTIONS))
    path.write_text("cert 2\n" + "".join(f"task T{k}\n{entries}" for k in range(tasks)))


# Programs whose tasks go through each other: what their create masks are and their instructions, what is found, what `explain` says
# first, the create masks that are right, and the masks of the least certificate.
BUT_ONE = EVERY.removeprefix("$1,")
EARLY = b":1025:5: error: task T0 forwards $1 here and may write it again "
MASKS = {
    "every register in each mask": (EVERY, writes, b"", b"", EVERY, FULL),
    "every register in each mask, none of them written": (EVERY, lambda k: "nop", b"", b":1:10: warning: the create mask of task T0 has $1,", "-", "0" * 16),
    "every register in each mask and release": (EVERY, lambda k: f"release {EVERY}", b"", b":1026:1: warning: $1,", EVERY, "0" * 16),
    "every register in each mask, all but one in each release": (EVERY, lambda k: f"release {BUT_ONE}", b"", b":1:10: warning: the create mask of task T0 has $1, which ", BUT_ONE, "0" * 16),
    "every register in each mask, forwarded too early": (EVERY, lambda k: f"{writes(k)} !f", b"T0 0 rule 6 $1\nT0 1 rule 6 $2\n", EARLY, EVERY, FULL),
    "no register in any mask": ("-", writes, b"T0 0 rule 5 $1\nT0 0 rule 5 $2\n", b":1:10: error: the create mask of task T0 lacks $1,", EVERY, FULL),
}


def masks(folder):
    """Programs with hostile create masks, and certificates with every register in each mask."""
    path, cert = folder / "masks.s", folder / "masks.cert2"
    full(cert)
    accepted = f"accepted {TASKS} tasks {INSTRUCTIONS} instructions\n".encode()
    for kind, (create, instruction, found, said, right, mask) in MASKS.items():
        path.write_text(through(create, instruction))
        status = 1 if found else 0
        yield kind, ["check", "--least", path], status, found or accepted, BOUNDS["check"], path
        said = said and bytes(path) + said
        yield kind, ["explain", path], status, said, BOUNDS["explain"], path
        yield kind, ["annotate", "--emit", "marks", path], 0, f".task T0 create={right} targets=T1\n".encode(), BOUNDS["annotate"], path
        yield kind, ["annotate", "--emit", "keep", path], 0, f"cert 2\ntask T0\n0 {mask}\n1 {mask}\n".encode(), BOUNDS["annotate"], path
        if "release" not in kind:
            for workers in ("1", "4"):
                yield kind, ["check", path, cert, "--workers", workers], status, found or accepted, BOUNDS["check"], path, cert
            yield kind, ["explain", path, "--certificate", cert], status, said, BOUNDS["check"], path, cert
    yield from large_masks(path, cert)
    cert.unlink()


def large_masks(path, cert):
    """Right marks, and a certificate whose masks are too large: a finding for every register of every mask."""
    kind, tasks = "every mask of a certificate too large", 32
    path.write_text(through(EVERY, lambda k: f"release {EVERY}", tasks))
    full(cert, tasks)
    # 32 tasks of 4,094 releases, each of 33 registers: findings of 12 bytes
    bound = BOUNDS["check"] + 12 * tasks * (INSTRUCTIONS - 2) * 33 / 1e6
    yield kind, ["check", path, cert], 1, b"T0 0 rule 7 $1\nT0 0 rule 7 $2\n", bound, path, cert
    yield kind, ["explain", path, "--no-warnings", "--certificate", cert], 1, bytes(cert) + b":3:3: error: the marks are right; a mask in this certificate is too large", bound, path, cert


def certificates(folder):
    """Certificates at the limit and a byte above, and without end."""
    program, path = COUNT / "program.s", folder / "limit.cert2"
    kinds = [["check", program, path, "--workers", "1"], ["check", program, path, "--workers", "4"],
             ["run", program, path], ["run", program, path, "--schedule", "steps", "--emit", "svg"],
             ["curve", program, path], ["replay", program, path, COUNT / "script.events"], ["explain", "--no-warnings", program, "--certificate", path]]

    def bound(words):
        return BOUNDS["check" if words[0] == "explain" else words[0]]

    def refused(words, told, line=""):
        return f"{path}:{line}".encode() if words[0] == "explain" else f"certificate refused: {told}\n".encode()

    for name, mask in (("the longest certificate", "0" * 16), ("the longest certificate, short lines", "0" * 8)):
        certificate(path, mask)
        for words in kinds:
            yield name, words, 1, refused(words, "5 Shape"), bound(words)
    lines = certificate(path)
    with open(path, "rb+") as file:
        file.seek(-1, os.SEEK_END)
        file.write(b" ")
    for words in kinds:
        yield "the longest certificate, its last line wrong", words, 1, refused(words, f"2 Line {lines}", f"{lines}:"), bound(words)
    certificate(path, size=FILE_LIMIT + 1)
    for words in kinds:
        yield "a certificate of one byte more", words, 2, path, ENDLESS
    for words in kinds:
        yield "a certificate without end", ["/dev/zero" if word == path else word for word in words], 2, "/dev/zero", ENDLESS
    path.unlink()


def scripts(folder, traces):
    """Event scripts at the limit and a byte above, and without end."""
    path = folder / "limit.events"
    words = ["replay", COUNT / "program.s", COUNT / "certificate.cert2", path]
    script(path)
    yield "the script of the most events", words, 0, b"1 refused", BOUNDS["replay"]
    yield "the script of the most events", [*words, "--emit", "summary"], 0, b"assigned  retired ", BOUNDS["replay"]
    yield "the script of the most events", [*words, "--emit", "svg"], 0, b"<svg ", BOUNDS["replay"]
    for emit in traces:
        first = b"1 fault: refused 3 NoSuch\n" if emit == "trace" else b'{"format":"multiscalar-trace","version":2,"program_name":"program.s","units":4,"instructions":6}\n{"event":1,"kind":"fault","answer":"refused","code":3,"name":"NoSuch","changes":[]}\n'
        yield "the script of the most events", [*words, "--emit", emit], 0, first, bound_of("replay", emit)
    script(path, FILE_LIMIT + 1)
    yield "a script of one byte more", words, 2, path, ENDLESS
    yield "a script without end", [*words[:3], "/dev/zero"], 2, "/dev/zero", ENDLESS
    program = folder / "sends.s"
    program.write_text(sends(1000, "T{}"))
    filled(path, "".join(events_of_sends(1000)).encode(), b"fault\n", b"retire\n", FILE_LIMIT)
    for emit in traces:
        yield "the longest trace of sendings", ["replay", program, "--least", path, "--emit", emit], 0, FIRST_OF[emit], bound_of("replay", emit)
    program.write_text(arrivals())
    filled(path, events_of_arrivals().encode(), b"fault\n", b"retire\n", FILE_LIMIT)
    for emit in traces:
        yield "the longest trace of arrivals", ["replay", program, "--least", path, "--emit", emit], 0, FIRST_OF[emit], bound_of("replay", emit)
    path.unlink()


# How a trace begins whose first task is S, and how one in JSON begins.
FIRST_OF = {"trace": b"1 assign S: ok\n", "json": b'{"format":"multiscalar-trace","version":2,"program_name":"sends.s",'}


def sends(tasks, name):
    """A program of so many tasks, of which each sends all registers at once."""
    names = [name.format(k) for k in range(tasks)]
    marks = "".join(f".task {it} create={EVERY} targets={names[(k + 1) % tasks]}\n" for k, it in enumerate(names))
    first = "S: li $1,-1 !f\nmthi $1 !f\nmtlo $1 !f\n" + "".join(f"li ${r},-1 !f\n" for r in range(2, 32)) + f"j {names[0]} !s\n"
    body = "".join(f"{it}: release {EVERY} !s\n" for it in names[:-1]) + f"{names[-1]}: release {EVERY}\nj {names[0]} !s\n"
    return f".start S\n.task S create={EVERY} targets={names[0]}\n{marks}{first}{body}"


def events_of_sends(tasks):
    """The events of such a program, as many as a machine takes."""
    yield "assign S\n" + "exec 0\n" * 34 + "retire\n"
    taken = 36
    for number in itertools.count():
        is_last = number % tasks == tasks - 1
        taken += 4 if is_last else 3
        if taken > 1_000_000:
            return
        yield f"assign T{number % tasks}\n" + "exec 0\n" * (1 + is_last) + "retire\n"


def arrivals():
    """A program whose first task sends all registers; they arrive at each task after it."""
    first = "S: li $1,-1 !f\nmthi $1 !f\nmtlo $1 !f\n" + "".join(f"li ${r},-1 !f\n" for r in range(2, 32)) + "j T !s\n"
    return f".start S\n.task S create={EVERY} targets=T\n.task T create=- targets=T\n{first}T: j T !s\n"


def events_of_arrivals():
    """As many events of such a program as a machine of four units takes: tasks that are assigned and given up."""
    return "assign S\n" + "exec 0\n" * 34 + "retire\nassign T\n" + ("assign T\n" * 3 + "drop 1\n") * 249_990


def runs(folder, traces):
    """The most events, and the most output."""
    folder = folder / "runs"
    folder.mkdir()
    out, loop = folder / "out.s", folder / "loop.s"
    out.write_text(".task A create=- targets=A\nA: " + "out $0\n" * 4095 + "j A !s\n")
    loop.write_text(".task A create=$8 targets=A\nA: addiu $8,$8,1\nL: addiu $8,$8,1\nbne $8,$0,L\nj A !s\n")
    for program, entries in ((out, 4096), (loop, 4)):
        mask = "0000000000000100" if program == loop else "0" * 16
        cert = program.with_suffix(".cert2")
        cert.write_text("cert 2\ntask A\n" + "".join(f"{index} {mask if index < 3 else '0' * 16}\n" for index in range(entries)))
        kind = "the most output" if program == out else "the most events"
        yield kind, ["seq", program], 3, None, BOUNDS["seq"]
        for units, emit in itertools.product(("1", "16"), (*EMITS, *traces[1:])):
            bound = bound_of("run", emit)
            for certified in ([cert], ["--least"]):
                yield kind, ["run", program, *certified, "--units", units, "--emit", emit], 3, None, bound
            yield f"{kind}, in steps", ["run", program, cert, "--schedule", "steps", "--units", units, "--emit", emit], 3, None, bound
        yield kind, ["curve", program, cert], 3, b"units ", BOUNDS["curve"]
    yield from many_tasks(folder, traces)
    program = folder / "sends.s"
    program.write_text(sends(1000, "T{:031}"))
    for words, emit in itertools.product((["--units", "1"], ["--units", "16", "--schedule", "steps"]), traces):
        yield "a long trace", ["run", program, "--least", *words, "--emit", emit], 3, FIRST_OF[emit], bound_of("run", emit)


def many_tasks(folder, traces):
    """The most tasks that come and go: a third of a million lives."""
    program = folder / "tiny.s"
    program.write_text(".task A create=- targets=A\nA: j A !s\n")
    for emit in (*EMITS, *traces[1:]):
        bound = bound_of("run", emit)
        yield "the most tasks", ["run", program, "--least", "--units", "1", "--emit", emit], 3, None, bound
        yield "the most tasks, in steps", ["run", program, "--least", "--schedule", "steps", "--units", "16", "--emit", emit], 3, None, bound


# What a run of `worst` may take: this many times what `check --least` of its program takes, but no less than a second; and millions of bytes.
# A run that takes more is made again, until it was made this often.
TIMES, LEAST_SECONDS, GATE_MEMORY, TRIES = 3, 1, 512, 3
# In how many seconds the interpreter counts to ten million on the machine whose second is meant.
COUNTED = 0.3
# Of a run that writes on the way.
STREAM_MEMORY = 26
# What ends the name of a run whose standard error is a terminal.
AT_TERMINAL = ", at a terminal"


def ring(tasks, mark=""):
    """A program of so many tasks of four instructions in a ring; the mark is that of a write to $8, which each task lets go at its end if it has none."""
    marks = "".join(f".task T{k} create=$8 targets=T{(k + 1) % tasks}\n" for k in range(tasks))
    return marks + "".join(f"T{k}: addiu $8,$8,1{mark}\nnop\nnop\nj T{(k + 1) % tasks} !s\n" for k in range(tasks))


def long_traces(folder):
    """Traces that are written while their events are played. First of all, since what a run takes counts from what this process has."""
    program, events = COUNT / "program.s", folder / "long.events"
    events.write_text("fault\n" * 600_000)
    for kind in ("the trace of a long script", "the trace of a long script" + AT_TERMINAL):
        for emit in ("trace", "json"):
            yield kind, ["replay", program, COUNT / "certificate.cert2", events, "--emit", emit], program, STREAM_MEMORY


def worst(folder):
    """The texts that were found to take longest: their names, the words of the runs, and the program of each."""
    yield from long_traces(folder)

    def written(name, text):
        path = folder / f"{name.replace(' ', '-')}.s"
        path.write_bytes(text if isinstance(text, bytes) else text.encode())
        return path

    half = PROGRAM_LIMIT // 2
    texts = {
        "labels without end in a line": "A: " * 28_000,
        "labels without end in a long line": "A: " * 200_000,
        "one label many times": "a:" * half,
        "unknown targets": ".task A create=- targets=" + ",".join(f"B{k}" for k in range(470_000)) + "\nA: halt !s\n",
        "short lines": "x\n" * half,
        "an unknown name in each line": "".join(f"j N{k}\n" for k in range(400_000)),
        "names that are much alike": "".join(f"L{k}:\n" for k in range(300_000)) + "nop\nj L300001\nhalt !s\n",
        "names and as many unknown ones": "".join(f"L{k}: j M{k}\n" for k in range(4_000)),
        "operands without end": "addu " + ",".join(["$8"] * 1_000_000),
        "letters without end": "x" * PROGRAM_LIMIT,
        "a mask without end": ".task A create=" + ",".join(["$8"] * 1_000_000) + " targets=A\nA: j A !s\n",
        "a comment without end": "#" * PROGRAM_LIMIT,
        "bytes that are no text": bytes(range(128, 256)) * (PROGRAM_LIMIT // 128),
        "a ring of tasks": ring(1000),
        "a ring of tasks, each with a wrong mark": ring(1000, " !f").replace("nop\nnop", "nop\naddiu $8,$8,1"),
    }
    for kind, (create, instruction, *_) in MASKS.items():
        texts[kind] = through(create, instruction)
    for name, text in texts.items():
        path = written(name, text)
        for words in (["explain"], ["explain", "--format", "sarif"], ["explain", "--format", "json"], ["seq", "--budget", "1000"], ["print"],
                      ["annotate"], ["check", "--least"], ["run", "--least", "--budget", "1000"], ["demonstrate"]):
            yield name, [words[0], path, *words[1:]], path
    yield from worst_inputs(folder)


def worst_inputs(folder):
    """Certificates and scripts of the same kinds."""
    program = COUNT / "program.s"
    texts = {
        "wrong lines": "x\n" * 4_000_000,
        "a line without end": "exec " * 1_600_000,
        "entries of no task": "cert 2\n" + "7 0000000000000000\n" * 400_000,
        "unknown tasks": "cert 2\n" + "".join(f"task N{k}\n" for k in range(600_000)),
        "unknown tasks of a script": "".join(f"assign N{k}\n" for k in range(600_000)),
    }
    for name, text in texts.items():
        path = folder / f"{name.replace(' ', '-')}.text"
        path.write_text(text)
        yield f"{name}, as a certificate", ["explain", program, "--certificate", path], program
        yield f"{name}, as a script", ["explain", program, "--script", path], program
        yield f"{name}, as a script", ["replay", program, COUNT / "certificate.cert2", path, "--strict"], program
    loop = folder / "loop.s"
    loop.write_text(".task A create=$8 targets=A,B\nA: addiu $8,$8,1 !f\nslti $1,$8,9\nbne $1,$0,A !s\nj B !s\n.task B create=- targets=-\nB: out $8\nhalt !s\n")
    yield "a long search", ["demonstrate", loop, "--steps", "1000000"], loop


def is_dear(ended, most, memory):
    """Whether a run took more of the processor's time, or more memory, than it may, or ended as none does."""
    return ended.status not in (0, 1, 2, 3) or ended.processor > most or ended.memory > memory


def second():
    """How many seconds of the processor are meant by a second: more on a slower machine, never less than one."""
    begin = time.process_time()
    for _ in range(10_000_000):
        pass
    return max(1, (time.process_time() - begin) / COUNTED) * LEAST_SECONDS


def gate(program, only=""):
    """Runs each of `worst`, and says which took longer, or more memory, than they may, each time that it was run.
    What `check --least` takes is measured once for a program."""
    wrong, count, begin, least = 0, 0, time.monotonic(), {}
    with tempfile.TemporaryDirectory(prefix="multiscalar-limits-") as name:
        folder = pathlib.Path(name)
        for kind, words, text, *memory in worst(folder):
            # what this process has had counts, too, until the run has begun
            own = resource.getrusage(resource.RUSAGE_SELF).ru_maxrss * 1024 / 1e6
            memory = max((memory or [GATE_MEMORY])[0], own + 2)
            if only not in f"{kind} {words[0]}":
                continue
            if text not in least:
                least[text] = ran(program, ["check", "--least", str(text)], folder).processor
            for _ in range(TRIES):
                most = max(second(), TIMES * least[text])
                ended = ran(program, [str(word) for word in words], folder, most, kind.endswith(AT_TERMINAL))
                if not is_dear(ended, most, memory):
                    break
            count += 1
            if is_dear(ended, most, memory):
                wrong += 1
                print(f"wrong: {kind}: {' '.join(str(word).replace(name, '.') for word in words)}: status {ended.status}, {ended.processor:.1f} s of {most:.1f}, {ended.memory:.0f} MB of {memory:.0f}", flush=True)
    print(f"limits: {count} runs, {wrong} wrong ({time.monotonic() - begin:.0f} s)")
    return 1 if wrong else 0


def faults_of(ended, status, answer, bound, reason="", timed=()):
    """What is wrong with a run. The answer is how standard output begins, empty where it is, or the file that is refused, or left open; it may take
    a second, and one for each 30 MB, if it is given the files that it reads."""
    if isinstance(answer, (str, pathlib.Path)):
        right = (ended.out, ended.told) == (b"", f"multiscalar: file {answer}{reason}\n".encode())
    else:
        right = answer is None or (ended.out[:len(answer) or None] == answer and ended.told == b"")
    if ended.status != status or not right:
        yield f"status {ended.status}, {ended.out[:60]}, {ended.told[:60]}"
    if ended.memory > bound:
        yield f"{ended.memory:.0f} MB"
    if timed and ended.processor > max(1, (ended.written + sum(path.stat().st_size for path in timed)) / 30e6):
        yield f"{ended.processor:.1f} s of the processor"


def measured(program, only=""):
    """By subcommand and kind of text: the runs, the most memory and seconds, what memory is allowed, and the differences."""
    rows, traces = {}, ("trace", "json") if writes_json(program) else ("trace",)
    with tempfile.TemporaryDirectory(prefix="multiscalar-limits-") as name:
        folder = pathlib.Path(name)
        every = itertools.chain(programs(folder), masks(folder), certificates(folder), scripts(folder, traces), runs(folder, traces))
        for kind, words, status, answer, bound, *timed in every:
            if only not in f"{kind} {words[0]}":
                continue
            ended = ran(program, [str(word) for word in words], folder)
            row = rows.setdefault((words[0], kind), [0, 0, 0, bound, []])
            row[0], row[1], row[2] = row[0] + 1, max(row[1], ended.memory), max(row[2], ended.seconds)
            row[4] += [f"{' '.join(map(str, words))}: {fault}" for fault in faults_of(ended, status, answer, bound, ": longer than 134217728 bytes" if words[0] == "explain" else "", timed)]
    return rows


def run(program, minutes=0, seed=0, only=""):
    """One row for each kind of text: its name, the number of runs, what they took, and the differences."""
    return [(f"`{subcommand}` of {kind}", count, {f"at most {memory:.0f} MB of {bound:.0f}, {seconds:.1f} s": count}, differences)
            for (subcommand, kind), (count, memory, seconds, bound, differences) in measured(program, only).items()]


def by_subcommand(program):
    """One row for each subcommand."""
    rows = {}
    for (subcommand, _), (count, memory, _, _, differences) in measured(program).items():
        row = rows.setdefault(subcommand, [0, 0, []])
        row[0], row[1], row[2] = row[0] + count, max(row[1], memory), row[2] + differences
    return [(f"texts at the limits, `{subcommand}`", count, {f"at most {memory:.0f} MB": count}, differences) for subcommand, (count, memory, differences) in rows.items()]


def main():
    parser = argparse.ArgumentParser(description=__doc__.splitlines()[0])
    parser.add_argument("program")
    parser.add_argument("--only", default="", metavar="WORD", help="only what has this in its name")
    parser.add_argument("--gate", action="store_true", help="texts that would take long")
    args = parser.parse_args()
    if args.gate:
        return gate(str(pathlib.Path(args.program).resolve()), args.only)
    wrong = 0
    for part, count, seen, differences in run(str(pathlib.Path(args.program).resolve()), only=args.only):
        print(f"{part}: {count} runs,", *seen, flush=True)
        for difference in differences:
            print("wrong:", difference)
        wrong += len(differences)
    print("wrong", wrong)
    return 1 if wrong else 0


if __name__ == "__main__":
    sys.exit(main())
