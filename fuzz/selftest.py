#!/usr/bin/env python3
"""Plants faults, and looks whether the scripts of this folder find them.

    selftest.py PROGRAM [--fuzzer FILE] [--calls FILE] [--only WORD] [--patience N]

A script that finds nothing may look for nothing. So each script is given a program that has a fault in one kind of job:
a runner, which is linked statically so that the libraries of faults.py leave it alone, starts PROGRAM and spoils what
it answers. It does so only where the words of the command line have those that a plant names, such as `run steps svg`:
so it is seen, too, that the script tries that job. For each script and job the table says what was planted and whether
it was found. `--fuzzer` is that of entry/build.sh, `--calls` the program that refused_calls.py keeps. A script
looks for a fault for some seconds, or for `--patience` times as many, as a busy machine needs. The script ends with
status 1 if a fault was not found. Needs python3 and cc, and root for one part; it is no part of the tests.
"""
import argparse
import contextlib
import io
import os
import pathlib
import random
import subprocess
import sys
import tempfile
import time

import draws
import ended_runs
import ending
import explain
import failed_calls
import faults
import hostile
import limits
import load
import picture
import refused_calls
import refused_growths
import refused_threads
import schedules

HERE = pathlib.Path(__file__).resolve().parent
# How many times the usual seconds a script has.
patience = 1.0


def soon(seconds):
    """The end of so many seconds, or of more where the machine is busy."""
    return time.monotonic() + patience * seconds


# PROGRAM, KIND and WORDS: the program, what is planted, and the words that the command line must have.
RUNNER = r"""
#define _GNU_SOURCE
#include <signal.h>
#include <stdio.h>
#include <stdlib.h>
#include <string.h>
#include <sys/wait.h>
#include <time.h>
#include <unistd.h>
static int has(int count, char **words, const char *word, size_t size) {
    for (int k = 1; k < count; k++) if (strlen(words[k]) >= size && memmem(words[k], strlen(words[k]), word, size)) return 1;
    return 0;
}
static char *all(int file, size_t *size) {
    size_t room = 1 << 16;
    char *text = malloc(room);
    for (ssize_t got; (got = read(file, text + *size, room - *size)) > 0;)
        if ((*size += got) == room) text = realloc(text, room *= 2);
    return text;
}
static void put(int file, const char *text, size_t size) {
    for (ssize_t done; size && (done = write(file, text, size)) > 0; size -= done) text += done;
}
/* An escape that a name has is shown as it is. */
static size_t bared(char *text, size_t size) {
    for (size_t k = 0; k + 4 <= size; k++) {
        if (memcmp(text + k, "\\x1b", 4)) continue;
        text[k] = 27;
        memmove(text + k + 1, text + k + 4, size - k - 4);
        size -= 3;
    }
    return size;
}
int main(int count, char **words) {
    const char *kind = getenv("KIND"), *needed = getenv("WORDS"), *program = getenv("PROGRAM");
    int is_meant = 1;
    for (const char *at = needed; *at; at += strspn(at, " ")) {
        size_t size = strcspn(at, " ");
        is_meant &= has(count, words, at, size);
        at += size;
    }
    if (getenv("ONLY_FAULTS") && !(getenv("FAULTS") && *getenv("FAULTS"))) is_meant = 0;
    if (is_meant && !strcmp(kind, "deaf")) for (int k = 1; k < 32; k++) if (k != SIGPIPE) signal(k, SIG_IGN);
    if (is_meant && !strcmp(kind, "waits")) for (;;) pause();
    if (is_meant && !strcmp(kind, "turns")) for (;;) {}
    if (is_meant && !strcmp(kind, "large")) { size_t size = 2000 << 20; memset(malloc(size), 1, size); }
    if (!is_meant || !strcmp(kind, "deaf") || !strcmp(kind, "large")) { execv(program, words); _exit(126); }
    if (!strcmp(kind, "slow")) {  /* a time that grows with the square of the longest file */
        double longest = 0;
        for (int k = 2; k < count; k++) { FILE *file = fopen(words[k], "r"); if (file) { fseek(file, 0, SEEK_END); double size = ftell(file); if (size > longest) longest = size; fclose(file); } }
        for (volatile double turns = longest * longest / 1e6; turns > 0; turns--) {}
    }
    int out[2], told[2], status;
    if (pipe(out) || pipe(told)) _exit(126);
    pid_t child = fork();
    if (!child) {
        dup2(out[1], 1); dup2(told[1], 2);
        close(out[0]); close(out[1]); close(told[0]); close(told[1]);
        execv(program, words);
        _exit(126);
    }
    close(out[1]); close(told[1]);
    size_t out_size = 0, told_size = 0;
    char *text = all(out[0], &out_size), *errors = all(told[0], &told_size);
    waitpid(child, &status, 0);
    if (WIFSIGNALED(status)) { signal(WTERMSIG(status), SIG_DFL); raise(WTERMSIG(status)); }
    status = WEXITSTATUS(status);
    int seldom = !strcmp(kind, "seldom");
    struct timespec now;
    clock_gettime(CLOCK_REALTIME, &now);
    if (!strcmp(kind, "digit") || (seldom && now.tv_nsec / 1000 % 8 == 0)) {
        size_t at = 0;
        while (at < out_size && !(text[at] >= '0' && text[at] <= '9')) at++;
        if (at < out_size) text[at] = '0' + (text[at] - '0' + 1) % 10;
        else { put(1, "1\n", 2); status = 1; }
    }
    if (!strcmp(kind, "bare")) { out_size = bared(text, out_size); told_size = bared(errors, told_size); }
    if (!strcmp(kind, "wrong")) {  /* another status, and another byte of the answer */
        status = status == 2 ? 1 : 2;
        if (out_size) text[0] ^= 1;
    }
    if (status == 2 && !strcmp(kind, "crash")) raise(SIGSEGV);
    if (status == 2 && !strcmp(kind, "half")) put(1, "retired", 7);
    if (status == 2 && !strcmp(kind, "status")) status = 1;
    if (status == 2 && !strcmp(kind, "silent")) told_size = 0;
    put(1, text, out_size);
    put(2, errors, told_size);
    _exit(status);
}
"""

# A program that is wrong, as KIND says, where its one growth is refused.
GROWER = r"""
#include <signal.h>
#include <stdlib.h>
#include <string.h>
#include <unistd.h>
static void put(int file, const char *text) { if (write(file, text, strlen(text)) < 0) { } }
int main(void) {
    const char *kind = getenv("KIND");
    char *grown = malloc(100);
    if (grown) { put(1, "right\n"); _exit(0); }
    if (!strcmp(kind, "crash")) raise(SIGSEGV);
    if (!strcmp(kind, "waits")) for (;;) pause();
    if (!strcmp(kind, "turns")) for (;;) {}
    if (!strcmp(kind, "half")) put(1, "ri");
    if (strcmp(kind, "silent")) put(2, "multiscalar: 1 OutOfMemory\n");
    _exit(!strcmp(kind, "status") ? 1 : 2);
}
"""

# The kinds of jobs that a script has to try: a name, and words of the command line that only such a job has.
RUNS = [("run by threads", "run cert"), ("run, script", "run script"), ("run, table", "run summary"), ("run, picture", "run svg"),
        ("run in steps", "run steps"), ("run in steps, script", "run steps script"), ("run in steps, table", "run steps summary"), ("run in steps, picture", "run steps svg"),
        ("run, trace", "run trace"), ("run in steps, trace", "run steps trace"), ("run, JSON", "run json"), ("run in steps, JSON", "run steps json"),
        ("run --least", "run --least")]
MORE = [("curve", "curve cert"), ("curve --least", "curve --least"), ("curve, picture", "curve svg"), ("explain as a log", "explain sarif"), ("explain --no-warnings", "explain --no-warnings"),
        ("annotate, marks", "annotate marks"), ("replay, trace", "replay trace"), ("replay, JSON", "replay json")]
JOBS = [("seq", "seq"), ("print", "print"), ("annotate", "annotate"), ("explain", "explain"), ("explain with a certificate", "explain cert"),
        ("check", "check cert"), ("check --least", "check --least"), ("check by threads", "check 4"), ("replay", "replay cert"),
        ("replay, table", "replay summary"), ("replay, picture", "replay svg"), ("replay --least", "replay --least"), *MORE, *RUNS]


class Planted:
    """The runner, and the environment that plants a fault."""

    def __init__(self, program, folder):
        self.runner, self.grower = folder / "runner", folder / "grower"
        for made, source, how in ((self.runner, RUNNER, ["-static"]), (self.grower, GROWER, [])):
            made.with_suffix(".c").write_text(source)
            subprocess.run(["cc", "-O1", *how, "-w", "-o", made, made.with_suffix(".c")], check=True)
        folder.chmod(0o755)
        os.environ["PROGRAM"] = str(pathlib.Path(program).resolve())

    def plant(self, kind, words="", only_faults=False):
        os.environ.update(KIND=kind, WORDS=words)
        os.environ.pop("ONLY_FAULTS", None)
        if only_faults:
            os.environ["ONLY_FAULTS"] = "1"
        return str(self.runner)


def has(words, needed):
    """Whether a command line has these words, as the runner sees it."""
    return all(any(word in given for given in words[1:] + words[:1]) for word in needed.split())


def first(cases, needed):
    """The first command line that has these words, of an example that is not long."""
    return next((words for words in cases if has(words, needed) and "spin" not in " ".join(words)), None)


def growths(planted):
    """refused_growths.py: in each job a crash, half an answer, or another status, where memory is refused."""
    for (name, needed), kind in zip(JOBS, ["crash", "half", "status", "silent"] * 9):
        with faults.Bench(planted.plant("none", "no such word")) as bench:
            words = first(refused_growths.example_cases(), needed)
            if not words:
                yield name, kind, False
                continue
            case, row = refused_growths.Case(bench, words), faults.Row(name)
            planted.plant(kind, needed)
            for n in range(1, min(case.growths, 12) + 1):
                case.judge(row, bench.run(words, refused_growths.refusal(n, n)), "")
            yield name, kind, bool(row.differences)
    for kind in ("crash", "half", "status", "silent"):
        yield "a run that is forked", kind, is_wrong_when_forked(planted, kind)
    yield "a run that is forked and right", "nothing", not is_wrong_when_forked(planted, "none")


def is_wrong_when_forked(planted, kind):
    """Whether refused_growths.py finds a fault in the forked runs of GROWER."""
    os.environ["KIND"] = kind
    with faults.Bench(planted.grower) as bench:
        case, row = refused_growths.Case(bench, ["seq"]), faults.Row("")
        refused_growths.make(row, [(case, refused_growths.refusal(1, 1)), (case, refused_growths.refusal(2, 2))])
    return bool(row.differences) or sum(row.answers.values()) != 2


def calls(planted):
    """failed_calls.py: each part, with another status and answer in all jobs; and each job, in the part of failing reads."""
    draw = random.Random(1)
    with faults.Bench(planted.plant("none", "no such word")) as good, faults.Bench(planted.runner) as bad:
        every = [case for case in failed_calls.cases(good) if any(f"/{name}/" in " ".join(case.words) for name in ("count", "five-findings"))]
        for name, runs in zip(failed_calls.EXPECTED, failed_calls.RUNS):
            shared = name.startswith("positioned reads") or "size of a file" in name
            # what is right is known by other runs of the same program, which must answer as ever
            needed = "4" if "about as long" in name else "null" if name == "empty inputs" else ""
            planted.plant("wrong", needed, only_faults=shared and not needed or name in ("a read finds the end too early", "a file is cut while it is read", "a file grows while it is read"))
            part = failed_calls.Part(name, bad, soon(20 if shared else 4))
            runs(part, every[:] if not shared else [case for case in every if case.right.counts[faults.SIZE]], draw)
            planted.plant("none", "no such word")
            yield name, "another answer", bool(part.row.differences)
        for name, needed in JOBS:
            chosen = [case for case in every if has(case.words, needed)][:2]
            planted.plant("wrong", needed)
            part = failed_calls.Part(name, bad, soon(4))
            failed_calls.failing_read(part, chosen, draw)
            planted.plant("none", "no such word")
            yield f"a read fails, {name}", "another answer", bool(part.row.differences)


def signals(planted):
    """ended_runs.py: a program that heeds no signal."""
    for name, needed in (("seq", "seq"), ("run in steps", "run steps"), ("run in steps, JSON", "run steps json"), ("curve, picture", "curve svg"), ("explain with a certificate", "explain cert")):
        with faults.Bench(planted.plant("deaf", needed)) as bench:
            bench.program, every = planted.plant("none", "no such word"), None
            every = [case for case in failed_calls.cases(bench) if has(case.words, needed)]
            row, planted_cases = faults.Row(name), failed_calls.cases
            ended_runs.cases = lambda _: every
            planted.plant("deaf", needed)
            ended_runs.in_a_call(row, bench, random.Random(1), soon(3))
            ended_runs.cases = planted_cases
            yield name, "deaf to signals", bool(row.differences)


def hostile_bytes(planted):
    """hostile.py: in each job another digit; the fuzzer's own plants are in `fuzzer`."""
    cases = list(hostile.seeds.cases(2000, 3))
    by_name = {"seq": (0,), "print": (1,), "annotate": (2,), "explain": (13,), "explain with a certificate": (8,), "check": (3,),
               "check --least": (12, 14), "replay": (4,), "replay, table": (10,), "replay, picture": (10,), "replay --least": (12,), "run by threads": (5,),
               "run, script": (5,), "run, table": (11,), "run, picture": (11,), "run in steps": (9,), "run in steps, script": (9, 14),
               "run in steps, table": (9, 14), "run in steps, picture": (9, 14), "run --least": (12,), "run, trace": (19,), "run in steps, trace": (19, 21),
               "replay, trace": (20, 23), "run, JSON": (19,), "run in steps, JSON": (19, 21), "replay, JSON": (20,), "curve, picture": (16,), "curve": (16,), "curve --least": (16, 21), "explain as a log": (17,), "explain --no-warnings": (22,), "annotate, marks": (18,)}
    for name, needed in JOBS:
        if name not in by_name:
            continue
        chosen = [case for case in cases if case[0] % 128 % hostile.JOBS in by_name[name]][:150]
        needed = needed.replace(" cert", " c" if "explain" not in needed else "")
        runner = planted.plant("digit", needed)
        _, _, differences, _ = hostile.compare(runner, soon(20), chosen)
        yield name, "another digit", bool(differences)
    *_, differences = hostile.timed(planted.plant("slow", "print"), 0.5 * patience, 1, "a long comment")
    yield "inputs that are worst for time", "a time that grows with the square", bool(differences)


def drawn_runs(planted):
    """draws.py: another digit, which a result in a file does not have, and an escape in a name."""
    for kind, what, needed in (("command lines", "digit", "print"), ("broken texts", "digit", "explain"), ("files for results", "digit", "seq"), ("strange names", "bare", "explain")):
        _, differences, *_ = draws.draw_some(planted.plant(what, needed), 1, 500, soon(60), kind)
        yield kind, {"digit": "another digit", "bare": "an escape as it is"}[what], bool(differences)


def fuzzer(planted, program):
    """The fuzzer: in each job half a line, another digit or status, the other stream, a block, memory, time, a crash."""
    plants = ["h,0", "d,1", "t,2", "s,3", "d,4", "d,5", "d,7", "d,8", "s,8", "b,8", "d,9", "e,9", "d,10", "m,10", "h,11", "d,12", "d,16", "s,17", "d,18", "h,19", "h,20", "s,22", "c,6"]
    with tempfile.TemporaryDirectory() as folder:
        corpus = pathlib.Path(folder) / "corpus"
        corpus.mkdir()
        hostile.begun(corpus, None, 1)
        for it in plants:
            done = subprocess.run([program, *hostile.FUZZING, "-runs=3000", f"-artifact_prefix={folder}/", str(corpus)], capture_output=True,
                                  env=dict(os.environ, HOSTILE_PLANT=it))
            yield f"job {it[2:]}", {"h": "half a line", "d": "other digits", "s": "another status", "e": "the other stream", "b": "a block that is kept",
                                    "m": "much memory", "t": "a long time", "c": "a crash"}[it[0]], done.returncode != 0


def memory(planted):
    """limits.py: a program that takes 2 GB."""
    for kind, needed in (("the most tasks, in steps", "steps svg"), ("the most tasks", "summary")):
        rows = limits.run(planted.plant("large", needed), only=kind)
        yield kind, "2 GB of memory", any(row[3] for row in rows)


def threads(planted):
    """schedules.py, load.py and refused_threads.py: one run in eight with another digit, and another status for want of a thread."""
    for name, needed in (("run by threads", "--workers"), ("run in steps", "steps")):
        _, differences, _ = schedules.perform(planted.plant("seldom", f"run {needed}"), 3, 60 * patience, 0, "count")
        yield f"schedules.py: {name}", "sometimes another digit", bool(differences)
    for how, needed in (("all cores", "report"), ("calls that sleep", "script"), ("threads that stop at random moments", "summary"), ("all cores", "svg"), ("two cores", "json"), ("small stacks", "--least")):
        rows = load.run(planted.plant("digit" if needed != "svg" else "wrong", f"run {needed} given"), 4 * patience, 1, kinds=[how], until_first=True)
        yield f"load.py: {how}, {needed}", "another digit", any(row[3] for row in rows)
    with tempfile.TemporaryDirectory() as folder:
        for name, needed in (("run", "run count"), ("run --least", "run --least")):
            found, runner = False, planted.plant("status", needed)
            for *_, is_right, _ in refused_threads.runs(runner, faults.TOP / "examples", pathlib.Path(folder), 1, soon(120)):
                if not is_right:
                    found = True
                    break
            yield f"refused_threads.py: {name}", "another status", found


def beside_the_model(planted):
    """fuzz.py, explain.py, picture.py and the others that are beside the model: another digit."""
    for name, needed in (("run in steps", "run steps"), ("run, trace", "run trace"), ("replay", "replay"), ("check --least", "check --least"), ("curve", "curve"),
                         ("annotate, marks", "annotate marks"), ("run, JSON", "run json"), ("replay, JSON", "replay json"), ("replay, state", "replay state"), ("run, waits", "run waits")):
        with tempfile.TemporaryDirectory() as folder:
            done = subprocess.run([sys.executable, str(HERE / "fuzz.py"), planted.plant("digit", needed), "--seconds", str(20 * patience), "--seed", "1", "--max", "1",
                                   "--subs", needed.split()[0], "--out", f"{folder}/findings"], capture_output=True)
        yield f"fuzz.py: {name}", "another digit", done.returncode == 1
    for name, needed in (("explain", "explain"), ("explain with a certificate", "explain c")):
        runner = planted.plant("digit", needed)
        done = subprocess.run([sys.executable, str(HERE / "explain.py"), runner, "--seconds", str(20 * patience), "--seed", "1"], capture_output=True)
        yield f"explain.py: {name}", "another digit", done.returncode == 1
    for name, needed in (("curve.py", "curve"), ("curve_picture.py", "curve svg"), ("costly_marks.py", "explain"), ("marks.py", "annotate marks"), ("sarif.py", "explain sarif")):
        runner = planted.plant("digit", needed)
        done = subprocess.run([sys.executable, str(HERE / name), runner, "--seconds", str(20 * patience), "--seed", "1"], capture_output=True)
        yield f"{name}: {needed.split()[0]}", "another digit", done.returncode == 1
    done = subprocess.run([sys.executable, str(HERE / "picture.py"), "--program", planted.plant("none", "no such word"), str(faults.TOP / "examples" / "count")], capture_output=True)
    yield "picture.py: the pictures as they are", "nothing", done.returncode == 0
    for needed in ("replay svg", "run steps svg"):
        done = subprocess.run([sys.executable, str(HERE / "picture.py"), "--program", planted.plant("digit", needed), str(faults.TOP / "examples" / "count")], capture_output=True)
        yield f"picture.py: {needed}", "another digit", done.returncode == 1


def calls_of_libraries(planted, program):
    """refused_calls.py: an answer that is another after a refusal."""
    for call in ("assemble", "explain", "run_steps", "certificate refused", "fitting", "lines of JSON", "picture", "warnings", "log_text", "serve"):
        os.environ["PROGRAM"] = str(program)
        rows = refused_calls.run(planted.plant("none", "no such word"), 0.1 * patience, only=call)
        good = sum(row.runs for row in rows) > 0 and not any(row.differences for row in rows)
        rows = []
        with contextlib.suppress(Exception):
            rows = refused_calls.run(planted.plant("seldom", call.split()[0]), 0.3 * patience, only=call)
        yield call, "sometimes another digit", good and any(row.differences for row in rows)


def ends(planted):
    """ending.py, in each script that waits for runs: a run that waits without end, and one that turns without end; and the
    other way round, a run that gets no core for longer than is allowed to both must not be given up."""
    kept = ending.PROCESSOR, ending.IDLE
    ending.PROCESSOR = ending.IDLE = 2.0
    source = str(faults.TOP / "examples" / "count" / "program.s")
    try:
        for kind, what in (("waits", "a run that waits without end"), ("turns", "a run that turns without end")):
            runner = planted.plant("none", "no such word")
            with faults.Bench(runner) as bench, tempfile.TemporaryDirectory() as folder:
                case, row = refused_growths.Case(bench, ["seq", source]), faults.Row("")
                planted.plant(kind, "seq")
                case.judge(row, bench.run(case.words), "")
                yield "refused_growths.py", what, bool(row.differences)
                yield "refused_growths.py, forked", what, is_wrong_when_forked(planted, kind)
                yield "load.py", what, load.call([runner, "seq", source])[0] is None
                yield "schedules.py", what, schedules.call(runner, "seq", source).returncode is None
                yield "hostile.py", what, hostile.Runner(runner, pathlib.Path(folder))(["seq", "p"], [b"A: halt\n"])[0] is None
        yield "ending.py", "a run that gets no core, which is waited for", is_waited_for(planted)
    finally:
        ending.PROCESSOR, ending.IDLE = kept


def is_waited_for(planted):
    """Whether a run is waited for that has to wait for a core, for longer than an idle one is allowed to be."""
    runner, core = planted.plant("none", "no such word"), max(os.sched_getaffinity(0))
    spin = faults.TOP / "examples" / "spin"
    words = [runner, "run", "--schedule", "steps", "--budget", "300000", str(spin / "program.s"), str(spin / "certificate.cert2")]

    def begin():
        os.sched_setaffinity(0, [core])
        os.nice(19)

    others = [subprocess.Popen([sys.executable, "-c", "while True: pass"], preexec_fn=lambda: os.sched_setaffinity(0, [core])) for _ in range(8)]
    first = time.monotonic()
    try:
        done = ending.run(words, capture_output=True, preexec_fn=begin)
        return done.returncode == 3 and time.monotonic() - first > ending.IDLE
    except subprocess.TimeoutExpired:
        return False
    finally:
        for other in others:
            other.kill()
            other.wait()


def parts_of(fuzzer_of, calls_of):
    """The parts, and what plants faults for each."""
    parts = {"refused_growths": growths, "failed_calls": calls, "ended_runs": signals, "hostile": hostile_bytes, "draws": drawn_runs, "limits": memory,
             "threads": threads, "model": beside_the_model, "ending": ends}
    if fuzzer_of:
        parts["fuzzer"] = lambda planted: fuzzer(planted, fuzzer_of)
    if calls_of:
        parts["refused_calls"] = lambda planted: calls_of_libraries(planted, calls_of)
    return parts


def run(program, minutes, seed, fuzzer=None, calls=None, times=1.0):
    """The row for the table, however long it takes: how many faults were planted, and which were not found. The scripts have so many times their seconds."""
    global patience
    patience = times
    tried, missed, kept = 0, [], dict(os.environ)
    with tempfile.TemporaryDirectory(prefix="multiscalar-planted-") as name:
        planted = Planted(program, pathlib.Path(name))
        for part, plants in parts_of(fuzzer, calls).items():
            for where, what, found in plants(planted):
                tried += 1
                missed += [] if found else [f"{part}, {where}: {what} was not found"]
    os.environ.clear()
    os.environ.update(kept)
    return [("faults planted, to see whether these scripts find them", tried, {"found": tried - len(missed)}, missed)]


def main():
    parser = argparse.ArgumentParser(description=__doc__, formatter_class=argparse.RawDescriptionHelpFormatter)
    parser.add_argument("program", metavar="PROGRAM")
    parser.add_argument("--fuzzer", type=os.path.abspath)
    parser.add_argument("--calls", type=os.path.abspath)
    parser.add_argument("--only", default="", help="only the parts whose name has this")
    parser.add_argument("--patience", type=float, default=1.0, help="how many times the usual seconds a script has")
    given = parser.parse_args()
    global patience
    patience = given.patience
    missed = tried = 0
    with tempfile.TemporaryDirectory(prefix="multiscalar-planted-") as name:
        planted = Planted(given.program, pathlib.Path(name))
        print("| Script | Where | Planted | Found |\n|---|---|---|---|")
        for part, plants in parts_of(given.fuzzer, given.calls).items():
            if given.only not in part:
                continue
            for where, what, found in plants(planted):
                tried, missed = tried + 1, missed + (not found)
                print(f"| {part} | {where} | {what} | {'yes' if found else 'NO'} |", flush=True)
    print(f"{tried} planted, {missed} not found")
    return 1 if missed else 0


if __name__ == "__main__":
    sys.exit(main())
