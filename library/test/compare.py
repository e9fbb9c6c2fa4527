"""The library's bytes and statuses beside the program's: each job over all examples, and a few over random texts.

    compare.py PROGRAM TEXTS

Where what is written may name the program, the program reads it from standard input, which has no name: so does the
library, to which no file belongs.
"""

import random
import subprocess
import sys
import tempfile
from pathlib import Path

import multiscalar

TOP = Path(__file__).resolve().parent.parent.parent
PROGRAM, TEXTS = sys.argv[1], int(sys.argv[2])
EMITS = {
    "annotate": (multiscalar.AnnotateEmit, ["text", "cert", "keep", "marks"]),
    "replay": (multiscalar.ReplayEmit, ["answers", "summary", "svg", "trace", "json", "perfetto", "state", "summary --format csv"]),
    "run": (multiscalar.RunEmit, ["report", "script", "summary", "svg --axis events", "trace", "json", "script --with-values", "waits", "vcd", "perfetto", "svg", "kanata", "summary --format csv", "waits --format csv"]),
    "curve": (multiscalar.CurveEmit, ["table", "svg", "table --format csv"]),
}
PREDICTIONS = {"first": multiscalar.FIRST, "last": multiscalar.LAST, "1,0": [1, 0]}


def emits(job):
    kind, words = EMITS[job]
    return zip(kind, words)


class Comparison:
    def __init__(self):
        self.same, self.differing = 0, 0

    def compare(self, words, report, text=b""):
        done = subprocess.run([PROGRAM, *map(str, words)], input=text, capture_output=True)
        if (done.returncode, done.stdout) == (report.status, report.data):
            self.same += 1
        else:
            self.differing += 1
            print("differs:", *words, done.returncode, report.status, done.stdout[:100], report.data[:100], done.stderr[:100])

    def judge(self, file):
        """The jobs that take a program alone."""
        text = file.read_bytes()
        self.compare(["seq", file], multiscalar.seq(text))
        self.compare(["print", file], multiscalar.print_program(text))
        self.compare(["check", "--least", file], multiscalar.check(text))
        self.compare(["demonstrate", "--units", 4, "--steps", 500, file], multiscalar.demonstrate(text, units=4, steps=500))
        self.compare(["explain", "--no-warnings", file], multiscalar.explain_text(text, name=str(file), warnings=False))
        for form, name in zip(multiscalar.ExplainFormat, ["text", "sarif", "json"]):
            self.compare(["explain", "--format", name, file], multiscalar.explain_text(text, name=str(file), form=form))
        for emit, word in emits("annotate"):
            self.compare(["annotate", "--emit", word, file], multiscalar.annotate(text, emit))

    def run(self, file):
        text = file.read_bytes()
        for units in (1, 3, 16):
            for word, prediction in PREDICTIONS.items():
                for emit, name in emits("run"):
                    words = ["run", "--least", "--schedule", "steps", "--units", units, "--predict", word, "--budget", 2000, "--emit", *name.split(), "-"]
                    self.compare(words, multiscalar.run_in_steps(text, units=units, budget=2000, prediction=prediction, emit=emit), text)
        for emit, name in emits("curve"):
            self.compare(["curve", "--least", "--units", 6, "--budget", 2000, "--emit", *name.split(), "-"], multiscalar.curve(text, units=6, budget=2000, emit=emit), text)

    def replay(self, file, certificate, script):
        """By a certificate, or by the least one."""
        text = None if certificate is None else certificate.read_bytes()
        given = ["--least"] if certificate is None else []
        others = [script] if certificate is None else [certificate, script]
        program = file.read_bytes()
        for emit, name in emits("replay"):
            report = multiscalar.replay(program, script.read_bytes(), text, emit=emit)
            self.compare(["replay", *given, "--units", 4, "--emit", *name.split(), "-", *others], report, program)
        self.compare(["replay", "--strict", *given, file, *others], multiscalar.replay_strictly(program, script.read_bytes(), text))

    def certify(self, file, certificate):
        self.compare(["check", file, certificate], multiscalar.check(file.read_bytes(), certificate.read_bytes()))

    def example(self, file):
        self.judge(file)
        self.run(file)
        certificates = sorted(file.parent.glob("certificate.cert*"))
        for certificate in certificates:
            self.certify(file, certificate)
        for script in sorted(file.parent.glob("*.events")):
            for certificate in [None, *certificates]:
                self.replay(file, certificate, script)


def changed(text, chance):
    """The text with some of its bytes and lines changed."""
    lines = text.split(b"\n")
    for _ in range(chance.randrange(4)):
        line = chance.randrange(len(lines))
        lines[line] = chance.choice([b"", lines[chance.randrange(len(lines))], lines[line][: chance.randrange(len(lines[line]) + 1)]])
    data = bytearray(b"\n".join(lines))
    for _ in range(chance.randrange(4)):
        if data:
            data[chance.randrange(len(data))] = chance.choice(b"$,!:0129azAZ \n#\x00\xff")
    return bytes(data)


def main():
    chance, comparison = random.Random(1), Comparison()
    examples = sorted((TOP / "examples").glob("**/*.s"))
    for file in examples:
        comparison.example(file)
    with tempfile.TemporaryDirectory() as folder:
        file = Path(folder) / "a.s"
        for _ in range(TEXTS):
            file.write_bytes(changed(chance.choice(examples).read_bytes(), chance))
            comparison.judge(file)
    print(f"{comparison.same} answers are the same, {comparison.differing} differ")
    sys.exit(comparison.differing > 0 or not comparison.same)


main()
