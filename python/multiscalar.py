"""Multiscalar's jobs over texts in memory: check marks, explain them, run and replay programs.

    import multiscalar

    verdict = multiscalar.check(open("count.s").read())
    if not verdict:
        for diagnostic in multiscalar.explain(open("count.s").read(), name="count.s"):
            print(f"{diagnostic.name}:{diagnostic.line}: {diagnostic.message}")

It calls the shared library libmultiscalar.so.0 through ctypes: the one that the variable MULTISCALAR_LIBRARY names, or
that of the release or installation in which this file lies, or one that the system finds. Texts are `bytes` or `str`,
which is taken as UTF-8. Where no certificate is given, the least one is meant. A number out of its range raises
ValueError, want of memory MemoryError.
"""

from __future__ import annotations

import ctypes
import ctypes.util
import json
import os
import re
from dataclasses import dataclass
from enum import IntEnum
from pathlib import Path
from typing import Sequence, Union
from urllib.parse import unquote

__all__ = [
    "AnnotateEmit", "CurveEmit", "Diagnostic", "ExplainFormat", "FIRST", "Finding", "LAST", "ReplayEmit", "Report", "RunEmit", "Verdict",
    "annotate", "check", "curve", "demonstrate", "explain", "explain_text", "print_program", "replay", "replay_strictly", "run_in_steps", "seq", "version",
]

Text = Union[str, bytes]

_SHORT, _MEMORY, _RANGE = 256, 257, 258


class AnnotateEmit(IntEnum):
    """What `annotate` writes."""

    TEXT = 0
    CERTIFICATE = 1
    KEEP = 2
    MARKS = 3


class ExplainFormat(IntEnum):
    """How `explain_text` lays out what it says: for a person, as a log in SARIF, or as lines of JSON."""

    TEXT = 0
    SARIF = 1
    JSON = 2


class ReplayEmit(IntEnum):
    """What `replay` writes."""

    ANSWERS = 0
    SUMMARY = 1
    SVG = 2
    TRACE = 3
    JSON = 4
    PERFETTO = 5
    STATE = 6
    SUMMARY_CSV = 7


class RunEmit(IntEnum):
    """What `run_in_steps` writes."""

    REPORT = 0
    SCRIPT = 1
    SUMMARY = 2
    SVG = 3
    TRACE = 4
    JSON = 5
    SCRIPT_WITH_VALUES = 6
    WAITS = 7
    VCD = 8
    PERFETTO = 9
    SVG_STEPS = 10
    KANATA = 11
    SUMMARY_CSV = 12
    WAITS_CSV = 13


class CurveEmit(IntEnum):
    """What `curve` writes."""

    TABLE = 0
    SVG = 1
    TABLE_CSV = 2


class _Guess(IntEnum):
    FIRST = 0
    LAST = 1


FIRST = _Guess.FIRST
"""Guess the first target."""

LAST = _Guess.LAST
"""Guess the last target."""

Prediction = Union[_Guess, Sequence[int]]


@dataclass(frozen=True)
class Report:
    """What the program would write, and its status: 0 printed or halted, 1 refused or trapped, 3 out of budget."""

    status: int
    data: bytes

    @property
    def text(self) -> str:
        return self.data.decode("utf-8", "replace")


@dataclass(frozen=True)
class Finding:
    """A rule that a program breaks: its number (docs/RULES.md), where, and for which register."""

    task: str
    index: int
    rule: int
    register: int | None


@dataclass(frozen=True)
class Verdict(Report):
    """What `check` says. It is true exactly where the program is accepted."""

    def __bool__(self) -> bool:
        return self.status == 0

    @property
    def findings(self) -> list[Finding]:
        """The rules that are broken; empty also where a text is refused, which `text` then says."""
        rows = re.findall(r"^(\S+) (\d+) rule (\d+) (?:-|\$(\d+))$", self.text, re.M)
        return [Finding(task, int(index), int(rule), int(register) if register else None) for task, index, rule, register in rows]


@dataclass(frozen=True)
class Diagnostic:
    """One thing that is wrong, or that costs speed. Lines and columns begin with 1; columns count characters. The
    advice has a sentence for the line of C, if a comment names it, for each further place, and then what to do."""

    severity: str
    code: str
    message: str
    name: str
    line: int | None
    column: int | None
    end_column: int | None
    advice: tuple[str, ...]


# Where the library lies, seen from this file's folder: beside it, in an unpacked release, below install.sh's PREFIX.
_PLACES = (".", "../lib", "../../../lib")


def _library() -> ctypes.CDLL:
    folder = Path(__file__).resolve().parent
    near = (folder / place / "libmultiscalar.so.0" for place in _PLACES)
    named = os.environ.get("MULTISCALAR_LIBRARY") or next((str(it) for it in near if it.exists()), None)
    return ctypes.CDLL(named or ctypes.util.find_library("multiscalar") or "libmultiscalar.so.0")


_LIBRARY = _library()


def _bytes(text: Text | None) -> bytes:
    return text.encode() if isinstance(text, str) else bytes(text or b"")


def _passed(word: bool | int | bytes | list[int]) -> list:
    """How a word is passed: a number of 32 bits, or an address and a length."""
    if isinstance(word, bool):
        return [ctypes.c_bool(word)]
    if isinstance(word, int):
        if not 0 <= word < 2**32:
            raise ValueError(f"{word} is out of range")
        return [ctypes.c_uint32(word)]
    if isinstance(word, bytes):
        return [ctypes.c_char_p(word), ctypes.c_size_t(len(word))]
    if any(not 0 <= number < 2**32 for number in word):
        raise ValueError("a number of the list is out of range")
    return [(ctypes.c_uint32 * max(len(word), 1))(*word), ctypes.c_size_t(len(word))]


def _call(name: str, *words: bool | int | bytes | list[int], room: int = 4096) -> tuple[int, bytes]:
    """The status and the bytes of a call; it is made again with more room where they do not fit."""
    passed = [it for word in words for it in _passed(word)]
    function = getattr(_LIBRARY, "multiscalar_c_" + name)
    function.restype = ctypes.c_uint32
    length = ctypes.c_size_t()
    while True:
        out = ctypes.create_string_buffer(max(room, 1))
        status = function(*passed, out, ctypes.c_size_t(room), ctypes.byref(length))
        if status < _SHORT:
            return status, ctypes.string_at(out, length.value)
        if status == _MEMORY:
            raise MemoryError(name)
        if status == _RANGE:
            raise ValueError(f"{name}: a number is out of its range, or a name is not UTF-8")
        room = length.value


def _prediction(prediction: Prediction) -> tuple[int, list[int]]:
    return (int(prediction), []) if isinstance(prediction, _Guess) else (2, list(prediction))


def version() -> str:
    """The version of the library."""
    _LIBRARY.multiscalar_version.restype = ctypes.c_char_p
    return _LIBRARY.multiscalar_version().decode()


def check(program: Text, certificate: Text | None = None) -> Verdict:
    """Judges the marks of a program by a certificate."""
    return Verdict(*_call("check", certificate is None, _bytes(program), _bytes(certificate)))


def explain_text(program: Text, name: str = "program.s", certificate: Text | None = None, certificate_name: str = "program.cert2",
                 warnings: bool = True, form: ExplainFormat = ExplainFormat.TEXT) -> Report:
    """What is wrong with a program, and with a certificate if there is one, as text for a person or for other tools."""
    return Report(*_call("explain", int(form), warnings, certificate is not None, name.encode(), _bytes(program), certificate_name.encode(), _bytes(certificate)))


def explain(program: Text, name: str = "program.s", certificate: Text | None = None, certificate_name: str = "program.cert2",
            warnings: bool = True) -> list[Diagnostic]:
    """What is wrong with a program, and with a certificate if there is one; empty where nothing is."""
    _, data = _call("explain", int(ExplainFormat.SARIF), warnings, certificate is not None, name.encode(), _bytes(program), certificate_name.encode(), _bytes(certificate))
    return [_diagnostic(result) for result in json.loads(data)["runs"][0]["results"]]


def _said(message: dict) -> str:
    return message["text"].removesuffix(".")


def _name(artifact: dict) -> str:
    """The file's name as it was given: only standard input has no URI."""
    return unquote(artifact["uri"].removeprefix("file://")) if "uri" in artifact else "-"


def _diagnostic(result: dict) -> Diagnostic:
    place = result["locations"][0]["physicalLocation"]
    region = place.get("region", {})
    return Diagnostic(result["level"], result["ruleId"], _said(result["message"]), _name(place["artifactLocation"]),
                      region.get("startLine"), region.get("startColumn"), region.get("endColumn"),
                      tuple(_said(related["message"]) for related in result["relatedLocations"]))


def print_program(program: Text) -> Report:
    """The canonical text of a program."""
    return Report(*_call("print", _bytes(program)))


def annotate(program: Text, emit: AnnotateEmit = AnnotateEmit.MARKS) -> Report:
    """Proposes create masks and forward bits, or certifies those that stand."""
    return Report(*_call("annotate", int(emit), _bytes(program)))


def seq(program: Text, budget: int = 1_000_000) -> Report:
    """Runs a program sequentially."""
    return Report(*_call("seq", budget, _bytes(program)))


def run_in_steps(program: Text, certificate: Text | None = None, units: int = 4, budget: int = 1_000_000,
                 prediction: Prediction = FIRST, emit: RunEmit = RunEmit.REPORT) -> Report:
    """Runs a program in steps on 1 to 16 units; the list of a prediction has the positions of targets, over and over."""
    code, numbers = _prediction(prediction)
    return Report(*_call("run_steps", certificate is None, units, budget, code, numbers, int(emit), _bytes(program), _bytes(certificate), room=65536))


def replay(program: Text, script: Text, certificate: Text | None = None, units: int = 4, emit: ReplayEmit = ReplayEmit.ANSWERS) -> Report:
    """Plays a script of events on a machine of 1 to 16 units."""
    return Report(*_call("replay", certificate is None, units, int(emit), _bytes(program), _bytes(certificate), _bytes(script), room=65536))


def replay_strictly(program: Text, script: Text, certificate: Text | None = None, units: int = 4) -> Report:
    """Judges a script with expectations: status 0 exactly where each event is allowed and does what is expected."""
    return Report(*_call("replay_strictly", certificate is None, units, _bytes(program), _bytes(certificate), _bytes(script)))


def curve(program: Text, certificate: Text | None = None, units: int = 16, budget: int = 1_000_000, prediction: Prediction = FIRST,
          emit: CurveEmit = CurveEmit.TABLE) -> Report:
    """Runs a program in steps on 1, 2, 3 units and more, up to so many."""
    code, numbers = _prediction(prediction)
    return Report(*_call("curve", certificate is None, units, budget, code, numbers, int(emit), _bytes(program), _bytes(certificate)))


def demonstrate(program: Text, units: int = 16, steps: int = 10_000) -> Report:
    """Looks for a run that shows what a wrong mark does: status 1 where it shows one, 0 where there is none, 3 where it finds none."""
    return Report(*_call("demonstrate", units, steps, _bytes(program)))
