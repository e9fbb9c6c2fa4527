"""Calls the command multiscalar."""

import json
import os
import re
import shutil
import subprocess
import tempfile
from dataclasses import dataclass
from pathlib import Path
from typing import Iterator

HERE = Path(__file__).resolve().parent
# The status of a run that has spent its budget.
OUT_OF_BUDGET = 3


class ToolFailed(Exception):
    """The command answered something that a translated program should not get."""


@dataclass(frozen=True)
class Steps:
    """How many steps a run took on so many units."""

    units: int
    steps: int
    retired: int
    ended: bool

    @property
    def key(self) -> tuple:
        """Less is better. Runs that ended compare by steps; others by the instructions that they retired in a step."""
        return (0, self.steps) if self.ended else (1, -self.retired / max(self.steps, 1))


@dataclass(frozen=True)
class Executed:
    """An instruction that a run executed, and the address of what it loaded or stored."""

    index: int
    address: int | None


def found_command() -> str:
    """The program that is built in this repository, or one on PATH. The launcher would prove it first, for half an hour."""
    built = HERE.parent / "crates" / "multiscalar" / "out" / "multiscalar"
    command = str(built) if built.exists() else shutil.which("multiscalar")
    if command is None or Path(command).resolve() == HERE.parent / "multiscalar":
        raise ToolFailed("multiscalar is not built; build it (README.md), or name it with --multiscalar or in $MULTISCALAR")
    return command


class Tool:
    def __init__(self, command: str | None = None, budget: int = 1_000_000) -> None:
        self.command = command or os.environ.get("MULTISCALAR") or found_command()
        self.budget = budget

    def call(self, *words: str, text: str | None = None) -> subprocess.CompletedProcess:
        return subprocess.run([self.command, *words], input=text, capture_output=True, text=True, check=False)

    def on(self, text: str, subcommand: str, *words: str) -> subprocess.CompletedProcess:
        """Calls a subcommand with a program text."""
        with tempfile.NamedTemporaryFile("w", suffix=".s", delete=False) as file:
            file.write(text)
        try:
            return self.call(subcommand, *words, file.name)
        finally:
            os.unlink(file.name)

    def marked(self, text: str) -> str:
        """The text with create masks and forward bits."""
        done = self.on(text, "annotate", "--emit", "marks")
        if done.returncode or done.stdout.startswith(("program refused", "marks refused")):
            raise ToolFailed(f"annotate: {done.stdout[:500]}{done.stderr[:500]}")
        return done.stdout

    def verdict(self, text: str) -> tuple[bool, str]:
        done = self.on(text, "check", "--least")
        return done.returncode == 0, done.stdout + done.stderr

    def tasks_in_order(self, text: str) -> list[str]:
        """The tasks in the order of the program: those of the run on one unit, where nothing is predicted."""
        done = self.on(text, "run", "--least", "--schedule", "steps", "--units", "1", "--emit", "script", "--budget", str(self.budget))
        return re.findall(r"^assign (\w+)$", done.stdout, re.M)

    def steps(self, text: str, units: int) -> Steps:
        """A run in steps, which are the same each time and on each machine."""
        words = ["--schedule", "steps", "--units", str(units), "--emit", "summary", "--budget", str(self.budget)]
        done = self.on(text, "run", "--least", *words)
        found = re.search(r"^steps (\d+), retired instructions (\d+)", done.stdout, re.M)
        if not found:
            raise ToolFailed(f"run: {done.stdout[:500]}{done.stderr[:500]}")
        return Steps(units, int(found[1]), int(found[2]), done.returncode != OUT_OF_BUDGET)

    def executed(self, text: str) -> Iterator[Executed]:
        """What the run on one unit executes, in order."""
        words = ["--schedule", "steps", "--units", "1", "--emit", "json", "--budget", str(self.budget)]
        for line in self.on(text, "run", "--least", *words).stdout.splitlines():
            event = json.loads(line)
            if event.get("kind") == "exec" and event["answer"] == "ok":
                address = next((it["address"] for it in event["changes"] if it["change"] in ("loaded", "stored")), None)
                yield Executed(event["changes"][0]["index"], address)

    def last_word(self, text: str) -> int | None:
        """The last word that a program puts out, if it halts."""
        lines = self.on(text, "seq", "--budget", str(self.budget)).stdout.split("\n")[:-1]
        return int(lines[-2]) if len(lines) > 1 and lines[-1].startswith("halted") and lines[-2].isdigit() else None
