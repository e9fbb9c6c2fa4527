"""What release/build_program.py says of crates as they are done, and how long the rest may take."""

import os
import re
import sys
import time
from pathlib import Path

sys.path.append(str(Path(__file__).resolve().parent.parent / "compiler"))
from names import fault_of, shown, shown_lines

STATE = re.compile(r"rt: (\w+)(: its tests are)? (proved$|NOT PROVED|is kept: )")


def say(text):
    print(f"multiscalar: {shown_lines(text)}", file=sys.stderr, flush=True)


def minutes(seconds):
    return "less than a minute" if seconds < 50 else f"{round(seconds / 60)} min"


def weight(crate):
    """How long the crate in this folder takes, about: the lines that are read for its proof."""
    files = [it for part in ("src", "specs", "proofs") for it in (crate / part).rglob("*") if it.is_file()]
    return sum(it.read_bytes().count(b"\n") for it in files) + 200


class Progress:
    """The weights of the crates that are left, and of those that this run proved."""

    def __init__(self, crates):
        """Takes the folder of each crate, with the names of those that it stands on."""
        self.left, self.number = {it.name: weight(it) for it in crates}, len(crates)
        self.below = {it.name: below for it, below in crates.items()}
        self.proved, self.begun, self.lanes = 0, time.monotonic(), len(os.sched_getaffinity(0))

    def longest_chain(self):
        """The weight of the crates that must still be proved one after the other."""
        chain = {}
        while len(chain) < len(self.left):
            for it in self.left.keys() - chain.keys():
                waits_for = self.left.keys() & self.below[it]
                if waits_for <= chain.keys():
                    chain[it] = self.left[it] + max((chain[below] for below in waits_for), default=0)
        return max(chain.values(), default=0)

    def add(self, name, is_kept):
        self.proved += self.left.pop(name, 0) * (not is_kept)
        left, so_far = max(sum(self.left.values()), self.longest_chain() * self.lanes), time.monotonic() - self.begun
        rest = minutes(so_far * left / self.proved) if self.proved and so_far > 60 else "not known yet"
        which = f"{self.number - len(self.left)} of {self.number}: {name}{' (kept from an earlier run)' * is_kept}"
        say(f"{which}; {minutes(so_far)} so far" + f", still to come: {rest}" * bool(left))


def follow(lines, log, progress):
    """Logs the lines of `rt ci`, and says which crates are done. Returns which is not proved, if one is not, and what rt said last."""
    said = []
    for line in lines:
        print(line, file=log, flush=True)
        if line.startswith("== "):
            said.clear()
        said.append(line)
        if line.endswith("; waiting for it"):
            say(line)
        if found := STATE.match(line):
            name, of_tests, state = found.groups()
            if state == "NOT PROVED":
                return f"the tests of {name} are not proved" if of_tests else f"{name} is not proved", said
            if not of_tests:
                progress.add(name, is_kept=state != "proved")
    return "", said


def say_why(failed, said):
    """Says what failed, and the errors, or else the last lines, of what rt said of it."""
    faults = [it for it in said if ": error" in it or ": no proof: " in it]
    for it in [failed, *(faults or said[-5:])[:5]]:
        say(it)
