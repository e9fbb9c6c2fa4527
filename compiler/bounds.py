"""What no cut of a code can be faster than, whatever its tasks are.

Each unit executes one instruction in a step. An instruction waits for those that write what it reads; loads and stores of
data and outputs also wait for one another, since only the head does them. The longest such chain is a bound, and so is the
number of instructions that each unit has if all have equally many.
"""

from dataclasses import dataclass

from choice import Choice
from instructions import MEMORY
from linking import DATA_START
from tool import Executed, Tool


@dataclass(frozen=True)
class Bound:
    """Steps that a code takes at least, and why."""

    steps: int
    why: str
    # How many of its instructions are loads, stores and outputs.
    memory: float


def bound_of(choice: Choice, tool: Tool, units: int) -> Bound:
    """The bound of what a text executes; its releases do not count, since other cuts need others."""
    code = choice.program.code
    run = [(code[it.index], it) for it in tool.executed(choice.text) if code[it.index].form != "release"]
    written: dict[int, int] = {}
    at_head = access = longest = 0
    for it, done in run:
        begin = max((written.get(register, 0) for register in it.reads), default=0)
        if is_at_head(it.form, done):
            at_head += 1
            begin = access = max(begin, access) + 1
        else:
            begin += 1
        written |= dict.fromkeys(it.writes, begin)
        longest = max(longest, begin)
    shared = -(-len(run) // units)
    why = "instructions" if shared >= longest else "memory" if at_head > 0.9 * longest else "a chain"
    return Bound(max(shared, longest), why, sum(it.form in MEMORY for it, _ in run) / len(run))


def is_at_head(form: str, done: Executed) -> bool:
    """Whether only the head may do it; loads of constants may run ahead."""
    return form in MEMORY and not (form == "load" and done.address is not None and done.address < DATA_START)
