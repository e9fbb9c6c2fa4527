"""A copy of a function that calls nothing, and of the division routine, in the place of each call.

A return ends a task, and a call, a return and the place after it make three tasks of what is one piece of work; a copy
has neither. Only what was a call and a return goes; the rest of the function stays as it is.
"""

from dataclasses import dataclass, replace

from flow import Flow, without_unreached
from instructions import ASSEMBLER, LINK, Expression, Instruction
from linking import Program
from tasks import label_at

# Longer functions are not copied, and a program that has grown to so many instructions gets no more copies.
LONGEST, MOST = 150, 2500


@dataclass
class Call:
    """A call that gives way to the instructions of its function, in the order of the code."""

    members: list[int]
    entry: int
    back: str
    is_of_routine: bool


def with_copies(program: Program) -> int:
    """Changes the code, and says how many calls gave way to copies."""
    made = 0
    while True:
        flow = Flow(program)
        calls = calls_of(flow, program)
        if not calls:
            return made
        program.code = copied(program.code, calls, made)
        made += len(calls)
        without_unreached(program)


def calls_of(flow: Flow, program: Program) -> dict[int, Call]:
    found: dict[int, Call] = {}
    size = len(flow.code)
    fit: dict[int, bool] = {}
    for index, it in enumerate(flow.code):
        if it.form != "jump_link" and not it.comes_back or it.own_stop or it.own_forward or it.begins_task:
            continue
        entry = flow.at(it.destination)
        members = sorted(flow.functions[entry].members)
        if entry not in fit:
            fit[entry] = can_be_copied(flow, entry)
        is_known = fit[entry] and index not in members and (not it.comes_back or has_address(flow.code, index))
        if is_known and len(members) <= LONGEST and size + len(members) <= MOST:
            size += len(members)
            found[index] = Call(members, entry, it.comes_back or label_at(program, index + 1), bool(it.comes_back))
    return found


def can_be_copied(flow: Flow, entry: int) -> bool:
    """Whether a function calls nothing, leaves only by returning, and is used by no address."""
    function = flow.functions[entry]
    if function.tails or function.calls or entry in flow.by_address or not function.returns or "main" in flow.code[entry].labels:
        return False
    is_routine = entry in flow.routines
    back = ASSEMBLER if is_routine else LINK
    for index in function.members:
        it = flow.code[index]
        if it.form in ("jump_link_register", "release") or it.begins_task or it.own_stop or it.own_forward:
            return False
        if it.form == "jump_register":
            if it.registers[0] != back or it.targets:
                return False
        elif not is_routine and LINK in it.reads + it.writes:
            return False
        if it.value and it.value.half and it.value.symbol in flow.index_of:
            return False
    return True


def has_address(code: list[Instruction], index: int) -> bool:
    """Whether the two instructions before a call of a routine are those that say where it returns to."""
    two, back = code[max(index - 2, 0) : index], code[index].comes_back
    names = [(it.name, it.value.symbol if it.value else "", bool(it.labels)) for it in two]
    return names == [("lui", back, False), ("ori", back, False)] and not code[index].labels


def copied(code: list[Instruction], calls: dict[int, Call], count: int) -> list[Instruction]:
    made: list[Instruction] = []
    labels: list[str] = []
    for index, it in enumerate(code):
        if index not in calls:
            made.append(replace(it, labels=labels + it.labels) if labels else it)
            labels = []
            continue
        count += 1
        if calls[index].is_of_routine:
            # What said where to return to.
            del made[-2:]
        copy = copy_of(code, calls[index], count)
        if calls[index].members[0] == calls[index].entry:
            copy[0].labels = labels + it.labels + copy[0].labels
        else:
            first = Expression(symbol=f".copy.{count}")
            copy.insert(0, Instruction("j", (), first, it.place, it.note, labels + it.labels))
        labels = []
        if copy[-1].form == "jump" and copy[-1].destination == calls[index].back and calls[index].back in code[index + 1].labels:
            labels = copy.pop().labels
        made += copy
    return made


def copy_of(code: list[Instruction], call: Call, count: int) -> list[Instruction]:
    own = {label: f".copy.{count}.{label}" for index in call.members for label in code[index].labels}
    made: list[Instruction] = []
    labels: list[str] = []
    for index in call.members:
        it = code[index]
        labels += [own[label] for label in it.labels] + ([f".copy.{count}"] if index == call.entry else [])
        if call.is_of_routine and it.name in ("mthi", "mfhi") and it.registers == (ASSEMBLER,):
            # It kept the place to return to.
            continue
        if it.form == "jump_register":
            made.append(Instruction("j", (), Expression(symbol=call.back), it.place, labels=labels))
        else:
            value = replace(it.value, symbol=own[it.value.symbol]) if it.destination in own else it.value
            made.append(replace(it, labels=labels, targets=[], value=value))
        labels = []
    return made
