#!/usr/bin/env python3
"""Makes the scripts of refused events: pieces of the suite's runs, with events between them that are not allowed.

    refusals.py            makes all of them
    refusals.py --check    says which are not as stored (status 1)

The toy simulator says which event is refused, and why. Each event is tried with each refusal that a script can reach, in
each situation of TRIED, in at least three scripts.
"""
import argparse
import collections
import copy
import pathlib
import sys

from program_text import HI, LO, LOADS, STORES, Program, word
from simulator import Machine, NotAllowed, events

HERE = pathlib.Path(__file__).resolve().parent
OFTEN = 3
# By event and by refusal, the situations in which it is tried; `-` is any other. No script reaches a 3 of `assign`, as it
# names no other task, nor a 16 or 17.
TRIED = {
    "assign": {1: "-", 2: "- stopped", 4: "start retired running target"},
    "exec": {1: "-", 3: "-", 5: "head ahead", 6: "first second release hi-lo",
             7: "load store out halt trap next-load next-store next-out next-halt"},
    "transfer": {1: "-", 3: "- head", 9: "- taken", 10: "- beyond arrived written stopped"},
    "drain": {1: "-", 3: "- outside", 8: "- arrived written", 9: "- released", 10: "-"},
    "squash": {1: "-", 3: "- last", 8: "- several", 11: "-"},
    "retire": {1: "-", 3: "-", 8: "-", 12: "- written", 13: "-", 14: "-"},
    "fault": {1: "-", 3: "-", 8: "-", 15: "-"},
    "drop": {1: "-", 3: "- head"},
}


def wanted():
    """What is to be tried: an event, its refusal, and the situation."""
    return [(event, number, words) for event, numbers in TRIED.items() for number, all_words in numbers.items()
            for words in all_words.split()]


def candidates(machine):
    """Events that may be refused in a state, with the registers that a task may produce, and register 0."""
    units = range(len(machine.queue) + 1)
    registers = sorted({0}.union(*(task.create for task in machine.program.tasks.values())))
    yield from (("assign", name) for name in machine.program.tasks)
    yield from ((kind, k) for kind in ("exec", "squash", "drop") for k in units)
    yield from ((kind, k, r) for kind in ("transfer", "drain") for k in units for r in registers)
    yield from (("retire",), ("fault",))


def twin(machine, event):
    """A machine in the same state, in which the event can be tried: what the event may change is copied."""
    other = copy.copy(machine)
    other.queue = list(machine.queue)
    changed = 1 if event[0] == "retire" else event[1] if event[0] in ("exec", "transfer", "drain") else None
    if changed is not None and changed < len(other.queue):
        unit = other.queue[changed] = copy.copy(other.queue[changed])
        unit.arrived, unit.written, unit.sent = dict(unit.arrived), dict(unit.written), dict(unit.sent)
    if event[0] == "exec":
        other.output = list(machine.output)
        other.memory = {base: bytearray(memory) for base, memory in machine.memory.items()}
    return other


def refusal_of(machine, event):
    """Why an event is refused in a state, which stays as it is; None if it is allowed."""
    try:
        twin(machine, event).play(event)
    except NotAllowed as refused:
        return refused
    return None


def situation(machine, event, refused):
    """What tells apart the events of a kind that are refused for one reason: a simulator may have thought of one of them."""
    queue, (name, *operands) = machine.queue, event
    # The unit that the event is about, if there is one.
    at = 0 if name in ("retire", "fault") else len(queue) - 1 if name == "assign" else operands[0]
    unit = queue[at] if 0 <= at < len(queue) else None
    r = refused.register if name == "retire" else operands[1] if len(operands) == 2 else None
    match name, refused.number:
        case "assign", 2:
            return "stopped" if any(unit.exit is not None for unit in queue) else "-"
        case "assign", 4:  # at first, or when all have retired; the last has not stopped; it has, elsewhere than at this target
            entry = machine.program.tasks[operands[0]].entry
            if not unit:
                before = [task for task in machine.program.tasks.values() if machine.next in task.targets]
                is_target = all(entry in task.targets for task in before)  # so the one that retired last lists it too
                return "start" if machine.next == machine.program.start else "retired" if is_target else ""
            return "running" if unit.exit is None else "target" if entry in unit.task.targets else "-"
        case "exec", 5:
            return "ahead" if at else "head"
        case "exec", 6:  # what waits for the first operand that it reads, or for another
            i = machine.instruction(unit)
            first = next(operand for kind, operand in zip(i.kinds, i.operands) if kind == "s")
            return "release" if i.name == "release" else "hi-lo" if first in (HI, LO) else "first" if unit.value(first) is None else "second"
        case "exec", 7:  # `next`: the head has stopped, and this is the right task after it
            i = machine.instruction(unit)
            if i.name in LOADS or i.name in STORES:
                is_trap = machine.trap(i.name, word(i.operands[1] + unit.value(i.operands[2])))
                kind = "trap" if is_trap else "load" if i.name in LOADS else "store"
            else:
                kind = i.name
            return f"next-{kind}" if at == 1 and queue[0].exit == unit.task.entry and kind != "trap" else kind
        case "transfer", 9:
            return "taken" if r > 0 else "-"
        case "transfer", 10:  # what the unit before has of it, which it has not sent; `beyond`: only an older one has sent it
            before = queue[at - 1]
            has = "written" if r in before.written else "arrived" if r in before.arrived else "-"
            is_sent = has == "-" and any(r in older.sent for older in queue[:at - 1])
            return "beyond" if is_sent else "stopped" if before.exit is not None and has != "-" else has
        case "drain", 3:
            return "-" if not unit else "outside" if r > 0 and unit.exit is not None and unit.value(r) is not None else ""
        case "drain", 8:
            return "written" if r in unit.written else "arrived" if r in unit.arrived else "-"
        case "drain", 9:
            return "-" if r in unit.written else "released"
        case "squash", 3:
            return "-" if not unit else "last" if unit.exit is not None else ""
        case "squash", 8:
            return "several" if len(set(unit.task.targets)) > 1 else "-"
        case "retire", 12:
            return "written" if r in unit.written else "-"
        case "transfer" | "drop", 3:
            return "head" if unit else "-"
    return "-"


def spelled(event):
    return " ".join(f"${word}" if at == 2 else str(word) for at, word in enumerate(event))


def probes(machine, left):
    """Lines of events that are refused in a state, one for each of the pairs that are left, which are taken from them."""
    for event in candidates(machine):
        if not any(pair[0] == event[0] for pair in left):
            continue
        refused = refusal_of(machine, event)
        pair = refused and (event[0], refused.number, situation(machine, event, refused))
        if pair in left:
            left.remove(pair)
            register = f" ${refused.register}" if refused.register is not None else ""
            yield f"{spelled(event)} : refused {refused.number}{register}"


def script_of(path, counts):
    """A run of the suite up to the last place where an event is refused; empty if none is that is still wanted."""
    name, units, _ = path.stem.rsplit("-", 2)
    machine = Machine(Program((HERE / "programs" / f"{name}.s").read_text()), int(units))
    left = [pair for pair in wanted() if counts[pair] < OFTEN]
    before, lines, end = list(left), [], 0
    played = [event for _, event, expected in events(path.read_text()) if not any(part.startswith("refused ") for part in expected)]
    for event in [*played, None]:
        found = list(probes(machine, left)) if left else []
        lines += found
        end = len(lines) if found else end
        if event:
            did = machine.play(event)
            lines.append(spelled(event) + (" : " + ", ".join(did) if did else ""))
    counts.update(pair for pair in before if pair not in left)
    return "".join(line + "\n" for line in lines[:end])


def made():
    """The scripts by their names, and how often each pair is tried."""
    counts = collections.Counter()
    runs = sorted([*HERE.glob("scripts/*.script"), *HERE.glob("by-hand/*.script")], key=lambda path: (path.stat().st_size, path.name))
    scripts = {path.name: script_of(path, counts) for path in runs}
    return {name: text for name, text in scripts.items() if text}, counts


def main():
    options = argparse.ArgumentParser(description=__doc__, formatter_class=argparse.RawDescriptionHelpFormatter)
    options.add_argument("--check", action="store_true")
    given = options.parse_args()
    scripts, counts = made()
    folder = HERE / "refused"
    stored = {file.name: file.read_text() for file in folder.glob("*.script")}
    other = sorted(name for name in scripts.keys() | stored.keys() if scripts.get(name) != stored.get(name))
    seldom = [pair for pair in wanted() if counts[pair] < OFTEN]
    for pair in seldom:
        print("tried", counts[pair], "times:", *pair)
    for name in other:
        if given.check:
            print(f"not as stored: {name}")
            continue
        folder.mkdir(exist_ok=True)
        (folder / name).unlink(missing_ok=True)
        if name in scripts:
            (folder / name).write_text(scripts[name])
    print(f"{len(scripts)} scripts, {len(other)} {'not as stored' if given.check else 'changed'}, {len(seldom)} pairs too seldom")
    sys.exit(1 if seldom or given.check and other else 0)


if __name__ == "__main__":
    main()
