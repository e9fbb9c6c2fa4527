#!/usr/bin/env python3
"""Compares the warnings of `explain` with a model that walks paths, and makes each change that they propose.

Takes random programs, changes marks that cost speed (a register more in a create mask, a forward bit left out,
a release, code that no task reaches), and compares the log of `explain` of right marks with the model; of wrong marks
it must have no warning. Of warnings about where jumps to addresses in registers lead it compares the codes and places with those of
`returns.py`, and of those about releases all, and the text with each, with those of `releases.py`. Then it makes the changes of each other fix alone, but of those that let a task begin, whose mask is to be
written then: that warning must be gone, and the marks must still be right. PROGRAM is the built `multiscalar`; with `--model` the
changes are the model's, and no program is needed.
"""
import argparse
import collections
import random
import re
import sys
import time

import accepted as generator
import explain
import releases
import returns
from accepted import accepted
from explain import MOST_SHOWN, Bench, changed, columns, instructions, laid_out, lists, place_of, places, plant, region_of, spelled
from model import Fault, assemble, certify, dests, edges, exits, inner, is_exit, print_program, verdict

R = random.Random()


def released(op):
    return set(op[1]) if op[0] == "release" else set()


def walk(program, starts, goes_on=lambda i: True):
    """The instructions that paths from the starts come to, going on only from where it is said."""
    seen, ahead = set(), [i for i in starts if i < len(program.code)]
    while ahead:
        i = ahead.pop()
        if i not in seen:
            seen.add(i)
            ahead += [j for j in inner(program, i) if j < len(program.code)] if goes_on(i) else []
    return seen


def sends(program, i, register):
    op, forward, _ = program.code[i]
    return register in released(op) or (forward and register in dests(op))


def last_update(program, i, reached):
    """Whether the instruction could have a forward bit, and has none; a task without targets is the last one."""
    op, forward, _ = program.code[i]
    if forward or not dests(op) or not any(i in seen and task[3] for task, seen in zip(program.tasks, reached)):
        return False
    behind = walk(program, inner(program, i))
    if any(dests(op) & dests(program.code[j][0]) for j in behind):
        return False
    return all(dests(op) <= create for (_, _, create, _), seen in zip(program.tasks, reached) if i in seen)


def warnings(program):
    """The marks that cost speed: (kind, task or index, registers), before they are put in the order of places."""
    entries = [entry for _, entry, _, _ in program.tasks]
    reached = [walk(program, [entry]) for entry in entries]
    unsent = {r: walk(program, entries, lambda i: not sends(program, i, r)) for r in range(34)}
    anywhere = set().union(*reached)
    found = []
    for t, (_, _, create, targets) in enumerate(program.tasks):
        made = {r for i in reached[t] for r in dests(program.code[i][0]) | released(program.code[i][0])}
        found += [("never", t, tuple(sorted(create - made)))] if targets and create - made else []
    for i, (op, _, _) in enumerate(program.code):
        if last_update(program, i, reached):
            found.append(("last", i, None))
        sent = tuple(r for r in sorted(released(op)) if i in anywhere and i not in unsent[r])
        found += [("sent", i, sent)] if sent else []
    found += [("unreached", i, None) for i in range(len(program.code))
              if i not in anywhere and (i == 0 or i - 1 in anywhere)]
    return found


BRANCHES = ("beq", "bne", "blez", "bgtz", "bltz", "bgez")
# What is proposed of jumps to addresses in registers.
PROPOSED = ("warning-JumpNotListed", "warning-NoReturn")
OF_TASKS = ("runs", "untaken", "never", "stop", "step")
CODES = {"runs": "Unreached", "untaken": "TargetNotTaken", "stop": "NoExit", "step": "GoesIntoTask", "never": "NeverProduced", "last": "NotForwarded", "sent": "SentBefore", "unreached": "Unreached"}


def untaken(program, number):
    """The targets of a task that no exit takes, by their positions."""
    taken = {j for i in walk(program, [program.tasks[number][1]]) for j in exits(program, i)}
    return [k for k, j in enumerate(program.tasks[number][3]) if j not in taken]


def steps_into(program, i):
    """The tasks into whose first instruction one goes on without a stop, when a branch is not taken and when it is."""
    op, _, stop = program.code[i]
    begins = {entry: k for k, (_, entry, _, _) in enumerate(program.tasks)}
    ends = {bool(taken): begins.get(j) for taken, j in edges(op, i) if not is_exit(stop, taken)}
    return ends.get(False), ends.get(True)


def spares_others(program, number, i):
    """Whether each other task that reaches an instruction lists the tasks into which it goes on there."""
    entered = {program.tasks[k][1] for k in steps_into(program, i) if k is not None}
    return all(entered <= set(targets) or i not in walk(program, [entry])
               for k, (_, entry, _, targets) in enumerate(program.tasks) if k != number)


def step(program, number):
    """A task's first instruction that goes on into a target without a stop, and where one can be put; with that target."""
    _, entry, _, targets = program.tasks[number]
    for i in sorted(walk(program, [entry])):
        tasks = [k for k in steps_into(program, i) if k is not None]
        listed = [k for k in tasks if program.tasks[k][1] in targets]
        if listed and (len(listed) == len(tasks) or len(targets) < 15) and spares_others(program, number, i):
            return i, listed[0]
    return None


def missing_stop(program, i):
    """The stop for the edges that go on into tasks."""
    onward, taken = steps_into(program, i)
    if program.code[i][2] or not program.code[i][0][0].startswith("b") or None not in (onward, taken):
        return "!s"
    return "!sn" if taken is None else "!st"


def forgotten(program):
    """The tasks that never run; those that have targets, but come to no stop; those with a target that no exit takes; and
    those that go on into a target without a stop."""
    for number, (_, entry, _, targets) in enumerate(program.tasks):
        if program.start != entry and not any(entry in it[3] for it in program.tasks if it[1] != entry):
            yield "runs", number, None
        seen = walk(program, [entry])
        anywhere = any(program.code[i][0][0] in ("jr", "jalr") and program.code[i][2] for i in seen)
        if targets and not anywhere and not any(exits(program, i) for i in seen):
            yield "stop", number, None
        elif not anywhere and untaken(program, number):
            yield "untaken", number, None
        elif targets and step(program, number):
            yield "step", number, None


def released_next(program, i):
    """The instruction that comes next, if it releases all that this one writes."""
    return next((k for k in inner(program, i)[:1] if k < len(program.code) and dests(program.code[i][0]) <= released(program.code[k][0])), None)


def last_sentence(program, text, i):
    """What is said of a last update."""
    k = released_next(program, i)
    if k is None:
        return "this is a last update without !f: later tasks wait for what it writes."
    written = ",".join(spelled(text, r) for r in sorted(dests(program.code[i][0])))
    return f"this is a last update without !f: {written} is sent only by the release on line {places(text)[1][k][0]}."


def sentence(program, text, warning):
    """What is said of a program with this text."""
    kind, number, registers = warning
    written = None if registers is None else ",".join(spelled(text, r) for r in registers)
    verb = "was" if registers and len(registers) == 1 else "were"
    name = program.tasks[number][0] if kind in OF_TASKS else None
    if kind == "last":
        return last_sentence(program, text, number)
    if kind == "step":
        i, into = step(program, number)
        return f"task {name} continues into task {program.tasks[into][0]} without a stop; was {missing_stop(program, i)} meant here?"
    unled = ",".join(place_of(program, text, program.tasks[number][3][k]) for k in untaken(program, number)) if kind == "untaken" else ""
    return {
        "runs": f"task {name} never runs: no other task has it as a target, and the program starts at {place_of(program, text, program.start)}.",
        "untaken": f"no exit of task {name} leads to {unled}, so predicting {unled} is always wrong.",
        "stop": f"task {name} has targets, but never reaches a stop.",
        "never": f"the create mask of task {name} has {written}, which no instruction of the task writes or releases.",
        "sent": f"{written} {verb} sent before on each path to this release.",
        "unreached": "no task reaches the code from here on.",
    }[kind]


def meant(program, text, warning):
    """The line, the column and the width of what a warning is about."""
    kind, number, _ = warning
    tasks, code = places(text)
    if kind == "runs":
        return *tasks[number], 5
    if kind == "step":
        return code[step(program, number)[0]]
    if kind == "untaken":
        return tasks[number][0], *lists(text)[number][2][untaken(program, number)[0]]
    return (tasks[number][0], *lists(text)[number][kind == "stop"]) if kind in ("never", "stop") else code[number]


def shown(program, text):
    """The warnings of right marks that are shown, in the order of the places where they stand."""
    found = list(forgotten(program)) + warnings(program)
    return sorted(found[:MOST_SHOWN], key=lambda warning: tuple(meant(program, text, warning))[:2])


def told(program, text):
    """All that is said of right marks: code, place and sentence of each."""
    return [(f"warning-{CODES[it[0]]}", tuple(meant(program, text, it)), sentence(program, text, it)) for it in shown(program, text)]


def said_of(results):
    """What a log says, in that form."""
    return [(it["ruleId"], region_of(it["locations"][0]), it["message"]["text"]) for it in results if it["ruleId"] != "more"]


def labelled(text):
    """The numbers of the instructions that have a label; and how many there are, if a label is behind the last."""
    found, count, section = set(), 0, ".text"
    for line in text.split("\n"):
        starts = columns(line)
        while len(starts) >= 2 and starts[1][1] == ":":
            found |= {count} if section == ".text" else set()
            starts = starts[2:]
        head = starts[0][1] if starts else "."
        if head in (".text", ".data", ".rodata"):
            section = head
        elif not head.startswith("."):
            count += instructions(head, starts)
    return found


def is_slot(program, labels, j):
    """Whether an instruction may be meant as a delay slot: alone behind a branch or a jump, before where code begins anew."""
    turns = lambda i: program.code[i][0][0] in ("j", "jal", "jr", "jalr") or program.code[i][0][0] in BRANCHES
    if not 0 < j < len(program.code) or not turns(j - 1) or turns(j) or program.code[j][0][0] in ("halt", "release"):
        return False
    return j not in labels and (j + 1 == len(program.code) or j + 1 in labels or any(entry == j + 1 for _, entry, _, _ in program.tasks))


def is_swapped(op):
    """Whether a jalr puts the return address elsewhere and jumps through $31."""
    return op[0] == "jalr" and op[2] == 31 and op[1] != 31


def proposals(program, text):
    """What is proposed of jumps to addresses in registers: code and place of each, one of a task at most."""
    seen, calls = returns.jumps(program)
    labels = labelled(text)
    begins = {entry: t for t, (_, entry, _, _) in enumerate(program.tasks)}
    reached = set().union(*(walk(program, [entry]) for entry in begins))
    lost = {number for kind, number, _ in forgotten(program) if kind == "runs"}
    unlisted = lambda t, places: {j for j in places if j not in program.tasks[t][3]}
    first = {}
    for (t, _), (places, _, _) in seen.items():
        for j in unlisted(t, places):
            if begins.get(j) != t and (j not in first or t == coming_back(program, j - 1)):
                first[j] = t
    for t in dict.fromkeys(t for t, _ in seen):
        own = [it for (task, _), it in seen.items() if task == t]
        targets, places = program.tasks[t][3], set().union(*(it[0] for it in own))
        missing = unlisted(t, places)
        may_lead = lambda j: not all(it[1] for it in own) or j in places or (program.code[j - 1][0][0] in ("jal", "jalr") and j - 1 not in calls)
        taken = {j for i in walk(program, [program.tasks[t][1]]) for j in exits(program, i)}
        if is_swapped(program.code[next(i for task, i in seen if task == t)][0]):
            said = "JumpNotListed"
        elif missing:
            lost_slot = lambda j: is_slot(program, labels, j) and j not in reached
            said = any(not lost_slot(j) and (first.get(j) != t or (begins[j] not in lost if j in begins else j in reached or program.code[j - 1][0][0] not in ("jal", "jalr"))) for j in missing) and "JumpNotListed"
        elif own[0][2] or not targets and not own[0][1]:
            said = "JumpNotListed"
        else:
            said = any(j in begins and j not in taken and not may_lead(j) for j in targets) and "NoReturn"
        if said:
            yield f"warning-{said}", places_of_task(text, t)


def coming_back(program, call):
    """The task that comes back from a call, if it is known: the one that it enters where it ends its task, else the first with it inside."""
    op, _, stop = program.code[call] if call >= 0 else (("nop",), None, None)
    jumps = lambda t: any(program.code[i][0][0] == "jr" and program.code[i][2] == "s" for i in walk(program, [program.tasks[t][1]]))
    if op[0] not in ("jal", "jalr"):
        return None
    if stop == "s":
        return next((t for t, it in enumerate(program.tasks) if op[0] == "jal" and it[1] == op[1] and jumps(t)), None)
    return next((t for t, it in enumerate(program.tasks) if call in walk(program, [it[1]]) and jumps(t)), None)


def places_of_task(text, t):
    """The place of the `targets=` of a task."""
    return places(text)[0][t][0], *lists(text)[t][1]


def numbers(listed):
    """The registers that a list names, by number."""
    return [int({"$hi": "32", "$lo": "33"}.get(r, r[1:])) for r in re.findall(r"\$\w+", listed)]


def without(listed, registers):
    return ",".join(f"${n}" for n in numbers(listed) if n not in registers)


def followed(text, warning):
    """The text with what the help of a warning says; None where it speaks of code."""
    kind, number, registers = warning
    tasks, code = places(text)
    lines = text.split("\n")
    at = (tasks if kind == "never" else code)[number][0] - 1
    if kind == "never":
        lines[at] = re.sub(r"create=([$\w,]+)", lambda m: "create=" + (without(m.group(1), registers) or "-"), lines[at])
    elif kind == "last":
        lines[at] = re.sub(r"(\s*#.*)?$", lambda m: " !f" + (m.group(1) or ""), lines[at], count=1)
    elif kind == "sent":
        kept = lambda m: "release " + without(m.group(1), registers) if without(m.group(1), registers) else "nop"
        lines[at] = re.sub(r"release\s+(\$\w+(?:\s*,\s*\$\w+)*)", kept, lines[at], count=1)
    else:
        return None
    return "\n".join(lines)


def loosened(text):
    """The text with marks that may cost speed."""
    for _ in range(R.choice([1, 2, 3])):
        lines = text.split("\n")
        k, kind = R.randrange(len(lines)), R.randrange(4)
        if kind == 0:
            more = f"${R.choice([8, 9, 10, 11, 12, 31, 33])}"
            lines[k] = lines[k].replace("create=-", f"create={more}").replace("create=$", f"create={more},$")
        elif kind == 1:
            lines[k] = lines[k].replace(" !f", "")
        elif kind == 2 and not lines[k].startswith("."):
            chosen = ",".join(f"${r}" for r in R.sample([8, 9, 10, 11, 12, 31], R.choice([1, 1, 2])))
            lines.insert(k, "release " + chosen)
        elif kind == 3:
            lines[-1:-1] = ["nop", "halt"]
        text = "\n".join(lines)
    return text


def forgotten_before(program, number):
    """The target into which a task goes on first without a stop, if no exit takes it."""
    found, unled = step(program, number), [program.tasks[number][3][k] for k in untaken(program, number)]
    return found and next((j for j in [program.tasks[found[1]][1]] if j in unled), None)


def is_left(program, new, warning):
    """Whether a warning is there after a change. A stop before one target may leave another that no exit takes, and a later
    step into a target."""
    kind, number, _ = warning
    if kind == "step":
        return step(program, number) == step(new, number)
    if kind == "untaken":
        before = forgotten_before(program, number)
        if before is not None:
            return before in [new.tasks[number][3][k] for k in untaken(new, number)]
    return warning[:2] in [it[:2] for it in [*warnings(new), *forgotten(new)]]


def unmended(program, text, warning, after, was_right):
    """What is wrong after a change."""
    new = assemble(after.encode("latin-1"))
    is_shorter = len(new.code) < len(program.code)
    if len(warnings(new)) >= len(warnings(program)) if is_shorter else is_left(program, new, warning):
        return f"{warning} is there after its change:\n{after}"
    if was_right and verdict(new, certify(new)):
        return f"wrong marks after the change of {warning}:\n{after}"
    return None


def wrong_by_model(text, counts):
    """What is wrong with the model's own changes; None where nothing is."""
    program = assemble(text.encode("latin-1"))
    was_right = not verdict(program, certify(program))
    for warning in warnings(program):
        counts[warning[0]] += 1
        after = followed(text, warning)
        what = after is not None and unmended(program, text, warning, after, was_right)
        if what:
            return what
    return None


def wrong(bench, text, counts):
    """What is wrong with what is said of a text; None where nothing is."""
    try:
        program = assemble(text.encode("latin-1"))
    except Fault:
        return None
    counts["programs"] += 1
    if not bench:
        return wrong_by_model(text, counts)
    results, status = bench.results(text)
    proposed = sorted(it[:2] for it in said_of(results) if it[0] in PROPOSED)
    forgotten = [it for it in results if it["message"]["text"].startswith(releases.SAID)]
    results = [it for it in results if it["ruleId"] not in PROPOSED and it not in forgotten]
    without, _ = bench.results(text, "--no-warnings")
    if verdict(program, certify(program)):
        counts["wrong"] += 1
        return "a warning of wrong marks" if results != without or forgotten else None
    counts["right"] += 1
    if without or status or said_of(results) != told(program, text):
        return f"other warnings: {said_of(results)}, not {told(program, text)}"
    counts["releases"] += len(forgotten)
    other = releases.other_warnings(bench, program, text, forgotten, changed)
    if other:
        return other
    if proposed != sorted(proposals(program, text)):
        return f"other proposals: {proposed}, not {sorted(proposals(program, text))}"
    counts["proposed"] += len(proposed)
    for warning, result in zip(shown(program, text), results):
        counts[warning[0]] += 1
        after = changed(text, result)
        if after is not None and after.count(".task") > text.count(".task"):
            counts["tasks that begin"] += 1
            continue
        what = after is not None and unmended(program, text, warning, after, True)
        if what:
            return what
    return None


def main():
    options = argparse.ArgumentParser(description=__doc__, formatter_class=argparse.RawDescriptionHelpFormatter)
    options.add_argument("program", metavar="PROGRAM", nargs="?")
    options.add_argument("--model", action="store_true")
    options.add_argument("--seconds", type=float, default=60)
    options.add_argument("--seed", type=int, default=int(time.time()))
    given = options.parse_args()
    for chooser in (R, generator.R, explain.R):
        chooser.seed(given.seed)
    bench, counts, end = None if given.model else Bench(given.program), collections.Counter(), time.time() + given.seconds
    while time.time() < end:
        text = releases.text_with_branch(R) if R.random() < .1 else print_program(accepted()[0])
        text = laid_out(loosened(plant(text) if R.random() < .3 else text))
        what = wrong(bench, text, counts)
        if what:
            print(f"seed {given.seed}: {what}\n{text}")
            sys.exit(1)
    print(", ".join(f"{n} {what}" for what, n in counts.items()), f"seed {given.seed}")


if __name__ == "__main__":
    main()
