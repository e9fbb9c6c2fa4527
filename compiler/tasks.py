"""Where tasks begin, where they stop, and what their targets are."""

from dataclasses import dataclass, field
from typing import Callable

from flow import Flow
from instructions import ASSEMBLER, LINK, Expression, Instruction
from linking import START, Program
from refusal import Place, refuse

MOST_TARGETS, MOST_TASKS = 16, 1024
POLICIES = ("calls", "outer", "loops", "blocks", "outer-exits", "loops-exits", "inner")
# Those that also begin a task where a loop is left: what comes after it must not keep the iterations from sending.
WITH_EXITS = ("outer-exits", "loops-exits", "inner")


@dataclass
class Task:
    name: str
    entry: int
    # Instructions that it reaches, and the places where the next task may begin.
    reach: set[int] = field(default_factory=set)
    exits: set[int] = field(default_factory=set)
    # The jumps through a register where it may end, with where they go.
    jumps: dict[int, set[int]] = field(default_factory=dict)


@dataclass
class Cut:
    """A program cut into tasks."""

    flow: Flow
    entries: set[int]
    # Calls that do not end the task: it goes on into the function, to its return.
    joined: set[int]
    tasks: list[Task] = field(default_factory=list)
    # Stop bits, and what comes next inside the task, where that is known: as long as tasks begin where they do.
    stops: dict[int, str] = field(default_factory=dict)
    following: dict[int, list[int]] = field(default_factory=dict)

    def stop_of(self, index: int) -> str:
        """The stop bit of an instruction: every edge to where a task begins ends the task."""
        if index not in self.stops:
            self.stops[index] = self.found_stop(index)
        return self.stops[index]

    def found_stop(self, index: int) -> str:
        it = self.flow.code[index]
        if it.form in ("jump_register", "jump_link_register"):
            return "!s"
        if it.form == "halt":
            return ""
        place = self.flow.goes_to[index]
        taken = place in self.entries
        following = index + 1 in self.entries
        if it.form == "jump_link":
            return "" if index in self.joined else "!s"
        if not it.is_branch:
            return "!s" if (following if place is None else taken) else ""
        return {(True, True): "!s", (True, False): "!st", (False, True): "!sn"}.get((taken, following), "")

    def inner(self, index: int) -> list[int]:
        """What comes next inside the task."""
        if index not in self.following:
            self.following[index] = self.found_inner(index)
        return self.following[index]

    def found_inner(self, index: int) -> list[int]:
        it, stop, place = self.flow.code[index], self.stop_of(index), self.flow.goes_to[index]
        if stop == "!s" or it.form == "halt":
            return []
        places = []
        if place is not None and stop != "!st":
            places.append(place)
        if it.form not in ("jump", "jump_link") and stop != "!sn":
            places.append(index + 1)
        return places


def leaders(flow: Flow) -> set[int]:
    """Where basic blocks begin."""
    found: set[int] = set()
    for index, it in enumerate(flow.code):
        if it.destination and not it.comes_back:
            found.add(flow.at(it.destination))
        if it.is_branch:
            found.add(index + 1)
    inside_routines = {index for entry in flow.routines for index in flow.functions[entry].members}
    return found - inside_routines


def leaf_functions(flow: Flow) -> set[int]:
    """Functions that call nothing and jump through no register but to return."""
    found: set[int] = set()
    for entry, function in flow.functions.items():
        code = [flow.code[index] for index in function.members]
        calls = function.calls - flow.routines or function.tails or entry in flow.routines
        through = any(it.form in ("jump_register", "jump_link_register") and it.registers[0] != LINK for it in code)
        if not calls and not through and entry not in flow.by_address:
            found.add(entry)
    return found


def cut(flow: Flow, policy: str, join_leaves: bool) -> Cut:
    """Cuts a program by a policy; functions that call nothing may become part of the tasks that call them."""
    entries = {flow.at(START)} | heads(flow, policy)
    joined: set[int] = set()
    leaves = leaf_functions(flow) - entries if join_leaves else set()
    for index, it in enumerate(flow.code):
        if it.begins_task:
            entries.add(index)
        if it.own_stop:
            entries |= places_of_own_stop(flow, index)
    leaves -= entries
    for index, it in enumerate(flow.code):
        if it.form == "jump_link":
            callee = flow.at(it.destination)
            if callee in leaves:
                joined.add(index)
            else:
                entries.add(callee)
            if flow.functions[callee].returns:
                entries.add(index + 1)
        elif it.form == "jump_link_register":
            entries |= set(flow.jump_places(index)) | ({index + 1} if index + 1 < len(flow.code) else set())
        elif it.comes_back:
            entries.add(flow.at(it.comes_back))
        elif it.form == "jump_register" and it.registers[0] != LINK:
            entries |= set(flow.jump_places(index))
    made = Cut(flow, entries, joined)
    divide(made)
    return made


def heads(flow: Flow, policy: str) -> set[int]:
    if policy == "calls":
        return set()
    if policy == "blocks":
        return leaders(flow)
    found: set[int] = set()
    for function in flow.functions.values():
        if function.entry in flow.routines:
            continue
        loops = flow.loop_heads(function)
        for head, body in loops:
            if not is_cut(policy, head, body, loops):
                continue
            found.add(head)
            if policy in WITH_EXITS:
                found |= {place for index in body for place in flow.ways(function, index) if place not in body}
    return found


def is_cut(policy: str, head: int, body: set[int], loops: list[tuple[int, set[int]]]) -> bool:
    """Whether a policy makes tasks of the iterations of this loop."""
    if policy in ("outer", "outer-exits"):
        return not any(head in other and head != above for above, other in loops)
    if policy == "inner":
        return not any(above in body and above != head for above, _ in loops)
    return True


def places_of_own_stop(flow: Flow, index: int) -> set[int]:
    """The stop of an author means that tasks begin where control goes next."""
    it = flow.code[index]
    if it.form in ("jump_register", "jump_link_register"):
        return set()
    if it.own_stop in ("!st", "!sn") and not it.is_branch:
        raise refuse(it.place, f"{it.own_stop} stands at an instruction that is no branch")
    taken = {flow.at(it.destination)} if it.destination else set()
    following = {index + 1} if it.goes_on and it.form != "jump_link" else set()
    return {"!s": taken | following, "!st": taken, "!sn": following}[it.own_stop]


def divide(made: Cut) -> None:
    """Finds the tasks; where one has too many exits, tasks begin at more places inside it."""
    while True:
        made.tasks = all_tasks(made)
        wide = [it for it in made.tasks if len(it.exits) > MOST_TARGETS]
        more = set()
        for task in wide:
            if any(len(places) > MOST_TARGETS for places in task.jumps.values()):
                continue
            more |= places_inside(made, task)
        if not more:
            return
        made.entries |= more
        made.stops.clear()
        made.following.clear()


def places_inside(made: Cut, task: Task) -> set[int]:
    """The branch targets inside a task: fewer exits are left to each part."""
    inside = (leaders(made.flow) & task.reach) - made.entries
    called = {made.flow.at(made.flow.code[it].destination) for it in made.joined}
    return inside - called


def all_tasks(made: Cut) -> list[Task]:
    """The first task, and each that may follow one."""
    found: dict[int, Task] = {}
    waiting = [made.flow.at(START)]
    while waiting:
        entry = waiting.pop()
        if entry not in found:
            found[entry] = explored(made, entry)
            waiting += found[entry].exits
    return [found[it] for it in sorted(found)]


def explored(made: Cut, entry: int) -> Task:
    """What a task reaches. On the way into a function that it does not stop at, it knows where that returns to."""
    flow = made.flow
    task = Task("", entry)
    waiting: list[tuple[int, int, int]] = [(entry, -1, -1)]
    seen: set[tuple[int, int, int]] = set()
    while waiting:
        state = waiting.pop()
        if state in seen:
            continue
        seen.add(state)
        index, back, back_of_routine = state
        it = flow.code[index]
        task.reach.add(index)
        if it.form in ("jump_register", "jump_link_register"):
            places = set(flow.jump_places(index))
            known = back if it.registers[0] == LINK else back_of_routine if it.registers[0] == ASSEMBLER else -1
            if it.form == "jump_register" and known >= 0:
                places &= {known}
            task.jumps[index] = task.jumps.get(index, set()) | places
            task.exits |= places
            continue
        inner = made.inner(index)
        if it.form == "jump_link" and index in made.joined:
            waiting += [(place, index + 1, -1) for place in inner]
        elif it.comes_back:
            waiting += [(place, back, flow.at(it.comes_back)) for place in inner]
        else:
            waiting += [(place, back, back_of_routine) for place in inner]
        task.exits |= outer(made, index)
    return task


def outer(made: Cut, index: int) -> set[int]:
    """The places where a task that ends at this instruction goes on; none for jumps through registers."""
    it, stop, place = made.flow.code[index], made.stop_of(index), made.flow.goes_to[index]
    if not stop or it.form in ("jump_register", "jump_link_register"):
        return set()
    taken = {place} if place is not None and stop != "!sn" else set()
    following = {index + 1} if it.form not in ("jump", "jump_link") and stop != "!st" else set()
    return taken | following


# Jumps through registers with more places than a task has targets


def wide_jumps(made: Cut) -> dict[int, list[int]]:
    found: dict[int, set[int]] = {}
    for task in made.tasks:
        for index, places in task.jumps.items():
            if len(places) > MOST_TARGETS:
                found.setdefault(index, set()).update(places)
    return {index: sorted(places) for index, places in found.items()}


def spread(program: Program, flow: Flow, wide: dict[int, list[int]]) -> None:
    """Puts a tree of small tasks in the place of each jump with too many places; the tree compares the address."""
    trees: dict[tuple[int, tuple[int, ...]], str] = {}
    for index, places in wide.items():
        it = program.code[index]
        labels = tuple(label_at(program, place) for place in places)
        if it.form == "jump_link_register":
            into = tree_for(program, trees, it.registers[1], labels, it.place)
            # The link is written before the tree jumps.
            program.code[index] = Instruction("jal", (), Expression(symbol=into), it.place, "a call of one of several", it.labels)
        else:
            into = tree_for(program, trees, it.registers[0], labels, it.place)
            program.code[index] = Instruction("j", (), Expression(symbol=into), it.place, f"{it.name} ${it.registers[0]}", it.labels)


def label_at(program: Program, index: int) -> str:
    it = program.code[index]
    if not it.labels:
        it.labels.append(f".at.{len(program.code)}.{index}")
    return it.labels[0]


def tree_for(program: Program, trees: dict, register: int, labels: tuple[str, ...], place: Place) -> str:
    key = register, labels
    if key not in trees:
        trees[key] = f".choose.{len(program.code)}"
        program.code += node(trees[key], register, list(labels), place)
    return trees[key]


def node(name: str, register: int, labels: list[str], place: Place) -> list[Instruction]:
    """A task that finds which of at most 16 groups the address is in, and then the tasks of these groups."""
    if len(labels) <= MOST_TARGETS:
        return [Instruction("jr", (register,), None, place, labels=[name], begins_task=True, targets=labels)]
    size = MOST_TARGETS
    while len(labels) > MOST_TARGETS * size:
        size *= MOST_TARGETS
    groups = [labels[at : at + size] for at in range(0, len(labels), size)]
    made = halved(name, register, list(enumerate(groups)), place)
    made[0].labels.insert(0, name)
    made[0].begins_task = True
    for number, group in enumerate(groups):
        made += node(f"{name}.{number}", register, group, place)
    return made


def halved(name: str, register: int, groups: list[tuple[int, list[str]]], place: Place) -> list[Instruction]:
    """Compares until one group is left."""
    if len(groups) == 1:
        return [Instruction("j", (), Expression(symbol=f"{name}.{groups[0][0]}"), place)]
    middle = len(groups) // 2
    first = groups[middle][1][0]
    scratch = ASSEMBLER if register != ASSEMBLER else 27
    upper = f"{name}.from.{groups[middle][0]}"
    right = halved(name, register, groups[middle:], place)
    right[0].labels.insert(0, upper)
    return [
        Instruction("lui", (scratch,), Expression(0, first, "upper"), place, f"whether it is before {first.split('@')[0]}"),
        Instruction("ori", (scratch, scratch), Expression(0, first, "lower"), place),
        Instruction("sltu", (scratch, register, scratch), None, place),
        Instruction("beq", (scratch, 0), Expression(symbol=upper), place),
        *halved(name, register, groups[:middle], place),
        *right,
    ]


def order_targets(made: Cut, followed: Callable[[int, int], int]) -> dict[int, list[int]]:
    """The targets of each task, by entry: what followed most often first; else what goes back, then the order of the code."""

    def in_order(task: Task) -> list[int]:
        return sorted(task.exits, key=lambda it: (-followed(task.entry, it), it != task.entry, it > task.entry, it))

    return {task.entry: in_order(task) for task in made.tasks}
