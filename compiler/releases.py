"""Where a release pays: a register of the create mask that the rest of the path does not write, and that was not sent.

Without a release such a register is sent only after the task has stopped, one in each step. `early` puts the release
where a path parts from those that still write the register; `late` puts one release of all such registers at the end
of the task. Nothing else moves.
"""

from instructions import Instruction
from tasks import Cut

MODES = ("none", "early", "late")


def still_written(made: Cut) -> list[set[int]]:
    """For each instruction, the registers that the task may still write from there on: the least certificate."""
    code = made.flow.code
    inner = [made.inner(index) for index in range(len(code))]
    before: list[list[int]] = [[] for _ in code]
    for index, places in enumerate(inner):
        for place in places:
            before[place].append(index)
    masks: list[set[int]] = [set(it.writes) for it in code]
    waiting = list(range(len(code)))
    while waiting:
        index = waiting.pop()
        for earlier in before[index]:
            if not masks[index] <= masks[earlier]:
                masks[earlier] |= masks[index]
                waiting.append(earlier)
    return masks


def sent_by(made: Cut, masks: list[set[int]], index: int) -> set[int]:
    """What an instruction sends, once `annotate` has marked it."""
    it = made.flow.code[index]
    if it.form == "release":
        return set(it.registers)
    written = set(it.writes)
    later = set().union(*(masks[place] for place in made.inner(index)))
    return written if written and not written & later else set()


def unsent(made: Cut, masks: list[set[int]], mode: str) -> tuple[list[set[int]], dict[tuple[int, int], set[int]]]:
    """By instruction, the registers of create masks that some path brings there unsent; and what each edge brings.

    A register that is released, as the mode has it, is unsent no more.
    """
    code = made.flow.code
    arriving: list[set[int]] = [set() for _ in code]
    brought: dict[tuple[int, int], set[int]] = {}
    waiting = []
    for task in made.tasks:
        arriving[task.entry] |= masks[task.entry]
        waiting.append(task.entry)
    seen: set[int] = set()
    while waiting:
        index = waiting.pop()
        seen.add(index)
        released = arriving[index] - masks[index] if mode == "early" else due_at_end(made, masks, arriving, index)
        left = arriving[index] - released - sent_by(made, masks, index)
        for place in made.inner(index):
            brought[index, place] = left
            if not left <= arriving[place] or place not in seen:
                arriving[place] |= left
                waiting.append(place)
    return arriving, brought


def due_at_end(made: Cut, masks: list[set[int]], arriving: list[set[int]], index: int) -> set[int]:
    """What to release where a task may end; a single register is sent as soon without."""
    due = arriving[index] - masks[index] if made.stop_of(index) else set()
    return due if len(due) > 1 else set()


def with_releases(made: Cut, mode: str) -> list[Instruction]:
    """The code with releases put in; the labels of a place go to the release where all ways there need it."""
    masks = still_written(made)
    if mode == "early":
        return early(made, masks)
    return late(made, masks) if mode == "late" else list(made.flow.code)


def early(made: Cut, masks: list[set[int]]) -> list[Instruction]:
    code = made.flow.code
    _, brought = unsent(made, masks, "early")
    into: dict[int, dict[int, set[int]]] = {}
    for (earlier, place), left in brought.items():
        if left - masks[place]:
            into.setdefault(place, {})[earlier] = left - masks[place]
    result: list[Instruction] = []
    for index, it in enumerate(code):
        ways = into.get(index, {})
        from_above = ways.get(index - 1, set())
        from_afar = set().union(*(due for earlier, due in ways.items() if earlier != index - 1))
        if from_afar:
            # All ways into the place pass here: what some of them have sent before is not sent again.
            result.append(release(it, from_afar | from_above, takes_labels=True))
        elif from_above:
            result.append(release(it, from_above, takes_labels=False))
        result.append(it)
    return result


def late(made: Cut, masks: list[set[int]]) -> list[Instruction]:
    code = made.flow.code
    arriving, _ = unsent(made, masks, "late")
    result: list[Instruction] = []
    for index, it in enumerate(code):
        due = due_at_end(made, masks, arriving, index)
        if due:
            result.append(release(it, due, takes_labels=True))
        result.append(it)
    return result


def release(before: Instruction, registers: set[int], takes_labels: bool) -> Instruction:
    made = Instruction("release", tuple(sorted(registers)), place=before.place)
    if takes_labels:
        made.labels, before.labels = before.labels, []
        made.begins_task, before.begins_task = before.begins_task, False
    return made
