"""What a loop only counts up is computed first, so that the next round's task gets it early.

A register that a loop changes once in a round, by a number or by another register that stays, is changed at the loop's
head instead. What reads it before its old place gets a copy of the old word, or an offset that makes up for the change;
on ways out of the loop that had not come to the old place, and where it is still read, the change is taken back.
"""

from dataclasses import dataclass, replace

from flow import Flow, Function
from instructions import ASSEMBLER, KEPT, LINK, STACK_POINTER, WRITES_FIRST, Expression, Instruction
from linking import Program
from liveness import Liveness, bits, is_save

# Not for copies and not counted: the stack's and the return's, and what expansions use.
RESERVED = {0, ASSEMBLER, *KEPT, STACK_POINTER, LINK}
COPIES = [it for it in (*range(8, 16), 24, 25, *range(2, 8), *range(16, 24), 30)]


@dataclass
class Loop:
    head: int
    body: set[int]
    # What its calls may leave changed, and what they need.
    written_by_calls: set[int]
    needed_by_calls: int
    calls: bool


@dataclass
class Change:
    """The update of a register that is to stand at a loop's head."""

    loop: Loop
    at: int
    register: int
    readers: list[int]
    # Edges out of the loop, from before the old place, after which the register is read.
    exits: list[tuple[int, int]]
    # None where all readers take another offset.
    copy: int | None


def with_inductions_first(program: Program) -> int:
    """Changes the code, a loop of each function at a time, and says how many updates were moved."""
    done: set[tuple[str, int]] = set()
    moved = 0
    while True:
        flow = Flow(program)
        live = Liveness(flow)
        seen: set[int] = set()
        changes: list[Change] = []
        for function in flow.functions.values():
            if function.entry not in flow.routines and not function.members & seen:
                found = changes_in(flow, live, function, done)
                changes += found
                seen |= function.members if found else set()
        if not changes:
            return moved
        apply(program, changes)
        moved += len(changes)


def changes_in(flow: Flow, live: Liveness, function: Function, done: set[tuple[str, int]]) -> list[Change]:
    """The changes of the first loop that has some."""
    for head, body in flow.loop_heads(function):
        if not flow.code[head].labels or any(is_marked(flow.code[index]) for index in body) or not is_closed(flow, live, head, body):
            continue
        loop = loop_of(flow, live, head, body)
        changes: list[Change] = []
        for at in sorted(body):
            key = flow.code[head].labels[0], (flow.code[at].writes or (0,))[0]
            if key not in done and is_update(flow, loop, at):
                done.add(key)
                change = change_of(flow, live, loop, at, [it.copy for it in changes if it.copy])
                changes += [change] if change else []
        if changes:
            return changes
    return []


def is_marked(it: Instruction) -> bool:
    return it.own_forward or bool(it.own_stop) or it.begins_task or it.form == "release"


def is_closed(flow: Flow, live: Liveness, head: int, body: set[int]) -> bool:
    """Whether control comes into the loop at its head alone, but for what returns there."""
    returned_to = {flow.at(flow.code[index].comes_back) for index in body if flow.code[index].comes_back}
    returned_to |= {index + 1 for index in body if flow.code[index].form in ("jump_link", "jump_link_register")}
    inside = body - {head}
    if inside & (set(flow.functions) | flow.loose_places()):
        return False
    for index, places in enumerate(live.next):
        entered = inside.intersection(places) if index not in body else set()
        if entered and (flow.code[index].form != "jump_register" or entered - returned_to):
            return False
    return True


def loop_of(flow: Flow, live: Liveness, head: int, body: set[int]) -> Loop:
    entries: set[int] = set()
    for index in body:
        it = flow.code[index]
        entries |= set(live.called(index)) | ({flow.at(it.destination)} if it.comes_back else set())
    reached: set[int] = set()
    waiting = list(entries)
    while waiting:
        entry = waiting.pop()
        if entry not in reached:
            reached.add(entry)
            function = flow.functions[entry]
            waiting += function.calls | function.tails
            if any(flow.code[index].form == "jump_link_register" for index in function.members):
                waiting += flow.by_address
    written: set[int] = set()
    for entry in reached:
        code = [flow.code[index] for index in flow.functions[entry].members]
        # What a function keeps on the stack it gives back.
        written |= {register for it in code for register in it.writes} - {it.registers[0] for it in code if is_save(it)}
    needed = 0
    for entry in entries:
        needed |= live.needed[entry]
    return Loop(head, body, written, needed, bool(entries - flow.routines))


def writers(flow: Flow, loop: Loop, register: int) -> list[int]:
    return [index for index in loop.body if register in flow.code[index].writes]


def stays(flow: Flow, loop: Loop, register: int) -> bool:
    """Whether the register holds one word through the loop."""
    return register not in RESERVED and register not in loop.written_by_calls and not writers(flow, loop, register)


def is_update(flow: Flow, loop: Loop, at: int) -> bool:
    """Whether this instruction alone changes its register in the loop, by what stays."""
    it = flow.code[at]
    if not it.writes or it.writes[0] in RESERVED or at == loop.head:
        return False
    register = it.writes[0]
    if register in loop.written_by_calls or loop.needed_by_calls >> register & 1:
        return False
    if writers(flow, loop, register) != [at]:
        return False
    if it.name == "addiu":
        return it.registers[1] == register and not it.value.symbol and not it.value.half
    if it.name in ("addu", "subu") and it.registers[1] == register:
        return stays(flow, loop, it.registers[2])
    return it.name == "addu" and it.registers[2] == register and stays(flow, loop, it.registers[1])


def change_of(flow: Flow, live: Liveness, loop: Loop, at: int, taken: list[int]) -> Change | None:
    """The change, if each round passes its place exactly once and its effect can be made up for."""
    code, register = flow.code, flow.code[at].writes[0]
    before = reached(live, loop, [loop.head], at)
    after = reached(live, loop, [it for it in live.next[at] if it in loop.body], loop.head)
    if at in after or before & after or any(loop.head in live.next[index] for index in before):
        return None
    exits = [(index, place) for index in sorted(before) for place in live.next[index]]
    exits = [(index, place) for index, place in exits if place not in loop.body and live.before[place] >> register & 1]
    if any(code[index].form in ("jump_register", "jump_link_register") for index, _ in exits):
        return None
    readers = [index for index in sorted(before) if register in code[index].reads]
    if all(is_foldable(code[index], code[at]) for index in readers):
        return Change(loop, at, register, readers, exits, None)
    copy = free_register(flow, live, loop, taken)
    return Change(loop, at, register, readers, exits, copy) if copy else None


def reached(live: Liveness, loop: Loop, begins: list[int], end: int) -> set[int]:
    """What of the loop is reached without passing `end`, nor its head a second time."""
    found: set[int] = set()
    waiting = list(begins)
    while waiting:
        index = waiting.pop()
        if index == end or index in found:
            continue
        found.add(index)
        waiting += [it for it in live.next[index] if it in loop.body and it != loop.head]
    return found


def is_foldable(reader: Instruction, update: Instruction) -> bool:
    """Whether another offset makes up for the change."""
    if update.name != "addiu" or not reader.value or reader.value.symbol or reader.value.half:
        return False
    register = update.writes[0]
    is_access = reader.form == "load" or reader.form == "store" and reader.registers[0] != register
    fits = -32768 <= reader.value.number - update.value.number <= 32767
    return fits and (is_access or reader.name == "addiu" and reader.registers[1] == register)


def free_register(flow: Flow, live: Liveness, loop: Loop, taken: list[int]) -> int | None:
    """A register that holds nothing anywhere in the loop, nor where it is left."""
    used = bits(taken) | bits(register for index in loop.body for register in (*flow.code[index].reads, *flow.code[index].writes))
    for index in loop.body:
        used |= live.before[index] | live.after(index)
    if loop.calls:
        used |= bits(register for it in flow.code for register in (*it.reads, *it.writes))
    return next((it for it in COPIES if not used >> it & 1), None)


def reading(it: Instruction, register: int, instead: int) -> Instruction:
    """The instruction with another register in the places that it reads."""
    kept = 1 if it.form in WRITES_FIRST else 0
    registers = it.registers[:kept] + tuple(instead if one == register else one for one in it.registers[kept:])
    return replace(it, registers=registers)


def apply(program: Program, changes: list[Change]) -> None:
    """Puts in changes of different functions, or of one loop; none reads what another moves but as a reader of its own."""
    code, old = list(program.code), program.code
    index_of = program.index_of()
    tails: dict[tuple[int, int], list[Instruction]] = {}
    for change in changes:
        update = old[change.at]
        for index in change.readers:
            it = code[index]
            code[index] = reading(it, change.register, change.copy) if change.copy else replace(it, value=it.value.plus(-update.value.number))
        for edge in change.exits:
            tails.setdefault(edge, []).append(undone(update))
    tail: list[Instruction] = []
    between: dict[int, list[Instruction]] = {}
    for (index, place), back in tails.items():
        it = code[index]
        if it.destination and index_of[it.destination] == place:
            label = f".undone.{len(code)}.{index}"
            tail += [replace(back[0], labels=[label]), *back[1:], Instruction("j", (), Expression(symbol=it.destination), it.place)]
            code[index] = replace(it, value=Expression(symbol=label))
        if it.goes_on and place == index + 1:
            between[index] = [replace(one) for one in back]
    program.code = put_together(code, changes, between) + tail


def undone(update: Instruction) -> Instruction:
    """What takes the change back."""
    if update.name == "addiu":
        return Instruction("addiu", update.registers, Expression(-update.value.number), update.place)
    register = update.writes[0]
    other = update.registers[2] if update.registers[1] == register else update.registers[1]
    return Instruction("subu" if update.name == "addu" else "addu", (register, register, other), None, update.place)


def put_together(code: list[Instruction], changes: list[Change], between: dict[int, list[Instruction]]) -> list[Instruction]:
    removed = {it.at for it in changes}
    firsts: dict[int, list[Instruction]] = {}
    for change in changes:
        update = code[change.at]
        copies = [Instruction("addu", (change.copy, change.register, 0), None, update.place)] if change.copy else []
        firsts.setdefault(change.loop.head, []).extend([*copies, replace(update, labels=[])])
    made: list[Instruction] = []
    labels: list[str] = []
    for index, it in enumerate(code):
        if index in removed:
            labels += it.labels
            continue
        if index in firsts:
            first = firsts[index]
            first[0] = replace(first[0], labels=labels + it.labels)
            it, labels = replace(it, labels=[]), []
            made += first
        made.append(replace(it, labels=labels + it.labels) if labels else it)
        labels = []
        made += between.get(index, [])
    return made
