"""Takes delay slots apart: what stands in the slot of a branch or jump goes before it, since the machine has no slots."""

from instructions import FIRST_KEPT, LINK, SECOND_KEPT, Instruction
from refusal import refuse

JUMPS = {"branch_two", "branch_one", "jump", "jump_link", "jump_register", "jump_link_register"}


def taken_apart(raw: list[tuple[list[Instruction], bool]]) -> list[Instruction]:
    """The code in the order in which it runs. Each raw instruction comes with whether delay slots are written out there."""
    made: list[Instruction] = []
    index = 0
    while index < len(raw):
        expansion, has_slots = raw[index]
        index += 1
        jump = expansion[-1] if expansion else None
        if not (has_slots and jump and jump.form in JUMPS and not jump.comes_back):
            made += expansion
            continue
        if index == len(raw):
            raise refuse(jump.place, f"{jump.name} has a delay slot, and the file ends there")
        slot = raw[index][0]
        index += 1
        made += with_slot(expansion, slot)
    return made


def with_slot(expansion: list[Instruction], slot: list[Instruction]) -> list[Instruction]:
    before, jump = expansion[:-1], expansion[-1]
    if not slot or all(it.name == "sll" and it.registers[0] == 0 and not it.labels for it in slot):
        return expansion
    for it in slot:
        if it.labels:
            raise refuse(it.place, "a label stands at a delay slot")
        if it.form in JUMPS or it.form == "halt":
            raise refuse(it.place, f"{it.name} stands in a delay slot")
    if jump.form in ("jump_link", "jump_link_register") and any(LINK in it.reads + it.writes for it in slot):
        raise refuse(jump.place, f"the delay slot of {jump.name} uses $31, which {jump.name} has just written")
    written = {register for it in slot for register in it.writes}
    if not written & set(jump.reads):
        return moved(before, slot, jump)
    if written & {FIRST_KEPT, SECOND_KEPT}:
        raise refuse(jump.place, f"what stands in the delay slot of {jump.name} takes several instructions and writes what {jump.name} reads")
    return moved(before + kept_operands(jump, written), slot, jump)


def kept_operands(jump: Instruction, written: set[int]) -> list[Instruction]:
    """Copies what the jump reads and its slot writes."""
    copies, registers, free = [], list(jump.registers), [FIRST_KEPT, SECOND_KEPT]
    reads_from = 1 if jump.form == "jump_link_register" else 0
    for index in range(reads_from, len(registers)):
        if registers[index] in written:
            copy = free.pop(0)
            copies.append(Instruction("addu", (copy, registers[index], 0), place=jump.place, note="kept over what the delay slot writes"))
            registers[index] = copy
    jump.registers = tuple(registers)
    return copies


def moved(before: list[Instruction], slot: list[Instruction], jump: Instruction) -> list[Instruction]:
    """The labels of the jump go to what now stands first."""
    made = [*before, *slot, jump]
    if made[0] is not jump and jump.labels:
        made[0].labels, jump.labels = jump.labels + made[0].labels, []
    if jump.begins_task and made[0] is not jump:
        made[0].begins_task, jump.begins_task = True, False
    return made
