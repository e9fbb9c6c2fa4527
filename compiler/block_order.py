"""The order inside basic blocks: first what other tasks wait for and what needs no memory, then loads and stores.

Only the head's task loads and stores data, so a task that does so early waits for its turn before it has sent what the
next one needs.
"""

from dataclasses import dataclass, replace

from flow import Flow
from instructions import MEMORY, Instruction
from linking import Program
from liveness import Liveness, bits
from tasks import leaders

ENDS = {"branch_two", "branch_one", "jump", "jump_link", "jump_register", "jump_link_register", "halt", "release"}


@dataclass
class Needs:
    """For each instruction of a block, as numbers whose bits are the places of others in it."""

    # What has to stand before it.
    before: list[int]
    # That, and what has to stand before those, with itself.
    slices: list[int]
    # Whether a load, a store or an output is among these.
    of_memory: list[bool]


def with_blocks_in_order(program: Program) -> None:
    flow = Flow(program)
    live = Liveness(flow)
    begins = leaders(flow) | {index for index, it in enumerate(flow.code) if it.labels or it.begins_task}
    made: list[Instruction] = []
    block: list[int] = []
    for index, it in enumerate(flow.code):
        if index in begins:
            made += in_order(flow, live, block)
            block = []
        if is_end(it):
            made += in_order(flow, live, block)
            made.append(it)
            block = []
        else:
            block.append(index)
    program.code = made + in_order(flow, live, block)


def is_end(it: Instruction) -> bool:
    return it.form in ENDS or bool(it.comes_back or it.own_stop or it.own_forward)


def in_order(flow: Flow, live: Liveness, block: list[int]) -> list[Instruction]:
    """A list schedule: of what may come next, first what is sent and takes least before it, memory last."""
    code = [flow.code[index] for index in block]
    if len(code) < 2:
        return code
    needs = needs_of(code)
    keys = keys_of(code, needs, live.after(block[-1]))
    left = list(range(len(code)))
    done, order = 0, []
    while left:
        ready = [it for it in left if not needs.before[it] & ~done]
        chosen = min(ready, key=lambda it: keys[it])
        left.remove(chosen)
        done |= 1 << chosen
        order.append(chosen)
    made = [replace(code[it], labels=[], begins_task=False) for it in order]
    made[0].labels, made[0].begins_task = code[0].labels, code[0].begins_task
    return made


def needs_of(code: list[Instruction]) -> Needs:
    reads, writes = [bits(it.reads) for it in code], [bits(it.writes) for it in code]
    needs = Needs([], [], [])
    for later, it in enumerate(code):
        before, whole = 0, 1 << later
        for earlier in range(later):
            other = code[earlier]
            through_registers = writes[earlier] & (reads[later] | writes[later]) or reads[earlier] & writes[later]
            through_memory = it.form in MEMORY and other.form in MEMORY and not it.form == other.form == "load"
            if through_registers or through_memory:
                before |= 1 << earlier
                whole |= needs.slices[earlier]
        needs.before.append(before)
        needs.slices.append(whole)
        needs.of_memory.append(any(code[one].form in MEMORY for one in range(later + 1) if whole >> one & 1))
    return needs


def keys_of(code: list[Instruction], needs: Needs, after: int) -> list[tuple[int, int, int]]:
    """Less goes first."""
    keys = [(2 if needs.of_memory[it] else 1, 0, it) for it in range(len(code))]
    last: dict[int, int] = {}
    for index, it in enumerate(code):
        last |= dict.fromkeys(it.writes, index)
    sent = {index for register, index in last.items() if after >> register & 1 and not needs.of_memory[index]}
    for index in sent:
        size = bin(needs.slices[index]).count("1")
        for one in range(index + 1):
            if needs.slices[index] >> one & 1:
                keys[one] = min(keys[one], (0, size, one))
    return keys
