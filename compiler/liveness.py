"""Which registers are still read: liveness over the whole program, through calls and returns."""

from flow import Flow
from instructions import ASSEMBLER, FIRST_KEPT, HI, LINK, LO, SECOND_KEPT, STACK_POINTER, Instruction

# Registers that a function gives back as it found them.
SAVED = frozenset((*range(16, 24), 30))


def bits(registers: object) -> int:
    """A set of registers as a number; $0 is in none."""
    found = 0
    for it in registers:
        found |= 1 << it
    return found & ~1


def is_save(it: Instruction) -> bool:
    """Whether this may keep a register of the caller's on the stack."""
    return it.name == "sw" and it.registers[0] in SAVED and it.registers[1] == STACK_POINTER


class Liveness:
    """Before each instruction, the registers that some path from there reads before it writes them."""

    def __init__(self, flow: Flow) -> None:
        self.flow = flow
        self.next = [self.following(index) for index in range(len(flow.code))]
        # What functions read for themselves: what they save of their callers' is not that.
        own = self.solved([0 if is_save(it) else bits(it.reads) for it in flow.code], None)
        self.needed = own
        self.before = self.solved([bits(it.reads) for it in flow.code], own)

    def following(self, index: int) -> list[int]:
        """Where control goes on: after a call also where the call returns, as if it had not been there."""
        flow, it = self.flow, self.flow.code[index]
        if it.form == "halt":
            return []
        if it.comes_back:
            return [flow.at(it.comes_back)]
        if it.form in ("jump_link", "jump_link_register"):
            return [index + 1] if index + 1 < len(flow.code) else []
        if it.form == "jump_register":
            return flow.jump_places(index)
        places = [flow.at(it.destination)] if it.destination else []
        return places + ([index + 1] if it.goes_on and index + 1 < len(flow.code) else [])

    def called(self, index: int) -> list[int]:
        it = self.flow.code[index]
        if it.form == "jump_link":
            return [self.flow.at(it.destination)]
        return sorted(self.flow.by_address) if it.form == "jump_link_register" else []

    def solved(self, reads: list[int], needed: list[int] | None) -> list[int]:
        """The least solution. What a call needs is what its function needs, in this solution or in another."""
        code = self.flow.code
        kills = [bits(it.writes) for it in code]
        users: list[list[int]] = [[] for _ in code]
        calls = [self.called(index) for index in range(len(code))]
        for index, it in enumerate(code):
            if it.comes_back:
                reads[index], kills[index] = bits((FIRST_KEPT, SECOND_KEPT, ASSEMBLER)), bits((HI, LO, ASSEMBLER))
            for place in self.next[index] + (calls[index] if needed is None else []):
                users[place].append(index)
        live = [0] * len(code)
        waiting = list(range(len(code)))
        while waiting:
            index = waiting.pop()
            after = 0
            for place in self.next[index]:
                after |= live[place]
            made = reads[index] | after & ~kills[index]
            for callee in calls[index]:
                made |= (live if needed is None else needed)[callee] & ~(1 << LINK)
            if made != live[index]:
                live[index] = made
                waiting += users[index]
        return live

    def after(self, index: int) -> int:
        found = 0
        for place in self.next[index]:
            found |= self.before[place]
        return found
