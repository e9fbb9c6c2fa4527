"""Where control goes: functions, where each returns to, jumps through registers, loops."""

from copy import copy
from dataclasses import dataclass, field

from instructions import ASSEMBLER, LINK
from linking import START, Program, is_local, table_of
from refusal import refuse


@dataclass
class Function:
    entry: int
    members: set[int] = field(default_factory=set)
    # Functions into which it goes on without a call.
    tails: set[int] = field(default_factory=set)
    calls: set[int] = field(default_factory=set)
    returns: bool = False
    returns_to: set[int] = field(default_factory=set)


class Flow:
    """The control flow of a program as its code stands."""

    def __init__(self, program: Program) -> None:
        self.program = program
        self.code = program.code
        self.index_of = program.index_of()
        # Where each branch or jump goes that names a label.
        self.goes_to = [self.index_of.get(it.destination) for it in self.code]
        self.taken = self.taken_addresses()
        self.by_address = {self.at(it) for it in self.taken if not is_local(it)}
        self.tables = self.found_tables()
        self.routines = {self.at(it.destination) for it in self.code if it.comes_back}
        self.functions: dict[int, Function] = {}
        # The loops of each function, by its entry, once someone has asked for them.
        self.loops: dict[int, list[tuple[int, set[int]]]] = {}
        self.find_functions()

    def of_copy(self, program: Program) -> "Flow":
        """The same flow, of a copy of the program."""
        made = copy(self)
        made.program, made.code = program, program.code
        return made

    def at(self, label: str) -> int:
        return self.index_of[label]

    def indices(self, labels: list[str]) -> list[int]:
        return [self.at(it) for it in labels]

    def taken_addresses(self) -> set[str]:
        """Code labels whose address is a number somewhere, in the code or in data."""
        back = {it.comes_back for it in self.code if it.comes_back}
        halves = {it.value.symbol for it in self.code if it.value and it.value.half and it.value.symbol}
        words = {it.value.symbol for it in self.program.data_in_order() if it.value}
        return {it for it in (halves | words) - back if it in self.index_of}

    def found_tables(self) -> dict[int, list[int]]:
        """By jump through a register: where it may go, if that is known."""
        found: dict[int, list[int]] = {}
        for index, it in enumerate(self.code):
            if it.targets:
                found[index] = self.indices(it.targets)
            elif it.form == "jump_register" and it.table and it.registers[0] != LINK:
                places = table_of(self.program, it.table, lambda label: label in self.index_of)
                if places:
                    found[index] = self.indices(places)
        return found

    def is_return(self, index: int, entry: int) -> bool:
        it = self.code[index]
        return it.form == "jump_register" and it.registers[0] == (ASSEMBLER if entry in self.routines else LINK)

    # Functions

    def loose_places(self) -> set[int]:
        """Where a jump through a register may go that has no table: labels inside functions that no table has."""
        known = {place for places in self.tables.values() for place in places}
        return {self.at(it) for it in self.taken if is_local(it)} - known

    def find_functions(self) -> None:
        entries = {self.at(START)} | self.routines | self.by_address
        entries |= {self.at(it.destination) for it in self.code if it.form == "jump_link"}
        self.functions = {entry: Function(entry) for entry in sorted(entries)}
        changed = True
        while changed:
            changed = False
            for function in self.functions.values():
                changed |= self.explore(function)
        self.find_returns()

    def explore(self, function: Function) -> bool:
        """Follows a function from its entry, with what is known of which functions return."""
        before = function.returns, len(function.members)
        function.members, waiting = set(), [function.entry]
        while waiting:
            index = waiting.pop()
            if index in function.members:
                continue
            if index >= len(self.code):
                raise refuse(self.code[-1].place, "the code can run past its end")
            function.members.add(index)
            for place in self.inside(function, index):
                if place in self.functions and place != function.entry:
                    function.tails.add(place)
                    function.returns |= self.functions[place].returns
                else:
                    waiting.append(place)
        return before != (function.returns, len(function.members))

    def inside(self, function: Function, index: int) -> list[int]:
        """Where a function goes on from an instruction."""
        it = self.code[index]
        if it.form == "jump_link":
            function.calls.add(self.at(it.destination))
            return [index + 1] if self.functions[self.at(it.destination)].returns else []
        if it.form == "jump_link_register":
            return [index + 1] if any(self.functions[callee].returns for callee in self.by_address) else []
        if it.comes_back:
            function.calls.add(self.at(it.destination))
            return [self.at(it.comes_back)]
        if self.is_return(index, function.entry):
            function.returns = True
            return []
        if it.form == "jump_register":
            function.returns |= it.may_return and index not in self.tables
            return self.tables.get(index) or sorted(self.loose_places() | self.by_address)
        places = [self.at(it.destination)] if it.destination else []
        return places + ([index + 1] if it.goes_on else [])

    def find_returns(self) -> None:
        """Where each function returns to: after its calls, and where those return that end by going on into it."""
        for index, it in enumerate(self.code):
            if it.form == "jump_link":
                self.functions[self.at(it.destination)].returns_to.add(index + 1)
            elif it.form == "jump_link_register":
                for callee in self.by_address:
                    self.functions[callee].returns_to.add(index + 1)
            elif it.comes_back:
                self.functions[self.at(it.destination)].returns_to.add(self.at(it.comes_back))
        changed = True
        while changed:
            changed = False
            for function in self.functions.values():
                for tail in function.tails:
                    more = function.returns_to - self.functions[tail].returns_to
                    self.functions[tail].returns_to |= more
                    changed |= bool(more)

    # Jumps through registers

    def jump_places(self, index: int) -> list[int]:
        """Where a jump through a register may go, whoever called."""
        if index in self.tables:
            return self.tables[index]
        it = self.code[index]
        if it.form == "jump_link_register":
            return sorted(self.by_address)
        places: set[int] = set()
        for function in self.functions.values():
            if index not in function.members:
                continue
            is_return = self.is_return(index, function.entry)
            places |= function.returns_to if is_return or it.may_return else set()
            places |= set() if is_return else self.loose_places() | self.by_address
        return sorted(it for it in places if it < len(self.code))

    def loop_heads(self, function: Function) -> list[tuple[int, set[int]]]:
        """The heads of loops with the instructions of each loop."""
        if function.entry not in self.loops:
            self.loops[function.entry] = self.found_loops(function)
        return self.loops[function.entry]

    def found_loops(self, function: Function) -> list[tuple[int, set[int]]]:
        """By depth-first search: where an edge goes back is a head."""
        heads: dict[int, set[int]] = {}
        state: dict[int, int] = {}
        before: dict[int, list[int]] = {}
        stack = [(function.entry, iter(self.ways(function, function.entry)))]
        state[function.entry] = 1
        while stack:
            index, ways = stack[-1]
            place = next(ways, None)
            if place is None:
                state[index] = 2
                stack.pop()
                continue
            before.setdefault(place, []).append(index)
            if state.get(place) == 1:
                heads.setdefault(place, set()).add(index)
            elif place not in state:
                state[place] = 1
                stack.append((place, iter(self.ways(function, place))))
        return [(head, natural_loop(head, ends, before)) for head, ends in sorted(heads.items())]

    def ways(self, function: Function, index: int) -> list[int]:
        return [it for it in self.inside(function, index) if it == function.entry or it not in self.functions]

    # Code that nothing reaches

    def reached(self) -> set[int]:
        """The instructions of functions that the start leads to, and of those whose address is taken there or in data."""
        words = {it.value.symbol for it in self.program.data_in_order() if it.value}
        waiting = [self.at(START), *(self.at(it) for it in self.taken & words if not is_local(it))]
        seen: set[int] = set()
        members: set[int] = set()
        while waiting:
            entry = waiting.pop()
            if entry in seen:
                continue
            seen.add(entry)
            function = self.functions[entry]
            members |= function.members
            waiting += function.calls | function.tails
            for index in function.members:
                value = self.code[index].value
                if value and value.half and value.symbol in self.taken and not is_local(value.symbol):
                    waiting.append(self.at(value.symbol))
        return members


def natural_loop(head: int, ends: set[int], before: dict[int, list[int]]) -> set[int]:
    body, waiting = {head}, list(ends)
    while waiting:
        index = waiting.pop()
        if index not in body:
            body.add(index)
            waiting += before.get(index, [])
    return body


def without_unreached(program: Program) -> Flow:
    """Leaves out code that nothing reaches, until all that is left is reached."""
    while True:
        flow = Flow(program)
        reached = flow.reached()
        if len(reached) == len(program.code):
            return flow
        program.dropped |= {label for index, it in enumerate(program.code) if index not in reached for label in it.labels}
        program.code = [it for index, it in enumerate(program.code) if index in reached]
