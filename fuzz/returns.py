#!/usr/bin/env python3
"""Where calls return: a model of what `explain` proposes of jumps to addresses in registers.

A walk over each function, from where a call enters it, or the program starts, with what each register and each word of the frame
holds: None (not seen), ("word", W), or ("entry", R, N), what register R held where the function begins and N more. `explain.py`
and `costly_marks.py` use it; alone it prints what it sees of a program: returns.py FILE.
"""
import sys

from model import CODE0, LOAD, STORE, alu, assemble, certify, dests, edges, sources

M32 = 0xFFFFFFFF
SAVED = {*range(16, 24), 28, 29, 30}
EVERY = set(range(34))


def plus(held, count):
    return held and (*held[:-1], (held[-1] + count) & M32)


def execute(state, op):
    """The state after an instruction that is no call."""
    registers, frame = dict(state[0]), dict(state[1])
    held = lambda r: ("word", 0) if r == 0 else registers[r]
    place = lambda base, offset: (lambda at: at[2] if at and at[0] == "entry" and at[1] == 29 else None)(plus(held(base), offset))
    m = op[0]
    if m in STORE:
        at = place(op[2], op[3])
        if at is not None:
            frame = {k: v for k, v in frame.items() if (k - at + 3) & M32 >= 7}
            if m == "sw" and held(op[1]) and held(op[1])[0] == "entry" and len(frame) < 16:
                frame[at] = held(op[1])
    written = dests(op)
    value = None
    if m in LOAD:
        value = frame.get(place(op[2], op[3])) if m == "lw" else None
    elif m == "addiu":
        value = plus(held(op[2]), op[3])
    elif m in ("addu", "subu", "or") and any(it and it[0] == "word" for it in (held(op[2]), held(op[3]))):
        a, b = held(op[2]), held(op[3])
        if m == "addu":
            value = plus(a, b[1]) if b and b[0] == "word" else plus(b, a[1])
        elif m == "subu":
            value = plus(a, -b[1]) if b and b[0] == "word" else None
        elif ("word", 0) in (a, b):
            value = a if b == ("word", 0) else b
    if value is None and m not in LOAD and written and max(written) < 32:
        operands = [("word", 0) if r is None else held(r) if r < 32 else None for r in sources(op)]
        if all(it and it[0] == "word" for it in operands):
            value = ("word", alu(op, operands[0][1], operands[1][1], 0)[min(written)])
    for r in written:
        if r < 32:
            registers[r] = value
    return registers, frame


def joined(state, other):
    registers = {r: it if other[0][r] == it else None for r, it in state[0].items()}
    frame = {k: it for k, it in state[1].items() if other[1].get(k) == it}
    return registers, frame


class Walk:
    """What a walk sees: the functions by where they begin, each with its calls, its ends and the registers that it keeps."""

    def __init__(self, program, lists):
        self.program, self.lists = program, lists
        self.calls, self.kept, self.ends, self.inside = {program.start: set()}, {program.start: set(EVERY)}, {}, {}
        self.due = [program.start]
        while self.due:
            self.walk(self.due.pop())

    def listed(self, i):
        return {j for t, its in zip(self.program.tasks, self.lists) if any(k == i for k, _ in its) for j in t[3]}

    def index(self, word):
        at = (word - CODE0) & M32
        return at // 4 if at % 4 == 0 and at // 4 < len(self.program.code) else None

    def leads(self, i, held):
        if held and held[0] == "word" and self.index(held[1]) is not None:
            return {self.index(held[1])}
        return self.listed(i)

    def is_return(self, entry, held):
        return bool(held) and held[0] == "entry" and held[2] == 0 and (held[1] == 31 or any(link == held[1] for _, link, _ in self.calls[entry]))

    def call(self, i, place, link, entry):
        if place >= len(self.program.code):
            return set()
        if place not in self.calls:
            self.calls[place], self.kept[place] = set(), set(EVERY)
            self.due.append(place)
        self.calls[place].add((i, link, entry))
        return self.kept[place]

    def walk(self, entry):
        code, states, changed = self.program.code, {}, []

        def arrive(i, state):
            if i >= len(code):
                return
            new = joined(states[i], state) if i in states else state
            if states.get(i) != new:
                states[i] = new
                changed.append(i)

        arrive(entry, ({r: ("entry", r, 0) for r in range(32)}, {}))
        while changed:
            i = changed.pop()
            op, state = code[i][0], states[i]
            held = lambda r: ("word", 0) if r == 0 else state[0][r]
            if op[0] == "jr":
                if not self.is_return(entry, held(op[1])):
                    for j in self.leads(i, held(op[1])):
                        arrive(j, state)
            elif op[0] in ("jal", "jalr"):
                link = 31 if op[0] == "jal" else op[1]
                places = [op[1]] if op[0] == "jal" else self.leads(i, held(op[2]))
                kept = EVERY.intersection(*(self.call(i, place, link, entry) for place in places))
                registers = {**state[0], link: ("word", CODE0 + 4 * (i + 1))}
                arrive(i + 1, ({r: it if r in kept else None for r, it in registers.items()}, state[1]))
            else:
                for _, j in edges(op, i):
                    arrive(j, execute(state, op))
        self.note(entry, states)

    def note(self, entry, states):
        """What is seen of a function; those that call it are walked again, if it keeps fewer registers than was thought."""
        ends, kept = {}, set(self.kept[entry])
        for i, (registers, _) in states.items():
            op = self.program.code[i][0]
            if op[0] not in ("jr", "jalr"):
                continue
            register = op[1] if op[0] == "jr" else op[2]
            ends[i] = held = ("word", 0) if register == 0 else registers[register]
            if op[0] == "jr" and not (held and held[0] == "word"):
                same = {r for r in registers if registers[r] == ("entry", r, 0)}
                kept &= same if self.is_return(entry, held) else same | SAVED
        self.ends[entry], self.inside[entry] = ends, {t for t, it in enumerate(self.program.tasks) if it[1] in states}
        if kept != self.kept[entry]:
            self.kept[entry] = kept
            self.due += [it for it in dict.fromkeys(caller for _, _, caller in self.calls[entry]) if it not in self.due]


def jumps(program, lists=None):
    """For each jump that a task reaches, by task and index: where it leads, whether that is all, and whether nobody called."""
    lists = lists or certify(program)
    walk, seen = Walk(program, lists), {}
    for t, its in enumerate(lists):
        reached = {i for i, _ in its}
        for i in sorted(reached):
            op = program.code[i][0]
            if op[0] not in ("jr", "jalr"):
                continue
            places, ways, uncalled = set(), [], False
            for entry, found in walk.ends.items():
                if i not in found:
                    continue
                held = found[i]
                if held and held[0] == "word":
                    place = walk.index(held[1])
                    ways.append(place is not None)
                    places |= {place} - {None}
                elif op[0] == "jr" and held and held[0] == "entry" and held[2] == 0:
                    inside = t in walk.inside[entry]
                    calls = [c for c, link, _ in walk.calls[entry] if link == held[1]]
                    nobody = not calls and entry == program.start and held[1] == 31 and inside
                    uncalled |= nobody
                    ends = lambda c: program.code[c][2] == "s"
                    sure = {c for c in calls if inside and (program.tasks[t][1] != entry or ends(c)) or (c in reached and not ends(c))}
                    ways.append((bool(calls) or nobody) and (not inside or sure == set(calls)))
                    places |= {c + 1 for c in sure}
                else:
                    ways.append(False)
            seen[t, i] = places, bool(ways) and all(ways), uncalled and not places
    return seen, {c for calls in walk.calls.values() for c, _, _ in calls}


def main():
    program = assemble(open(sys.argv[1], "rb").read())
    for (t, i), (places, whole, uncalled) in jumps(program)[0].items():
        print(program.tasks[t][0], i, program.code[i][0], sorted(places), "whole" if whole else "not whole", "uncalled" if uncalled else "")


if __name__ == "__main__":
    main()
