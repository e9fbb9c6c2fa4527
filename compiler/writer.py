"""Writes program text: numbers and the machine's own words, with the lines of C as comments."""

import functools
import re
from collections import Counter
from pathlib import Path

from instructions import HI, LO, Instruction
from linking import DATA, DATA_START, READ_ONLY, READ_ONLY_START, START, ZEROS, Program, image_of, is_local, value_of
from refusal import Place
from tasks import Cut, order_targets

LONGEST_NAME, LONGEST_COMMENT = 32, 100
BYTES_IN_LINE = 32
COMMENT_COLUMN = 39


def plain(text: str) -> str:
    """Only the bytes that program text may have."""
    return re.sub(r"[^\x20-\x7e]", "?", text.replace("\t", "    "))


def register_text(register: int) -> str:
    return {HI: "$hi", LO: "$lo"}.get(register, f"${register}")


class Names:
    """Names of places in the code: those of the source, made unique, with at most 32 bytes."""

    def __init__(self, made: Cut) -> None:
        self.made = made
        self.taken: set[str] = set()
        self.of_index: dict[int, str] = {}
        self.owner = owners(made)
        needed = {task.entry for task in made.tasks} | self.referenced()
        for index in sorted(needed):
            self.of_index[index] = self.unique(self.wish(index))

    def referenced(self) -> set[int]:
        flow = self.made.flow
        functions = set(flow.functions)
        return functions | {flow.at(it.destination) for it in flow.code if it.destination}

    def wish(self, index: int) -> str:
        labels = self.made.flow.code[index].labels
        given = [it for it in labels if not is_local(it) and not it.startswith(".")]
        if given:
            return given[0].split("@")[0]
        compiler = [it for it in labels if is_local(it)]
        if compiler:
            return compiler[0].split("@")[0].lstrip("$.")
        return f"{self.owner.get(index, 'code')}_{self.kind(index, labels)}"

    def kind(self, index: int, labels: list[str]) -> str:
        if any(it.startswith(".choose") for it in labels):
            return "choose"
        before = self.made.flow.code[index - 1] if index else None
        if before and before.form == "jump_link" and before.destination:
            return "after_" + before.destination.split("@")[0].lstrip(".")
        if any(it.startswith(".after") for it in labels):
            return "after_division"
        return "part"

    def unique(self, wish: str) -> str:
        name = re.sub(r"[^A-Za-z0-9_]", "_", wish)
        name = name if re.match(r"[A-Za-z_]", name) else f"_{name}"
        name = name[:LONGEST_NAME]
        number = 1
        while name in self.taken:
            number += 1
            end = f"_{number}"
            name = re.sub(r"[^A-Za-z0-9_]", "_", wish)[: LONGEST_NAME - len(end) - 1] + end
            name = name if re.match(r"[A-Za-z_]", name) else f"_{name}"
        self.taken.add(name)
        return name


def owners(made: Cut) -> dict[int, str]:
    """The name of a function that an instruction belongs to."""
    found: dict[int, str] = {}
    for entry, function in made.flow.functions.items():
        given = [it for it in made.flow.code[entry].labels if not it.startswith(".")]
        name = given[0].split("@")[0] if given else "code"
        for index in function.members:
            found.setdefault(index, name)
    return found


@functools.cache
def name_of(file: str) -> str:
    return plain(Path(file).name)


class Writer:
    """Writes a cut. A text that is only measured needs no comments."""

    def __init__(self, program: Program, made: Cut, head: list[str], is_bare: bool = False) -> None:
        self.program, self.made, self.head, self.is_bare = program, made, head, is_bare
        self.index_of = program.index_of()
        self.names = Names(made)
        self.sources: dict[str, list[str]] = {}
        # Lines of the text with a forward bit of the author's own.
        self.own_forwards: dict[int, Place] = {}
        # How often each task followed each, by where they begin.
        self.followed: Counter = Counter()

    def text(self) -> str:
        self.own_forwards.clear()
        lines = [f"# {plain(it)}" for it in self.head]
        lines += ["", f".start {self.names.of_index[self.index_of[START]]}"]
        lines += self.descriptors()
        lines += ["", ".text"]
        lines += self.code(len(lines))
        lines += self.data()
        return "\n".join(lines) + "\n"

    def descriptors(self) -> list[str]:
        names = self.names.of_index
        ordered = order_targets(self.made, lambda entry, place: self.followed[entry, place])
        targets = {names[task.entry]: ",".join(names[it] for it in ordered[task.entry]) for task in self.made.tasks}
        return [f".task {name} create=- targets={places or '-'}" for name, places in targets.items()]

    # Code

    def code(self, above: int) -> list[str]:
        lines: list[str] = []
        place = Place()
        for index, it in enumerate(self.made.flow.code):
            if it.place.line and it.place != place and not self.is_bare:
                lines += self.source_line(it.place)
            place = it.place
            if index in self.names.of_index:
                lines.append(f"{self.names.of_index[index]}:")
            lines.append(self.line(index, it))
            if it.own_forward:
                self.own_forwards[above + len(lines)] = it.place
        return lines

    def source_line(self, place: Place) -> list[str]:
        if place.file not in self.sources:
            try:
                self.sources[place.file] = Path(place.file).read_text(errors="replace").split("\n")
            except OSError:
                self.sources[place.file] = []
        source = self.sources[place.file]
        if not 0 < place.line <= len(source):
            return []
        return [f"# {name_of(place.file)}:{place.line}: {plain(source[place.line - 1])[:LONGEST_COMMENT]}".rstrip()]

    def line(self, index: int, it: Instruction) -> str:
        marks = " ".join(filter(None, ("!f" if it.own_forward else "", self.made.stop_of(index))))
        words = f"        {self.instruction(it)}{'  ' + marks if marks else ''}"
        if self.is_bare:
            return words
        said = [plain(it.note)] if it.note else []
        said += [f"at {name_of(it.place.file)}:{it.place.line}"] if it.place.line else []
        return f"{words:<{COMMENT_COLUMN}} # {' # '.join(said)}" if said else words

    def number(self, it: Instruction) -> int:
        return value_of(self.program, self.index_of, it.value)

    def instruction(self, it: Instruction) -> str:
        registers = [register_text(register) for register in it.registers]
        form = it.form
        if it.name == "addu" and it.registers[2] == 0:
            return f"move  {registers[0]},{registers[1]}"
        if it.name == "addiu" and it.registers[1] == 0:
            return f"li    {registers[0]},{self.number(it)}"
        if it.name == "sll" and it.registers[0] == 0:
            return "nop"
        if it.destination:
            operands = [*registers, self.names.of_index[self.index_of[it.destination]]]
        elif form in ("load", "store"):
            operands = [registers[0], f"{self.number(it)}({registers[1]})"]
        elif it.value is not None:
            operands = [*registers, str(self.number(it))]
        else:
            operands = registers
        return f"{it.name:<5} {','.join(operands)}".rstrip()

    # Data

    def data(self) -> list[str]:
        program = self.program
        start = DATA_START + program.stack
        image = image_of(program, program.data[DATA], start, self.index_of)
        lines: list[str] = ["", f"# The stack: {program.stack} bytes up to {start:#010x}; data lie above it."]
        lines += self.labels(program.data[DATA] + program.data[ZEROS])
        if image.strip(b"\0"):
            lines += [".data", f".space {program.stack}", *bytes_text(image.rstrip(b"\0"))]
        constants = image_of(program, program.data[READ_ONLY], READ_ONLY_START, self.index_of)
        if constants.strip(b"\0"):
            lines += ["", *self.labels(program.data[READ_ONLY]), ".rodata", *bytes_text(constants.rstrip(b"\0"))]
        return lines

    def labels(self, data: list) -> list[str]:
        names = [name for datum in data for name in datum.labels]
        return [f"# {self.program.addresses[it]:#010x} {plain(it.split('@')[0])}" for it in names]


def aligned(text: str) -> str:
    """Moves comments back to their column, after forward bits were put before them."""
    return re.sub(r"^(        .*?) +# ", lambda it: f"{it[1]:<{COMMENT_COLUMN}} # ", text, flags=re.M)


def bytes_text(image: bytes) -> list[str]:
    """Words, eight in a line, and the bytes that are left; long runs of zeros become .space."""
    lines: list[str] = []
    at = 0
    while at < len(image):
        zeros = len(image[at:]) - len(image[at:].lstrip(b"\0"))
        if zeros >= 64:
            zeros &= ~3
            lines.append(f".space {zeros}")
            at += zeros
            continue
        part = image[at : at + BYTES_IN_LINE]
        words = [f"0x{int.from_bytes(part[n : n + 4], 'little'):x}" for n in range(0, len(part) & ~3, 4)]
        rest = [str(it) for it in part[len(part) & ~3 :]]
        lines += [f".word {','.join(words)}"] if words else []
        lines += [f".byte {','.join(rest)}"] if rest else []
        at += BYTES_IN_LINE
    return lines
