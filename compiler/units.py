"""What one file gives to a program: its code, its data, what it defines and what it names."""

from dataclasses import dataclass, field

from instructions import Expression, Instruction
from refusal import Place

# Sections for debuggers and linkers.
UNUSED = (".debug", ".mdebug", ".note", ".gnu", ".comment", ".pdr", ".reginfo", ".MIPS", ".eh_frame", ".stab", ".line")
READ_ONLY, DATA, ZEROS, CODE, OTHER = "rodata", "data", "bss", "text", "other"


@dataclass
class Datum:
    """A stretch of data: bytes, or an expression of some bytes, with the labels and the alignment before it."""

    labels: list[str] = field(default_factory=list)
    content: bytes = b""
    value: Expression | None = None
    alignment: int = 1
    place: Place = Place()

    @property
    def size(self) -> int:
        return 4 if self.value else len(self.content)


@dataclass
class Unit:
    """One file: its code, its data by section, what it defines for others, what it only reserves."""

    file: str
    code: list[Instruction] = field(default_factory=list)
    data: dict[str, list[Datum]] = field(default_factory=lambda: {READ_ONLY: [], DATA: [], ZEROS: []})
    defined: set[str] = field(default_factory=set)
    globals: set[str] = field(default_factory=set)
    weak: set[str] = field(default_factory=set)
    # Of .comm: size and alignment.
    common: dict[str, tuple[int, int]] = field(default_factory=dict)
    # The first place that names a symbol.
    named: dict[str, Place] = field(default_factory=dict)


def section_of(name: str, flags: str) -> str | None:
    """Which part of memory a section belongs to, by its name or by its flags; None where neither says."""
    for prefixes, part in (
        ((".text",), CODE),
        ((".data.rel.ro", ".rodata", ".rdata", ".lit"), READ_ONLY),
        ((".data", ".sdata", ".tm_clone"), DATA),
        ((".bss", ".sbss"), ZEROS),
    ):
        if name.startswith(prefixes):
            return part
    if name.startswith(UNUSED):
        return OTHER
    for letter, part in (("x", CODE), ("w", DATA), ("a", READ_ONLY)):
        if letter in flags:
            return part
    return OTHER if flags.strip('"') == "" and '"' in flags else None


def renamed(unit: Unit, names: dict[str, str]) -> Unit:
    """The unit with other names of its own."""

    def of_value(value: Expression | None) -> Expression | None:
        return Expression(value.number, names.get(value.symbol, value.symbol), value.half) if value and value.symbol else value

    for it in unit.code:
        it.labels = [names.get(label, label) for label in it.labels]
        it.value = of_value(it.value)
        it.table = names.get(it.table, it.table)
        it.comes_back = names.get(it.comes_back, it.comes_back)
    for part in unit.data.values():
        for datum in part:
            datum.labels = [names.get(label, label) for label in datum.labels]
            datum.value = of_value(datum.value)
    unit.defined = {names.get(it, it) for it in unit.defined}
    unit.named = {names.get(symbol, symbol): place for symbol, place in unit.named.items()}
    return unit
