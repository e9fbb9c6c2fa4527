"""Puts files together: one code, one read-only data, one data memory; what is missing comes from the run-time files."""

import re
from dataclasses import dataclass, field, replace
from typing import Callable, Iterator

from instructions import LINK, Expression, Instruction
from reader import read_unit
from refusal import Place, Refused, refuse
from units import DATA, READ_ONLY, ZEROS, Datum, Unit

MOST_INSTRUCTIONS = 4096
CODE_START, READ_ONLY_START, DATA_START, MEMORY = 0x00400000, 0x10000000, 0x10010000, 0x10000
START, STACK_TOP = "_start", "top_of_the_stack"
# Labels that GCC and clang make inside functions.
LOCAL = re.compile(r"\.L|\$(L|BB\d|JTI\d|CPI\d|tmp\d|\.)")
# The caller of a function has 16 bytes for its arguments above its own stack pointer.
START_TEXT = f"""
        .globl {START}
{START}:
        la $sp, {STACK_TOP}
        jal main
        halt
"""


@dataclass
class Program:
    """The whole program. Addresses are given by `lay_out`; code addresses follow from the order of the code."""

    code: list[Instruction] = field(default_factory=list)
    data: dict[str, list[Datum]] = field(default_factory=dict)
    named: dict[str, Place] = field(default_factory=dict)
    # Of data labels, after the layout.
    addresses: dict[str, int] = field(default_factory=dict)
    stack: int = 0
    # Labels of code that nothing reaches, which was left out.
    dropped: set[str] = field(default_factory=set)
    # What is defined nowhere. A return stands for each, and must not be reached.
    missing: dict[str, Place] = field(default_factory=dict)

    def copied(self) -> "Program":
        """A copy with its own code; data stay shared, since nothing changes them after the layout."""
        return replace(self, code=[it.copied() for it in self.code], dropped=set(self.dropped))

    def index_of(self) -> dict[str, int]:
        return {label: index for index, it in enumerate(self.code) for label in it.labels}

    def data_in_order(self) -> Iterator[Datum]:
        for part in (READ_ONLY, DATA, ZEROS):
            yield from self.data[part]


def link(units: list[Unit], run_time: Callable[[str], list[Unit]]) -> Program:
    """Refuses what is defined twice, or nowhere. `run_time` gives units for the missing names, if it has any."""
    units = [read_unit(START_TEXT, "", 9999), *units]
    while True:
        missing = missing_names(units)
        more = [it for it in (run_time(missing) if missing else []) if it.file not in {unit.file for unit in units}]
        if not more:
            break
        units += more
    drop_weak(units)
    refuse_doubles(units)
    program = Program(data={READ_ONLY: [], DATA: [], ZEROS: []}, missing=missing)
    for unit in units:
        program.code += unit.code
        for part, data in unit.data.items():
            program.data[part] += [Datum(alignment=8), *data] if data else []
        program.named |= {symbol: place for symbol, place in unit.named.items() if symbol not in program.named}
    program.data[ZEROS] += commons(units)
    program.code += [Instruction("jr", (LINK,), None, place, labels=[name]) for name, place in missing.items()]
    without_nops(program)
    return program


def refuse_missing(program: Program) -> None:
    """Refuses what is defined nowhere, if code that is reached names it."""
    left = {label for it in program.code for label in it.labels} & set(program.missing)
    reasons = [(program.missing[it], f"{it.split('@')[0]} is called or named, and defined nowhere{hint(it)}") for it in sorted(left)]
    if reasons:
        raise Refused(reasons[:20])


def defined_names(units: list[Unit]) -> set[str]:
    return {it for unit in units for it in unit.defined} | {it for unit in units for it in unit.common} | {STACK_TOP}


def missing_names(units: list[Unit]) -> dict[str, Place]:
    defined = defined_names(units)
    missing: dict[str, Place] = {}
    for unit in units:
        for symbol, place in unit.named.items():
            if symbol not in defined:
                missing.setdefault(symbol, place)
    return missing


def drop_weak(units: list[Unit]) -> None:
    """A weak definition gives way to another; those of the run-time files are weak."""
    strong = {it for unit in units for it in unit.defined - unit.weak} | {it for unit in units for it in unit.common}
    for unit in units:
        for name in unit.defined & unit.weak:
            if name not in strong:
                strong.add(name)
                continue
            unit.defined.discard(name)
            for holder in (*unit.code, *(datum for part in unit.data.values() for datum in part)):
                if name in holder.labels:
                    holder.labels.remove(name)


def refuse_doubles(units: list[Unit]) -> None:
    reasons: list[tuple[Place, str]] = []
    seen: dict[str, Unit] = {}
    for unit in units:
        for name in unit.defined:
            if name in seen:
                reasons.append((Place(unit.file), f"{name} is defined in {seen[name].file} too"))
            seen.setdefault(name, unit)
    if reasons:
        raise Refused(reasons[:20])


def hint(name: str) -> str:
    if name == "main":
        return ": a program begins there"
    if name in ("printf", "puts", "putchar", "malloc", "free", "calloc", "realloc", "scanf", "getchar"):
        return ": there is no C library; out(unsigned) writes a word"
    if name.startswith(("__sync_", "__atomic_")):
        return ": it is an atomic operation, which the machine lacks; one program runs, so a plain access does"
    return ""


def commons(units: list[Unit]) -> list[Datum]:
    """What is only reserved, once for all files, if no file defines it."""
    defined = {it for unit in units for it in unit.defined}
    sizes: dict[str, tuple[int, int]] = {}
    for unit in units:
        for name, (size, alignment) in unit.common.items():
            old = sizes.get(name, (0, 1))
            sizes[name] = max(size, old[0]), max(alignment, old[1])
    return [Datum([name], bytes(size), alignment=alignment) for name, (size, alignment) in sizes.items() if name not in defined]


def without_nops(program: Program) -> None:
    """Instructions that do nothing go, and their labels move on; one with a mark stays, and so does the last."""
    kept: list[Instruction] = []
    labels: list[str] = []
    for index, it in enumerate(program.code):
        is_nop = it.name == "sll" and it.registers[0] == 0
        if is_nop and not it.own_stop and not it.begins_task and index + 1 < len(program.code):
            labels += it.labels
            continue
        it.labels = labels + it.labels
        labels = []
        kept.append(it)
    program.code = kept


def table_of(program: Program, label: str, is_code: Callable[[str], bool]) -> list[str]:
    """The places of a table of code labels that a compiler put after a jump; empty if it is none."""
    places: list[str] = []
    begun = False
    for datum in program.data[READ_ONLY]:
        if label in datum.labels:
            begun = True
        elif begun and datum.labels:
            break
        if begun and datum.value:
            if datum.value.number or not is_local(datum.value.symbol) or not is_code(datum.value.symbol):
                return []
            places.append(datum.value.symbol)
        elif begun and datum.content:
            break
    return list(dict.fromkeys(places))


def is_local(label: str) -> bool:
    """Whether a compiler made this label inside a function."""
    return bool(LOCAL.match(label))


def lay_out(program: Program, least_stack: int) -> None:
    """Gives addresses. Data lie at the top of data memory and the stack below them, so that a stack too deep runs
    into read-only data and traps."""
    program.addresses.clear()
    end = placed(program, program.data[READ_ONLY], READ_ONLY_START)
    if end - READ_ONLY_START > MEMORY:
        raise refuse(Place(), f"read-only data take {end - READ_ONLY_START} bytes; there are {MEMORY}")
    memory = program.data[DATA] + [Datum(alignment=8)] + program.data[ZEROS]
    size = placed(program, memory, 0) + 7 & ~7
    if size + least_stack > MEMORY:
        raise refuse(Place(), f"data take {size} bytes and the stack at least {least_stack}; there are {MEMORY}")
    # So that nothing moves when the data move up.
    alignment = max([8, *(it.alignment for it in memory)])
    program.stack = (MEMORY - size) // alignment * alignment
    end = placed(program, memory, DATA_START + program.stack)
    if program.stack < least_stack or end > DATA_START + MEMORY:
        raise refuse(Place(), f"data take {size} bytes, aligned to {alignment}, and the stack at least {least_stack}; there are {MEMORY}")
    program.addresses[STACK_TOP] = DATA_START + program.stack - 16


def placed(program: Program, data: list[Datum], address: int) -> int:
    """Places data one after the other, labels after padding, and returns the address after the last."""
    waiting: list[str] = []
    for datum in data:
        address = -(-address // datum.alignment) * datum.alignment
        waiting += datum.labels
        # A label before an alignment belongs to what follows it.
        if datum.size:
            program.addresses |= dict.fromkeys(waiting, address)
            waiting = []
        address += datum.size
    program.addresses |= dict.fromkeys(waiting, address)
    return address


def value_of(program: Program, index_of: dict[str, int], value: Expression) -> int:
    """The number that an expression is, once all is laid out."""
    if not value.symbol:
        return value.half_of(value.number) if value.half else value.number
    if value.symbol in index_of:
        return value.half_of(CODE_START + 4 * index_of[value.symbol] + value.number)
    if value.symbol in program.dropped:
        return 0
    if value.symbol not in program.addresses:
        raise refuse(program.named.get(value.symbol, Place()), f"{value.symbol.split('@')[0]} has no address")
    return value.half_of(program.addresses[value.symbol] + value.number)


def image_of(program: Program, data: list[Datum], start: int, index_of: dict[str, int]) -> bytes:
    """The bytes of a part of memory, from its start."""
    made = bytearray()
    for datum in data:
        address = -(-(start + len(made)) // datum.alignment) * datum.alignment
        made += bytes(address - start - len(made))
        if datum.value:
            made += (value_of(program, index_of, datum.value) & 0xFFFFFFFF).to_bytes(4, "little")
        else:
            made += datum.content
    return bytes(made)
