"""Words at any address: what stands for lwl, lwr, swl, swr, and for pairs of these."""

from instructions import ASSEMBLER, FIRST_KEPT, GLOBAL_POINTER, SECOND_KEPT, STACK_POINTER, Expression, Instruction
from operands import Expansion, Memory


def with_third_kept(made: Expansion) -> Expansion:
    """Puts $28 below the stack while something else uses it."""
    stored = Instruction("sw", (GLOBAL_POINTER, STACK_POINTER), Expression(-4), note="$28 is the $1 of this file")
    return [stored, *made, Instruction("lw", (GLOBAL_POINTER, STACK_POINTER), Expression(-4))]


def part(name: str, register: int, before: Expansion, memory: Memory, keeps_third: bool) -> Expansion:
    """Little-endian: the bytes from the word's start up to the address become the register's upper ones."""
    is_left = name.endswith("l")
    wide = FIRST_KEPT
    made = [
        *before,
        Instruction("addiu", (wide, memory.base), memory.offset),
        Instruction("andi", (ASSEMBLER, wide), Expression(3)),
        Instruction("subu", (wide, wide, ASSEMBLER)),
    ]
    if is_left:
        made.append(Instruction("xori", (ASSEMBLER, ASSEMBLER), Expression(3)))
    made.append(Instruction("sll", (ASSEMBLER, ASSEMBLER), Expression(3)))
    if name.startswith("l"):
        return [*made, *part_loaded(register, is_left)]
    stored = [*made, *part_stored(register, is_left)]
    return with_third_kept(stored) if keeps_third else stored


def part_loaded(register: int, is_left: bool) -> Expansion:
    wide, narrow = FIRST_KEPT, SECOND_KEPT
    toward, mask = ("sllv", "sllv") if is_left else ("srlv", "srlv")
    return [
        Instruction("lw", (wide, wide), Expression(0)),
        Instruction("addiu", (narrow, 0), Expression(-1)),
        Instruction(mask, (narrow, narrow, ASSEMBLER)),
        Instruction(toward, (wide, wide, ASSEMBLER)),
        Instruction("nor", (narrow, narrow, 0)),
        Instruction("and", (register, register, narrow)),
        Instruction("or", (register, register, wide)),
    ]


def part_stored(register: int, is_left: bool) -> Expansion:
    # The address of the word stays in $26. Where $28 is to be stored, it lies below the stack.
    wide, narrow, third = FIRST_KEPT, SECOND_KEPT, GLOBAL_POINTER
    back = "srlv" if is_left else "sllv"
    again = [Instruction("lw", (narrow, STACK_POINTER), Expression(-4))] if register == third else []
    return [
        Instruction("addiu", (narrow, 0), Expression(-1)),
        Instruction(back, (narrow, narrow, ASSEMBLER)),
        Instruction("nor", (narrow, narrow, 0)),
        Instruction("lw", (third, wide), Expression(0)),
        Instruction("and", (third, third, narrow)),
        *again,
        Instruction(back, (narrow, narrow if again else register, ASSEMBLER)),
        Instruction("or", (third, third, narrow)),
        Instruction("sw", (third, wide), Expression(0)),
    ]


def unaligned_load(into: int, offset: Expression, base: int) -> Expansion:
    """A word at any address, byte for byte."""
    made = [Instruction("lbu", (ASSEMBLER, base), offset)]
    for byte in (1, 2, 3):
        made += [
            Instruction("lbu", (FIRST_KEPT, base), offset.plus(byte)),
            Instruction("sll", (FIRST_KEPT, FIRST_KEPT), Expression(8 * byte)),
            Instruction("or", (into if byte == 3 else ASSEMBLER, ASSEMBLER, FIRST_KEPT)),
        ]
    return made


def unaligned_store(of: int, offset: Expression, base: int) -> Expansion:
    made = [Instruction("sb", (of, base), offset)]
    for byte in (1, 2, 3):
        made += [Instruction("srl", (ASSEMBLER, of), Expression(8 * byte)), Instruction("sb", (ASSEMBLER, base), offset.plus(byte))]
    return made
