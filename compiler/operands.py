"""The operands of an instruction of the GNU assembler, and faults of an instruction that has others."""

from dataclasses import dataclass
from typing import Callable

from instructions import Expression, Instruction
from refusal import Place, Refused, refuse


@dataclass(frozen=True)
class Register:
    number: int


@dataclass(frozen=True)
class Memory:
    """offset(base)"""

    offset: Expression
    base: int


Operand = Register | Memory | Expression
Expansion = list[Instruction]


def number_of(operand: Operand) -> int | None:
    """A plain number, or None."""
    return operand.number if isinstance(operand, Expression) and not operand.symbol and not operand.half else None


def signed(number: int) -> int:
    """A number modulo 2^32, as a signed one."""
    return (number + 0x80000000 & 0xFFFFFFFF) - 0x80000000


class Operands:
    """An instruction of one place with its operands; new labels have names from `fresh`."""

    def __init__(self, name: str, operands: list[Operand], place: Place, fresh: Callable[[], str], keeps_third: bool = False) -> None:
        self.name, self.operands, self.place, self.fresh = name, operands, place, fresh
        # Whether $28 stands for the $1 of a file that uses it by itself, and may hold something here.
        self.keeps_third = keeps_third

    def fault(self, why: str) -> Refused:
        return refuse(self.place, f"{self.name} {why}")

    def wrong(self) -> Refused:
        return self.fault("with these operands is not known")

    def register(self, index: int) -> int:
        if index < len(self.operands) and isinstance(self.operands[index], Register):
            return self.operands[index].number
        raise self.wrong()

    def expression(self, index: int) -> Expression:
        if index < len(self.operands) and isinstance(self.operands[index], Expression):
            return self.operands[index]
        raise self.wrong()

    def label(self, index: int) -> Expression:
        place = self.expression(index)
        if not place.symbol or place.number or place.half:
            raise self.fault("goes to a place that is not a label")
        return place

    def is_register(self, index: int) -> bool:
        return index < len(self.operands) and isinstance(self.operands[index], Register)

    def only(self, count: int) -> None:
        if len(self.operands) != count:
            raise self.wrong()
