"""Reads the operands of instructions and of directives: registers, addresses, sums of numbers and symbols."""

import re

from assembler_text import calculated, string_bytes
from instructions import ASSEMBLER, GLOBAL_POINTER, KEPT, REGISTER_NAMES, Expression
from operands import Memory, Operand, Register
from refusal import Place, refuse

NAME = r"[A-Za-z_.$][\w.$]*"
HALF = re.compile(r"%(hi|lo)\s*\((.*)\)$", re.S)
REGISTER = re.compile(r"\$(\d+|f\d+|f?cc\d|" + "|".join(REGISTER_NAMES) + ")$")
ADDRESS = re.compile(r"(.*)\(\s*(" + REGISTER.pattern[:-1] + r")\s*\)$", re.S)
# What code has that may lie at any address.
OF_ANY_ADDRESS = re.compile(r"%(call|got|gottprel|gp_rel|tls|dtprel|tprel|pcrel|neg)")
ANY_ADDRESS = "position-independent code needs tables that nothing here fills; compile without -fPIC, with -fno-pic -mno-abicalls"
TERM = re.compile(rf"\s*([-+]?)\s*(0[xX][0-9a-fA-F]+|\d+[fb](?![\w.$])|\d+|'(?:\\.|[^\\])'|{NAME})")


class OperandReader:
    """What operands mean at a place of a file."""

    def __init__(self, is_run_time: bool) -> None:
        self.is_run_time = is_run_time
        # Whether the file uses $1 by itself, as clang does; $28 stands for it then.
        self.owns_assembler = False
        self.constants: dict[str, Expression] = {}
        # How often each local label, a number, stood before this place.
        self.local_labels: dict[str, int] = {}

    @property
    def place(self) -> Place:
        raise NotImplementedError

    def register(self, text: str) -> int:
        word = text.strip().removeprefix("$")
        number = int(word) if word.isdigit() and len(word) < 3 else REGISTER_NAMES.get(word, 99)
        if re.fullmatch(r"f\d+|f?cc\d", word):
            raise refuse(self.place, "floating-point registers: the machine has none; use -msoft-float code")
        if number > 31 or not text.strip().startswith("$"):
            raise refuse(self.place, f"{text} is not a register")
        if number == ASSEMBLER and self.owns_assembler:
            return GLOBAL_POINTER
        if number in (ASSEMBLER, *KEPT) and not self.is_run_time:
            raise refuse(self.place, f"${number} is kept for expansions and run-time routines")
        return number

    def operand(self, text: str) -> Operand:
        address = ADDRESS.match(text)
        if address:
            offset = self.expression(address[1]) if address[1].strip() else Expression(0)
            return Memory(offset, self.register(address[2]))
        if REGISTER.match(text):
            return Register(self.register(text))
        return self.expression(text)

    def expression(self, text: str) -> Expression:
        text = text.strip()
        while re.fullmatch(r"\([^()]*\)", text):
            text = text[1:-1].strip()
        half = HALF.match(text)
        if OF_ANY_ADDRESS.match(text):
            raise refuse(self.place, ANY_ADDRESS)
        if half:
            inner = self.expression(half[2])
            if inner.half:
                raise refuse(self.place, f"{text}: a half of a half")
            return Expression(inner.number, inner.symbol, half[1])
        number = calculated(text)
        if number is not None:
            return Expression(number)
        return self.sum_of(text)

    def sum_of(self, text: str) -> Expression:
        total, symbol, at = 0, "", 0
        while at < len(text):
            term = TERM.match(text, at)
            if not term or at and not term[1]:
                raise refuse(self.place, f"{text} is not understood")
            value = self.term(term[2])
            if value.symbol and (symbol or term[1] == "-"):
                raise refuse(self.place, f"{text}: only one address and a number can be added")
            symbol = symbol or value.symbol
            total += -value.number if term[1] == "-" else value.number
            at = term.end() + len(text[term.end() :]) - len(text[term.end() :].lstrip())
        return Expression(total, symbol)

    def term(self, word: str) -> Expression:
        if word[0] == "'":
            return Expression(string_bytes(f'"{word[1:-1]}"', self.place)[0])
        if re.fullmatch(r"\d+[fb]", word):
            number = self.local_labels.get(word[:-1], 0) + (word[-1] == "f")
            return Expression(symbol=f".local.{word[:-1]}.{number}")
        if word[0].isdigit():
            number = calculated(word)
            if number is None:
                raise refuse(self.place, f"{word} is not a number")
            return Expression(number)
        return self.constants.get(word, Expression(symbol=word))
