"""What an instruction of the GNU assembler becomes: one instruction of the machine, or several.

The registers $1 (the assembler's own), $26 and $27 (kept from compilers) hold what lies between.
"""

from any_address import part, unaligned_load, unaligned_store, with_third_kept
from instructions import ASSEMBLER, FIRST_KEPT, FORM_OF, GLOBAL_POINTER, LINK, SECOND_KEPT, Expression, Instruction
from operands import Expansion, Memory, Operands, number_of, signed

WITH_REGISTER = {"addiu": "addu", "andi": "and", "ori": "or", "xori": "xor", "slti": "slt", "sltiu": "sltu"}
WITH_NUMBER = {register: number for number, register in WITH_REGISTER.items()} | {number: number for number in WITH_REGISTER}
LOGIC = {"andi", "ori", "xori"}
BY_REGISTER = {"sll": "sllv", "srl": "srlv", "sra": "srav"}
# Branches that compare two registers: the comparison, whether its operands change places, the branch on its result.
COMPARED = {"blt": ("slt", False, "bne"), "bge": ("slt", False, "beq"), "bgt": ("slt", True, "bne"), "ble": ("slt", True, "beq")}
COMPARED |= {f"{name}u": ("sltu", swapped, branch) for name, (_, swapped, branch) in COMPARED.items()}
AGAINST_ZERO = {"blt": "bltz", "bge": "bgez", "bgt": "bgtz", "ble": "blez"}
NOT_MIPS_I = "is not an instruction of MIPS I that the machine has"
REASONS = {
    "add": "traps on overflow, which the machine does not; addu does not trap",
    "addi": "traps on overflow, which the machine does not; addiu does not trap",
    "sub": "traps on overflow, which the machine does not; subu does not trap",
    "syscall": "asks an operating system, and there is none; write a word with out",
    "bltzal": "is a call on a condition, which the machine lacks",
    "bgezal": "is a call on a condition, which the machine lacks",
    "sync": "orders memory between processors, as in an atomic operation or a fence; one program runs, so plain accesses do",
}
REASONS |= dict.fromkeys(("ll", "sc"), "is part of an atomic operation, which the machine lacks; one program runs, so a plain access does")


def upper_and_lower(register: int, of: Expression) -> Expansion:
    return [
        Instruction("lui", (register,), Expression(of.number, of.symbol, "upper")),
        Instruction("ori", (register, register), Expression(of.number, of.symbol, "lower")),
    ]


def load_number(register: int, number: int) -> Expansion:
    number = signed(number)
    if -32768 <= number <= 32767:
        return [Instruction("addiu", (register, 0), Expression(number))]
    if number <= 65535 and number >= 0:
        return [Instruction("ori", (register, 0), Expression(number))]
    if number & 0xFFFF == 0:
        return [Instruction("lui", (register,), Expression(number >> 16 & 0xFFFF))]
    return upper_and_lower(register, Expression(number))


def trap() -> Expansion:
    """A word from an odd address: trap 1 Unaligned. The halt after it is never reached, and says that nothing goes on."""
    return [Instruction("lw", (0, 0), Expression(1)), Instruction("halt")]


class Expander(Operands):
    """Expands one instruction."""

    def expand(self) -> Expansion:
        if self.name in REASONS:
            raise self.fault(REASONS[self.name])
        base = self.name[:-1] if self.name.endswith("u") and self.name[:-1] in ("div", "rem", "mult", "mulo") else self.name
        method = getattr(self, f"of_{self.name}", None) or getattr(self, f"of_{base}", None)
        if method:
            return method()
        if self.name in COMPARED:
            return self.compared_branch()
        form = FORM_OF.get(self.name)
        by_form = {
            "three": self.computation, "immediate": self.computation, "logic": self.computation, "shift": self.shift,
            "shift_by_register": self.shift, "load": self.access, "store": self.access, "branch_two": self.branch,
            "branch_one": self.branch_one, "move_from": self.registers_alone, "move_to": self.registers_alone,
            "multiply": self.registers_alone, "out": self.registers_alone, "halt": self.registers_alone,
        }
        if form in by_form:
            return by_form[form]()
        raise self.fault(NOT_MIPS_I)

    # Instructions of the machine

    def registers_alone(self) -> Expansion:
        count = {"multiply": 2, "halt": 0}.get(FORM_OF[self.name], 1)
        self.only(count)
        return [Instruction(self.name, tuple(self.register(n) for n in range(count)))]

    def computation(self) -> Expansion:
        if len(self.operands) == 2:
            self.operands = [self.operands[0], *self.operands]
        self.only(3)
        into, left = self.register(0), self.register(1)
        if self.is_register(2):
            return [Instruction(WITH_REGISTER.get(self.name, self.name), (into, left, self.register(2)))]
        value, name = self.expression(2), WITH_NUMBER.get(self.name)
        number = number_of(value)
        if self.name == "subu" and number is not None:
            name, value, number = "addiu", Expression(-signed(number)), -signed(number)
        if value.half and name:
            if value.half == "lo" and name in LOGIC:
                value = Expression(value.number, value.symbol, "lower")
            elif value.half != "lo":
                raise self.fault("takes %lo, and no other half")
            return [Instruction(name, (into, left), value)]
        if number is None:
            raise self.wrong()
        number = signed(number)
        if name and (0 <= number <= 65535 if name in LOGIC else -32768 <= number <= 32767):
            return [Instruction(name, (into, left), Expression(number))]
        with_register = {"addiu": "addu", **WITH_REGISTER}.get(self.name, self.name)
        if self.name == "subu":
            number = -number
        return [*load_number(ASSEMBLER, number), Instruction(with_register, (into, left, ASSEMBLER))]

    def shift(self) -> Expansion:
        if len(self.operands) == 2:
            self.operands = [self.operands[0], *self.operands]
        self.only(3)
        into, left = self.register(0), self.register(1)
        if self.is_register(2):
            return [Instruction(BY_REGISTER.get(self.name, self.name), (into, left, self.register(2)))]
        number = number_of(self.expression(2))
        if number is None or not 0 <= number <= 31 or self.name not in BY_REGISTER:
            raise self.wrong()
        return [Instruction(self.name, (into, left), Expression(number))]

    def address(self, index: int) -> tuple[Expansion, Memory]:
        """What has to be done before an access, and the access's own offset and base."""
        operand = self.operands[index] if index < len(self.operands) else None
        if isinstance(operand, Expression):
            operand = Memory(operand, 0)
        if not isinstance(operand, Memory):
            raise self.wrong()
        offset = operand.offset
        number = number_of(offset)
        if offset.half == "lo" or number is not None and -32768 <= signed(number) <= 32767:
            return [], Memory(offset if number is None else Expression(signed(number)), operand.base)
        if offset.half:
            raise self.wrong()
        before = [Instruction("lui", (ASSEMBLER,), Expression(offset.number, offset.symbol, "hi"))]
        if operand.base:
            before.append(Instruction("addu", (ASSEMBLER, ASSEMBLER, operand.base)))
        return before, Memory(Expression(offset.number, offset.symbol, "lo"), ASSEMBLER)

    def access(self) -> Expansion:
        self.only(2)
        before, memory = self.address(1)
        return [*before, Instruction(self.name, (self.register(0), memory.base), memory.offset)]

    def branch(self) -> Expansion:
        self.only(3)
        if self.is_register(1):
            return [Instruction(self.name, (self.register(0), self.register(1)), self.label(2))]
        number = number_of(self.expression(1))
        if number is None:
            raise self.wrong()
        if number == 0:
            return [Instruction(self.name, (self.register(0), 0), self.label(2))]
        return [*load_number(ASSEMBLER, number), Instruction(self.name, (self.register(0), ASSEMBLER), self.label(2))]

    def branch_one(self) -> Expansion:
        self.only(2)
        return [Instruction(self.name, (self.register(0),), self.label(1))]

    def compared_branch(self) -> Expansion:
        self.only(3)
        comparison, swapped, branch = COMPARED[self.name]
        left, target = self.register(0), self.label(2)
        if not self.is_register(1):
            number = number_of(self.expression(1))
            if number is None:
                raise self.wrong()
            if number == 0 and self.name in AGAINST_ZERO:
                return [Instruction(AGAINST_ZERO[self.name], (left,), target)]
            before, right = load_number(ASSEMBLER, number), ASSEMBLER
        else:
            before, right = [], self.register(1)
        pair = (right, left) if swapped else (left, right)
        return [*before, Instruction(comparison, (ASSEMBLER, *pair)), Instruction(branch, (ASSEMBLER, 0), target)]

    # Jumps

    def of_b(self) -> Expansion:
        self.only(1)
        return [Instruction("j", (), self.label(0))]

    def of_j(self) -> Expansion:
        return self.of_jr() if self.is_register(0) else self.of_b()

    def of_jr(self) -> Expansion:
        self.only(1)
        return [Instruction("jr", (self.register(0),))]

    def of_jal(self) -> Expansion:
        if self.is_register(0):
            return self.of_jalr()
        self.only(1)
        return [Instruction("jal", (), self.label(0))]

    of_bal = of_jal

    def of_jalr(self) -> Expansion:
        if len(self.operands) == 1:
            return [Instruction("jalr", (LINK, self.register(0)))]
        self.only(2)
        if self.register(0) != LINK:
            raise self.fault("keeps the place to return to in a register other than $31")
        return [Instruction("jalr", (self.register(0), self.register(1)))]

    def of_beqz(self) -> Expansion:
        self.only(2)
        return [Instruction({"beqz": "beq", "bnez": "bne"}[self.name], (self.register(0), 0), self.label(1))]

    of_bnez = of_beqz

    def of_break(self) -> Expansion:
        return trap()

    def of_teq(self) -> Expansion:
        return self.trap_if("bne")

    def of_tne(self) -> Expansion:
        return self.trap_if("beq")

    def trap_if(self, unless: str) -> Expansion:
        after = self.fresh()
        tested = Instruction(unless, (self.register(0), self.register(1)), Expression(symbol=after))
        return [tested, *trap(), Instruction("sll", (0, 0), Expression(0), labels=[after])]

    # Numbers, addresses, moves

    def of_nop(self) -> Expansion:
        return []

    def of_move(self) -> Expansion:
        self.only(2)
        return [Instruction("addu", (self.register(0), self.register(1), 0))]

    def of_li(self) -> Expansion:
        self.only(2)
        number = number_of(self.expression(1))
        return self.of_la() if number is None else load_number(self.register(0), number)

    def of_la(self) -> Expansion:
        self.only(2)
        operand = self.operands[1]
        offset, base = (operand.offset, operand.base) if isinstance(operand, Memory) else (self.expression(1), 0)
        if offset.half:
            raise self.wrong()
        into = self.register(0)
        number = number_of(offset)
        through = ASSEMBLER if base else into
        loaded = load_number(through, number) if number is not None else upper_and_lower(through, offset)
        return [*loaded, Instruction("addu", (into, base, through))] if base else loaded

    def of_lui(self) -> Expansion:
        self.only(2)
        value = self.expression(1)
        number = number_of(value)
        if value.half == "hi" or number is not None and 0 <= number <= 65535:
            return [Instruction("lui", (self.register(0),), value)]
        raise self.wrong()

    def of_neg(self) -> Expansion:
        into, of = self.register(0), self.register(len(self.operands) - 1)
        return [Instruction("subu", (into, 0, of))]

    of_negu = of_neg

    def of_not(self) -> Expansion:
        into, of = self.register(0), self.register(len(self.operands) - 1)
        return [Instruction("nor", (into, of, 0))]

    def of_abs(self) -> Expansion:
        into, of = self.register(0), self.register(len(self.operands) - 1)
        return [
            Instruction("sra", (ASSEMBLER, of), Expression(31)),
            Instruction("xor", (into, of, ASSEMBLER)),
            Instruction("subu", (into, into, ASSEMBLER)),
        ]

    def right_of_comparison(self) -> tuple[Expansion, int]:
        if self.is_register(2):
            return [], self.register(2)
        number = number_of(self.expression(2))
        if number is None:
            raise self.wrong()
        return (load_number(ASSEMBLER, number), ASSEMBLER) if number else ([], 0)

    def of_seq(self) -> Expansion:
        self.only(3)
        before, right = self.right_of_comparison()
        into = self.register(0)
        different = Instruction("xor", (into, self.register(1), right))
        if self.name == "seq":
            return [*before, different, Instruction("sltiu", (into, into), Expression(1))]
        return [*before, different, Instruction("sltu", (into, 0, into))]

    of_sne = of_seq

    def of_sgt(self) -> Expansion:
        self.only(3)
        before, right = self.right_of_comparison()
        comparison = "sltu" if self.name.endswith("u") else "slt"
        into, left = self.register(0), self.register(1)
        pair = (right, left) if self.name.startswith(("sgt", "sle")) else (left, right)
        made = [*before, Instruction(comparison, (into, *pair))]
        return made if self.name.startswith("sgt") else [*made, Instruction("xori", (into, into), Expression(1))]

    of_sgtu = of_sle = of_sleu = of_sge = of_sgeu = of_sgt

    def of_rol(self) -> Expansion:
        self.only(3)
        into, of = self.register(0), self.register(1)
        left, right = ("sll", "srl") if self.name == "rol" else ("srl", "sll")
        if self.is_register(2):
            by = self.register(2)
            turned = Instruction("subu", (ASSEMBLER, 0, by))
            parts = [Instruction(right + "v", (ASSEMBLER, of, ASSEMBLER)), Instruction(left + "v", (into, of, by))]
        else:
            number = (number_of(self.expression(2)) or 0) & 31
            turned = Instruction(right, (ASSEMBLER, of), Expression(-number & 31))
            if not number:
                return [Instruction("addu", (into, of, 0))]
            parts = [Instruction(left, (into, of), Expression(number))]
        return [turned, *parts, Instruction("or", (into, into, ASSEMBLER))]

    of_ror = of_rol

    # Multiplication and division

    def of_mul(self) -> Expansion:
        self.only(3)
        if self.is_register(2):
            before, right = [], self.register(2)
        else:
            before, right = self.right_of_comparison()
        return [*before, Instruction("mult", (self.register(1), right)), Instruction("mflo", (self.register(0),))]

    def of_div(self) -> Expansion:
        """A call of a run-time routine: operands in $26 and $27, the place to return to in $1, results in HI and LO."""
        routine = "__multiscalar_divu" if self.name.endswith("u") else "__multiscalar_div"
        if len(self.operands) == 2:
            into, left, right, before = 0, self.register(0), 1, []
        else:
            self.only(3)
            into, left, right = self.register(0), self.register(1), 2
        before, divisor = ([], self.register(right)) if self.is_register(right) else self.right_of_comparison()
        after = self.fresh()
        moved = [Instruction("addu", (FIRST_KEPT, left, 0)), Instruction("addu", (SECOND_KEPT, divisor, 0))]
        call = Instruction("j", (), Expression(symbol=routine), comes_back=after)
        result = "mfhi" if self.name.startswith("rem") else "mflo"
        back = [Instruction(result, (into,))] if into else []
        back = back or [Instruction("sll", (0, 0), Expression(0), note="the division returns here")]
        back[0].labels.append(after)
        made = [*before, *moved, *upper_and_lower(ASSEMBLER, Expression(symbol=after)), call, *back]
        return with_third_kept(made) if self.keeps_third and into != GLOBAL_POINTER else made

    of_rem = of_div

    # Words and halves at any address

    def of_lwl(self) -> Expansion:
        self.only(2)
        register = self.register(0)
        return part(self.name, register, *self.address(1), self.keeps_third)

    of_lwr = of_swl = of_swr = of_lwl

    def of_ulw(self) -> Expansion:
        self.only(2)
        before, memory = self.address(1)
        number = number_of(memory.offset)
        if before or number is None or number > 32764 or self.register(0) == memory.base:
            raise self.wrong()
        return (unaligned_load if self.name == "ulw" else unaligned_store)(self.register(0), memory.offset, memory.base)

    of_usw = of_ulw
