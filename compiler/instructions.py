"""The instructions of the machine that multiscalar runs: their forms, what each reads and writes."""

from dataclasses import dataclass, field

from refusal import Place

HI, LO = 32, 33
ASSEMBLER, FIRST_KEPT, SECOND_KEPT, GLOBAL_POINTER, STACK_POINTER, LINK = 1, 26, 27, 28, 29, 31
# GCC uses none of these: they serve expansions and the run-time routines.
KEPT = (FIRST_KEPT, SECOND_KEPT, GLOBAL_POINTER)

REGISTER_NAMES = {"zero": 0, "at": 1, "v0": 2, "v1": 3, "k0": 26, "k1": 27, "gp": 28, "sp": 29, "fp": 30, "s8": 30, "ra": 31}
REGISTER_NAMES |= {f"a{n}": 4 + n for n in range(4)} | {f"t{n}": 8 + n for n in range(8)} | {f"s{n}": 16 + n for n in range(8)}
REGISTER_NAMES |= {"t8": 24, "t9": 25}

# The forms: which registers an instruction names, in the order of the text.
FORM_OF = {}
for _form, _names in {
    "three": "addu subu and or xor nor slt sltu",
    "shift": "sll srl sra",
    "shift_by_register": "sllv srlv srav",
    "immediate": "addiu slti sltiu",
    "logic": "andi ori xori",
    "upper": "lui",
    "multiply": "mult multu",
    "move_from": "mfhi mflo",
    "move_to": "mthi mtlo",
    "load": "lw lh lhu lb lbu",
    "store": "sw sh sb",
    "branch_two": "beq bne",
    "branch_one": "blez bgtz bltz bgez",
    "jump": "j",
    "jump_link": "jal",
    "jump_register": "jr",
    "jump_link_register": "jalr",
    "out": "out",
    "release": "release",
    "halt": "halt",
}.items():
    FORM_OF |= dict.fromkeys(_names.split(), _form)

WRITES_FIRST = {"three", "shift", "shift_by_register", "immediate", "logic", "upper", "move_from", "load", "jump_link_register"}
BRANCHES = {"branch_two", "branch_one"}
MEMORY = {"load", "store", "out"}


@dataclass(frozen=True)
class Expression:
    """A number, or the address of a symbol plus a number, or one half of either.

    `half` is "" for all of it, "hi" and "lo" as %hi and %lo have them (lo is signed, and hi makes up for that), and
    "upper" and "lower" for the plain halves, which lui and ori put together.
    """

    number: int = 0
    symbol: str = ""
    half: str = ""

    def plus(self, number: int) -> "Expression":
        return Expression(self.number + number, self.symbol, self.half)

    def half_of(self, value: int) -> int:
        value &= 0xFFFFFFFF
        if self.half == "hi":
            return (value + 0x8000) >> 16 & 0xFFFF
        if self.half == "lo":
            return (value + 0x8000 & 0xFFFF) - 0x8000
        if self.half == "upper":
            return value >> 16
        if self.half == "lower":
            return value & 0xFFFF
        return value

    def __str__(self) -> str:
        inner = self.symbol + (f"{self.number:+d}" if self.number else "") if self.symbol else str(self.number)
        return f"%{self.half}({inner})" if self.half else inner


@dataclass
class Instruction:
    """One instruction of the machine. Places and immediates stay symbolic until the text is written."""

    name: str
    registers: tuple[int, ...] = ()
    value: Expression | None = None
    place: Place = Place()
    note: str = ""
    labels: list[str] = field(default_factory=list)
    # What the author of an assembler file marked.
    own_forward: bool = False
    own_stop: str = ""
    begins_task: bool = False
    # Of a jump to an address in a register: the label of the table of places that follows it, and where it may go.
    table: str = ""
    targets: list[str] = field(default_factory=list)
    # A jump through a register other than $31 that a person wrote: it may be a return.
    may_return: bool = False
    # A jump that calls a run-time routine: the label where that comes back to.
    comes_back: str = ""

    def __post_init__(self) -> None:
        self.form = FORM_OF[self.name]

    def copied(self) -> "Instruction":
        """A copy with its own labels."""
        made = object.__new__(Instruction)
        made.__dict__ = self.__dict__ | {"labels": list(self.labels), "targets": list(self.targets)}
        return made

    @property
    def writes(self) -> tuple[int, ...]:
        if self.form in WRITES_FIRST:
            return (self.registers[0],) if self.registers[0] else ()
        if self.form == "multiply":
            return (HI, LO)
        if self.form == "move_to":
            return (HI,) if self.name == "mthi" else (LO,)
        return (LINK,) if self.form == "jump_link" else ()

    @property
    def reads(self) -> tuple[int, ...]:
        if self.form == "move_from":
            return (HI,) if self.name == "mfhi" else (LO,)
        if self.form in WRITES_FIRST:
            return self.registers[1:]
        return self.registers

    @property
    def is_branch(self) -> bool:
        return self.form in BRANCHES

    @property
    def destination(self) -> str:
        """The label that a branch or jump names."""
        return self.value.symbol if self.value and self.form in BRANCHES | {"jump", "jump_link"} else ""

    @property
    def goes_on(self) -> bool:
        """Whether the next instruction of the text may follow this one inside its function."""
        return self.form not in ("jump", "jump_register", "halt")
