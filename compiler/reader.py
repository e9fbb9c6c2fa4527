"""Reads assembler text as GCC writes it for MIPS, and as people write it for the GNU assembler."""

import os
import re
from pathlib import Path

from any_address import unaligned_load, unaligned_store
from assembler_text import parted, without_comment
from data_directives import DataReader
from delay_slots import JUMPS, taken_apart
from expansions import Expander
from expressions import ANY_ADDRESS, NAME
from instructions import Expression, Instruction
from operands import Memory, Operand
from refusal import Place, Refused, refuse
from units import CODE, OTHER, READ_ONLY, Datum, Unit, renamed, section_of

LABEL = re.compile(rf"\s*({NAME}|\d+)\s*:(?!:)")
ASSIGNED = re.compile(rf"\s*({NAME})\s*=(?!=)\s*(.+)$")
# A table of places as clang names it, and labels that only a debugger needs.
CLANG_TABLE = re.compile(r"\$JTI\d")
ONLY_FOR_DEBUGGERS = re.compile(r"\$L(text|etext|FB|FE|BB|BE|BI|SI|VL|M|VU)\d+$|\$LC?F[BE]|\$(tmp|func_begin|func_end)\d+$")
# Clang says so where the address of a label is more than a debugger's.
TAKEN = re.compile(r"^(\$tmp\d+):.*# Block address taken", re.M)

# Directives that say nothing about what the program does.
IGNORED = """.ent .end .frame .mask .fmask .type .size .ident .gnu_attribute .module .nan .insn .hidden .protected
.internal .abicalls .option .loc_mark_labels .psize .addrsig .addrsig_sym""".split()


class Reader(DataReader):
    """Reads one file, line by line."""

    def __init__(self, file: str, number: int, is_run_time: bool) -> None:
        super().__init__(file, is_run_time)
        self.number = number
        self.line = 0
        self.name, self.previous, self.pushed = ".text", ".text", []
        # The part of memory of each section that was named.
        self.parts: dict[str, str] = {}
        self.files: dict[str, str] = {}
        self.source: Place | None = None
        # A line of the preprocessor: its number, its file, and where it stands.
        self.marked: tuple[int, str, int] | None = None
        self.no_reorder = False
        self.orders: list[bool] = []
        self.taken: list[str] = []
        # The register into which clang loaded a place, and the table where that stands.
        self.loaded: tuple[int, str] | None = None
        self.count = 0
        self.after_own_task = False
        self.faults: list[tuple[Place, str]] = []
        # By section of code, per raw instruction: its expansion, and whether its delay slot follows.
        self.raws: dict[str, list[tuple[list[Instruction], bool]]] = {}
        # By section of code, the labels that stand before its next instruction.
        self.labels: dict[str, list[str]] = {}
        self.table: Instruction | None = None
        # The half of a word that was accessed last: its instruction, register, lowest byte, place among the raw ones, labels.
        self.half: tuple[str, int, Memory, int, list[str]] | None = None

    @property
    def place(self) -> Place:
        return self.source or Place(self.unit.file, self.line if self.unit.file else 0)

    @property
    def raw(self) -> list[tuple[list[Instruction], bool]]:
        return self.raws.setdefault(self.name, [])

    def read(self, text: str) -> Unit:
        text = re.sub(r"/\*.*?\*/", lambda it: "\n" * it[0].count("\n") + " ", text, flags=re.S)
        self.taken = TAKEN.findall(text)
        self.owns_assembler = not self.is_run_time and bool(re.search(r"\.set\s+noat\b", text) and re.search(r"\$(1|at)\b", text))
        for self.line, line in enumerate(text.split("\n"), 1):
            try:
                self.read_line(line)
            except Refused as refused:
                self.faults += refused.reasons
        for name, raw in self.raws.items():
            try:
                self.unit.code += taken_apart(raw)
            except Refused as refused:
                self.faults += refused.reasons
            if self.labels.get(name):
                self.unit.code.append(Instruction("sll", (0, 0), Expression(0), self.place, labels=self.labels[name]))
        if self.faults:
            raise Refused(list(dict.fromkeys(self.faults))[:20])
        return self.unit

    def fresh(self) -> str:
        self.count += 1
        return f".after.{self.number}.{self.count}"

    def read_line(self, line: str) -> None:
        marker = re.match(r'#\s+(\d+)\s+"([^"]*)"', line)
        if marker:
            self.source, self.marked = None, (int(marker[1]), marker[2], self.line)
            return
        statements, comment = without_comment(line)
        if self.marked:
            first, file, at = self.marked
            self.source = Place(file, first + self.line - at - 1)
        marks = self.marks_of(comment)
        count = len(self.raw)
        for statement in parted(statements, ";"):
            self.read_statement(statement)
        self.keep_marks(marks, count)

    # Marks of the author's own

    def marks_of(self, comment: str) -> list[str]:
        comment = comment.strip()
        if not comment.startswith("!"):
            return []
        release = re.fullmatch(r"!release\s+(.*)", comment)
        if release:
            registers = tuple(self.register(it) for it in parted(release[1], ","))
            self.add([Instruction("release", registers)])
            return []
        marks = comment.split()
        wrong = [it for it in marks if it not in ("!f", "!s", "!st", "!sn", "!task")]
        if wrong:
            raise refuse(self.place, f"{wrong[0]} is no mark: !f, !s, !st, !sn, !task and !release are")
        return marks

    def keep_marks(self, marks: list[str], count: int) -> None:
        if not marks:
            return
        if "!task" in marks:
            self.after_own_task = len(self.raw) == count
            if not self.after_own_task and self.raw[-1][0]:
                self.raw[-1][0][0].begins_task = True
        own = [it for it in marks if it != "!task"]
        if not own:
            return
        if len(self.raw) == count:
            raise refuse(self.place, f"{own[0]} stands at no instruction")
        if not self.raw[-1][0]:
            self.raw[-1][0].append(Instruction("sll", (0, 0), Expression(0), self.place))
        last = self.raw[-1][0][-1]
        if "!f" in own and not last.writes:
            raise refuse(self.place, f"!f stands at an instruction that writes no register: {last.name}")
        last.own_forward = "!f" in own
        last.own_stop = next((it for it in own if it != "!f"), "")

    # Statements

    def read_statement(self, statement: str) -> None:
        while True:
            label = LABEL.match(statement)
            if not label:
                break
            self.define(label[1])
            statement = statement[label.end() :]
        statement = statement.strip()
        assigned = ASSIGNED.match(statement)
        if assigned:
            self.assign(assigned[1], assigned[2])
        elif statement.startswith("."):
            word, _, rest = statement.partition(" ") if " " in statement.split("\t")[0] else statement.partition("\t")
            self.read_directive(word.strip(), rest.strip())
        elif statement:
            self.read_instruction(statement)

    def assign(self, name: str, text: str) -> None:
        if text.strip() == ".":
            if self.section == CODE and not re.match(r"[$.]L[A-Z]", name):
                self.define(name)
            return
        self.constants[name] = self.expression(text)

    def define(self, name: str) -> None:
        if name.isdigit():
            self.local_labels[name] = self.local_labels.get(name, 0) + 1
            name = f".local.{name}.{self.local_labels[name]}"
        if self.section == OTHER or ONLY_FOR_DEBUGGERS.match(name) and name not in self.taken:
            return
        self.loaded = None
        if self.section != CODE:
            self.begin_table(name)
            self.data().append(Datum([name], place=Place(self.unit.file)))
        else:
            self.labels.setdefault(self.name, []).append(name)

    def begin_table(self, name: str) -> None:
        """A label of read-only data right after a jump through a register begins the table of its places."""
        if self.table is not None and self.section == READ_ONLY:
            self.table.table = name
        self.table = None

    # Directives

    def read_directive(self, word: str, rest: str) -> None:
        if word in (".text", ".data", ".bss", ".rdata", ".rodata", ".sdata", ".sbss"):
            self.enter(word)
        elif word in (".section", ".pushsection"):
            if word == ".pushsection":
                self.pushed.append(self.name)
            name, *flags = parted(rest, ",")
            self.enter(name.strip('"'), "".join(flags[:1]))
        elif word == ".previous" or word == ".popsection" and self.pushed:
            self.enter(self.previous if word == ".previous" else self.pushed.pop())
        elif word == ".file":
            self.read_file(rest)
        elif word == ".loc":
            self.read_location(rest)
        elif word == ".set":
            self.read_set(rest)
        elif word == ".equ":
            name, _, value = rest.partition(",")
            self.assign(name.strip(), value)
        elif word in (".globl", ".global"):
            self.unit.globals.update(it.strip() for it in re.split(r"[,\s]+", rest) if it.strip())
        elif word == ".local":
            self.locals.update(parted(rest, ","))
        elif word == ".weak":
            self.unit.globals.update(parted(rest, ","))
            self.unit.weak.update(parted(rest, ","))
        elif word in (".comm", ".lcomm"):
            self.reserve(word, parted(rest, ","))
        elif self.section == OTHER or word in IGNORED or word.startswith(".cfi_"):
            return
        elif word in (".align", ".p2align", ".balign"):
            self.align(word, rest)
        elif word in (".cpload", ".cprestore", ".cpsetup", ".cpreturn", ".cplocal", ".cpadd", ".gpword", ".gpdword", ".reloc"):
            raise refuse(self.place, ANY_ADDRESS)
        elif word in (".init_array", ".ctors"):
            raise refuse(self.place, "constructors that run before main are not supported")
        else:
            self.read_data(word, rest)

    def enter(self, name: str, flags: str = "") -> None:
        if name.startswith((".init_array", ".ctors", ".fini_array", ".dtors")):
            raise refuse(self.place, "functions that run before or after main are not supported")
        if name.startswith((".tdata", ".tbss")):
            raise refuse(self.place, "thread-local data are not supported")
        part = self.parts.get(name) or section_of(name, flags)
        if part is None or name in (".init", ".fini"):
            raise refuse(self.place, f"what the section {name} is for is not known")
        self.parts[name] = part
        self.previous, self.name, self.section = self.name, name, part
        self.aligns_itself = True

    def read_file(self, rest: str) -> None:
        found = re.match(r'(\d+)\s+(.*)$', rest)
        if found:
            names = re.findall(r'"((?:\\.|[^"])*)"', found[2])
            if names:
                self.files[found[1]] = str(Path(*names[names[0] == os.getcwd() :] or names))

    def read_location(self, rest: str) -> None:
        words = rest.split()
        # A line of C that writes a word is more to a reader than the line of the header that does.
        # Line 0 is of no line.
        if self.section == CODE and words[0] in self.files and not self.files[words[0]].endswith("multiscalar.h") and int(words[1]):
            self.source = Place(self.files[words[0]], int(words[1]))

    def read_set(self, rest: str) -> None:
        name, comma, value = rest.partition(",")
        if comma:
            self.assign(name.strip(), value)
        elif name.strip() in ("noreorder", "reorder"):
            self.no_reorder = name.strip() == "noreorder"
        elif name.strip() == "push":
            self.orders.append(self.no_reorder)
        elif name.strip() == "pop" and self.orders:
            self.no_reorder = self.orders.pop()
        elif name.strip() in ("mips16", "micromips"):
            raise refuse(self.place, f"{name.strip()} is another instruction set")

    # Instructions and their operands

    def read_instruction(self, statement: str) -> None:
        if self.section != CODE:
            raise refuse(self.place, f"an instruction outside the code: {statement}")
        parts = statement.split(None, 1)
        name = parts[0]
        if name == "release":
            self.add([Instruction("release", tuple(self.register(it) for it in parted(parts[1], ",")))])
            return
        note = re.sub(r"\s+", " ", statement)
        try:
            operands = [self.operand(it) for it in parted(parts[1], ",")] if len(parts) > 1 else []
            expander = Expander(name, operands, self.place, self.fresh, self.owns_assembler)
            made = self.both_halves(name, operands, note) or expander.expand()
        except Refused:
            # Something stands here, so that what follows is not taken for a delay slot.
            self.raw.append(([], self.no_reorder))
            raise
        for it in made:
            it.note = note if len(made) > 1 or it.value is not None and it.value.half else it.note
        self.add(made)

    def both_halves(self, name: str, operands: list[Operand], note: str) -> list[Instruction]:
        """A pair such as lwl and lwr of one word at any address, which takes less than each alone."""
        half, self.half = self.half, None
        if name not in ("lwl", "lwr", "swl", "swr") or len(operands) != 2 or not isinstance(operands[1], Memory):
            return [] if name != "nop" else self.still(half)
        register, memory = operands[0].number, operands[1]
        lowest = Memory(memory.offset.plus(-3 if name[2] == "l" else 0), memory.base)
        other = name[:2] + ("r" if name[2] == "l" else "l")
        is_pair = half and half[:3] == (other, register, lowest) and not self.labels.get(self.name) and register != memory.base
        if is_pair and self.is_free(half[3]):
            self.raw[half[3]] = [], self.raw[half[3]][1]
            self.labels.setdefault(self.name, []).extend(half[4])
            return (unaligned_load if name[0] == "l" else unaligned_store)(register, lowest.offset, memory.base)
        self.half = name, register, lowest, len(self.raw), list(self.labels.get(self.name, []))
        return []

    def is_free(self, index: int) -> bool:
        """Whether a raw instruction has no mark and does not stand in a delay slot."""
        before, has_slots = self.raw[index - 1] if index else ([], False)
        is_marked = any(it.own_forward or it.own_stop or it.begins_task for it in self.raw[index][0])
        return not is_marked and not (has_slots and before and before[-1].form in JUMPS)

    def still(self, half: tuple[str, int, Memory, int, list[str]] | None) -> list[Instruction]:
        """A nop between two halves changes nothing."""
        self.half = half
        return []

    def add(self, made: list[Instruction]) -> None:
        if not made and self.after_own_task:
            made = [Instruction("sll", (0, 0), Expression(0))]
        for it in made:
            it.place = self.place
            if it.value:
                self.name_symbol(it.value)
        if made:
            made[0].labels = self.labels.pop(self.name, []) + made[0].labels
            made[0].begins_task |= self.after_own_task
            self.after_own_task = False
            self.table = made[-1] if made[-1].form == "jump_register" else None
            if self.table:
                made[-1].may_return = self.unit.file.endswith((".s", ".S")) and not self.is_run_time
            self.find_table(made[-1])
        self.raw.append((made, self.no_reorder))

    def find_table(self, it: Instruction) -> None:
        """Clang's tables stand after the function: a place is loaded from one, and a jump goes there."""
        if it.form == "jump_register" and self.loaded and it.registers[0] == self.loaded[0]:
            it.table = self.loaded[1]
        elif it.form == "load" and it.value and CLANG_TABLE.match(it.value.symbol):
            self.loaded = it.registers[0], it.value.symbol
        elif it.form in JUMPS or self.loaded and self.loaded[0] in it.writes:
            self.loaded = None


def read_unit(text: str, file: str, number: int, is_run_time: bool = False) -> Unit:
    """The unit that an assembler file defines. Symbols that it does not make global get a name of this file."""
    unit = Reader(file, number, is_run_time).read(text)
    defined = {it for instruction in unit.code for it in instruction.labels}
    defined |= {it for part in unit.data.values() for datum in part for it in datum.labels}
    unit.defined = defined
    own = {it: f"{it}@{number}" for it in defined if it not in unit.globals}
    unit.weak |= unit.globals if is_run_time else set()
    return renamed(unit, own)
