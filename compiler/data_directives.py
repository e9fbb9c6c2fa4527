"""Reads the directives that make data."""

from assembler_text import calculated, parted, string_bytes
from expressions import OperandReader
from instructions import Expression
from refusal import Place, refuse
from units import CODE, ZEROS, Datum, Unit

# How many bytes each number takes.
SIZES = {".byte": 1} | dict.fromkeys((".half", ".short", ".hword", ".2byte"), 2)
SIZES |= dict.fromkeys((".word", ".long", ".int", ".4byte"), 4) | dict.fromkeys((".dword", ".quad", ".8byte"), 8)


class DataReader(OperandReader):
    """Puts data into the unit, in the part of memory that the section belongs to."""

    def __init__(self, file: str, is_run_time: bool) -> None:
        super().__init__(is_run_time)
        self.unit = Unit(file)
        self.section = CODE
        # Words and halves are aligned, except after .align 0.
        self.aligns_itself = True
        self.locals: set[str] = set()

    def data(self) -> list[Datum]:
        return self.unit.data[self.section]

    def name_symbol(self, value: Expression) -> None:
        if value.symbol:
            self.unit.named.setdefault(value.symbol, self.place)

    def reserve(self, word: str, parts: list[str]) -> None:
        size, alignment = int(parts[1], 0), int(parts[2], 0) if len(parts) > 2 else 8
        if word == ".lcomm":
            self.locals.add(parts[0])
        if parts[0] in self.locals:
            self.unit.data[ZEROS].append(Datum([parts[0]], bytes(size), alignment=alignment, place=Place(self.unit.file)))
        else:
            self.unit.common[parts[0]] = (size, alignment)

    def align(self, word: str, rest: str) -> None:
        number = calculated(parted(rest, ",")[0]) if rest else 0
        if number is None or number > 16 and word != ".balign":
            raise refuse(self.place, f"{word} {rest} is not an alignment")
        if number == 0 and word == ".align":
            self.aligns_itself = False
        elif self.section != CODE:
            self.data().append(Datum(alignment=number if word == ".balign" else 1 << number, place=self.place))

    def read_data(self, word: str, rest: str) -> None:
        if self.section == CODE:
            if word in SIZES or word in (".ascii", ".asciz", ".string", ".space", ".skip", ".zero", ".fill"):
                raise refuse(self.place, f"{word} puts data into the code, which the machine keeps apart")
            raise refuse(self.place, f"the directive {word} is not known")
        if word in SIZES:
            if self.aligns_itself and word not in (".2byte", ".4byte", ".8byte"):
                self.data().append(Datum(alignment=SIZES[word]))
            for part in parted(rest, ","):
                self.add_value(self.expression(part), SIZES[word])
        elif word in (".ascii", ".asciz", ".string"):
            end = b"" if word == ".ascii" else b"\0"
            self.data().append(Datum(content=b"".join(string_bytes(it, self.place) + end for it in parted(rest, ",")), place=self.place))
        elif word in (".space", ".skip", ".zero"):
            parts = [calculated(it) for it in parted(rest, ",")]
            if not parts or None in parts or not 0 <= parts[0] <= 1 << 20:
                raise refuse(self.place, f"{word} {rest} is not a number of bytes")
            self.data().append(Datum(content=bytes([(parts[1] if len(parts) > 1 else 0) & 255]) * parts[0], place=self.place))
        elif word == ".fill":
            parts = [calculated(it) for it in parted(rest, ",")]
            repeat, size, value = (parts + [1, 0])[: 3] if len(parts) < 3 else parts[:3]
            self.data().append(Datum(content=(value & (1 << 8 * size) - 1).to_bytes(size, "little") * repeat, place=self.place))
        else:
            raise refuse(self.place, f"the directive {word} is not known")

    def add_value(self, value: Expression, size: int) -> None:
        if value.symbol:
            if size != 4 or value.half:
                raise refuse(self.place, f"the address {value} does not fit {size} bytes")
            self.data().append(Datum(value=value, place=self.place))
            self.name_symbol(value)
        else:
            number = value.half_of(value.number) if value.half else value.number
            self.data().append(Datum(content=(number & (1 << 8 * size) - 1).to_bytes(size, "little"), place=self.place))
