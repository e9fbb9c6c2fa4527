"""Reads the text of a program for simulator.py, written from docs/FORMATS.md alone.

The text is taken as right: `multiscalar explain` says what is wrong with one.
"""
import re

HI, LO = 32, 33
CODE, READ_ONLY, DATA = 0x00400000, 0x10000000, 0x10010000
NAMES = ("zero at v0 v1 a0 a1 a2 a3 t0 t1 t2 t3 t4 t5 t6 t7 s0 s1 s2 s3 s4 s5 s6 s7 t8 t9 k0 k1 gp sp fp ra "
         "hi lo").split()


def word(number):
    return number & 0xFFFFFFFF


def signed(number):
    return number - (1 << 32) if number >> 31 else number


# Operands: d register that is written, s register that is read, n number, T place in the code.
COMPUTED = {
    "dss": {"addu": lambda s, t: s + t, "subu": lambda s, t: s - t, "and": lambda s, t: s & t, "or": lambda s, t: s | t,
            "xor": lambda s, t: s ^ t, "nor": lambda s, t: ~(s | t), "sltu": lambda s, t: s < t,
            "slt": lambda s, t: signed(s) < signed(t), "sllv": lambda t, s: t << (s & 31),
            "srlv": lambda t, s: t >> (s & 31), "srav": lambda t, s: signed(t) >> (s & 31)},
    "dsn": {"addiu": lambda s, n: s + n, "slti": lambda s, n: signed(s) < n, "sltiu": lambda s, n: s < word(n),
            "andi": lambda s, n: s & n, "ori": lambda s, n: s | n, "xori": lambda s, n: s ^ n,
            "sll": lambda t, n: t << n, "srl": lambda t, n: t >> n, "sra": lambda t, n: signed(t) >> n},
    "dn": {"lui": lambda n: n << 16},
    "ds": {"mfhi": lambda s: s, "mflo": lambda s: s, "mthi": lambda s: s, "mtlo": lambda s: s},
}
COMPARED = {
    "ssT": {"beq": lambda s, t: s == t, "bne": lambda s, t: s != t},
    "sT": {"blez": lambda s: signed(s) <= 0, "bgtz": lambda s: signed(s) > 0,
           "bltz": lambda s: signed(s) < 0, "bgez": lambda s: signed(s) >= 0},
}
COMPUTE = {name: how for names in COMPUTED.values() for name, how in names.items()}
BRANCH = {name: how for names in COMPARED.values() for name, how in names.items()}
PRODUCT = {"mult": lambda s, t: signed(s) * signed(t), "multu": lambda s, t: s * t}
LOADS = {"lw": 4, "lh": 2, "lhu": 2, "lb": 1, "lbu": 1}
STORES = {"sw": 4, "sh": 2, "sb": 1}
JUMPS = {"j": "T", "jal": "dT", "jr": "s", "jalr": "ds"}
KINDS = {name: kinds for table in (COMPUTED, COMPARED) for kinds, names in table.items() for name in names}
KINDS.update({**dict.fromkeys(PRODUCT, "ss"), **dict.fromkeys(LOADS, "dns"), **dict.fromkeys(STORES, "sns"), **JUMPS,
              "out": "s", "halt": ""})
IMPLIED = {"mfhi": (1, "$hi"), "mflo": (1, "$lo"), "mthi": (0, "$hi"), "mtlo": (0, "$lo"), "jal": (0, "$ra")}


class Instruction:
    def __init__(self, name, operands, marks, line):
        self.name, self.operands, self.line, self.forward = name, operands, line, "!f" in marks
        self.kinds = KINDS.get(name, "s" * len(operands))  # a release may name any number of registers
        self.stop = next((mark for mark in marks if mark != "!f"), None)


class Task:
    def __init__(self, name, create, targets):
        self.name, self.create, self.targets, self.entry = name, create, targets, None


def register(text):
    return NAMES.index(text[1:]) if text[1:] in NAMES else int(text[1:])


def number(text):
    return int(text, 16 if "x" in text else 10)


def listed(text):
    return [part.strip() for part in text.split(",") if part.strip() != "-"]


class Program:
    """The code, the tasks and the bytes of a text. Places are addresses."""

    def __init__(self, text):
        self.code, self.tasks, self.labels, self.start, self.section = [], {}, {}, "@0", ".text"
        self.bytes = {".data": bytearray(), ".rodata": bytearray()}
        for line, whole in enumerate(text.splitlines(), 1):
            self.read(line, whole.split("#")[0].strip())
        for i in self.code:
            i.operands = [operand(self) if callable(operand) else operand for operand in i.operands]
        for task in self.tasks.values():
            task.entry, task.targets = self.labels[task.name], [self.place(target) for target in task.targets]
        self.start = self.place(self.start)

    def place(self, text):
        return CODE + 4 * int(text[1:]) if text[0] == "@" else self.labels[text]

    def here(self):
        if self.section == ".text":
            return CODE + 4 * len(self.code)
        return {".data": DATA, ".rodata": READ_ONLY}[self.section] + len(self.bytes[self.section])

    def read(self, line, statement):
        while label := re.match(r"(\w+)\s*:\s*", statement):
            self.labels[label[1]] = self.here()
            statement = statement[label.end():]
        name, rest = (statement.split(None, 1) + ["", ""])[:2]
        if name == ".task":
            task, create, targets = re.fullmatch(r"(\w+)\s+create=(.+?)\s+targets=(.+)", rest).groups()
            self.tasks[task] = Task(task, sorted({register(r) for r in listed(create)}), listed(targets))
        elif name == ".start":
            self.start = rest
        elif name in (".text", ".data", ".rodata"):
            self.section = name
        elif name == ".space":
            self.bytes[self.section] += bytes(number(rest))
        elif name in (".word", ".byte"):
            size = {".word": 4, ".byte": 1}[name]
            for n in listed(rest):
                self.bytes[self.section] += (number(n) & (1 << 8 * size) - 1).to_bytes(size, "little")
        elif name:
            self.add(name, re.findall(r"[\w$@-]+", rest.split("!")[0]), re.findall(r"![a-z]+", rest), line)

    def add(self, name, words, marks, line):
        """Adds what a statement stands for. An operand that names a place is known once the text is read."""
        if name == "nop":
            name, words = "sll", ["$0", "$0", "0"]
        elif name == "move":
            name, words = "addu", words + ["$0"]
        elif name == "jalr" and len(words) == 1:
            words = ["$ra"] + words
        elif name in IMPLIED:
            words.insert(*IMPLIED[name])
        elif name == "li" and -0x8000 <= signed(word(number(words[1]))) <= 0xFFFF:
            short = signed(word(number(words[1])))
            name, words = "addiu" if short < 0x8000 else "ori", [words[0], "$0", str(short)]
        elif name in ("li", "la"):
            def value(p, text=words[1]):
                return word(number(text)) if name == "li" else p.labels[text]
            rd = register(words[0])
            self.code.append(Instruction("lui", [rd, lambda p: value(p) >> 16], [], line))
            self.code.append(Instruction("ori", [rd, rd, lambda p: value(p) & 0xFFFF], marks, line))
            return
        as_kind = {"d": register, "s": register, "n": number, "T": lambda text: lambda p: p.place(text)}
        kinds = KINDS.get(name, "s" * len(words))
        self.code.append(Instruction(name, [as_kind[kind](text) for kind, text in zip(kinds, words)], marks, line))
