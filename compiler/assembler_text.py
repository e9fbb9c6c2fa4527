"""The text of the GNU assembler: comments, lists, strings, and expressions of numbers."""

import ast
import operator
import re

from refusal import Place, refuse

ESCAPES = {"n": 10, "t": 9, "r": 13, "b": 8, "f": 12, "v": 11, "a": 7}


def without_comment(line: str) -> tuple[str, str]:
    """A line's statements, and its comment without the #."""
    quoted = False
    index = 0
    while index < len(line):
        if quoted and line[index] == "\\":
            index += 1
        elif line[index] == '"':
            quoted = not quoted
        elif line[index] == "#" and not quoted:
            return line[:index], line[index + 1 :]
        index += 1
    return line, ""


def parted(text: str, separator: str) -> list[str]:
    """Splits at a separator that stands outside parentheses and strings."""
    parts, depth, quoted, begin, index = [], 0, False, 0, 0
    while index < len(text):
        letter = text[index]
        if quoted and letter == "\\":
            index += 1
        elif letter == '"':
            quoted = not quoted
        elif not quoted and letter in "()":
            depth += 1 if letter == "(" else -1
        elif letter == separator and not quoted and not depth:
            parts.append(text[begin:index])
            begin = index + 1
        index += 1
    parts.append(text[begin:])
    return [it.strip() for it in parts if it.strip()]


OPERATORS = {
    ast.Add: operator.add, ast.Sub: operator.sub, ast.Mult: operator.mul, ast.LShift: operator.lshift, ast.RShift: operator.rshift,
    ast.BitAnd: operator.and_, ast.BitOr: operator.or_, ast.BitXor: operator.xor, ast.Div: lambda left, right: int(left / right),
    ast.USub: operator.neg, ast.UAdd: operator.pos, ast.Invert: operator.invert,
}
# The assembler and Python agree on what binds closer only inside a line of these.
CLASSES = [{ast.Add, ast.Sub, ast.Mult, ast.Div}, {ast.LShift}, {ast.RShift}, {ast.BitAnd}, {ast.BitOr}, {ast.BitXor}]


def calculated(text: str) -> int | None:
    """The value of an expression of numbers alone, or None. What stands in parentheses is calculated first."""
    while True:
        inner = re.search(r"\(([^()]*)\)", text)
        if not inner:
            return calculated_flat(text)
        value = calculated_flat(inner[1])
        if value is None:
            return None
        text = f"{text[: inner.start()]} {value} {text[inner.end() :]}"


def calculated_flat(text: str) -> int | None:
    """The value of an expression without parentheses."""

    def value(node: ast.AST) -> int:
        if isinstance(node, ast.Constant) and type(node.value) is int:
            return node.value
        if isinstance(node, ast.BinOp):
            return OPERATORS[type(node.op)](value(node.left), value(node.right))
        if isinstance(node, ast.UnaryOp):
            return OPERATORS[type(node.op)](value(node.operand))
        raise KeyError

    def is_plain(tree: ast.AST) -> bool:
        used = {type(node.op) for node in ast.walk(tree) if isinstance(node, ast.BinOp)}
        return not used or any(used <= it for it in CLASSES)

    octal = re.sub(r"(?<![\w.])0+(?=[0-7]+(?![\w.]))", "0o", text.strip())
    try:
        tree = ast.parse(octal, mode="eval").body
        return value(tree) if is_plain(tree) else None
    except (SyntaxError, KeyError, ValueError, ZeroDivisionError, RecursionError):
        return None


def string_bytes(text: str, place: Place) -> bytes:
    """The bytes of a quoted string of the assembler."""
    text = text.strip()
    if not re.fullmatch(r'"(\\.|[^"\\])*"', text, re.S):
        raise refuse(place, f"{text} is not a string")
    made, index, body = bytearray(), 0, text[1:-1]
    while index < len(body):
        if body[index] != "\\":
            made += body[index].encode("utf-8", "surrogateescape")
            index += 1
            continue
        octal = re.match(r"\\([0-7]{1,3})", body[index:])
        hexadecimal = re.match(r"\\[xX]([0-9a-fA-F]+)", body[index:])
        if octal:
            made.append(int(octal[1], 8) & 255)
            index += len(octal[0])
        elif hexadecimal:
            made.append(int(hexadecimal[1], 16) & 255)
            index += len(hexadecimal[0])
        else:
            made.append(ESCAPES.get(body[index + 1], ord(body[index + 1])))
            index += 2
    return bytes(made)
