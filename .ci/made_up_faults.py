#!/usr/bin/env python3
"""Looks for code that makes an out-of-memory fault of its own, names each such line, and then ends with status 1.

No contract can tell a call whose memory was refused from one that gives up and says so. So an AllocError or an OutOfMemory
may come from a refused call by `?`, or be made only where the code around it knows that memory was refused:

- in an arm, or in the block of an `if let` or `while let`, whose pattern names want of memory in each of its alternatives;
- in an arm with the guard, or a block with the condition, `fault == X::OutOfMemory` or `matches!(fault, X::OutOfMemory)`
  (other conditions may stand beside it after `&&`);
- after `let PATTERN = .. else { .. };` with such a pattern;
- in a function or a closure that takes a value of a type that means nothing else (TYPES).

Everywhere else it is made up: in a constant, in the `else`, in an arm of `_`, in a closure that takes any fault. A call
that asks for room by a number `MAX` makes one too, since no memory can meet it. Other names for such a fault are refused,
but for those of OTHER_NAMES, which are looked for like the rest.

It reads the sources as brackets and words, not line by line. ALLOWED has the few other lines, counted for each file, with
the reason; one more is refused, and so is one less. Before it looks, it tries itself on the texts of MADE and PASSED_ON.
"""
import pathlib
import re
import sys

CRATES = pathlib.Path(__file__).resolve().parent.parent / "crates"

ALLOWED = {
    # One of two calls that fail for want of memory alone was refused.
    "mips_plain/src/memory.rt": 1,
    # The condition calls a function whose contract says that the fault is want of memory.
    "demonstration/src/driven.rt": 1,
    # What a refused push or insertion gives, without the value that it hands back.
    "parallel_check/src/checking.rt": 1,
    "program_edge/src/answer.rt": 1,
    # A write to memory failed, which it does for want of it alone.
    "event_trace/src/streaming.rt": 1,
    # Noted when a call or a thread was refused.
    "threaded_runner/src/desk.rt": 1,
}

FAULTS = {"AllocError", "OutOfMemory"}
# Names that mean the same in one file.
OTHER_NAMES = {"mips_plain/src/plain.rt": {"Full"}}
# Types of which a value is there only after a refused call.
TYPES = {*FAULTS, "AllocFailed"}
BEFORE_CLOSURES = {"=", "=>", ",", ";", "move", "return", "&"}
# Calls that ask for room.
ASKS = {"with_capacity", "reserve", "reserve_exact", "try_reserve", "resize", "zeroed"}

# Texts that make one; `ARM ..` stands for the arms of a match.
MADE = [
    "ARM Err(AsmFault::TooLong) => Err(AllocError.into()),",
    "ARM Err(AsmFault::TooLong) => Err(AllocError),",
    "ARM Err(AsmFault::TooLong | AsmFault::OutOfMemory) => Err(AllocError),",
    "ARM Err(AsmFault::OutOfMemory) | Err(AsmFault::TooLong) => Err(AllocError),",
    "ARM Err(error) if error.kind() != ErrorKind::OutOfMemory => Err(AllocError),",
    "ARM _ => Err(MemoryFault::OutOfMemory),",
    "let gone: Result<u8, AllocError> = Err(AllocError);",
    "let gone: Result<u8, AllocError> = Err(AllocError.into());",
    "return Result::<u8, AllocError>::Err(AllocError);",
    "Ok::<Result<Vec<u8>, AllocError>, Fault>(Err(AllocError))",
    "if text.is_empty() { Err(AllocError) } else { Ok(text) }",
    "let fault = if text.is_empty() { OutOfMemory } else { Other };",
    "text.ok_or(Fault::OutOfMemory)?;",
    "text.map_err(|_| AllocError)",
    "text.map_err(|_: AllocError| Fault::Write).or(Err(Fault::OutOfMemory))",
    "Err(AllocError) // ≡",
    "AllocError",
    "Refused { fault: OutOfMemory, at }",
    "Refused { error: AllocError, }",
    "self.fail(AllocError)",
    "Fault::OutOfMemory.into()",
    "Err(io::Error::from(ErrorKind::OutOfMemory))",
    "use std::alloc::AllocError as Gone;",
    # guards
    "ARM Err(f) if [X::OutOfMemory, X::TooLong].contains(&f) => Err(AllocError),",
    "ARM Err(f) if f == X::OutOfMemory || f == X::TooLong => Err(AllocError),",
    "ARM Err(f) if !(f == X::OutOfMemory) => Err(AllocError),",
    "ARM Err(f) if matches!(f, X::OutOfMemory | X::TooLong) => Err(AllocError),",
    "ARM Err(f) if matches!(f, X::TooLong) => Err(AllocError),",
    "ARM Err(f) if (f == X::OutOfMemory) == is_small => Err(AllocError),",
    "ARM Err(f) if X::OutOfMemory == X::OutOfMemory => Err(AllocError),",
    "ARM Err(f) if is_memory(f, X::OutOfMemory) => Err(AllocError),",
    # lists, and values that are looked up
    "let causes = [X::OutOfMemory, X::TooLong];",
    "if FAULTS.contains(&f) { return Err(AllocError); }",
    "const GONE: Fault = Fault::OutOfMemory;",
    "static GONE: AllocError = gone();",
    "const OutOfMemory: Fault = Fault::TooLong;",
    "let gone = (Fault::OutOfMemory, 1).0;",
    # other branches
    "if let Err(X::OutOfMemory | X::TooLong) = answer { return Err(AllocError); }",
    "if let Err(X::OutOfMemory) = answer { stop() } else { return Err(AllocError); }",
    "if let Err(_) = answer { return Err(AllocError); }",
    "if let Err(f) = answer && f != X::OutOfMemory { return Err(AllocError); }",
    "if f == X::OutOfMemory || is_long { return Err(AllocError); }",
    "if f == X::OutOfMemory {} else { return Err(AllocError); }",
    "if f == X::OutOfMemory {} return Err(AllocError);",
    "let Ok(text) = answer else { return Err(AllocError); };",
    "let Err(X::OutOfMemory) = answer else { return Err(AllocError); };",
    "let Err(X::OutOfMemory | X::TooLong) = answer else { return Ok(()); }; Err(AllocError)",
    "while let Err(X::OutOfMemory) | Err(X::TooLong) = answer { return Err(AllocError); }",
    "while is_long { return Err(AllocError); }",
    "for at in 0..1 { return Err(AllocError); }",
    # over lines
    "match answer {\n    Err(\n        X::TooLong,\n    )\n    | Err(X::OutOfMemory) => {\n        let _ = 0;\n        Err(AllocError)\n    }\n    Ok(it) => Ok(it),\n}",
    "match answer {\n    Err(X::OutOfMemory) => {}\n    Err(X::TooLong) =>\n        return Err(\n            AllocError\n        ),\n}",
    "match X::OutOfMemory {\n    X::OutOfMemory => Err(AllocError),\n}",
    "match answer { Err(X::OutOfMemory) => {} _ => {} } Err(AllocError)",
    "match (a, b) {\n    (Err(X::OutOfMemory), _) | (_, Err(X::TooLong)) => Err(AllocError),\n}",
    "match a { Fault { kind: X::TooLong | X::OutOfMemory, .. } => Err(AllocError), }",
    "if matches!(AllocError, AllocError) { fail() }",
    # closures
    "text.map_err(|error: AsmFault| AllocError)",
    "text.or_else(|_| Err(AllocError))",
    "text.ok_or_else(|| Fault::OutOfMemory)",
    "text.map_err(|_: Result<(), AllocError>| Fault::OutOfMemory)",
    "text.map_err(move |X::TooLong| { AllocError })",
    "(|_: AllocError| Fault::OutOfMemory)(AllocError)",
    "text.map_err(AllocError::from)",
    # conversions, defaults, and other names
    "impl From<AsmFault> for AllocError { fn from(_: AsmFault) -> AllocError { AllocError } }",
    "impl From<AsmFault> for Fault { fn from(error: AsmFault) -> Fault { match error { AsmFault::TooLong => Fault::Long, _ => Fault::OutOfMemory } } }",
    "impl Default for Fault { fn default() -> Fault { Fault::OutOfMemory } }",
    "enum Fault { #[default] OutOfMemory, Other }",
    "enum Fault { OutOfMemory(#[from] AsmFault), Other }",
    "type Gone = AllocError;",
    "type AllocError = AsmFault;",
    "macro_rules! gone { () => { Err(AllocError) } }",
    "let gone: AllocError = Default::default();",
    "fn gone() -> AllocError { Default::default() }",
    "fn gone(is_long: bool) -> Result<(), AllocError> requires { is_long } { Err(AllocError) }",
    "fn gone(_: Option<AllocError>) -> Fault { Fault::OutOfMemory }",
    # a name that stands for any value
    "mod deep; fn f(a: Fault) -> Fault { match a { OutOfMemory => Fault::Want(AllocError) } }",
    # what no memory can meet
    "let all = Vec::<u8>::with_capacity(alloc, usize::MAX)?;",
    "all.reserve(\n    isize::MAX as usize,\n)?;",
]
# Texts that pass one on, and that say what one is.
PASSED_ON = [
    "ARM Err(AsmFault::OutOfMemory) => Err(AllocError.into()),",
    "ARM Err(AsmFault::OutOfMemory) if is_last => Err(AllocError.into()),",
    "ARM Err(AsmFault::OutOfMemory) | Err(AsmFault::Want(AllocError)) => Err(AllocError.into()),",
    "ARM Err(std::alloc::AllocError) => Err((program, AnnotateFault::OutOfMemory)),",
    "ARM Err(error) if error.kind() == ErrorKind::OutOfMemory => Err(Fault::OutOfMemory),",
    "ARM Err(error) if matches!(error, X::OutOfMemory) && is_last => Err(Fault::OutOfMemory),",
    "ARM AsmFault::TooLong | AsmFault::OutOfMemory => Ok(None),",
    "ARM AsmFault::TooLong\n    | AsmFault::OutOfMemory => \"\",",
    "ARM Err(X::OutOfMemory) => {\n    stop();\n    if is_last {\n        return Err(AllocError);\n    }\n    Ok(())\n}\n_ => Ok(()),",
    "ARM Err(Fault { kind: X::OutOfMemory, at: 1 | 2 }) => Err(AllocError),",
    "text.map_err(|_: AllocError| FetchFault::OutOfMemory)?;",
    "text.map_err(|_: X::OutOfMemory| { AllocError })?;",
    "let call = move |_: AllocError| -> Fault { Fault::OutOfMemory };",
    "if let Err(Refused::OutOfMemory) = answer { return Err(AllocError); }",
    "if is_last && fault == Fault::OutOfMemory { return Err(AllocError); }",
    "if Fault::OutOfMemory == fault { Err(AllocError) } else { Ok(()) }",
    "while let Err(X::OutOfMemory) = answer { return Err(AllocError); }",
    "let Err(X::OutOfMemory) = answer else { return Ok(()); }; Err(AllocError)",
    "matches!(fault, Err(X::OutOfMemory))",
    "matches!(fault, X::OutOfMemory | X::TooLong)",
    "given.refused(fault == X::OutOfMemory, 1);",
    "enum Fault { #[error(\"4 OutOfMemory\")] OutOfMemory, Refused(AllocError) }",
    "enum Fault { OutOfMemory(#[from] AllocError) }",
    "fn words_of(alloc: Global, line: &str) -> Result<Vec<String>, AllocError> { Vec::new(alloc) }",
    "fn f(text: &str) -> Result<Option<Vec<u32>>, AllocError> ensures { result ≢ Err AllocError } ensures own { OutOfMemory } { Ok(None) }",
    "impl From<AllocError> for Fault { ghost from_gives = { λ _ e. e ≡ OutOfMemory }; fn from(_error: AllocError) -> ServeFault { ServeFault::OutOfMemory } }",
    "impl From<AllocFailed<T>> for OutOfMemory { fn from(_: AllocFailed<T>) -> OutOfMemory { OutOfMemory } }",
    "// Says AllocError.",
    "let text = \"OutOfMemory\"; let mark = 'a'; let life: &'static str = r#\"AllocError\"#;",
    "use std::alloc::{AllocError, Global};",
    "pub struct OutOfMemory;",
    "type Made<T> = Result<T, AllocError>;",
    "let room = Vec::with_capacity(alloc, most.min(MAX_ROOM))?;",
]

TOKEN = re.compile(r"""
    (?P<skip>\s+|//[^\n]*|/\*(?:[^*]|\*(?!/))*\*/)
  | (?P<text>b?r(?P<hash>\#*)"(?:.|\n)*?"(?P=hash)|b?"(?:[^"\\]|\\(?:.|\n))*"|b?'(?:[^'\\\n]|\\[^\n]+?)'(?!\w))
  | (?P<life>'\w+)
  | (?P<word>\w+)
  | (?P<sign>=>|->|::|==|!=|<=|>=|&&|\|\||\.\.=|\.\.|[-+*/%^&|]=|.)
""", re.VERBOSE)
CLOSING = {"(": ")", "[": "]", "{": "}"}


class Group:
    """What stands between two brackets."""

    def __init__(self, open_at, line):
        self.open, self.line, self.inner = open_at, line, []


class Token(str):
    """A word or sign, with its line."""

    line = 0


def tree_of(text):
    """The words and signs of a text as a tree of brackets; texts in quotes are one sign `\"`."""
    stack, line = [Group("{", 1)], 1
    for found in TOKEN.finditer(text):
        kind, it = found.lastgroup, found.group()
        if found["text"] is not None:
            kind, it = "text", '"'
        if kind in ("word", "sign", "text"):
            if it in CLOSING:
                group = Group(it, line)
                stack[-1].inner.append(group)
                stack.append(group)
            elif it in CLOSING.values():
                if len(stack) == 1 or CLOSING[stack[-1].open] != it:
                    raise SystemExit(f"made_up_faults: line {line}: a bracket {it} closes nothing")
                stack.pop()
            else:
                token = Token(it)
                token.line = line
                stack[-1].inner.append(token)
        line += found.group().count("\n")
    if len(stack) > 1:
        raise SystemExit(f"made_up_faults: a bracket of line {stack[-1].line} is not closed")
    return stack[0].inner


def is_open(it, brackets="{"):
    return isinstance(it, Group) and it.open in brackets


def split_at(tokens, sign):
    """The parts of a list of tokens between those that are this sign."""
    parts = [[]]
    for it in tokens:
        if it == sign:
            parts.append([])
        else:
            parts[-1].append(it)
    return parts


def words_in(tokens):
    """All words and signs of these tokens, also within brackets."""
    for it in tokens:
        if isinstance(it, Group):
            yield from words_in(it.inner)
        else:
            yield it


def path_end(tokens):
    """The last word of a path with which these tokens begin, and how many of them it takes."""
    at = 0
    while at + 2 < len(tokens) and not isinstance(tokens[at], Group) and tokens[at + 1] == "::" and not isinstance(tokens[at + 2], Group):
        at += 2
    return tokens[at], at + 1


def without_angles(tokens):
    """These tokens without what stands in angle brackets after `::` or a name of a type."""
    kept, depth, before = [], 0, None
    for it in tokens:
        opens = it == "<" and (depth or before == "::" or isinstance(before, str) and before[:1].isupper())
        if opens:
            depth += 1
        elif depth and it == ">":
            depth -= 1
        elif not depth:
            kept.append(it)
        before = it
    return kept if not depth else tokens


class Reader:
    """Reads the tree of a file and collects the lines that make a fault."""

    def __init__(self, tree, others=()):
        self.found, self.faults = [], FAULTS | set(others)
        self.named = self.imported(tree)

    def imported(self, tree):
        """The names of FAULTS that this file imports or declares: another one in a pattern would match anything."""
        words, is_use, names = list(words_in(tree)), False, set()
        for before, it in zip(["", *words], words):
            is_use = it == "use" or is_use and it != ";"
            if it in self.faults and (is_use or before == "struct"):
                names.add(str(it))
        return names

    def tell(self, token):
        self.found.append(token.line)

    def is_sure(self, pattern):
        """Whether a pattern matches want of memory alone, in each of its alternatives."""
        parts = [it for it in split_at(pattern, "|") if it]
        return bool(parts) and all(self.is_sure_part(it) for it in parts)

    def is_sure_part(self, part):
        for at, it in enumerate(part):
            if isinstance(it, Group):
                if any(self.is_sure(inner) for inner in split_at(it.inner, ",") if inner):
                    return True
            elif it in self.faults and (at and part[at - 1] == "::" or it in self.named):
                return not (at + 1 < len(part) and part[at + 1] in ("::", "@"))
        return False

    def is_type(self, tokens):
        """Whether these tokens are a type that means want of memory alone."""
        tokens = [it for it in without_angles(tokens) if it not in ("&", "mut")]
        if not tokens or isinstance(tokens[0], Group):
            return False
        name, used = path_end(tokens)
        return name in TYPES | self.faults and used == len(tokens)

    def takes_one(self, params):
        """Whether one of these parameters is a value that means want of memory alone."""
        for it in split_at(without_angles(params), ","):
            pattern, _, of_type = self.cut(it, ":")
            if self.is_type(of_type) if of_type else self.is_sure(pattern):
                return True
        return False

    def test(self, part, known):
        """Whether a condition between `&&` says that a fault is want of memory. It looks for what the condition makes, too."""
        if part and part[0] == "let" and "=" in part:
            equal = part.index("=")
            self.values(part[equal + 1:], known)
            return self.is_sure(part[1:equal])
        self.values(part, known)
        if len(part) == 3 and part[0] == "matches" and is_open(part[2], "(["):
            first, _, pattern = self.cut(part[2].inner, ",")
            return self.is_sure(split_at(pattern, "if")[0])
        sides = split_at(part, "==")
        if len(sides) == 2 and "!=" not in part and "!" not in part and "=" not in part:
            named = [self.is_fault(side) for side in sides]
            return named.count(True) == 1
        return False

    def is_fault(self, side):
        """Whether these tokens are a path to a fault and nothing more."""
        side = [it for it in side if it != "&"]
        return bool(side) and not isinstance(side[0], Group) and path_end(side)[1] == len(side) and path_end(side)[0] in self.faults

    def cut(self, tokens, sign):
        at = next((at for at, it in enumerate(tokens) if it == sign), len(tokens))
        return tokens[:at], sign, tokens[at + 1:]

    def condition(self, tokens, known):
        """Whether a condition says that a fault is want of memory."""
        parts = split_at(tokens, "&&")
        sure = [self.test(part, known) for part in parts]
        return "||" not in tokens and any(sure)

    def arms(self, tokens, known):
        """The arms of a match."""
        at = 0
        while at < len(tokens):
            arrow = next((it for it in range(at, len(tokens)) if tokens[it] == "=>"), None)
            if arrow is None:
                return self.values(tokens[at:], known)
            head = tokens[at:arrow]
            while head and (head[0] == "#" or head[0] == ","):
                head = head[2:] if head[0] == "#" else head[1:]
            guard_at = next((it for it, word in enumerate(head) if word == "if"), None)
            pattern, guard = (head, []) if guard_at is None else (head[:guard_at], head[guard_at + 1:])
            sure = known or self.is_sure(pattern)
            sure = sure or bool(guard) and self.condition(guard, sure)
            end = arrow + 1
            if end < len(tokens) and is_open(tokens[end]):
                end += 1
            else:
                depth = 0
                while end < len(tokens) and (depth or tokens[end] != ","):
                    turbofish = tokens[end] == "<" and tokens[end - 1] == "::"
                    depth += turbofish or bool(depth) and tokens[end] == "<"
                    depth -= bool(depth) and tokens[end] == ">"
                    end += 1
            self.values(tokens[arrow + 1:end], sure)
            at = end + (end < len(tokens) and tokens[end] == ",")
        return None

    def values(self, tokens, known):
        """Statements and expressions; known says that memory was refused where they stand."""
        if "=>" in tokens:
            return self.arms(tokens, known)
        at = 0
        while at < len(tokens):
            at, known = self.one(tokens, at, known)
        return None

    def one(self, tokens, at, known):
        """Reads what begins here, and returns where the next begins and whether memory is known to be refused from there on."""
        it = tokens[at]
        if isinstance(it, Group):
            self.values(it.inner, known)
            return at + 1, known
        read = {"#": self.attribute, "use": self.use, "ghost": self.ghost, "requires": self.clause, "ensures": self.clause,
                "struct": self.struct, "enum": self.enum, "type": self.alias, "impl": self.header, "trait": self.header, "fn": self.function,
                "const": self.binding, "static": self.binding, "let": self.binding, "if": self.branch, "while": self.branch,
                "match": self.match, "for": self.loop}.get(it)
        if read:
            return read(tokens, at, known)
        if it == "matches" and at + 2 < len(tokens) and tokens[at + 1] == "!" and is_open(tokens[at + 2], "(["):
            self.values(self.cut(tokens[at + 2].inner, ",")[0], known)
            return at + 3, known
        if it in ("|", "||") and (at == 0 or tokens[at - 1] in BEFORE_CLOSURES):
            return self.closure(tokens, at, known), known
        if it == "::" and at + 1 < len(tokens) and tokens[at + 1] == "<":
            return self.after_angles(tokens, at + 1), known
        if it in ASKS and at + 1 < len(tokens) and is_open(tokens[at + 1], "("):
            words = list(words_in(tokens[at + 1].inner))
            if "MAX" in words and "min" not in words:
                self.tell(it)
        if it in self.faults and not known and not self.is_compared(tokens, at):
            self.tell(it)
        return at + 1, known

    def is_compared(self, tokens, at):
        """Whether the fault that ends here is only compared, with something else than a fault."""
        first = at
        while first >= 2 and tokens[first - 1] == "::":
            first -= 2
        while first >= 1 and tokens[first - 1] == "&":
            first -= 1
        before = tokens[first - 1] if first else None
        after = tokens[at + 1] if at + 1 < len(tokens) else None
        if before in ("==", "!="):
            return not (first >= 2 and tokens[first - 2] in self.faults) and after not in ("::", ".", "==", "!=") and not isinstance(after, Group)
        if after in ("==", "!="):
            rest = [it for it in tokens[at + 2:] if it != "&"]
            return bool(rest) and (isinstance(rest[0], Group) or path_end(rest)[0] not in self.faults)
        return False

    def after_angles(self, tokens, at):
        """Where what stands in angle brackets ends."""
        depth = 0
        for end in range(at, len(tokens)):
            depth += (tokens[end] == "<") - (tokens[end] == ">")
            if depth == 0:
                return end + 1
        return at + 1

    def attribute(self, tokens, at, known):
        at += 1 + (at + 1 < len(tokens) and tokens[at + 1] == "!")
        return at + 1, known

    def use(self, tokens, at, known):
        end = next((it for it in range(at, len(tokens)) if tokens[it] == ";"), len(tokens))
        words = list(words_in(tokens[at:end]))
        for here, it in enumerate(words):
            if it == "as" and (words[here - 1] in self.faults or here + 1 < len(words) and words[here + 1] in self.faults):
                self.tell(it)
        return end + 1, known

    def ghost(self, tokens, at, known):
        end = next((it for it in range(at, len(tokens)) if tokens[it] == ";" or is_open(tokens[it])), len(tokens) - 1)
        if is_open(tokens[end]) and at + 1 < len(tokens) and tokens[at + 1] == "use":
            end = next((it for it in range(at, len(tokens)) if tokens[it] == ";"), len(tokens) - 1)
        return end + 1, known

    def clause(self, tokens, at, known):
        end = next((it for it in range(at, len(tokens)) if is_open(tokens[it])), len(tokens) - 1)
        return end + 1, known

    def item_end(self, tokens, at):
        return next((it for it in range(at, len(tokens)) if tokens[it] == ";" or is_open(tokens[it])), len(tokens) - 1)

    def struct(self, tokens, at, known):
        return self.item_end(tokens, at) + 1, known

    def enum(self, tokens, at, known):
        end = self.item_end(tokens, at)
        inner = tokens[end].inner if is_open(tokens[end]) else []
        for here, it in enumerate(inner):
            if it not in self.faults:
                continue
            attributes = [inner[back] for back in range(here - 1, 0, -2) if is_open(inner[back], "[") and inner[back - 1] == "#"]
            if any("default" in list(words_in(one.inner)) for one in attributes):
                self.tell(it)
            held = inner[here + 1] if here + 1 < len(inner) else None
            if is_open(held, "({") and "from" in list(words_in(held.inner)):
                types = [word for word in held.inner if word != "#" and not is_open(word, "[")]
                if not self.is_type(types[2:] if ":" in types else types):
                    self.tell(it)
        return end + 1, known

    def alias(self, tokens, at, known):
        end = next((it for it in range(at, len(tokens)) if tokens[it] == ";"), len(tokens))
        equal = next((it for it in range(at, end) if tokens[it] == "="), None)
        if tokens[at + 1] in self.faults or equal is not None and self.is_type(tokens[equal + 1:end]):
            self.tell(tokens[at])
        return end + 1, known

    def header(self, tokens, at, known):
        """An impl or a trait: what it contains begins anew."""
        end = self.item_end(tokens, at)
        if is_open(tokens[end]):
            self.values(tokens[end].inner, False)
        return end + 1, known

    def function(self, tokens, at, known):
        params_at = next((it for it in range(at, len(tokens)) if is_open(tokens[it], "(")), None)
        if params_at is None:
            return at + 1, known
        end, is_clause, given_type = params_at + 1, False, []
        while end < len(tokens) and tokens[end] != ";":
            it = tokens[end]
            if it in ("requires", "ensures"):
                is_clause = True
            elif is_open(it) and is_clause:
                is_clause = False
            elif is_open(it):
                break
            elif not is_clause:
                given_type.append(it)
            end += 1
        takes_one = self.takes_one(tokens[params_at].inner)
        given_type = split_at(given_type, "where")[0]
        if given_type and given_type[0] == "->" and self.is_type(given_type[1:]) and not takes_one:
            self.tell(tokens[at])
        if end < len(tokens) and is_open(tokens[end]):
            self.values(tokens[end].inner, takes_one)
        return end + 1, known

    def binding(self, tokens, at, known):
        """A let, a constant or a static: after `let PATTERN = .. else` the pattern has matched."""
        if at + 1 < len(tokens) and tokens[at + 1] in ("fn", "{"):
            return at + 1, known
        end = next((it for it in range(at, len(tokens)) if tokens[it] == ";"), len(tokens))
        equal = next((it for it in range(at, end) if tokens[it] == "="), end)
        pattern, _, of_type = self.cut(tokens[at + 1:equal], ":")
        is_named_so = tokens[at] != "let" and tokens[at + 1] in self.faults
        if is_named_so or of_type and self.is_type(of_type):
            self.tell(tokens[at])
        orelse = next((it for it in range(equal, end) if tokens[it] == "else" and it + 2 == end and is_open(tokens[it + 1])), None)
        is_chain = orelse is not None and any(it == "if" for it in tokens[equal:orelse])
        if orelse is None or is_chain:
            self.values(tokens[equal + 1:end], known)
            return end + 1, known
        self.values(tokens[equal + 1:orelse], known)
        self.values(tokens[orelse + 1].inner, known)
        return end + 1, known or self.is_sure(pattern)

    def branch(self, tokens, at, known):
        """An if with what follows it, or a while."""
        while True:
            block = next((it for it in range(at + 1, len(tokens)) if is_open(tokens[it])), None)
            if block is None:
                return at + 1, known
            sure = self.condition(tokens[at + 1:block], known)
            self.values(tokens[block].inner, known or sure)
            at = block + 1
            if at >= len(tokens) or tokens[at] != "else":
                return at, known
            if at + 1 < len(tokens) and tokens[at + 1] == "if":
                at += 1
                continue
            if at + 1 < len(tokens) and is_open(tokens[at + 1]):
                self.values(tokens[at + 1].inner, known)
            return at + 2, known

    def match(self, tokens, at, known):
        block = next((it for it in range(at + 1, len(tokens)) if is_open(tokens[it])), None)
        if block is None:
            return at + 1, known
        self.values(tokens[at + 1:block], known)
        self.arms(tokens[block].inner, known)
        return block + 1, known

    def loop(self, tokens, at, known):
        within = next((it for it in range(at, len(tokens)) if tokens[it] == "in"), None)
        return (at + 1 if within is None else within + 1), known

    def closure(self, tokens, at, known):
        params, body = [], at + 1
        if tokens[at] == "|":
            end = next((it for it in range(at + 1, len(tokens)) if tokens[it] == "|"), len(tokens) - 1)
            params, body = tokens[at + 1:end], end + 1
        known = known or bool(params) and self.takes_one(params)
        if body < len(tokens) and tokens[body] == "->":
            body = next((it for it in range(body, len(tokens)) if is_open(tokens[it])), len(tokens))
        while body < len(tokens) and tokens[body] in ("requires", "ensures"):
            body, _ = self.clause(tokens, body, known)
        if body < len(tokens) and is_open(tokens[body]):
            self.values(tokens[body].inner, known)
            return body + 1
        end = next((it for it in range(body, len(tokens)) if tokens[it] in (",", ";")), len(tokens))
        self.values(tokens[body:end], known)
        return end


def made_in(text, others=()):
    """The numbers of the lines of a text that make such a fault, from 1; others are the names that mean it there, too."""
    tree = tree_of(text)
    reader = Reader(tree, others)
    reader.values(tree, False)
    return sorted(reader.found)


def tries_itself():
    """Whether it takes a text of its own lists for the other kind; it names each."""
    whole = lambda text: "use std::alloc::AllocError;\n" + (f"fn f() {{ match answer {{\n{text[4:]}\n}} }}" if text.startswith("ARM ") else text)
    wrong = [text for text in MADE if not made_in(whole(text))] + [text for text in PASSED_ON if made_in(whole(text))]
    for text in wrong:
        print(f"taken for the other kind: {text}", file=sys.stderr)
    return bool(wrong)


def main():
    found = tries_itself()
    for path in sorted(CRATES.glob("*/src/**/*.rt")):
        name, text = str(path.relative_to(CRATES)), path.read_text(encoding="utf-8")
        allowed, lines = ALLOWED.get(name, 0), made_in(text, OTHER_NAMES.get(name, ()))
        shown = text.split("\n")
        if len(lines) > allowed:
            for at in lines:
                print(f"an out-of-memory fault is made up ({allowed} allowed in this file): crates/{name}:{at}:{shown[at - 1]}", file=sys.stderr)
            found = True
        elif len(lines) < allowed:
            print(f"ALLOWED has {allowed} lines of crates/{name}, and there are {len(lines)}", file=sys.stderr)
            found = True
    for name in ALLOWED:
        if not (CRATES / name).is_file():
            print(f"ALLOWED names crates/{name}, which is not there", file=sys.stderr)
            found = True
    return found


if __name__ == "__main__":
    sys.exit(main())
