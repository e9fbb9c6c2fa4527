"""Makes annotated texts of a program in several ways, and takes the one with the fewest steps."""

from collections import Counter
from dataclasses import dataclass, field, replace

from block_order import with_blocks_in_order
from copies import with_copies
from flow import Flow
from induction import with_inductions_first
from instructions import Instruction
from linking import MOST_INSTRUCTIONS, Program
from refusal import Place, Refused, refuse
from releases import with_releases
from tasks import MOST_TASKS, Cut, cut, label_at, spread, wide_jumps
from tool import Steps, Tool, ToolFailed
from writer import Writer, aligned

# What is done to the code before it is cut: nothing, the order changed, functions copied, both.
SHAPES = ("kept", "moved", "copied", "copied and moved")


@dataclass(frozen=True)
class Settings:
    """What the command line asks for."""

    tasks: str = "auto"
    leaves: str = "auto"
    release: str = "auto"
    code: str = "auto"
    units: int = 4
    plain: bool = False
    # How long the search may take, about, and what its choices begin with.
    seconds: float = 2.0
    seed: int = 1


@dataclass(frozen=True)
class Way:
    """One way to cut a program and to mark it. A cut that was searched begins tasks at these instructions."""

    policy: str
    leaves: str
    release: str
    code: str = "kept"
    begins: frozenset[int] | None = None

    def __str__(self) -> str:
        leaves = ", leaves joined" if self.leaves == "joined" else ""
        code = f", code {self.code}" if self.code != "kept" else ""
        return f"{self.policy}{leaves}, release {self.release}{code}"


@dataclass
class Choice:
    way: Way
    text: str
    tasks: int
    program: Program
    # Its steps on the units that were asked for, and on one; None where it was not measured.
    last: Steps | None = None
    on_one: Steps | None = None

    @property
    def instructions(self) -> int:
        return len(self.program.code)

    def steps(self) -> str:
        if not self.last:
            return "not measured"
        if not self.last.ended:
            return f"out of budget, {self.last.retired / self.last.steps:.2f} per step"
        return f"{self.last.steps} steps"

    def summary(self) -> str:
        on = f", {self.steps()} on {units_text(self.last.units)}" if self.last else ""
        return f"{self.instructions} instructions, {self.tasks} tasks ({self.way}){on}"


def units_text(units: int) -> str:
    return "1 unit" if units == 1 else f"{units} units"


@dataclass
class Chosen:
    """What was made: all that was measured on the units asked for, and the best cut on one unit, which they have to beat."""

    choices: list[Choice] = field(default_factory=list)
    rival: Choice | None = None

    @property
    def best(self) -> Choice:
        return min(self.choices, key=lambda it: it.last.key if it.last else (0, 0))

    def measured(self) -> str:
        """The best of each policy, and how many versions were measured."""
        best: dict[str, Choice] = {}
        for it in sorted(self.choices, key=lambda it: it.last.key if it.last else (0, 0)):
            best.setdefault(it.way.policy, it)
        return "; ".join(f"{it.way.policy} {it.steps()}" for it in best.values()) + f"; {len(self.choices)} versions measured"

    def speed_up(self) -> float | None:
        """How many times as fast the best is as the best cut on one unit."""
        best = self.best
        if not (self.rival and best.last and best.last.ended and self.rival.on_one.ended):
            return None
        return self.rival.on_one.steps / best.last.steps

    def speed_up_text(self) -> str:
        against, best = self.speed_up(), self.best
        if against is None:
            return "the run does not end within the budget, so there is no speed-up to tell"
        itself = best.on_one.steps / best.last.steps
        of_rival = f"{against:.2f} times as fast as the best cut on one unit ({self.rival.on_one.steps} steps: {self.rival.way})"
        return f"{of_rival}; {itself:.2f} times as its own run there ({best.on_one.steps})"


class Shape:
    """A program whose code was changed in one way, with what its run in order tells of it."""

    def __init__(self, program: Program, code: str, tool: Tool) -> None:
        self.code = code
        self.program = program.copied()
        if "copied" in code:
            with_copies(self.program)
        if "moved" in code:
            with_inductions_first(self.program)
            with_blocks_in_order(self.program)
        self.tool = tool
        self.flow = Flow(self.program)
        # The labels of basic blocks, as often as the program came there.
        self.trace: list[str] | None = None

    def followed(self, made: Cut) -> Counter:
        """How often each task followed each, by where they begin in the code that is cut."""
        index_of = made.flow.index_of
        entries = {task.entry for task in made.tasks}
        begun = [place for place in (index_of.get(label, -1) for label in self.trace) if place in entries]
        return Counter(zip(begun, begun[1:]))

    def run_in_order(self) -> list[str]:
        """What the run on one unit tells. Each place gets a label, so that it is known again between releases."""
        program = self.program.copied()
        made = divided(program, Way("blocks", "own", "none"), self.flow.of_copy(program))
        for task in made.tasks:
            label = label_at(program, task.entry)
            if task.entry < len(self.program.code) and not self.program.code[task.entry].labels:
                self.program.code[task.entry].labels.append(label)
        writer = Writer(program, made, [])
        label_of = {name: program.code[index].labels[0] for index, name in writer.names.of_index.items() if program.code[index].labels}
        return [label_of[it] for it in self.tool.tasks_in_order(marked(writer, self.tool))]


def divided(program: Program, way: Way, flow: Flow) -> Cut:
    """Cuts a program of this flow; jumps with too many places become trees, and releases are put in."""
    for index in way.begins or ():
        program.code[index].begins_task = True
    policy = "calls" if way.begins is not None else way.policy
    while True:
        made = cut(flow, policy, way.leaves == "joined")
        wide = wide_jumps(made)
        if not wide:
            break
        spread(program, made.flow, wide)
        flow = Flow(program)
    if way.release != "none":
        program.code = with_releases(made, way.release)
        made = cut(Flow(program), policy, way.leaves == "joined")
    if len(made.tasks) > MOST_TASKS:
        raise refuse(Place(), f"the policy {way.policy} makes {len(made.tasks)} tasks; there are at most {MOST_TASKS}")
    if len(program.code) > MOST_INSTRUCTIONS:
        why = f"with its trees and releases ({way}) the program has {len(program.code)} instructions"
        raise refuse(Place(), f"{why}; there are at most {MOST_INSTRUCTIONS}")
    return made


def written(shape: Shape, way: Way, tool: Tool, head: list[str], is_plain: bool, is_bare: bool = False) -> Choice:
    """A text made in one way, bare if it is only to be measured. The run on one unit says which target follows most often."""
    if not is_plain and shape.trace is None:
        shape.trace = shape.run_in_order()
    program = shape.program.copied()
    made = divided(program, way, shape.flow.of_copy(program))
    about = [] if is_bare else [*head, f"Tasks: {way}. This translation is not proved; `multiscalar check` judges its marks."]
    writer = Writer(program, made, about, is_bare)
    if not is_plain:
        writer.followed = shape.followed(made)
    return Choice(way, marked(writer, tool), len(made.tasks), program)


def judge(choice: Choice, tool: Tool) -> Choice:
    is_right, said = tool.verdict(choice.text)
    if not is_right:
        raise ToolFailed(f"the program made by ({choice.way}) is not accepted: a fault in c2ms.py:\n{said[:1000]}")
    return choice


def marked(writer: Writer, tool: Tool) -> str:
    """The text with create masks and forward bits; a forward bit of the author's that would be wrong is refused."""
    text = writer.text()
    done = tool.marked(text)
    lines = done.split("\n")
    reasons = []
    for line, place in writer.own_forwards.items():
        if "!f" not in lines[line - 1].split("#")[0]:
            reasons.append((place, "!f stands here, and the task may write the register again"))
    if reasons:
        raise Refused(reasons)
    return aligned(done)


# What the program returns


def with_result(it: Instruction) -> list[Instruction]:
    """Before each halt stands an instruction that puts out $2: what main returned, or what exit was given."""
    if it.form != "halt":
        return [it]
    last = Instruction("out", (2,), None, it.place, labels=it.labels, begins_task=it.begins_task)
    return [last, replace(it, labels=[], begins_task=False)]


def result_of(choice: Choice, tool: Tool) -> int | None:
    """The result of main, or of exit, if the program halts: of a text like this one whose last word it is."""
    program = choice.program.copied()
    program.code = [made for it in program.code for made in with_result(it)]
    word = tool.last_word(Writer(program, cut(Flow(program), "calls", False), []).text())
    return word if word is None or word < 0x80000000 else word - 0x100000000
