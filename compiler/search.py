"""Looks for the best way to cut a program: by rules first, then by changing one place after the other, as runs judge it.

The search counts what its trials cost rather than look at a clock, so that the same seed gives the same result on each
machine; the costs are about those of a machine of today.
"""

import random
from itertools import cycle

from block_order import ENDS
from choice import SHAPES, Choice, Chosen, Settings, Shape, Way, judge, written
from flow import Flow
from instructions import MEMORY
from linking import Program
from refusal import Refused
from releases import MODES
from tasks import POLICIES, heads, leaders
from tool import Steps, Tool

# What a trial costs in seconds: to make the text, for each instruction of it, to run it, for each step of that.
TEXT, INSTRUCTION, RUN, STEP = 0.005, 0.00006, 0.003, 0.0000006
# How many of the best cuts by rules the search goes on from.
BEGINS = 3


class Trials:
    """Texts that were made and measured, each way once."""

    def __init__(self, program: Program, settings: Settings, tool: Tool, head: list[str]) -> None:
        self.program, self.settings, self.tool, self.head = program, settings, tool, head
        self.shapes: dict[str, Shape] = {}
        self.known: dict[Way, Choice | None] = {}
        self.first_refusal: Refused | None = None
        # The steps of each text; two ways may lead to one.
        self.steps: dict[str, Steps] = {}
        self.seconds = 0.0

    def shape(self, code: str) -> Shape:
        if code not in self.shapes:
            self.shapes[code] = Shape(self.program, code, self.tool)
        return self.shapes[code]

    def made(self, way: Way, is_bare: bool = False) -> Choice | None:
        """A text that is not measured yet, or None if the program cannot be cut so."""
        try:
            return written(self.shape(way.code), way, self.tool, self.head, self.settings.plain, is_bare)
        except Refused as refused:
            self.first_refusal = self.first_refusal or refused
            return None

    def choice(self, way: Way) -> Choice | None:
        if way not in self.known:
            choice = self.made(way, is_bare=True)
            if choice:
                self.seconds += TEXT + choice.instructions * INSTRUCTION
                if choice.text not in self.steps:
                    self.steps[choice.text] = self.tool.steps(choice.text, self.settings.units)
                    self.seconds += RUN + self.steps[choice.text].steps * STEP
                choice.last = self.steps[choice.text]
            self.known[way] = choice
        return self.known[way]

    def key(self, way: Way) -> tuple:
        """Less is better."""
        choice = self.choice(way)
        return choice.last.key if choice else (2, 0)


def chosen(trials: Trials) -> Chosen:
    """The texts that were made, the best of them accepted, and what it has to beat."""
    settings, tool = trials.settings, trials.tool
    codes = distinct_shapes(trials)
    ways = ways_by_rules(settings, codes)
    if len(ways) == 1 and settings.release != "auto" or settings.plain and len(ways) == 1:
        choice = trials.made(ways[0])
        if not choice:
            raise trials.first_refusal
        return Chosen([judge(choice, tool)])
    best = by_rules(trials, ways)
    if settings.tasks == "auto" and not settings.plain:
        climb(trials, best)
    found = Chosen([it for it in trials.known.values() if it])
    if not found.choices:
        raise trials.first_refusal
    best = found.best
    best.text = trials.made(best.way).text
    best.on_one = tool.steps(judge(best, tool).text, 1)
    found.rival = rival(trials, codes, best)
    return found


def distinct_shapes(trials: Trials) -> list[str]:
    """The shapes of the code that are asked for, without those that change nothing more."""
    settings = trials.settings
    asked = ("kept",) if settings.plain else SHAPES if settings.code == "auto" else (settings.code,)
    found: dict[tuple, str] = {}
    for code in asked:
        texts = tuple((it.name, it.registers, it.value) for it in trials.shape(code).program.code)
        found.setdefault(texts, code)
    return list(found.values())


def ways_by_rules(settings: Settings, codes: list[str]) -> list[Way]:
    policies = POLICIES if settings.tasks == "auto" else (settings.tasks,)
    leaves = settings.leaves if settings.leaves != "auto" else "own"
    release = settings.release if settings.release != "auto" else "none" if settings.plain else "early"
    return [Way(policy, leaves, release, code) for code in codes for policy in policies]


def by_rules(trials: Trials, ways: list[Way]) -> list[Way]:
    """The best ways by rules: first where tasks begin, then, with the best of these, leaves and releases."""
    settings = trials.settings
    best = different(sorted(ways, key=trials.key))
    for leaves in ("own", "joined") if settings.leaves == "auto" and not settings.plain else ():
        for mode in MODES if settings.release == "auto" else (settings.release,):
            ways = ways + [Way(it.policy, leaves, mode, it.code) for it in best]
    return different(sorted(dict.fromkeys(ways), key=trials.key))


def different(ways: list[Way]) -> list[Way]:
    """The first ways that differ in where tasks begin, or in the code."""
    found: dict[tuple[str, str], Way] = {}
    for way in ways:
        found.setdefault((way.policy, way.code), way)
    return list(found.values())[:BEGINS]


def rival(trials: Trials, codes: list[str], best: Choice) -> Choice:
    """What needs the fewest steps on one unit: of the cuts with the fewest tasks and no releases, and the best one's own."""
    found = [best]
    for code in codes:
        for leaves in ("own", "joined"):
            choice = trials.made(Way("calls", leaves, "none", code), is_bare=True)
            if choice:
                choice.on_one = trials.tool.steps(choice.text, 1)
                found.append(choice)
    return min(found, key=lambda it: it.on_one.key)


# The search


def climb(trials: Trials, begins: list[Way]) -> None:
    """Goes on from each of these ways in turn, as long as it gets better and the time lasts."""
    settings = trials.settings
    end = trials.seconds + settings.seconds
    chance = random.Random(settings.seed)
    climbers = [Climber(trials, it, random.Random(chance.random())) for it in begins if trials.choice(it)]
    for climber in cycle(climbers):
        if trials.seconds >= end:
            return
        climber.step()
        if all(it.is_stuck for it in climbers):
            return


class Climber:
    """One way that is changed bit by bit."""

    def __init__(self, trials: Trials, way: Way, chance: random.Random) -> None:
        self.trials, self.chance = trials, chance
        flow = trials.shape(way.code).flow
        begins = way.begins if way.begins is not None else frozenset(heads(flow, way.policy))
        self.now = Way("searched", way.leaves, way.release, way.code, begins)
        self.best = trials.key(way)
        self.places = self.ordered(flow)
        self.waiting = list(self.places)
        self.failed = 0

    @property
    def is_stuck(self) -> bool:
        return self.failed > 4 * len(self.places) + 20

    def ordered(self, flow: Flow) -> list[int]:
        """Where tasks might begin, what runs most often first."""
        shape = self.trials.shape(self.now.code)
        index_of = shape.program.index_of()
        often: dict[int, int] = {}
        for label in shape.trace or []:
            place = index_of.get(label, -1)
            often[place] = often.get(place, 0) + 1
        places = leaders(flow) | {it for policy in POLICIES for it in heads(flow, policy)}
        begins = leaders(flow) | set(flow.functions)
        for first in [it for it in often if it >= 0]:
            place = behind_memory(flow, first, begins)
            if place:
                often.setdefault(place, often[first])
                places.add(place)
        return sorted((it for it in places if often.get(it)), key=lambda it: (-often[it], it))

    def step(self) -> None:
        """Tries one change: each place in turn, then leaves and releases, then two or three places at once."""
        if self.waiting:
            tried = [self.changed({self.waiting.pop(0)})]
        elif self.failed == len(self.places):
            tried = self.other_marks()
        elif self.places:
            count = min(self.chance.choice((2, 2, 3)), len(self.places))
            tried = [self.changed(set(self.chance.sample(self.places[:40], min(count, len(self.places[:40])))))]
        else:
            tried = []
        self.failed += 1
        for way in tried:
            key = self.trials.key(way)
            if key < self.best:
                self.now, self.best, self.failed = way, key, 0
                if not self.waiting:
                    self.waiting = list(self.places)

    def changed(self, places: set[int]) -> Way:
        now = self.now
        return Way(now.policy, now.leaves, now.release, now.code, now.begins ^ places)

    def other_marks(self) -> list[Way]:
        settings, now = self.trials.settings, self.now
        leaves = ("own", "joined") if settings.leaves == "auto" else (now.leaves,)
        modes = MODES if settings.release == "auto" else (now.release,)
        return [Way(now.policy, leaf, mode, now.code, now.begins) for leaf in leaves for mode in modes]


def behind_memory(flow: Flow, first: int, begins: set[int]) -> int | None:
    """The place behind the last access to memory of a block, if something is left there.

    A task that ends with its last access makes the next one the head, whose turn it is then.
    """
    behind = last = first
    while last + 1 < len(flow.code) and last + 1 not in begins and flow.code[last].form not in ENDS:
        behind = last + 1 if flow.code[last].form in MEMORY else behind
        last += 1
    return behind if behind > first else None
