"""Why a program is refused, and where: each reason stands at a line of C or of assembly."""

from dataclasses import dataclass


@dataclass(frozen=True)
class Place:
    """A line of a file, counted from 1; 0 where no line is known."""

    file: str = ""
    line: int = 0

    def __str__(self) -> str:
        return f"{self.file}:{self.line}" if self.line else self.file


class Refused(Exception):
    """The program cannot be translated, for one reason or several."""

    def __init__(self, reasons: list[tuple[Place, str]]) -> None:
        super().__init__("refused")
        self.reasons = reasons

    def __str__(self) -> str:
        return "\n".join(f"{place}: refused: {why}" if str(place) else f"refused: {why}" for place, why in self.reasons)


def refuse(place: Place, why: str) -> Refused:
    return Refused([(place, why)])
