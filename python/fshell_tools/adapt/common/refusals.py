"""What is refused: each cause with its place and with what to do, all of them gathered."""

from collections.abc import Iterator
from contextlib import contextmanager
from typing import Optional

from fshell_tools.adapt.common.feedback import Learned
from fshell_tools.adapt.common.tree import Coord

JUDGED = "the compiler says"


class Stop(Exception):
    """The tool can't go on: an input or a program of the machine is missing. Its text is one line."""


class Refused(Exception):
    """What is at hand can't be written in the profile."""

    def __init__(self, coord: Optional[Coord], cause: str, advice: str) -> None:
        super().__init__(cause)
        self.coord, self.cause, self.advice = coord, cause, advice


class Refusals:
    """The refusals so far, one for each place and cause."""

    def __init__(self) -> None:
        self.found: set[tuple[str, int, str]] = set()
        self.at_hand: Optional[Coord] = None
        self.apart: set[Learned] = set()  # what the next reading takes otherwise

    def go(self, coord: Optional[Coord]) -> None:
        """What is refused from now on and has no place of its own stands at this one."""
        self.at_hand = coord if coord and coord.file else self.at_hand

    def add(self, coord: Optional[Coord], cause: str, advice: str) -> None:
        """Adds a refusal; one without a place stands where the statement at hand does."""
        placed = coord if coord and coord.file else self.at_hand
        file, line = (placed.file, placed.line) if placed else ("", 0)
        self.found.add((file, line, f"{cause}; {advice}"))

    @contextmanager
    def gathered(self) -> Iterator[None]:
        """A refusal within is gathered, and what comes after it goes on."""
        try:
            yield
        except Refused as refused:
            self.add(refused.coord, refused.cause, refused.advice)

    def lines(self) -> list[str]:
        """A line each; where the compiler refused a line, what it says of it alone."""
        judged = {(file, line) for file, line, text in self.found if text.startswith(JUDGED)}
        kept = [one for one in sorted(self.found) if one[:2] not in judged or one[2].startswith(JUDGED)]
        return [f"{file}:{line}: {text}" for file, line, text in kept]
