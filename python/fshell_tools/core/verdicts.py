"""What is said of goals: one vocabulary for all tools, what a percentage is of, and when a gate passes.

`refuted within the bounds` is what the program says of a goal: no counted run within the bounds hits it. `unreachable` is said of
it only where no run of any end hits it, `bounds` says that no run at all leaves the same bounds, and nothing restricts that
(`Limits.restriction`). A goal that runs hit which don't return `fails before it returns`; one that blocked runs alone hit is
`outside of the assumptions`; where neither is known, it is `refuted for runs that return` (docs/VERDICTS.md). A percentage is
covered of the goals less the unreachable ones and those outside of the assumptions.
"""

import argparse
import enum
from collections import Counter
from collections.abc import Iterable
from dataclasses import dataclass, field

from fshell_tools.core.reports import Input


class Verdict(enum.StrEnum):
    """What is said of a goal, in the words of reports."""

    COVERED = "covered"
    MISSED = "missed"
    UNDECIDED = "undecided"
    REFUTED = "refuted within the bounds"
    RETURNING = "refuted for runs that return"
    FAILS = "fails before it returns"
    OUTSIDE = "outside of the assumptions"
    UNREACHABLE = "unreachable"

    @property
    def mark(self) -> str:
        """The verdict in one word, as the program writes it, for options and styles."""
        return _MARKS.get(self.value, self.value)


_MARKS = {
    "refuted within the bounds": "refuted",
    "refuted for runs that return": "returning",
    "fails before it returns": "fails",
    "outside of the assumptions": "outside",
}
# the words of the program's reports
WORDS = {one.mark: one for one in (Verdict.COVERED, Verdict.MISSED, Verdict.UNDECIDED, Verdict.REFUTED)}
# what stands behind a certificate that no counted run hits the goal
UNHIT = (Verdict.REFUTED, Verdict.RETURNING, Verdict.FAILS, Verdict.OUTSIDE, Verdict.UNREACHABLE)
# what no percentage is of
LEFT_OUT = (Verdict.UNREACHABLE, Verdict.OUTSIDE)


@dataclass(frozen=True)
class Limits:
    """What is known of bounds: whether the program says that no run leaves them (None: it wasn't asked, or left it open), an
    input whose run does, and where that leaves them. `restriction` is why a refuted goal isn't called unreachable though the
    bounds suffice, such as the place of an expression whose order of evaluation C leaves open."""

    suffice: bool | None = None
    left: Input | None = None
    where: str = ""
    restriction: str = ""

    @property
    def make_unreachable(self) -> bool:
        """Whether a goal that is refuted within them is unreachable."""
        return self.suffice is True and not self.restriction


UNKNOWN = Limits()


def of_word(word: str) -> Verdict:
    """The verdict that a word of the program's report means by itself; KeyError where it is none."""
    return WORDS[word]


@dataclass(frozen=True)
class Tally:
    """How many goals have which verdict."""

    counts: Counter[Verdict] = field(default_factory=Counter)

    @property
    def goals(self) -> int:
        """How many goals were counted."""
        return sum(self.counts.values())

    @property
    def reachable(self) -> int:
        """The goals of which a percentage is taken: all but the unreachable ones and those outside of the assumptions."""
        return self.goals - sum(self.counts[one] for one in LEFT_OUT)

    @property
    def is_open(self) -> bool:
        """Whether some are undecided."""
        return self.counts[Verdict.UNDECIDED] > 0

    def line(self, what: str = "goals") -> str:
        """The percentage in words."""
        covered, of_all = self.counts[Verdict.COVERED], self.reachable
        part = f", {percentage(covered, of_all)}" if of_all else ""
        others = " or outside of the assumptions" if self.counts[Verdict.OUTSIDE] else ""
        return f"covered {covered} of {of_all} {what} that aren't unreachable{others}{part}"

    def text(self, what: str = "goals") -> str:
        """The number of goals of each verdict that there is, and of those that are covered or undecided in any case."""
        always = (Verdict.COVERED, Verdict.UNDECIDED)
        told = [f"{self.counts[one]} {one}" for one in Verdict if self.counts[one] or one in always]
        return f"{what} {self.goals}: {', '.join(told)}"


def tally(verdicts: Iterable[Verdict]) -> Tally:
    """How many of them are which."""
    return Tally(Counter(verdicts))


def percentage(part: int, whole: int) -> str:
    """A percentage that is never rounded up: 100% means all."""
    hundredths = 10_000 * part // whole
    return f"{hundredths // 100}%" if hundredths % 100 == 0 else f"{hundredths // 100}.{hundredths % 100:02d}%"


def percent(word: str) -> float:
    """The number of percent of `--at-least`, from 0 to 100. Raises argparse.ArgumentTypeError for another text."""
    try:
        if 0 <= float(word) <= 100:
            return float(word)
    except ValueError:
        pass
    raise argparse.ArgumentTypeError(f"{word} isn't from 0 to 100")


def failures(found: Tally, at_least: float, made: int) -> list[str]:
    """Why a gate of so many percent fails, a line each; none where it passes. `made` is the number of inputs that there are."""
    why = []
    covered = found.counts[Verdict.COVERED]
    if not found.goals:
        why.append("the query has no goal, so nothing was tested")
    elif not found.reachable:
        outside = " or outside of the assumptions" if found.counts[Verdict.OUTSIDE] else ""
        why.append(f"each goal is unreachable{outside}, so nothing is left to be covered")
    elif 100 * covered < at_least * found.reachable:
        why.append(f"{percentage(covered, found.reachable)} is less than {at_least:g}%: {covered} of {found.reachable}")
    if not made:
        why.append("there is no input, so nothing was run")
    return why


def gate_line(at_least: float, why: list[str]) -> str:
    """The gate's judgement in one line, by why it fails."""
    return f"the gate of {at_least:g}% fails: {'; '.join(why)}" if why else f"the gate of {at_least:g}% passes"
