"""Records of what is known of a module: tests, goals with their verdicts, and conditions."""

from dataclasses import dataclass, field
from typing import Any

from fshell_tools.core.verdicts import Verdict

# of several entries' verdicts on a goal, the first in this order is the module's
ORDER = (
    Verdict.COVERED,
    Verdict.FAILS,
    Verdict.UNDECIDED,
    Verdict.MISSED,
    Verdict.RETURNING,
    Verdict.REFUTED,
    Verdict.OUTSIDE,
    Verdict.UNREACHABLE,
)


@dataclass
class Test:
    """An input of an entry, with the requirements that it names; `is_given` says that a file of the settings has it,
    else it was made. `end` is how its run ends and `value` its object with names, once the runs are made."""

    id: str
    entry: str
    args: tuple[int, ...]
    answers: tuple[int, ...]
    requirements: tuple[str, ...]
    is_given: bool
    end: str = ""
    value: dict[str, Any] = field(default_factory=dict)

    @property
    def numbers(self) -> tuple[tuple[int, ...], tuple[int, ...]]:
        """Its arguments and its answers, by which inputs are compared."""
        return self.args, self.answers


@dataclass
class Goal:
    """A goal of an entry's query: the name of its task, its number there from 1, its text as the program writes it, its
    verdict, and where there are some the test that covers it and the path of its certificate from the work folder."""

    entry: str
    task: str
    number: int
    text: str
    verdict: Verdict
    test: Test | None = None
    certificate: str = ""


@dataclass
class Row:
    """A goal of a criterion over all entries that ask for it: the unit's file, the line and the column from 1 in the
    user's own source, the module's verdict (the first of ORDER that an entry has), and the entries' goals."""

    criterion: str
    text: str
    function: str
    file: str
    line: int
    column: int
    verdict: Verdict
    goals: list[Goal]

    @property
    def place(self) -> str:
        """FILE:LINE, as pages show it."""
        return f"{self.file}:{self.line}"

    @property
    def test(self) -> Test | None:
        """The first test that covers it, or None."""
        return next((goal.test for goal in self.goals if goal.test), None)


@dataclass
class Condition:
    """A condition of a decision, at FILE:LINE:COLUMN, with the decision's statement; its `state` is one of SHOWN,
    NO_PAIR, NONE_WITHIN and OPEN, and `pair` has the two tests that show it, or is empty."""

    function: str
    place: str
    statement: str
    text: str
    state: str
    pair: list[Test]


NO_PAIR, NONE_WITHIN, SHOWN, OPEN = ("no pair", "no pair within the bounds", "shown", "undecided")
# what the verdict of fshell mcdc on a condition means
STATES = {Verdict.COVERED: SHOWN, Verdict.UNREACHABLE: NO_PAIR}
STATES |= {one: NONE_WITHIN for one in (Verdict.REFUTED, Verdict.RETURNING, Verdict.FAILS, Verdict.OUTSIDE)}


@dataclass(frozen=True)
class Trap:
    """A run of an entry that a trap ends: the trap, the place in the user's own source, what stands there, the input in words, and
    the names by which the gate may allow it."""

    entry: str
    end: str
    place: str
    what: str
    input: str
    names: tuple[str, ...]

    @property
    def text(self) -> str:
        """What is told of it, without its place."""
        return f"a run of {self.entry} ends here, {self.end}: {self.what}, by the input {self.input}"
