"""Reads the JSON report of fshell mcdc: its conditions as goals, for the page and the campaign."""

import json
from dataclasses import dataclass
from typing import Any

from fshell_tools.core import inputs, program, verdicts
from fshell_tools.core.program import Failure
from fshell_tools.core.reports import Goal, Input, Report
from fshell_tools.core.verdicts import Tally, Verdict


@dataclass(frozen=True)
class Conditions:
    """A report of fshell mcdc: each condition of a decision is a goal, whose text is the letter of its guard of truth."""

    entry: str
    sources: tuple[str, ...]
    sums: tuple[str, ...]
    bounds: dict[str, int]
    given: list[Input]
    goals: list[Goal]
    verdicts: list[Verdict]

    @property
    def tally(self) -> Tally:
        """How many verdicts of each kind there are."""
        return verdicts.tally(self.verdicts)

    def report(self) -> Report:
        """The same as a report of the program has it."""
        return Report("generate", self.goals, self.given, bounds=self.bounds)


def of_value(value: Any) -> Conditions:
    """The report that a JSON value is; KeyError, TypeError or ValueError where it is none."""
    goals: list[Goal] = []
    said: list[Verdict] = []
    for decision in value["decisions"]:
        for condition in decision["conditions"]:
            said.append(Verdict(condition["answer"]))
            first = condition["inputs"][0] if "inputs" in condition else None
            goals.append(Goal(len(goals) + 1, said[-1].mark, first, str(condition["edge"])))
    given = [inputs.of_object(one) for one in value["inputs"]]
    bounds = {name: int(value["bounds"][name]) for name in ("turns", "frames", "answers")}
    return Conditions(value["entry"], tuple(value["sources"]), tuple(value["sums"]), bounds, given, goals, said)


def of_file(path: str) -> Conditions | None:
    """The report in a file; None where it is no JSON with decisions, and a failure where it isn't whole."""
    try:
        text = program.read(path).decode()
        value = json.loads(text) if text.startswith("{") else {}
    except (ValueError, RecursionError):
        return None
    if not isinstance(value, dict) or "decisions" not in value:
        return None
    try:
        return of_value(value)
    except (KeyError, TypeError, ValueError) as fault:
        raise Failure(f"{path}: it is no whole report of mcdc: {fault}") from None
