"""The tabs of the page beside the sources: the tables of MC/DC, requirements and run-time errors, where the data has them."""

import json
from collections.abc import Iterator
from dataclasses import dataclass, field
from typing import Any

from fshell_tools.campaign.state_folder import STEPS
from fshell_tools.core import inputs, program
from fshell_tools.core.program import Failure
from fshell_tools.core.verdicts import Verdict
from fshell_tools.coverage.explain import OPENED, end_line
from fshell_tools.coverage.page.data import Page
from fshell_tools.coverage.page.report_context import Shown

VALUES = {True: "T", False: "F", None: "-"}
# the keys of an input that name requirements: a text, or a list of texts
REQUIREMENTS = ("requirements", "requirement", "req")


@dataclass
class Condition:
    """A condition of a decision: its text, its verdict, the name of its goal in links, and the numbers, from 1, of the
    inputs that show it."""

    text: str
    verdict: Verdict
    link: str
    inputs: list[int]


@dataclass
class Decision:
    """The table of a decision: its conditions, and for each path their values, the outcome and what is known of it."""

    place: str
    function: str
    conditions: list[Condition]
    paths: list[tuple[list[str], str, str]] = field(default_factory=list)


@dataclass
class Requirement:
    """A requirement with its inputs, as they are told, and the names of the goals that one of them covers first."""

    name: str
    inputs: list[str] = field(default_factory=list)
    goals: list[str] = field(default_factory=list)


@dataclass
class Ended:
    """A run that was trapped, blocked or too deep: the report, the input's number from 1, the input, its end and its
    place."""

    report: str
    number: int
    input: str
    end: str
    place: str


def link(page: Page, report: int, goal: int) -> str:
    """A goal's name in links; `report` counts from 0, and is named where there are several."""
    return f"goal-{report + 1}-{goal}" if len(page.reports) > 1 else f"goal-{goal}"


def path_row(path: dict[str, Any]) -> tuple[list[str], str, str]:
    """A path of a decision: the values of its conditions (T, F, or - where it isn't evaluated), its outcome, and by
    which input it is taken, or else its state."""
    state = f"input {path['input']}" if "input" in path else str(path["state"])
    return [VALUES[value] for value in path["values"]], "true" if path["outcome"] else "false", state


def decisions(page: Page) -> list[Decision]:
    """The tables of the reports that fshell mcdc wrote as JSON, which were read before (python/fshell_tools/coverage/page/report_context.py)."""
    found: list[Decision] = []
    for number, one in enumerate(page.reports):
        value = mcdc_value(one)
        goal = 0
        for decision in value.get("decisions", []):
            table = Decision(decision["place"], decision["function"], [])
            for condition in decision["conditions"]:
                goal += 1
                verdict = Verdict(condition["answer"])
                table.conditions.append(
                    Condition(condition["text"], verdict, link(page, number, goal), condition.get("inputs", []))
                )
            table.paths = [path_row(path) for path in decision["paths"]]
            found.append(table)
    return found


def mcdc_value(one: Shown) -> dict[str, Any]:
    """The JSON of a report of fshell mcdc; an empty object of other reports, and where it can't be read."""
    if one.folder:
        return {}
    try:
        value = json.loads(program.read(one.name))
    except (Failure, ValueError, RecursionError):
        return {}
    return value if isinstance(value, dict) and "decisions" in value else {}


def named_requirements(own: str) -> Iterator[str]:
    """The requirements that the own keys of an input (the text of a JSON object, or nothing) name."""
    value = json.loads(own) if own else {}
    for key in REQUIREMENTS:
        words = value.get(key, [])
        yield from [str(word) for word in words] if isinstance(words, list) else [str(words)]


def requirements(page: Page) -> list[Requirement]:
    """The requirements that inputs name, in the order of their names."""
    found: dict[str, Requirement] = {}
    for number, one in enumerate(page.reports):
        for at, given in enumerate(one.given, 1):
            for name in named_requirements(given.own):
                row = found.setdefault(name, Requirement(name))
                row.inputs.append(f"input {at}: {given.line()}")
                covered = [goal for goal in one.report.goals if goal.input == at]
                row.goals += [link(page, number, goal.number) for goal in covered]
    return [found[name] for name in sorted(found)]


def errors(page: Page) -> list[Ended] | None:
    """The runs of inputs that were trapped, blocked or too deep, with their places; None where no run is known. Raises
    Failure where the program refuses the inputs."""
    known = [one for one in page.reports if one.entry and one.given]
    found: list[Ended] = []
    for one in known:
        with program.as_file(inputs.json_text(one.given)) as file:
            runs = program.report(["runs", one.entry, file, *one.sources, "--steps", STEPS], one.place).runs
        for run in runs:
            if run.end.split(" ")[0] in OPENED:
                told = one.given[run.number - 1].told()
                found.append(Ended(one.name, run.number, told, run.end, end_line(page.faces, run, one.entry)))
    return found if known else None
