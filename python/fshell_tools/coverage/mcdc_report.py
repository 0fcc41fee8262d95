"""What is said of the conditions of decisions, as text and as JSON: the report of fshell mcdc."""

import json
from collections.abc import Iterator, Sequence
from typing import Any

from fshell_tools.bounds.sufficiency import Left
from fshell_tools.campaign.request import read_sums
from fshell_tools.core import inputs, verdicts
from fshell_tools.core.reports import Input
from fshell_tools.core.sources import Faces
from fshell_tools.core.verdicts import Tally, Verdict
from fshell_tools.coverage.decisions import Decision, Path, Test
from fshell_tools.coverage.masking import NONE, REFUTED, SHOWN, TAKEN, Asked, shown

APART = ("ASSERT", "ASSUME")
# what is said behind `no pair`
NO_PAIR = {
    Verdict.UNREACHABLE: "at all",
    Verdict.REFUTED: "within the bounds",
    Verdict.RETURNING: "of runs that return",
    Verdict.FAILS: "of runs that return, but runs that fail take a path",
    Verdict.OUTSIDE: "within the assumptions",
}


class Found:
    """All decisions with what is known of them, the inputs, and what is known of the bounds."""

    def __init__(self, faces: Faces, all_asked: list[Asked], given: list[Input], left: Left) -> None:
        self.faces, self.given, self.left = faces, given, left
        self.decisions = [asked for asked in all_asked if asked.decision.first.kind not in APART]
        self.apart = [asked for asked in all_asked if asked.decision.first.kind in APART]

    def verdict(self, asked: Asked, node: int) -> Verdict:
        """What is said of a condition of a decision, by its node. Where no two paths show it, no bounds matter."""
        found = shown(asked, node)
        if found.state == SHOWN:
            return Verdict.COVERED
        return asked.of_pairs(node) if found.state == NONE else Verdict.UNDECIDED

    def tally(self, some: list[Asked]) -> Tally:
        """How many conditions of some decisions have which verdict."""
        conditions = [(asked, test) for asked in some for test in asked.decision.tests]
        return verdicts.tally(self.verdict(asked, test.node) for asked, test in conditions)

    @property
    def is_open(self) -> bool:
        """Whether some condition or outcome is undecided."""
        return self.tally(self.decisions + self.apart).is_open


class Text:
    """Writes the report of fshell mcdc for people, line by line."""

    def __init__(self, found: Found) -> None:
        self.found, self.faces, self.given = found, found.faces, found.given

    def path(self, asked: Asked, number: int, path: Path) -> str:
        """The line of a path: a value for each condition, the outcome, and an input."""
        values = path.values()
        row = " ".join({True: "T", False: "F", None: "-"}[values.get(test.node)] for test in asked.decision.tests)
        state = asked.state(number)
        goals = ", ".join(map(str, asked.goals.get(number, [])))
        behind = (
            f"input {asked.inputs[number]}: {self.given[asked.inputs[number] - 1].told()}" if state == TAKEN else state
        )
        behind += f", goal {goals}" if state == REFUTED else ""
        said = [ending for goal in asked.goals.get(number, []) if (ending := asked.judged.get(goal, (None, None))[1])]
        behind += f"; {asked.verdict(number)}, {said[0].text}" if said and state == REFUTED else ""
        return f"  path {number + 1}: {row} is {'true' if path.outcome else 'false'}, {behind}"

    def condition(self, asked: Asked, number: int) -> str:
        """What is known of a condition, by its place in the decision from 0: the pair of inputs and paths that shows
        it, or why none does."""
        test = asked.decision.tests[number]
        found = shown(asked, test.node)
        text = f"  condition {number + 1}: {self.faces.condition(test.guards[0])}: "
        if found.pair:
            first, second = (path + 1 for path in found.pair)
            one, other = (asked.inputs[path] for path in found.pair)
            return text + f"inputs {one} and {other}, by paths {first} and {second}"
        if found.state == NONE and found.needed:
            within = NO_PAIR[self.found.verdict(asked, test.node)]
            return text + f"no pair {within}, by refuted paths {' '.join(str(path + 1) for path in found.needed)}"
        return text + ("no two paths show it" if found.state == NONE else "undecided")

    def decision(self, asked: Asked) -> Iterator[str]:
        """What is known of a decision: a line for it, one for each path and each condition, and the query that asks for
        paths that aren't reached."""
        one = asked.decision
        yield f"decision {one.number}: {self.faces.place(one.first)} {self.faces.name(one.function)}: {one.statement}"
        if asked.why:
            yield f"  {asked.why}"
        yield from (self.path(asked, number, path) for number, path in enumerate(one.paths))
        yield from (self.condition(asked, number) for number in range(len(one.tests)))
        if any(asked.state(path) == REFUTED for path in range(len(one.paths))):
            yield f"  goals of: {asked.query}"

    def total(self, some: list[Asked], what: str) -> str:
        """The counts of some decisions' conditions."""
        counts = self.found.tally(some).counts
        none = sum(counts[one] for one in verdicts.UNHIT)
        told = f"{counts[Verdict.COVERED]} shown, {none} without a pair, {counts[Verdict.UNDECIDED]} undecided"
        return f"conditions {sum(counts.values())} of {len(some)} {what}: {told}"

    def lines(self, checked: str) -> Iterator[str]:
        """All lines: the decisions, and then asserts and assumes."""
        found = self.found
        for asked in found.decisions + found.apart:
            yield from self.decision(asked)
        if found.apart:
            yield self.total(found.apart, "asserts and assumes")
        yield self.total(found.decisions, "decisions") + checked
        if found.decisions:
            yield found.tally(found.decisions).line("conditions")
        if found.left.limits.suffice is not None:
            yield from found.left.lines()


# ---- JSON


def path_value(asked: Asked, number: int, path: Path) -> dict[str, object]:
    """A path, by its number from 0, as the report's JSON has it: values, outcome, state, and its input or its goals."""
    values = [path.values().get(test.node) for test in asked.decision.tests]
    value: dict[str, object] = {"values": values, "outcome": path.outcome, "state": asked.state(number)}
    if number in asked.inputs:
        return value | {"input": asked.inputs[number]}
    return value | {"goals": asked.goals.get(number, [])}


def condition_value(found: Found, asked: Asked, test: Test) -> dict[str, object]:
    """A condition as JSON; `edge` is the letter of its guard of truth."""
    known, edge = shown(asked, test.node), test.guards[0]
    text = found.faces.condition(edge)
    value: dict[str, object] = {"text": text, "edge": f"e{edge.number}@{edge.file}:{edge.line}", "state": known.state}
    value["answer"] = found.verdict(asked, test.node)
    if known.pair:
        value["inputs"] = [asked.inputs[path] for path in known.pair]
    return value | {"refuted": [path + 1 for path in known.needed]}


def decision_value(found: Found, asked: Asked) -> dict[str, object]:
    """A decision as the report's JSON has it: place, function, query, conditions and paths."""
    one: Decision = asked.decision
    value: dict[str, object] = {"place": found.faces.place(one.first), "function": one.function, "query": asked.query}
    value |= {"why": asked.why} if asked.why else {}
    value["conditions"] = [condition_value(found, asked, test) for test in one.tests]
    value["paths"] = [path_value(asked, number, path) for number, path in enumerate(one.paths)]
    return value


def json_text(found: Found, entry: str, sources: Sequence[str], bounds: dict[str, int]) -> str:
    """The report as one line of JSON."""
    given: list[dict[str, Any]] = [{"answers": [], **one} for one in json.loads(inputs.json_text(found.given))]
    value: dict[str, Any] = {
        "entry": entry,
        "sources": list(sources),
        "sums": read_sums(tuple(sources), "."),
        "bounds": bounds,
    }
    value |= {"inputs": given}
    value["decisions"] = [decision_value(found, asked) for asked in found.decisions]
    value["asserts"] = [decision_value(found, asked) for asked in found.apart]
    counts = found.tally(found.decisions).counts
    return json.dumps(value | {"counts": {one: counts[one] for one in Verdict}})
