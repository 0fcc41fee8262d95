"""The rows of fshell rte: what is said of each operation that can end a run wrongly."""

import enum
import os
from collections import Counter
from collections.abc import Iterator
from dataclasses import dataclass, field

from fshell_tools.core.graph import Graph
from fshell_tools.core.reports import Input
from fshell_tools.core.verdicts import Limits
from fshell_tools.rte.failing_operations import CAUSES, Operation
from fshell_tools.rte.operand_predicates import Apart
from fshell_tools.rte.search import Failed, Known


UNSET = {"read", "result"}  # the kinds of operations that use what was never set
BY_TEXT = "by its constant alone"


class Verdict(enum.StrEnum):
    """What is said of an operation, in the words of a row (docs/TOOLS.md)."""

    NEVER = "never"
    WITHIN = "never within the bounds"
    FAILS = "fails"
    NOT_REACHED = "not reached"
    OPEN = "open"


@dataclass(frozen=True)
class Row:
    """An operation, or several that can't be told apart, and what is said of them: the verdict, why it isn't a better
    one, of a failure the input and the run's end, and the numbers of the goals."""

    place: str
    what: str
    verdict: Verdict
    why: str = ""
    input: Input | None = None
    end: str = ""
    operations: tuple[Operation, ...] = ()
    goals: tuple[int, ...] = field(default=())
    folder: str = ""  # of the certificates, where it isn't that of the whole
    number: int = 0  # of its input, by which the failure is repeated
    gcc: str = ""  # what gcc's sanitizers say of that run

    def of_gcc(self, said: str) -> str:
        """What gcc's sanitizers say of its run, or why they say nothing of it."""
        kinds = {one.kind for one in self.operations}
        return "its sanitizers don't look at this" if said and kinds and kinds <= UNSET else said

    def line(self) -> str:
        """The row as it is printed: PLACE: VERDICT: WHAT, and why."""
        why = f": {self.why}" if self.why else ""
        return f"{self.place}: {self.verdict}: {self.what}{why}"

    def lines(self, folder: str) -> Iterator[str]:
        """The row's line, and of a failure how it is repeated, and what gcc says of it; `folder` is that of fshell rte."""
        yield self.line()
        if self.number:
            yield f"  to repeat it: {os.path.join(folder, 'failures')} {self.number}"
        if self.gcc:
            yield f"  gcc: {self.gcc}"

    def value(self) -> dict[str, object]:
        """The row as rte.json has it."""
        value: dict[str, object] = {"place": self.place, "what": self.what, "verdict": self.verdict}
        value["operations"] = [{"kind": one.kind, "place": one.place, "text": one.text} for one in self.operations]
        value["goals"] = list(self.goals)
        if self.why:
            value["why"] = self.why
        if self.folder:
            value["folder"] = self.folder
        if self.input:
            value |= {"failure": self.number} | ({"gcc": self.gcc} if self.gcc else {})
            value |= {"end": self.end, "input": {"args": list(self.input.args), "answers": list(self.input.answers)}}
        return value


def refuted(limits: Limits, is_unreached: bool) -> tuple[Verdict, str]:
    """The verdict of an operation at which no run within the bounds ends, and why it isn't a better one, or nothing. Where
    another order of evaluation may fail there, it is open, whatever is known of the bounds."""
    if limits.restriction:
        return Verdict.OPEN, limits.restriction
    if not limits.make_unreachable:
        return Verdict.WITHIN, ""
    return (Verdict.NOT_REACHED if is_unreached else Verdict.NEVER), ""


class Rows:
    """Makes the rows of what is known. `unreached` are the nodes that no run comes to, `apart` what is known of
    operations of one step."""

    def __init__(self, graph: Graph, operations: list[Operation], known: Known, limits: Limits) -> None:
        self.graph, self.operations, self.known, self.limits = graph, operations, known, limits
        self.unreached: set[int] = set()
        self.apart: dict[int, dict[Operation, Apart]] = {}
        self.unknown = (
            self.without_operation()
        )  # by a function's name, a location there at which no known operation failed

    def without_operation(self) -> dict[str, str]:
        """Of each function where a run ends at a node that has no operation which ends it so, that node's location."""
        found: dict[str, str] = {}
        for node, failed in self.known.failed.items():
            kinds = CAUSES.get(failed.end, ())
            if not any(node in one.nodes and one.kind in kinds and not one.is_safe for one in self.operations):
                found.setdefault(self.graph.nodes[node].function, self.graph.nodes[node].place)
        return found

    def goals(self, nodes: frozenset[int]) -> tuple[int, ...]:
        """The numbers of the goals of nodes, of those that have one."""
        return tuple(sorted(self.known.goals[node] for node in nodes if node in self.known.goals))

    def all_never(self) -> set[int]:
        """The nodes of operations all of whose nodes are refuted."""
        return {node for one in self.operations if one.nodes <= self.known.refuted for node in one.nodes}

    def failing(self, node: int, failed: Failed) -> Iterator[Row]:
        """The rows of a node where a run ends: the operations there that are known to fail by themselves, or those that
        can have ended that run."""
        kinds = CAUSES.get(failed.end, ())
        there = [one for one in self.operations if node in one.nodes and not one.is_safe]
        apart = self.apart.get(node, {})
        alone = [one for one in there if one in apart and apart[one].failed]
        for one in alone:
            yield self.failed(node, (one,), apart[one].failed or failed)
        there = [one for one in there if one.kind in kinds]
        those = tuple(one for one in there if one not in apart or not apart[one].is_never) or tuple(there)
        if not alone:
            yield self.failed(node, those, failed)

    def failed(self, node: int, those: tuple[Operation, ...], failed: Failed) -> Row:
        """The row of the operations of which one ended a run; of none, a row of the node's place."""
        told = ", ".join(one.told if number == 0 else f"{one.told} ({one.place})" for number, one in enumerate(those))
        what = f"one of {told}" if len(those) > 1 else told or "a step without an operation that is known"
        why = f"{failed.end} by the input {failed.input.line()}"
        place = those[0].place if those else self.graph.nodes[node].place
        return Row(place, what, Verdict.FAILS, why, failed.input, failed.end, those, (self.known.goals[node],))

    def never_apart(self, one: Operation) -> Apart | None:
        """What shows that an operation never fails though another one of its step does; None where nothing does."""
        known = [self.apart[node][one] for node in one.nodes if one in self.apart.get(node, {})]
        return known[0] if known and known[0].is_never else None

    def single(self, one: Operation) -> Row:
        """The row of an operation that stands in none of those that fail."""
        unknown = {self.graph.nodes[node].function for node in one.nodes} & self.unknown.keys()
        if unknown:
            why = f"a run ends at {self.unknown[min(unknown)]}, in a step without an operation that is known"
            return Row(one.place, one.told, Verdict.OPEN, why, operations=(one,), goals=self.goals(one.nodes))
        if one.is_safe:
            verdict = Verdict.NOT_REACHED if one.nodes <= self.unreached else Verdict.NEVER
            return Row(one.place, one.told, verdict, BY_TEXT, operations=(one,), goals=self.goals(one.nodes))
        apart = self.never_apart(one)
        if apart:
            verdict, why = refuted(self.limits, one.nodes <= self.unreached)
            return Row(one.place, one.told, verdict, why, operations=(one,), goals=apart.goals, folder=apart.folder)
        verdict, why = self.said(one)
        return Row(one.place, one.told, verdict, why, operations=(one,), goals=self.goals(one.nodes))

    def said(self, one: Operation) -> tuple[Verdict, str]:
        """The verdict of an operation of which no failure is known, and why it isn't a better one."""
        failing = sorted(one.nodes & set(self.known.failed))
        if failing:
            known = [self.apart[node][one] for node in failing if one in self.apart.get(node, {})]
            if known and known[0].is_together:
                return Verdict.OPEN, "it fails only where another operation of the same step does"
            return Verdict.OPEN, "another operation of the same step fails"
        left = sorted(one.nodes - self.known.refuted)
        if left or not one.nodes:
            return (
                Verdict.OPEN,
                self.known.open.get(left[0], "its node has no goal") if left else "its node isn't known",
            )
        return refuted(self.limits, one.nodes <= self.unreached)

    def nameless(self) -> list[Row]:
        """A row for each node that is left open though no operation is known there."""
        named = {node for one in self.operations for node in one.nodes}
        return [
            Row(self.graph.nodes[node].place, "a step without an operation that is known", Verdict.OPEN, why,
                goals=(self.known.goals[node],))
            for node, why in self.known.open.items() if node not in named
        ]  # fmt: skip

    def rows(self) -> list[Row]:
        """All rows, in the order of the sources, those of nodes last; each operation is in one of them."""
        failing = [row for node, failed in self.known.failed.items() for row in self.failing(node, failed)]
        told = {one for row in failing for one in row.operations}
        made = failing + [self.single(one) for one in self.operations if one not in told] + self.nameless()
        order = {one.place: number for number, one in enumerate(self.operations)}
        return sorted(made, key=lambda row: order.get(row.place, len(order)))


def tally(rows: list[Row]) -> str:
    """How many rows there are and how many have which verdict, in a line."""
    counts = Counter(row.verdict for row in rows)
    told = [f"{counts[one]} {one}" for one in Verdict if counts[one]]
    return f"rows {len(rows)}" + (f": {', '.join(told)}" if told else "")


def is_clean(rows: list[Row], limits: Limits) -> bool:
    """Whether it is shown that no run at all ends wrongly: each row is `never` and the bounds suffice."""
    return limits.make_unreachable and all(row.verdict is Verdict.NEVER for row in rows)
