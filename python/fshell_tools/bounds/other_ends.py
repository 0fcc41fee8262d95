"""Runs that don't return: which goals they hit, where they end, and what follows for goals that no counted run hits.

A goal is unreachable only where no run of any end hits it (`--ends any`) within bounds that suffice. A run that a trap ends is
undefined from there on (C11 3.4.3), so a compiled program may go on: a goal behind such a place isn't called unreachable. Where C
leaves open which part of an expression ends the run first (docs/ORDER.md: strict, end), the same holds behind each place where a
run ends without a return.
"""

import re
from collections.abc import Iterable, Mapping, Sequence
from dataclasses import dataclass, field
from typing import Any

from fshell_tools.bounds.sufficiency import options_of
from fshell_tools.core import graph as graphs
from fshell_tools.core import inputs, program
from fshell_tools.core.graph import Graph, Letter
from fshell_tools.core.program import RANGES, Failure
from fshell_tools.core.reports import Input, Report, Run
from fshell_tools.core.sources import Faces
from fshell_tools.core.verdicts import Limits, Verdict, of_word
from fshell_tools.order import main as order

STEPS = "1000000"
TOO_LARGE = ("error 80 ", "error 81 ", "error 82 ")
# the search for runs that trap has this many moves for each node
BUDGET = 50_000
# what a failed assert does is defined: it calls abort (C11 7.2.1.1p2), so nothing behind it is run
DEFINED = ("trapped assert", "blocked")


@dataclass(frozen=True)
class Question:
    """An entry with its sources, bounds and budget; the sources are named from `place`."""

    entry: str
    sources: tuple[str, ...]
    bounds: Mapping[str, int]
    budget: int
    place: str | None = None

    def report(self, query: str, ends: str, budget: int | None = None) -> Report | None:
        """What `generate` says of a query; None where its formula is too large. Raises Failure where the program refuses."""
        words = ["generate", self.entry, query, *self.sources, *options_of(dict(self.bounds))]
        words += ["--budget", str(budget or self.budget), "--ends", ends]
        ended = program.run(program.with_json(words), self.place)
        return None if ended.stderr.startswith(TOO_LARGE) else program.report_of(words, ended)

    def runs(self, given: list[Input]) -> list[Run]:
        """The runs of inputs, with their edges. Raises Failure where the program refuses them."""
        if not given:
            return []
        with program.as_file(inputs.json_text(given)) as path:
            return program.report(["runs", self.entry, path, *self.sources, "--steps", STEPS], self.place).runs


@dataclass(frozen=True)
class Ending:
    """A run that doesn't return: its input, how it ends in the program's words, the node, the place in the user's own source
    (FILE:LINE:COLUMN) and what stands there."""

    input: Input
    end: str
    node: int
    place: str
    what: str

    @property
    def is_crash(self) -> bool:
        """Whether a trap ends it."""
        return self.end.startswith("trapped")

    @property
    def text(self) -> str:
        """Where and how it ends, by which input, in one line."""
        return f"{self.end} at {self.place}: {self.what}, by the input {self.input.line()}"

    def value(self) -> dict[str, Any]:
        """The same as JSON."""
        given = {"args": list(self.input.args), "answers": list(self.input.answers)}
        return {"end": self.end, "place": self.place, "what": self.what, "input": given}


def ending_of(faces: Faces, entry: str, given: Input, run: Run) -> Ending | None:
    """Where a run ends that is trapped, blocked or too deep; None of one that returns or was cut."""
    if run.end.split(" ")[0] in ("returned", "cut"):
        return None
    graph = faces.graph
    node = graph.edges[run.edges[-1]].target if run.edges else graph.function(entry).entry
    leaving = graph.leaving[node]
    if not leaving:
        return Ending(given, run.end, node, f"{faces.node_place(graph.nodes[node])}:1", "the exit")
    test = f"{faces.condition(leaving[0])}, in " if leaving[0].is_guard else ""
    return Ending(given, run.end, node, faces.place(leaving[0]), test + faces.statement(leaving[0]))


def endings_of(faces: Faces, asked: Question, given: list[Input]) -> list[Ending]:
    """Where the runs of inputs end that don't return, in their order."""
    found = (ending_of(faces, asked.entry, one, run) for one, run in zip(given, asked.runs(given)))
    return [one for one in found if one]


# ---- where runs end


@dataclass(frozen=True)
class Stops:
    """The nodes at which runs of an entry end without a return: each ending that was found, the nodes of which it is open, and
    whether anything is known (`is_known`), which isn't so where the formula is too large."""

    endings: tuple[Ending, ...] = ()
    open: frozenset[int] = frozenset()
    is_known: bool = True

    def at(self, node: int) -> Ending | None:
        """A run that ends at a node; one that traps before others."""
        there = [one for one in self.endings if one.node == node]
        return next((one for one in there if one.is_crash), there[0] if there else None)

    @property
    def crashes(self) -> list[Ending]:
        """The runs that traps end."""
        return [one for one in self.endings if one.is_crash]


def _scope(graph: Graph, entry: str) -> str:
    """The `in` clause of the functions that an entry reaches; nothing where these are all."""
    names = graph.reached(entry)
    parts = [f"@FUNC({name})" for name in names]
    while len(parts) > 1:
        pairs = [parts[at : at + 2] for at in range(0, len(parts), 2)]
        parts = [f"UNION({','.join(pair)})" if len(pair) == 2 else pair[0] for pair in pairs]
    return "" if len(names) == len(graph.functions) else f"in {parts[0]} "


def stops_of(faces: Faces, asked: Question) -> Stops:
    """Where runs of an entry end that don't return, within the bounds. Raises Failure where the program refuses the sources."""
    graph = faces.graph
    reached = set(graph.reached(asked.entry))
    has_others = any(edge.operation == "assume" and graph.owner(edge) in reached for edge in graph.edges)
    has_others = has_others or asked.bounds["frames"] >= RANGES["frames"][1]
    found: list[Ending] = []
    undecided: set[int] = set()
    for ends in ("trapped", "any") if has_others else ("trapped",):
        report = asked.report(f"{_scope(graph, asked.entry)}cover NODES(ID)$", ends, min(BUDGET, asked.budget))
        if report is None:
            return Stops(is_known=False)
        exits = graph.function(asked.entry).exit
        nodes = {goal.number: graphs.letters(graph, goal.text)[0].node for goal in report.goals}
        for goal in report.goals:
            node = nodes[goal.number]
            if node and node.number != exits and goal.verdict == "undecided":
                undecided.add(node.number)
        found += endings_of(faces, asked, report.inputs)
    kept = {(one.node, one.end): one for one in reversed(found)}
    return Stops(tuple(sorted(kept.values(), key=lambda one: (one.node, one.end))), frozenset(undecided))


def edges_behind(graph: Graph, nodes: Iterable[int]) -> set[int]:
    """The numbers of the edges that a walk over the automaton from these nodes may take."""
    seen, waiting = set(nodes), list(nodes)
    found: set[int] = set()
    while waiting:
        for edge in graph.leaving[waiting.pop()]:
            found.add(edge.number)
            if edge.target not in seen:
                seen.add(edge.target)
                waiting.append(edge.target)
    return found


# ---- goals


@dataclass(frozen=True)
class Other:
    """What runs of other ends say of a goal that no counted run hits: that none does (`is_refuted`), or one that hits it and
    where that ends; `is_blocked_alone` says that no run hits it which isn't blocked."""

    is_refuted: bool = False
    ending: Ending | None = None
    is_blocked_alone: bool = False


UNASKED = Other()


@dataclass
class Judge:
    """Says what is said of goals that no counted run hits (docs/VERDICTS.md): by the bounds (`limits`), by where runs end
    (`stops`), and by what runs of other ends say of each goal. `query` is None where it isn't known."""

    faces: Faces
    asked: Question
    limits: Limits
    stops: Stops
    query: str | None = None
    behind: set[int] = field(default_factory=set)

    def __post_init__(self) -> None:
        """Gathers the edges that lie behind a place where a run may be undefined, or ends in an order that C leaves open."""
        nodes = {one.node for one in self.stops.endings if one.end not in DEFINED} | self.stops.open
        others = {one.node for one in self.stops.endings} - nodes
        if others and self.has_open_order():
            nodes |= others
        self.behind = edges_behind(self.faces.graph, nodes)

    def has_open_order(self) -> bool:
        """Whether C leaves open which part of an expression ends the run, or isn't known to settle it."""
        try:
            found = order.warnings(self.asked.entry, self.asked.sources, None, "any", folder=self.asked.place)
        except Failure:
            return True
        return any(one.kind in ("strict", "end") for one in found)

    def letters(self, text: str) -> list[Letter]:
        """The letters of a goal's text; none where it isn't one over this automaton."""
        try:
            return graphs.letters(self.faces.graph, text)
        except (ValueError, IndexError):
            return []

    def may_lie_behind(self, letters: list[Letter]) -> bool:
        """Whether a run that is undefined may hit a goal."""
        if not self.stops.is_known:
            return True
        if not self.behind:
            return False
        if not letters or (self.query is not None and re.search(r"\bpassing\b", self.query, re.IGNORECASE)):
            return True
        targets = {self.faces.graph.edges[number].target for number in self.behind}
        return any(
            one.edge.number in self.behind if one.edge else one.node.number in targets if one.node else True
            for one in letters
        )

    def own_stop(self, letters: list[Letter]) -> Ending | None:
        """A run that comes to a goal of one edge, and ends before that is taken."""
        edge = letters[0].edge if len(letters) == 1 else None
        return self.stops.at(edge.source) if edge else None

    def verdict(self, text: str, other: Other) -> tuple[Verdict, Ending | None]:
        """What is said of a goal that no counted run hits, and the run that shows it, where one does."""
        letters = self.letters(text)
        ending = other.ending or (self.own_stop(letters) if other.is_refuted else None)
        if ending and (ending.end != "blocked"):
            return Verdict.FAILS, ending
        if not self.limits.make_unreachable:
            return Verdict.REFUTED, None
        if ending and (other.is_blocked_alone or not other.ending):
            return Verdict.OUTSIDE, ending
        if other.is_refuted and not self.may_lie_behind(letters):
            return Verdict.UNREACHABLE, None
        return Verdict.RETURNING, None


def others_of(faces: Faces, asked: Question, query: str, goals: Sequence[int], ends: str) -> dict[int, Other]:
    """What `generate` says of some goals of a query over runs of any end, by their numbers; `ends` are those that refute them."""
    if not goals:
        return {}
    report = asked.report(query, "any") if ends != "any" else None
    if report is None:
        return {goal: Other(is_refuted=ends == "any") for goal in goals}
    hits = {goal.number: report.inputs[goal.input - 1] for goal in report.goals if goal.input and goal.number in goals}
    found = {goal.number: Other(goal.verdict == "refuted") for goal in report.goals if goal.number in goals}
    return found | hit_by(faces, asked, query, hits)


def hit_by(faces: Faces, asked: Question, query: str, hits: Mapping[int, Input]) -> dict[int, Other]:
    """What inputs say of goals that their runs hit, which don't count, by the goals' numbers. Where such a run is blocked, one is
    looked for that traps."""
    numbers = list(hits)
    runs = asked.runs([hits[goal] for goal in numbers])
    found = {}
    for goal, run in zip(numbers, runs):
        found[goal] = Other(ending=ending_of(faces, asked.entry, hits[goal], run))
    blocked = [goal for goal, one in found.items() if one.ending and one.ending.end == "blocked"]
    report = asked.report(query, "trapped") if blocked else None
    is_deep = asked.bounds["frames"] >= RANGES["frames"][1]
    for goal in blocked if report else ():
        said = report.goals[goal - 1] if report else None
        if said and said.verdict == "covered" and said.input and report:
            (run,) = asked.runs([report.inputs[said.input - 1]])
            found[goal] = Other(ending=ending_of(faces, asked.entry, report.inputs[said.input - 1], run))
        elif said and said.verdict == "refuted" and not is_deep:
            found[goal] = Other(ending=found[goal].ending, is_blocked_alone=True)
    return found


def of_edges(faces: Faces, asked: Question, texts: Mapping[int, str], ends: str) -> dict[int, Other]:
    """The same for goals of a query that isn't known, by their texts: a goal is refuted where one of its edges or nodes is, and
    hit where it is one of these alone that is hit."""
    graph = faces.graph
    found: dict[int, Other] = {}
    parsed: dict[int, list[Letter]] = {}
    for goal, text in texts.items():
        try:
            parsed[goal] = graphs.letters(graph, text)
        except (ValueError, IndexError):
            found[goal] = UNASKED
    if ends == "any":
        return {goal: Other(is_refuted=True) for goal in texts}
    known: dict[tuple[str, int], Other] = {}
    for kind, query in (("edge", "cover EDGES(ID)"), ("node", "cover NODES(ID)")):
        if any(getattr(one, kind) for letters in parsed.values() for one in letters):
            known |= _of_kind(faces, asked, query, kind, parsed.values())
    for goal, letters in parsed.items():
        own = [known.get(("edge", one.edge.number) if one.edge else ("node", one.node.number if one.node else -1), UNASKED)
               for one in letters]  # fmt: skip
        is_refuted = any(one.is_refuted for one in own)
        found[goal] = own[0] if len(own) == 1 else Other(is_refuted=is_refuted)
    return found


def _of_kind(
    faces: Faces, asked: Question, query: str, kind: str, wanted: Iterable[list[Letter]]
) -> dict[tuple[str, int], Other]:
    """What runs of any end say of all edges or nodes that goals name, by their numbers."""
    whole = _scope(faces.graph, asked.entry) + query
    names = {getattr(one, kind).number for letters in wanted for one in letters if getattr(one, kind)}
    goals = graphs.goals_of(faces.graph, whole, asked.sources, asked.place).goals
    numbers = {goal.number: getattr(graphs.letters(faces.graph, goal.text)[0], kind).number for goal in goals}
    inside = [goal for goal, number in numbers.items() if number in names]
    found = {(kind, numbers[goal]): one for goal, one in others_of(faces, asked, whole, inside, "returned").items()}
    # (what the entry doesn't reach is taken by none of its runs)
    return {(kind, number): Other(is_refuted=True) for number in names} | found


# ---- reports


def of_report(
    faces: Faces,
    entry: str,
    sources: Sequence[str],
    report: Report,
    limits: Limits,
    place: str | None = None,
    query: str = "",
) -> dict[int, tuple[Verdict, Ending | None]]:
    """What is said of each refuted goal of a report of `generate` of an entry, by its number, and the run that shows it. The query
    is empty where it isn't known. Raises Failure where the program refuses what is asked."""
    texts = {goal.number: goal.text for goal in report.goals if goal.verdict == "refuted"}
    if not texts:
        return {}
    bounds = {name: report.bounds[name] for name in RANGES if name in report.bounds and name not in ("budget", "steps")}
    asked = Question(entry, tuple(sources), bounds, report.bounds.get("budget", 5_000_000), place)
    if query:
        others = others_of(faces, asked, query, list(texts), report.ends)
    else:
        others = of_edges(faces, asked, texts, report.ends)
    judge = Judge(faces, asked, limits, stops_of(faces, asked), query or None)
    return {goal: judge.verdict(text, others.get(goal, UNASKED)) for goal, text in texts.items()}


def verdicts_of(report: Report, judged: Mapping[int, tuple[Verdict, Ending | None]]) -> list[Verdict]:
    """The verdicts of a report's goals, those of `judged` where it has one."""
    return [judged[goal.number][0] if goal.number in judged else of_word(goal.verdict) for goal in report.goals]
