"""What inputs show of decisions: the paths that their runs take, the goals that refute others, and pairs of paths for conditions."""

from collections.abc import Iterator
from dataclasses import dataclass, field

from fshell_tools.bounds.other_ends import Ending
from fshell_tools.core import graph as graphs
from fshell_tools.core.graph import Edge, Graph
from fshell_tools.core.reports import Report, Run
from fshell_tools.core.verdicts import Verdict
from fshell_tools.coverage.decisions import Decision

TAKEN, REFUTED, UNDECIDED = "taken", "refuted", "undecided"
SHOWN, NONE = "shown", "none"
MOST_ARROWS = 3
# of several verdicts the one that is said, the first that is there
WORST = (Verdict.FAILS, Verdict.REFUTED, Verdict.RETURNING, Verdict.OUTSIDE, Verdict.UNREACHABLE)


@dataclass
class Asked:
    """What is known of a decision: its query and the report on it, for each path an input or the goals that refute it, and why it
    can't be asked for, if so. `judged` has what is said of refuted goals by runs of any end (bounds/other_ends)."""

    decision: Decision
    query: str
    report: Report
    inputs: dict[int, int] = field(default_factory=dict)
    goals: dict[int, list[int]] = field(default_factory=dict)
    told: dict[int, "Shown"] = field(default_factory=dict)
    why: str = ""
    judged: dict[int, tuple[Verdict, Ending | None]] = field(default_factory=dict)

    def state(self, path: int) -> str:
        """Whether inputs take a path."""
        if path in self.inputs:
            return TAKEN
        verdicts = {self.report.goals[goal - 1].verdict for goal in self.goals.get(path, [])}
        return REFUTED if verdicts == {"refuted"} else UNDECIDED

    def verdict(self, path: int) -> Verdict:
        """What is said of a refuted path, by all of its goals: unreachable where each is."""
        found = [self.judged.get(goal, (Verdict.REFUTED, None))[0] for goal in self.goals.get(path, [])]
        return min(found, key=WORST.index, default=Verdict.REFUTED)

    def of_pairs(self, node: int) -> Verdict:
        """What is said of a condition none of whose pairs of paths is taken by counted runs: unreachable where each pair has an
        unreachable path, and else what is said of the pairs that haven't."""
        found = []
        for pair in self.pairs(node):
            own = [self.verdict(path) for path in pair if self.state(path) == REFUTED]
            found.append(max(own, key=WORST.index, default=Verdict.REFUTED))
        return min(found, key=WORST.index, default=Verdict.UNREACHABLE)

    def pairs(self, node: int) -> Iterator[tuple[int, int]]:
        """The pairs of paths that would show that a condition decides on its own."""
        paths = self.decision.deciding(node)
        for at, (first, value, outcome) in enumerate(paths):
            for second, other, otherwise in paths[:at]:
                if value != other and outcome != otherwise:
                    yield second, first


# ---- goals


def query_of(graph: Graph, decision: Decision, arrows: int = MOST_ARROWS) -> str:
    """A query whose goals have the decision's paths: all paths over the conditions on its lines, joined by arrows at calls, of
    which a goal has so many at most."""
    edges = region(graph, decision)
    lines = sorted({edge.line for edge in edges if edge.decision and graph.owner(edge) == decision.function})
    kept = f"@LINE({lines[0]})"
    for line in lines[1:]:
        kept = f"UNION({kept},@LINE({line}))"
    calls = sum(edge.operation == "call" for edge in edges)
    # (what @FUNC keeps has no node of a function that is called, so no path could end at a call, or begin behind one)
    if not calls and not begins_behind_call(graph, edges[0]) and not has_call_beside(graph, decision, lines):
        kept = f"INTERSECT(@FUNC({decision.function}),{kept})"
    part = f"PATHS(INTERSECT(@CONDITIONGRAPH,{kept}),1)"
    return "cover " + " + ".join(" -> ".join([part] * (count + 1)) for count in range(min(calls, arrows) + 1))


def region(graph: Graph, decision: Decision) -> list[Edge]:
    """The edges that a decision's condition makes, from its first guard to its last."""
    numbers = decision.guards()
    return graph.edges[min(numbers) : max(numbers) + 1]


def has_call_beside(graph: Graph, decision: Decision, lines: list[int]) -> bool:
    """Whether a function is called in a condition on these lines, such as the one in which the decision stands."""
    return any(edge.operation == "call" and edge.decision and edge.line in lines and graph.owner(edge) == decision.function
               for edge in graph.edges)  # fmt: skip


def begins_behind_call(graph: Graph, first: Edge) -> bool:
    """Whether a function is called on the way from the begin of a condition to its first guard."""
    before = first.number - 1
    while before >= 0 and graph.edges[before].decision and not graph.edges[before].is_guard:
        if graph.edges[before].operation == "return":
            return True
        before -= 1
    return False


def goals_of(graph: Graph, asked: Asked) -> dict[int, list[int]]:
    """For each path the goals that say of it: those with its guards in a row, and the fewest arrows.

    Where a condition calls its own function, a way through it may hold a guard twice, so that no goal says of all of them.
    """
    if any(edge.name == asked.decision.function for edge in region(graph, asked.decision) if edge.operation == "call"):
        return {}
    numbers = asked.decision.guards()
    found: dict[tuple[int, ...], dict[int, list[int]]] = {}
    for goal in asked.report.goals:
        letters = graphs.letters(graph, goal.text)
        row = tuple(letter.edge.number for letter in letters if letter.edge and letter.edge.number in numbers)
        arrows = sum(not letter.edge for letter in letters)
        found.setdefault(row, {}).setdefault(arrows, []).append(goal.number)
    rows = (tuple(guard.number for guard in path.guards) for path in asked.decision.paths)
    return {number: by_arrows[min(by_arrows)] for number, row in enumerate(rows) if (by_arrows := found.get(row))}


# ---- what runs take


def evaluations(graph: Graph, found: list[Decision], run: Run) -> Iterator[tuple[Decision, tuple[int, ...]]]:
    """Each evaluation of a decision in a run: the decision, and the guards that were taken."""
    of_guard = {number: one for one in found for number in one.guards()}
    frames: list[dict[int, list[int]]] = [{}]
    for number in run.edges:
        edge = graph.edges[number]
        if edge.operation == "call":
            frames.append({})
        elif edge.operation == "return":
            frames.pop()
        elif number in of_guard:
            decision = of_guard[number]
            begun = frames[-1].setdefault(decision.number, [])
            if edge.source == decision.tests[0].node:
                begun.clear()
            begun.append(number)
            if edge.outcome:
                yield decision, tuple(begun)


def take(graph: Graph, all_asked: list[Asked], runs: list[Run]) -> None:
    """Notes for each path the first input whose run takes it."""
    of_decision = {asked.decision.number: asked for asked in all_asked}
    rows = {
        asked.decision.number: {
            tuple(guard.number for guard in path.guards): number for number, path in enumerate(asked.decision.paths)
        }
        for asked in all_asked
    }
    for run in runs:
        if run.end == "returned":
            for decision, row in evaluations(graph, [asked.decision for asked in all_asked], run):
                path = rows[decision.number].get(row)
                if path is not None:
                    of_decision[decision.number].inputs.setdefault(path, run.number)


# ---- conditions


@dataclass(frozen=True)
class Shown:
    """What is known of a condition: a pair of paths, or why there is none; `needed` are refuted paths that say so."""

    state: str
    pair: tuple[int, int] | None
    needed: tuple[int, ...] = ()


def shown(asked: Asked, node: int) -> Shown:
    """What is known of a condition, once it is known which paths inputs take."""
    if node not in asked.told:
        asked.told[node] = found(asked, node)
    return asked.told[node]


def found(asked: Asked, node: int) -> Shown:
    """What is known of a condition, by the states of all paths."""
    states = [asked.state(path) for path in range(len(asked.decision.paths))]
    needed: set[int] = set()
    is_none = not asked.decision.is_cut
    for pair in asked.pairs(node):
        if all(states[path] == TAKEN for path in pair):
            return Shown(SHOWN, pair)
        refuted = [path for path in pair if states[path] == REFUTED]
        needed.update(refuted)
        is_none = is_none and bool(refuted)
    return Shown(NONE if is_none else UNDECIDED, None, tuple(sorted(needed)))
