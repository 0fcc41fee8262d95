"""The decisions of an automaton, their conditions, and the paths through them, as docs/GRAPH.md makes them.

A decision is what `cond` makes of the condition of an `if`, loop or `?:`, or of an `&&` or `||` that stands within another
expression. Its outcome nodes are its own, but for one that an `if` or a loop shares with what follows. Labels of a `switch` are
none of these decisions.
"""

from collections.abc import Iterator
from dataclasses import dataclass, field

from fshell_tools.core.graph import Edge, Graph
from fshell_tools.core.sources import CLOSING, OPENING, Faces, Source

MOST_PATHS = 1_000
_HEADS = ("if", "while", "for")


@dataclass
class Test:
    """A condition of a decision: a node with its two guards, that of truth first."""

    node: int
    guards: tuple[Edge, Edge]

    def outcomes(self) -> list[Edge]:
        """Those of its guards that decide the decision."""
        return [guard for guard in self.guards if guard.outcome]


@dataclass(frozen=True)
class Path:
    """A way through a decision: the guards that are taken, and whether the decision holds then."""

    guards: tuple[Edge, ...]
    outcome: bool

    def values(self) -> dict[int, bool]:
        """The value of each condition that is evaluated, by its node."""
        return {guard.source: guard.truth for guard in self.guards}


@dataclass
class Decision:
    """A decision; `holds` is the node to which it leads where it holds, and `fails` the other one. `after` has for each guard
    that leaves it open, by its number, the condition that comes next."""

    number: int
    tests: list[Test]
    holds: int
    fails: int
    statement: str
    function: str
    paths: list[Path] = field(default_factory=list)
    after: dict[int, Test] = field(default_factory=dict)

    @property
    def is_cut(self) -> bool:
        """Whether it has more paths than are looked at."""
        return len(self.paths) >= MOST_PATHS

    @property
    def first(self) -> Edge:
        """The guard of truth of its first condition, whose place is the decision's."""
        return self.tests[0].guards[0]

    def guards(self) -> set[int]:
        """The numbers of the edges that its conditions' tests choose between."""
        return {guard.number for test in self.tests for guard in test.guards}

    def may_be(self, values: dict[int, bool], outcome: bool) -> bool:
        """Whether the decision may have an outcome where some conditions have these values, and the others any."""
        waiting, seen = [self.tests[0]], {self.tests[0].node}
        while waiting:
            test = waiting.pop()
            for guard in test.guards:
                if values.get(test.node, guard.truth) != guard.truth:
                    continue
                if guard.outcome:
                    if (guard.target == self.holds) == outcome:
                        return True
                elif self.after[guard.number].node not in seen:
                    seen.add(self.after[guard.number].node)
                    waiting.append(self.after[guard.number])
        return False

    def independent(self, path: Path, node: int) -> bool:
        """Whether a condition decides in a path: with its other value, and all others as they are, the outcome may differ."""
        values = path.values()
        return node in values and self.may_be({**values, node: not values[node]}, not path.outcome)

    def deciding(self, node: int) -> list[tuple[int, bool, bool]]:
        """The paths in which a condition decides (masking form): the number of each, the condition's value and the outcome.
        Two of them with another value and another outcome show that it decides on its own."""
        return [
            (number, path.values()[node], path.outcome)
            for number, path in enumerate(self.paths)
            if self.independent(path, node)
        ]


class Decisions:
    """Finds the decisions of an automaton."""

    def __init__(self, graph: Graph, faces: Faces) -> None:
        self.graph, self.faces = graph, faces
        self.found: list[Decision] = []
        for tests in self.by_statement().values():
            self.split(tests)
        self.found.sort(key=lambda one: (one.first.file, one.first.line, one.first.column))
        for number, one in enumerate(self.found, 1):
            one.number = number

    def by_statement(self) -> dict[tuple[str, int, int], list[Test]]:
        """The conditions of each statement, but for labels of a `switch`."""
        found: dict[tuple[str, int, int], list[Test]] = {}
        for guards in self.graph.guards():
            edge = guards[0]
            source = self.faces.sources[edge.file]
            at = source.index(edge.line, edge.column)
            if edge.decision and source.tokens[at].text != "case":
                start = self.faces.statement_start(edge)
                key = edge.file, at if start is None else start, guards[0].source if start is None else 0
                found.setdefault(key, []).append(Test(edge.source, guards))
        return found

    def split(self, tests: list[Test]) -> None:
        """Adds the decisions of a statement: conditions with an outcome node in common are of one."""
        groups: list[tuple[set[int], list[Test]]] = []
        for test in tests:
            targets = {guard.target for guard in test.outcomes()}
            joined = [group for group in groups if group[0] & targets]
            if targets:
                groups = [group for group in groups if group not in joined]
                groups.append(
                    (
                        targets.union(*(group[0] for group in joined)),
                        [one for group in joined for one in group[1]] + [test],
                    )
                )
        for test in tests:
            if not test.outcomes():
                least = min(guard.target for guard in test.guards)
                max((group for group in groups if max(group[0]) < least), key=lambda group: max(group[0]))[1].append(
                    test
                )
        for targets, members in groups:
            self.add(targets, members)

    def add(self, targets: set[int], tests: list[Test]) -> None:
        """Adds a decision with these outcome nodes."""
        tests.sort(key=lambda test: (test.guards[0].line, test.guards[0].column, test.node))
        first = tests[0].guards[0]
        holds = self.node_of_truth(targets, tests)
        fails = next((node for node in targets if node != holds), holds)
        decision = Decision(0, tests, holds, fails, self.faces.statement(first), self.graph.owner(first))
        self.order(decision)
        decision.paths = list(self.paths(decision))
        self.found.append(decision)

    def node_of_truth(self, targets: set[int], tests: list[Test]) -> int:
        """The outcome node to which a decision leads where it holds. The node is given by its number."""
        last = next(test for test in reversed(tests) if len(test.outcomes()) == 2)
        if self.is_within(targets, tests):
            return min(targets)
        return last.guards[self.is_flipped(last.guards[0])].target

    def is_within(self, targets: set[int], tests: list[Test]) -> bool:
        """Whether a decision gives a value within an expression: both outcome nodes then lead on within its statement."""
        first = tests[0].guards[0]
        leaving = [edge for node in targets for edge in self.graph.leaving[node]]
        return max(targets) == min(targets) + 1 and all(
            edge.kind == first.kind and not edge.back and self.statement_of(edge) == self.statement_of(first)
            for edge in leaving
        )

    def statement_of(self, edge: Edge) -> int | None:
        """The first token of an edge's statement; that of a `do` isn't asked for, since its condition stands behind its body."""
        return None if edge.kind == "DO" else self.faces.statement_start(edge)

    def is_flipped(self, guard: Edge) -> bool:
        """Whether an odd number of `!` stands round a condition, up to the head of its statement."""
        source = self.faces.sources[guard.file]
        flips, depth, is_next = 0, 0, True
        for at in range(source.index(guard.line, guard.column) - 1, -1, -1):
            text = source.tokens[at].text
            if text in CLOSING or (text in OPENING and depth > 0):
                depth += 1 if text in CLOSING else -1
                is_next = False
            elif depth == 0 and (text in (";", "?") or self.is_head(source, at)):
                break
            elif depth == 0 and text == "!" and is_next:
                flips += 1
            elif depth == 0:
                is_next = text == "("
        return flips % 2 == 1

    @staticmethod
    def is_head(source: Source, at: int) -> bool:
        """Whether the bracket of a statement's head stands here."""
        return source.tokens[at].text == "(" and at > 0 and source.tokens[at - 1].text in _HEADS

    def paths(self, decision: Decision) -> Iterator[Path]:
        """The ways through a decision, at most so many."""
        waiting: list[tuple[Test, tuple[Edge, ...]]] = [(decision.tests[0], ())]
        count = 0
        while waiting and count < MOST_PATHS:
            test, before = waiting.pop()
            for guard in reversed(test.guards):
                taken = (*before, guard)
                if guard.outcome:
                    count += 1
                    yield Path(taken, guard.target == decision.holds)
                else:
                    waiting.append((decision.after[guard.number], taken))

    def order(self, decision: Decision) -> None:
        """Notes which condition comes behind which guard."""
        waiting, seen = [decision.tests[0]], {decision.tests[0].node}
        while waiting:
            for guard in waiting.pop().guards:
                if not guard.outcome:
                    behind = decision.after[guard.number] = self.next_test(decision, guard)
                    if behind.node not in seen:
                        seen.add(behind.node)
                        waiting.append(behind)

    def next_test(self, decision: Decision, guard: Edge) -> Test:
        """The condition of a decision that comes behind a guard which leaves it open."""
        nodes = {test.node: test for test in decision.tests}
        waiting, seen, reached = [guard.target], {guard.target}, []
        while waiting:
            node = waiting.pop()
            if node in nodes:
                reached.append(nodes[node])
                continue
            for edge in self.graph.leaving[node]:
                target = self.graph.edges[edge.number + 1].target if edge.operation == "call" else edge.target
                if target not in seen:
                    seen.add(target)
                    waiting.append(target)
        return min(reached, key=decision.tests.index)
