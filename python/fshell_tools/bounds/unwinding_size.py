"""What multiplies the pairs of node and context that walks from an entry reach (codes 80 and 81): how many stand in which loop of which
function, and by which calls a function is entered in how many contexts.

A context has, for each call that hasn't returned, its edge and the counters of the loops around it, and how many answers were read
(docs/STEPS.md). Walks take both guards of a test, as the program's own count does.
"""

import re
from collections import Counter, deque
from collections.abc import Iterator, Mapping
from dataclasses import dataclass, field

from fshell_tools.core.graph import Edge, Graph
from fshell_tools.core.reports import BOUNDS
from fshell_tools.core.sources import Faces

MOST = 300_000  # so many pairs are counted, of which the program takes 50,000
SHOWN, CALLS = 12, 3
LIMITS = {"80": "more than 50,000 pairs of node and context", "81": "a size sum above 4,194,304"}

Counters = tuple[tuple[int, int], ...]  # of each loop that is open its head and how often it went back
Frame = tuple[int, Counters]  # the call's edge, -1 of the entry's
Pair = tuple[int, tuple[Frame, ...], int]  # the node, the frames, and how many answers were read


def code_of(word: str) -> str:
    """The code 80 or 81 that a word or the line of a refusal has; nothing of any other text."""
    found = re.match(r"\s*(?:error )?(80|81)\b(?: \w+Large| TooManyInstances|\s*$)", word)
    return found[1] if found else ""


@dataclass
class Multiplied:
    """Pairs by function and innermost loop, entries by function and call, and how many answers may have been read in each."""

    pairs: Counter[tuple[str, tuple[int, ...]]] = field(default_factory=Counter)
    entries: Counter[tuple[str, int]] = field(default_factory=Counter)
    answers: dict[str, set[int]] = field(default_factory=dict)
    is_whole: bool = True

    @property
    def total(self) -> int:
        """How many pairs were counted."""
        return self.pairs.total()


def moved(counters: Counters, graph: Graph, edge: Edge) -> Counters:
    """The counters behind an edge that is neither call nor return."""
    if edge.enter:
        counters += ((edge.target, 0),)
    elif edge.back:
        counters = (*counters[:-1], (counters[-1][0], counters[-1][1] + 1))
    return counters[: min(graph.nodes[edge.source].depth, graph.nodes[edge.target].depth) + edge.enter]


def behind(graph: Graph, pair: Pair, bounds: Mapping[str, int]) -> Iterator[Pair]:
    """The pairs that come next within the bounds."""
    node, frames, answers = pair
    for edge in graph.leaving[node]:
        last = frames[-1]
        if edge.operation == "call":
            if len(frames) < bounds["frames"]:
                yield edge.target, (*frames, (edge.number, ())), answers
        elif edge.operation == "return":
            if last[0] == edge.number - 1:  # (a call's edge is numbered before its return's)
                yield edge.target, frames[:-1], answers
        else:
            counters, read = moved(last[1], graph, edge), answers + (edge.operation == "answer")
            if read <= bounds["answers"] and all(count <= bounds["turns"] for _, count in counters):
                yield edge.target, (*frames[:-1], (last[0], counters)), read


def counted(graph: Graph, entry: str, bounds: Mapping[str, int], most: int = MOST) -> Multiplied:
    """The pairs that walks from the entry reach within `turns`, `frames` and `answers`, up to so many. Raises Failure where no function
    is called so."""
    begin: Pair = (graph.function(entry).entry, ((-1, ()),), 0)
    found, seen, waiting = Multiplied(), {begin}, deque([begin])
    while waiting:
        pair = waiting.popleft()
        node, frames, answers = pair
        function = graph.nodes[node].function
        found.pairs[function, tuple(head for head, _ in frames[-1][1])] += 1
        found.answers.setdefault(function, set()).add(answers)
        if node == graph.function(function).entry and len(frames) > 1 and not frames[-1][1]:
            found.entries[function, frames[-1][0]] += 1
        for other in behind(graph, pair, bounds):
            if other not in seen and len(seen) < most:
                seen.add(other)
                waiting.append(other)
            elif other not in seen:
                found.is_whole = False
    return found


class Told:
    """What is said of the pairs, with places as the user wrote them."""

    def __init__(self, faces: Faces, entry: str, bounds: Mapping[str, int]) -> None:
        self.faces, self.graph, self.bounds, self.entry = faces, faces.graph, bounds, entry
        self.found = counted(self.graph, entry, bounds)

    def loops(self, heads: tuple[int, ...]) -> str:
        """Where loops are, the innermost first."""
        places = [f"the loop at {self.faces.node_place(self.graph.nodes[head])}" for head in reversed(heads)]
        return " in ".join(places) or "no loop"

    def call(self, count: int, number: int) -> str:
        """By which call contexts are entered."""
        edge = self.graph.edges[number]
        caller, depth = self.graph.nodes[edge.source].function, self.graph.nodes[edge.source].depth
        within = f" within {depth} loop{'s' if depth > 1 else ''}" if depth else ""
        return f"{count} by the call at {self.faces.place(edge)} in {self.faces.name(caller)}{within}"

    def entered(self) -> Iterator[str]:
        """The functions that are entered in several contexts, with the calls, most first."""
        calls: dict[str, list[tuple[int, int]]] = {}
        for (function, edge), count in self.found.entries.items():
            calls.setdefault(function, []).append((count, edge))
        sums = Counter({function: sum(count for count, _ in own) for function, own in calls.items()})
        for function, entries in sums.most_common(SHOWN):
            if entries > 1:
                told = [self.call(*one) for one in sorted(calls[function], reverse=True)[:CALLS]]
                yield f"{self.faces.name(function)} is entered in {entries} contexts: {'; '.join(told)}"

    def lines(self, code: str) -> Iterator[str]:
        """What is said of a code, a line each, the largest first."""
        words = " ".join(f"{name} {self.bounds[name]}" for name in BOUNDS)
        count = f"{self.found.total}" if self.found.is_whole else f"more than {self.found.total}"
        yield f"code {code}, {LIMITS[code]}: walks from {self.entry} reach {count} pairs within {words}"
        for (function, heads), pairs in self.found.pairs.most_common(SHOWN):
            yield f"  {pairs} in {self.faces.name(function)}, {self.loops(heads)}"
        yield from (f"  {line}" for line in self.entered())
        yield from (f"  {line}" for line in self.bounding())

    def bounding(self) -> Iterator[str]:
        """Which bounds tell contexts apart."""
        if self.bounds["turns"] and any(heads for _, heads in self.found.pairs):
            yield f"--turns {self.bounds['turns']}: each loop tells up to {self.bounds['turns'] + 1} contexts apart"
        if any(len(own) > 1 for own in self.found.answers.values()):
            most = max(len(own) for own in self.found.answers.values())
            yield f"--answers {self.bounds['answers']}: up to {most} numbers of answers tell contexts apart"
