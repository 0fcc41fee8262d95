"""Reads of objects with automatic storage duration that may never have been set (C11 6.3.2.1p2), and results of functions that may end
without a `return` and are used (6.9.1p12).

A data flow over the automaton of each function finds which objects may be without a value at which node: an object is new,
and without one, where a run comes to the node at which its scope begins (6.2.4p6), and where it comes to its declaration without
an initializer; an assignment sets it. Calls change none, since the profile has no pointers to them. Where a read isn't shown to be of
an object that is set, it is told. Elements of arrays aren't followed.
"""

from collections.abc import Iterator
from dataclasses import dataclass

from fshell_tools.core.graph import Graph
from fshell_tools.core.reports import Run
from fshell_tools.order.tree import Unit
from fshell_tools.rte.lowering import Lowering, Step

MAIN = "main"  # whose result is 0 where it ends without a `return` (C11 5.1.2.2.3)


@dataclass(frozen=True)
class Read:
    """A read that may be of an object without a value, by the tokens of the name and of the object's declarator; `nodes` are
    those at which it is done. `is_declared` says that each path to it has come by the declaration since the scope began.
    """

    function: str
    token: int
    object: int
    nodes: frozenset[int]
    is_declared: bool


@dataclass(frozen=True)
class Result:
    """A call whose result is used though its function may end without a `return`, by the call's first token; of the
    entry, whose result its caller may use, its name's. `edges` are those by which the function ends so."""

    function: str
    token: int
    edges: tuple[int, ...]
    nodes: frozenset[int]


@dataclass
class Frame:
    """A function that runs: the objects that have no value, the call that it is, and whether it has ended without a
    value."""

    function: str
    unset: set[int]
    call: int
    has_no_value: bool = False


class Flow:
    """What may be without a value, of the functions that an entry reaches."""

    def __init__(self, graph: Graph, lowering: Lowering, unit: Unit, entry: str) -> None:
        self.graph, self.lowering, self.unit, self.entry = graph, lowering, unit, entry
        self.steps, self.reached = lowering.steps, graph.reached(entry)
        self.leaving: dict[int, list[int]] = {}
        for number, step in enumerate(self.steps):
            self.leaving.setdefault(step.source, []).append(number)
        self.unset: dict[int, set[int]] = {}
        self.early: dict[int, set[int]] = {}  # the same, of objects whose declaration wasn't come to
        for name in self.reached:
            self.unset |= self.states(name, False)
            self.early |= self.states(name, True)

    def next(self, number: int) -> int:
        """The number of the node behind an edge: of a call the one behind its return."""
        step = self.steps[number]
        return self.steps[number + 1].target if step.operation.startswith("call ") else step.target

    def begin(self, number: int) -> int:
        """The number of the node before an edge: of a return the one before its call."""
        step = self.steps[number]
        return self.steps[number - 1].source if step.operation.startswith("return ") else step.source

    def behind(self, step: Step, before: set[int], is_early: bool) -> set[int]:
        """The objects without a value behind a step."""
        if step.unset >= 0:
            return before - {step.unset} if is_early else before | {step.unset}
        return before - {step.whole}

    def states(self, function: str, is_early: bool) -> dict[int, set[int]]:
        """Of each node that the function may come to, the objects that may be without a value there."""
        start = self.graph.function(function).entry
        born = self.lowering.born
        states, waiting = {start: set(born.get(start, ()))}, [start]
        while waiting:
            node = waiting.pop()
            for number in self.leaving.get(node, ()):
                step = self.steps[number]
                if step.is_dead or step.operation.startswith("return ") and step.source == node:
                    continue
                target = self.next(number)
                new = self.behind(step, states[node], is_early) | born.get(target, set())
                if target not in states or not new <= states[target]:
                    states[target] = states.get(target, set()) | new
                    waiting.append(target)
        return states

    def reads(self) -> Iterator[Read]:
        """The reads that may be of objects without a value, in the order of their tokens; of an array's elements one that
        has the token of its declarator."""
        found: dict[tuple[int, int], set[int]] = {}
        owners: dict[tuple[int, int], str] = {}
        for number, step in enumerate(self.steps):
            for token, one in step.uses:
                if one in self.unset.get(step.source, ()) and not step.is_dead:
                    key = (one if one in self.lowering.arrays else token, one)
                    found.setdefault(key, set()).add(step.source)
                    owners[key] = self.lowering.owners[number]
        for (token, one), nodes in sorted(found.items()):
            is_declared = not any(one in self.early.get(node, ()) for node in nodes)
            yield Read(owners[token, one], token, one, frozenset(nodes), is_declared)

    def ends(self, function: str) -> tuple[int, ...]:
        """The edges by which a function that has a result may end without one."""
        if not self.unit.functions[function].kind.width:
            return ()
        exit_node = self.graph.function(function).exit
        return tuple(
            number
            for number, step in enumerate(self.steps)
            if step.target == exit_node and self.begin(number) in self.unset and not step.is_dead and not step.gives
        )  # fmt: skip

    def results(self) -> Iterator[Result]:
        """The calls whose results are used though their functions may end without one, in the order of their tokens; the
        entry is one, but for `main`."""
        ends = {name: self.ends(name) for name in self.reached}
        found: dict[tuple[int, str], set[int]] = {}
        if ends[self.entry] and self.entry != MAIN:
            found[self.unit.functions[self.entry].name_at, self.entry] = {self.graph.function(self.entry).entry}
        for step in self.steps:
            name = step.operation.removeprefix("call ")
            is_call = name != step.operation and step.source in self.unset
            if is_call and ends.get(name) and step.call in self.lowering.used:
                found.setdefault((step.call, name), set()).add(step.source)
        for (token, name), nodes in sorted(found.items()):
            yield Result(name, token, ends[name], frozenset(nodes))

    def can_ask(self, read: Read) -> bool:
        """Whether edges that write the read's name are those of its object alone, so that a query can ask for the paths from
        its declaration: the name has one meaning in the function, which isn't called again while it runs."""
        word = next(
            name
            for (owner, name), meant in self.lowering.named.items()
            if owner == read.function and read.object in meant
        )
        inner = {
            edge.name
            for edge in self.graph.edges
            if edge.operation == "call" and self.graph.owner(edge) == read.function
        }
        recurs = any(read.function in self.graph.reached(name) for name in inner)
        return read.is_declared and self.lowering.named[read.function, word] == {read.object} and not recurs

    # ---- along a run

    def failing(self, run: Run) -> set[int]:
        """The tokens of the reads and calls at which a run uses what has no value, in FShell's order."""
        start = self.graph.function(self.entry).entry
        frames = [Frame(self.entry, set(self.lowering.born.get(start, ())), self.unit.functions[self.entry].name_at)]
        found: set[int] = set()
        node = start
        for number in run.edges:
            step = self.steps[number]
            found |= self.read_at(step, frames[-1])
            self.take(step, frames, found)
            node = step.target
            frames[-1].unset |= self.lowering.born.get(node, set())
        last = frames[-1]
        if run.end.startswith("returned") and last.has_no_value and self.entry != MAIN:
            found.add(last.call)
        if not run.end.startswith(("returned", "cut")):
            steps = [self.steps[number] for number in self.leaving.get(node, ())]
            found |= set.intersection(*(self.read_at(step, last) for step in steps)) if steps else set()
        return found

    def read_at(self, step: Step, frame: Frame) -> set[int]:
        """The tokens of a step's names whose objects have no value."""
        return {token for token, one in step.uses if one in frame.unset and one not in self.lowering.arrays}

    def take(self, step: Step, frames: list[Frame], found: set[int]) -> None:
        """Goes along a step; the call of a function that has ended without a value is found, if its result is used."""
        word, _, name = step.operation.partition(" ")
        if word == "call":
            frames.append(Frame(name, set(), step.call))
            return
        if word == "return":
            ended = frames.pop()
            if ended.has_no_value and ended.call in self.lowering.used:
                found.add(ended.call)
        frame = frames[-1]
        frame.unset = self.behind(step, frame.unset, False)
        if step.target == self.graph.function(frame.function).exit and self.unit.functions[frame.function].kind.width:
            frame.has_no_value = not step.gives
