"""Tells operations of one step apart, where one of them fails: by predicates over their operands, where these are plain.

An operation whose text has names of variables, constants and operators alone is trapped in a state exactly where the predicate
`(text) == (text)` is; then the predicate doesn't hold there. So of a node n the goals are that a run ends there where the predicate of
an operation doesn't hold, and those of the others do, or one doesn't. Where both are refuted the operation never fails. Where the first
is hit, it is the operation that fails: no other one can have ended the run. Each operation has a folder of its own, `apart/N`.
"""

import os
import re
from collections.abc import Iterable
from dataclasses import dataclass, replace

from fshell_tools.campaign.main import measured
from fshell_tools.campaign.request import Asked
from fshell_tools.campaign.state_folder import Folder
from fshell_tools.core import graph as graphs
from fshell_tools.core.graph import Graph
from fshell_tools.core.program import Failure
from fshell_tools.rte.failing_operations import CAUSES, Operation
from fshell_tools.rte.search import Failed, decide, runs_of

MOST, LONGEST = 64, 4000  # operations that are told apart, and bytes of a query
PLAIN = re.compile(r"(?:[A-Za-z_]\w*(?!\s*\()|\d\w*|<<|>>|[-+*/%&|^~!<>()\[\]\s]|[=!<>]=)+")
ASSIGNED = re.compile(r"(?P<left>[^=<>!]*?)\s*(?P<op>/|%|<<|>>)=(?!=)\s*(?P<right>.*)", re.DOTALL)
NAME = re.compile(r"[A-Za-z_]\w*")
WORDS = {"int", "long", "short", "char", "unsigned", "signed"}


@dataclass(frozen=True)
class Apart:
    """What is known of an operation apart from the others of its step: its goals and the folder that has their
    certificates, that it never fails, or the input with which it does."""

    goals: tuple[int, ...]
    folder: str
    is_never: bool
    failed: Failed | None = None
    is_together: bool = False  # it fails where another operation of the step does


def held_text(one: Operation) -> str:
    """An expression that is evaluated exactly where an operation is, and holds where it doesn't fail; nothing where it
    isn't plain: it has a call, && or ||, or marks that predicates haven't."""
    text = one.text
    if one.kind in ("assert", "assume"):
        text = text.partition("(")[2].rpartition(")")[0]
    found = ASSIGNED.fullmatch(text)
    if found:
        text = f"({found['left']}) {found['op']} ({found['right']})"
    calls = re.search(r"[A-Za-z_]\w*\s*\(", text)
    if one.kind == "call" or calls or "&&" in text or "||" in text or not PLAIN.fullmatch(text):
        return ""
    return f"({text}) != 0" if one.kind in ("assert", "assume") else f"({text}) == ({text})"


def scope_text(one: Operation) -> str:
    """A predicate that holds wherever all variables of an operation are in scope: each equals itself."""
    names = dict.fromkeys(NAME.findall(one.text.partition("(")[2] if one.kind in ("assert", "assume") else one.text))
    kept = [name for name in names if name not in WORDS and not name.endswith("_t")]
    parts = [
        f"{name}[0] == {name}[0]" if re.search(rf"\b{name}\s*\[", one.text) else f"{name} == {name}" for name in kept
    ]
    return both(parts) or "1 == 1"


def both(parts: Iterable[str]) -> str:
    """The predicate that all parts hold; nothing of none. By &, which predicates have."""
    return " & ".join(f"({part})" for part in parts)


class Steps:
    """Asks about the operations of steps of which one fails, at most 64 in all, in folders below `path`."""

    def __init__(self, graph: Graph, path: str, asked: Asked, operations: list[Operation], jobs: int) -> None:
        self.graph, self.path, self.asked, self.operations, self.jobs = graph, path, asked, operations, jobs
        self.count = 0

    def of_node(self, node: int) -> dict[Operation, Apart]:
        """What is known of the operations at a node where a run ends, of those that are done nowhere else and are
        plain; nothing where there is one alone."""
        there = [one for one in self.operations if node in one.nodes and not one.is_safe]
        if len(there) < 2:
            return {}
        found = {one: self.of_operation(node, one, there) for one in there if one.nodes == {node}}
        return {one: apart for one, apart in found.items() if apart}

    def predicates(self, one: Operation, there: list[Operation]) -> list[str]:
        """The predicates of an operation's goals: of the others that it has within it, of all others, and its own; none
        where it isn't plain. One that has the operation within it fails with it, so it is none of the others."""
        own = held_text(one)
        others = [other for other in there if other != one and not other.has(one)]
        texts = {other: held_text(other) for other in others}
        if not own or not all(texts.values()):
            return [own] if own else []
        inner = [texts[other] for other in others if one.has(other)]
        rest = [texts[other] for other in others if not one.has(other)]
        return [*([both(inner)] if inner else []), both([scope_text(one), *rest]), own]

    def of_operation(self, node: int, one: Operation, there: list[Operation]) -> Apart | None:
        """What is known of an operation; None where it can't be asked for: it isn't plain, 64 were asked for already,
        the query has more than 4000 bytes, or the program refuses it."""
        texts = self.predicates(one, there)
        query = self.query(node, texts)
        if not texts or self.count >= MOST or len(query.encode()) > LONGEST:
            return None
        self.count += 1
        name = os.path.join("apart", str(self.operations.index(one)))
        asked = replace(self.asked, query=query)
        try:
            goals = self.goals(asked, node, len(texts))
        except Failure:  # (a macro or a constant of an enumeration, which predicates don't know)
            return None
        if len(goals) != min(len(texts), 2):
            return None
        folder = Folder(os.path.join(self.path, name))
        folder.begin(asked, [])
        folder.clean()
        found = decide(folder, asked, goals, self.jobs)
        refuted = set(folder.refuted(asked))
        failed = None
        if len(texts) > 1 and goals[0] in found:
            (run,) = runs_of(asked, [found[goals[0]]])
            at = self.graph.edges[run.edges[-1]].target if run.edges else self.graph.function(asked.entry).entry
            if at == node and one.kind in CAUSES.get(run.end, ()):
                failed = Failed(found[goals[0]], run.end)
        is_together = len(goals) == 2 and goals[0] in refuted and goals[1] in found
        return Apart(tuple(sorted(goals)), name, set(goals) <= refuted, failed, is_together)

    def query(self, node: int, texts: list[str]) -> str:
        """The query of all nodes on the line of a node's first edge, with each of these predicates and without it."""
        edge = self.graph.leaving[node][0] if self.graph.leaving[node] else None
        part = f"INTERSECT(@FUNC({self.graph.owner(edge)}),@LINE({edge.line}))" if edge else "ID"
        for text in texts:
            part = f"PRED({part},{{{text}}})"
        return f"cover NODES({part})$"

    def goals(self, asked: Asked, node: int, count: int) -> list[int]:
        """The numbers of the goals of a node at which an operation's own predicate doesn't hold, and all of the inner
        ones do: the first is the one at which those of all others hold. `count` is the number of predicates. Raises
        Failure where the program refuses the query."""
        found = {}
        for goal in measured(asked, []).goals:
            letters = graphs.letters(self.graph, goal.text)
            signs = tuple(not letter.text.startswith("!") for letter in letters[1:])
            if letters[0].node and letters[0].node.number == node and len(signs) == count and not signs[-1]:
                found[signs] = goal.number
        if count == 1:
            return list(found.values())
        return [number for signs, number in sorted(found.items(), reverse=True) if all(signs[:-2])]
