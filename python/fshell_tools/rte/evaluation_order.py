"""Which verdicts of fshell rte hang on the order of evaluation that C leaves open (docs/ORDER.md).

Most classes restrict all that is said. One doesn't: where a part of an expression may end the run by a trap and another part does
something, and neither may end it otherwise. If no operation of the statement, and of what it calls, ever fails, then all
parts come to their ends in FShell's order, and so in each other one. And else a run that is trapped in the statement is trapped there in each
order, if by another operation; so only what is said of the operations of that statement, and of what it calls, is restricted.
"""

import dataclasses
from collections.abc import Iterable, Iterator

from fshell_tools.campaign.request import Asked
from fshell_tools.core import original_sources
from fshell_tools.core.graph import Graph
from fshell_tools.core.program import Failure
from fshell_tools.core.verdicts import Limits
from fshell_tools.order import main as order
from fshell_tools.order.main import Warned
from fshell_tools.rte.failing_operations import Finder
from fshell_tools.rte.rows import BY_TEXT, Row, Verdict

BY_A_TRAP = "one part may end the run (trap), and another does something"


def is_local(one: Warned) -> bool:
    """Whether what is open of an order restricts the statement alone: one part may end the run by a trap, and no other
    one ends it otherwise."""
    return one.kind == "strict" and one.why == BY_A_TRAP


def limits_of(limits: Limits, asked: Asked) -> tuple[Limits, list[Warned]]:
    """What restricts all rows, also where runs leave the bounds, and the warnings that restrict those of a statement alone;
    none of these where all rows are restricted."""
    restriction = order.restriction(asked.entry, asked.sources, asked.query, asked.ends, asked.place)
    if not restriction:
        return limits, []
    restricted = dataclasses.replace(limits, restriction=restriction)
    try:
        found = order.warnings(asked.entry, asked.sources, asked.query, asked.ends, folder=asked.place)
    except Failure:
        return restricted, []
    told = [one for one in found if one.kind in order.needed(asked.query, asked.ends)]
    wide = [one for one in told if not is_local(one)]
    if wide:
        return dataclasses.replace(limits, restriction=cause(wide[0], asked.place)), []
    left = (
        "" if limits.restriction == restriction else limits.restriction
    )  # (of an open entry, or of a trap that adapt adds)
    return dataclasses.replace(limits, restriction=left), told


def cause(one: Warned, folder: str) -> str:
    """Why what is refuted isn't said beyond FShell's order; `folder` is that in which the sources' names are."""
    place = original_sources.place_of(one.file, one.line, one.column, folder)
    return f"C leaves the order of evaluation open at {place} ({one.kind})"


class Regions:
    """The tokens of statements in which an order is open (C11 6.5, paragraphs 2 and 3), and of all functions that they
    call."""

    def __init__(self, graph: Graph, finder: Finder, warned: Iterable[Warned], place: str) -> None:
        self.graph, self.finder, self.place = graph, finder, place
        self.found = [(one, self.region(one)) for one in warned]

    def region(self, one: Warned) -> set[int]:
        """The numbers of the tokens of a warning's statement, and of the functions that it may call."""
        tokens: set[int] = set()
        for token in self.finder.at.get((one.file, one.line, one.column), []):
            form = self.finder.statement(token) or self.finder.bodies.get(one.function)
            tokens |= set(range(form.first, form.last + 1)) if form else {token}
        names = {self.finder.words[token].text for token in tokens}
        called = [name for name in self.finder.bodies if name in names]
        for name in {inner for one in called for inner in self.graph.reached(one)}:
            body = self.finder.bodies.get(name)
            tokens |= set(range(body.first, body.last + 1)) if body else set()
        return tokens

    def restricted(self, rows: list[tuple[set[int], Row]]) -> Iterator[tuple[set[int], Row]]:
        """The rows, each with its tokens; what is said of operations whose order matters is open, with that place as the
        cause, but for what holds by the text alone."""
        wrong = [tokens for tokens, row in rows if row.verdict in (Verdict.FAILS, Verdict.OPEN)]
        open_ones = [
            (one, region) for one, region in self.found if any(not tokens or tokens & region for tokens in wrong)
        ]
        for tokens, row in rows:
            found = next((one for one, region in open_ones if tokens & region), None)
            if found and row.why != BY_TEXT and row.verdict not in (Verdict.FAILS, Verdict.OPEN):
                row = dataclasses.replace(row, verdict=Verdict.OPEN, why=cause(found, self.place))
            yield tokens, row
