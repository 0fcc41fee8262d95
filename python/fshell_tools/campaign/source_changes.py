"""Whether sources that changed are the same but for comments and blanks, so that the goals over them are the same.

Their tokens and directives are compared, and the automaton and the goals but for the places that stand in them. A query that
names lines is another one where lines have moved.
"""

import hashlib
import os
import re
from collections.abc import Iterator, Sequence
from dataclasses import astuple

from fshell_tools.core import graph as graphs
from fshell_tools.core import program
from fshell_tools.core.graph import Graph, Letter
from fshell_tools.core.sources import Source, plain


def sum_of(parts: Iterator[str]) -> str:
    """One sum of a row of texts."""
    total = hashlib.sha256()
    for part in parts:
        total.update(part.encode("utf-8", "surrogateescape") + b"\0")
    return total.hexdigest()


def pieces(source: Source) -> Iterator[str]:
    """The tokens and the directives of a source, in order, without comments."""
    directives = {one.start for one in source.directives}
    for one in sorted((*source.tokens, *source.directives), key=lambda piece: piece.start):
        yield plain(one.text) if one.start in directives else one.text


def steps(graph: Graph) -> Iterator[str]:
    """The automaton but for its places."""
    for edge in graph.edges:
        number, source, target, _, _, _, *rest = astuple(edge)
        yield repr((number, source, target, rest))
    yield from (f"{node.function} {node.depth}" for node in graph.nodes)


def letter_text(letter: Letter) -> str:
    """A letter of a goal but for its place."""
    return f"e{letter.edge.number}" if letter.edge else f"n{letter.node.number}" if letter.node else letter.text


def meaning(query: str, sources: Sequence[str], place: str) -> tuple[str, str]:
    """Two sums: of all that the goals are made of but for places, and of the places."""
    texts = [Source(name, program.read(os.path.join(place, name))) for name in sources]
    graph = graphs.of_sources(sources, place)
    goals = [graphs.letters(graph, goal.text) for goal in graphs.goals_of(graph, query, sources, place).goals]

    def parts() -> Iterator[str]:
        for source in texts:
            yield from (source.name, *pieces(source))
        yield from steps(graph)
        yield from (" . ".join(map(letter_text, goal)) for goal in goals)

    places = [node.place for node in graph.nodes] + [edge.place for edge in graph.edges]
    return sum_of(parts()), sum_of(iter(places))


def names_lines(query: str) -> bool:
    """Whether what a query means hangs on the numbers of lines."""
    return re.search(r"@LINE\b", query, re.IGNORECASE) is not None
