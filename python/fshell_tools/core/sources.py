"""The text of conditions and statements, as it stands in the sources, for the places that the automaton names.

Sources are cut into tokens as docs/C_PROFILE.md says; a place is a line and the column of a byte. Where a place is the word of a
macro, the text is that word's.
"""

import bisect
import os
import re
from collections.abc import Mapping, Sequence
from typing import NamedTuple

from fshell_tools.core import program
from fshell_tools.core.graph import Edge, Graph, Node

_TOKEN = re.compile(
    r"(?P<blank>[ \t\v\f\r\n]+|//[^\n]*|/\*.*?\*/)|(?P<word>[A-Za-z_]\w*)|(?P<number>[0-9][\w.]*)"
    r"|(?P<quoted>'(?:\\.|[^'\\\n])*'|\"(?:\\.|[^\"\\\n])*\")"
    r"|(?P<mark>\.\.\.|<<=|>>=|\+\+|--|<<|>>|<=|>=|==|!=|&&|\|\||[*/%+\-&^|]=|->|.)",
    re.DOTALL | re.ASCII,
)
_DIRECTIVE = re.compile(r"#(?:/\*.*?\*/|//[^\n]*|\\\r?\n|[^\n])*", re.DOTALL)
_COMMENT = re.compile(r"/\*.*?\*/|//[^\n]*", re.DOTALL)
_KEYWORDS = {"IF": "if", "WHILE": "while", "DO": "while", "FOR": "for", "SWITCH": "switch"}
OPENING, CLOSING = "([{", ")]}"


class Token(NamedTuple):
    """A token with its first byte in the source and the one behind its last."""

    text: str
    start: int
    end: int


class Source:
    """A source: its text, each byte a character, and its tokens without directives."""

    def __init__(self, name: str, data: bytes) -> None:
        self.name = name
        self.text = data.decode("latin-1")
        self.lines = [0] + [found.end() for found in re.finditer("\n", self.text)]
        self.directives: list[Token] = []
        self.tokens = list(self._cut())
        self.starts = [token.start for token in self.tokens]

    def _cut(self) -> list[Token]:
        """The tokens; directives are put aside."""
        found: list[Token] = []
        at, is_first = 0, True
        while at < len(self.text):
            directive = _DIRECTIVE.match(self.text, at) if is_first and self.text[at] == "#" else None
            token = directive or _TOKEN.match(self.text, at)
            if not token:
                raise program.Failure(f"{self.name}: no token begins at byte {at}")
            if directive:
                self.directives.append(Token(directive[0], at, directive.end()))
            elif not token.group("blank"):
                found.append(Token(token[0], token.start(), token.end()))
            is_first = "\n" in token[0] or (is_first and bool(directive or token.group("blank")))
            at = token.end()
        return found

    def offset(self, line: int, column: int) -> int:
        """The number of the byte at a line and a column."""
        return self.lines[line - 1] + column - 1

    def index(self, line: int, column: int) -> int:
        """The number of the token at a place, or of the first behind it."""
        return min(bisect.bisect_left(self.starts, self.offset(line, column)), len(self.tokens) - 1)

    def where(self, token: int) -> tuple[int, int]:
        """The line and the column of a token."""
        start = self.tokens[token].start
        line = bisect.bisect_right(self.lines, start)
        return line, start - self.lines[line - 1] + 1

    def line_text(self, line: int) -> str:
        """The text of a line, without blanks at its ends."""
        end = self.lines[line] if line < len(self.lines) else len(self.text)
        return plain(self.text[self.lines[line - 1] : end])

    def between(self, first: int, last: int) -> str:
        """The text from one token to another, both with it, in one line without comments."""
        return plain(self.text[self.tokens[first].start : self.tokens[last].end])

    def end_of(self, first: int, stops: Sequence[str]) -> int:
        """The number of the first token from `first` on that is one of `stops`, or a mark that closes, outside of brackets."""
        depth = 0
        for at in range(first, len(self.tokens)):
            text = self.tokens[at].text
            if depth == 0 and (text in stops or text in CLOSING):
                return at
            depth += (text in OPENING) - (text in CLOSING)
        return len(self.tokens)


def plain(text: str) -> str:
    """A text in one line, without comments, as UTF-8 has it."""
    return " ".join(_COMMENT.sub(" ", text).split()).encode("latin-1").decode("utf-8", "replace")


class Faces:
    """What the edges of an automaton are in its sources."""

    def __init__(
        self, graph: Graph, sources: Sequence[str], place: str = ".", own: Mapping[str, str] | None = None
    ) -> None:
        """The sources stand in `place`; `own` has the name of each original as it is shown, where that is no path from there."""
        self.graph = graph
        self.sources = {name: Source(name, program.read(os.path.join(place, name))) for name in sources}
        from fshell_tools.core import original_sources  # (which needs the Source of this module)

        found = {name: original_sources.of_source(source, name, place) for name, source in self.sources.items()}
        self.originals = {name: one for name, one in found.items() if one}
        for name, one in self.originals.items():
            one.name = (own or {}).get(name, one.name)
        self.guards: dict[str, list[int]] = {}
        self.starts: dict[tuple[str, str], list[tuple[int, int]]] = {}
        for edge in graph.edges:
            if edge.is_guard:
                numbers = self.guards.setdefault(edge.place, [])
                if edge.source not in numbers:
                    numbers.append(edge.source)
            else:
                self.starts.setdefault((edge.file, edge.kind), []).append((edge.line, edge.column))
        for places in self.starts.values():
            places.sort()

    def is_label(self, edge: Edge) -> bool:
        """Whether an edge is a guard of a label of a `switch`."""
        source = self.sources[edge.file]
        is_switch = edge.is_guard and edge.kind == "SWITCH"
        return is_switch and source.tokens[source.index(edge.line, edge.column)].text == "case"

    def condition(self, guard: Edge) -> str:
        """The text of a guard's part of a condition, or the label of a `switch`."""
        source = self.own(guard.file)
        first = source.index(*self.spot(guard)[1:])
        if self.is_label(guard):
            return source.between(first, source.end_of(first, [":"]) - 1)
        if guard.file in self.originals:
            return self.originals[guard.file].condition(guard.line, guard.column)
        # where two tests begin at a place, the first is of the condition of a ?:, and the other of the whole
        is_first = guard.source == self.guards[guard.place][0]
        last = source.end_of(first, [",", ";", "&&", "||", "?", ":"]) if is_first else self._choice_end(source, first)
        return source.between(first, max(first, last - 1))

    def _choice_end(self, source: Source, first: int) -> int:
        """The end of a `?:` that begins at a token: no `:` counts that is one of its own."""
        at, own = first, 0
        while True:
            at = source.end_of(at, [",", ";", "?", ":"])
            text = source.tokens[at].text if at < len(source.tokens) else ";"
            own += (text == "?") - (text == ":")
            if text not in "?:" or own < 0:
                return at
            at += 1

    def shown(self, edge: Edge) -> Edge:
        """The edge whose place says where an edge stands: itself, but for what the condition of an `else if` makes, which has the
        place of the first `if`; of that it is the guard which comes next."""
        if edge.is_guard or not edge.decision or edge.kind != "IF":
            return edge
        at: Edge | None = edge
        seen: set[int] = set()
        while at and not at.is_guard and at.number not in seen:
            seen.add(at.number)
            at = self.after(at)
        if not at or at.kind != "IF" or at.file != edge.file:
            return edge
        source = self.sources[edge.file]
        return edge if self.statement_start(at) == source.index(edge.line, edge.column) else at

    def after(self, edge: Edge) -> Edge | None:
        """The step of the same function that comes next: behind a call it is its return."""
        if edge.operation == "call":
            return self.graph.edges[edge.number + 1]
        leaving = self.graph.leaving[edge.target]
        return leaving[0] if leaving else None

    # ---- as the user wrote them

    def own(self, file: str) -> Source:
        """The user's own source: the original of one that was written of it, or else itself."""
        return self.originals.get(file) or self.sources[file]

    def at(self, file: str, line: int, column: int) -> tuple[str, int, int]:
        """The file, the line and the column of a place in the user's own source; a column that isn't known is 0."""
        original = self.originals.get(file)
        return (original.name, *original.spot(line, column)) if original else (file, line, column)

    def spot(self, edge: Edge) -> tuple[str, int, int]:
        """The place of an edge in the user's own source; of a guard that where its part of the condition begins."""
        original = self.originals.get(edge.file)
        if original and edge.is_guard and not self.is_label(edge):
            return original.name, *original.guard_spot(edge.line, edge.column)
        return self.at(edge.file, edge.line, edge.column)

    def line(self, edge: Edge) -> int:
        """The line of an edge in the user's own source."""
        return self.spot(self.shown(edge))[1]

    def name(self, text: str) -> str:
        """What a name stands for in the user's own sources."""
        return next((found for one in self.originals.values() if (found := one.stands_for(text)) != text), text)

    def place(self, edge: Edge) -> str:
        """Where an edge stands, as FILE:LINE:COLUMN."""
        return "{}:{}:{}".format(*self.spot(self.shown(edge)))

    def node_line(self, node: Node) -> int:
        """The line of a node in the user's own source."""
        return self.at(node.file, node.line, 0)[1]

    def node_place(self, node: Node) -> str:
        """Where a node stands, as FILE:LINE."""
        return "{}:{}".format(*self.at(node.file, node.line, 0))

    def node_text(self, node: Node) -> str:
        """What stands on the line of the user's own source where a node is."""
        return self.own(node.file).line_text(self.node_line(node))

    def statement(self, edge: Edge) -> str:
        """The text of the innermost statement of an edge: of `if`, loops and `switch` the head alone."""
        edge = self.shown(edge)
        source = self.own(edge.file)
        first = self._own_start(edge)
        if first is None:
            return source.line_text(self.spot(edge)[1])
        text = source.tokens[first].text
        if text in _KEYWORDS.values():
            return source.between(first, min(source.end_of(first + 2, []), len(source.tokens) - 1))
        if text in ("do", "{", "}", ";") or edge.kind == "LABEL":
            return source.between(first, min(first + (edge.kind == "LABEL"), len(source.tokens) - 1))
        end = source.end_of(first, [";", "{"])
        return source.between(first, max(first, end - 1))

    def _own_start(self, edge: Edge) -> int | None:
        """The number of the first token of an edge's innermost statement in the user's own source, where it is found."""
        first, original = self.statement_start(edge), self.originals.get(edge.file)
        if first is None or original is None:
            return first
        return original.statement_start(*self.sources[edge.file].where(first))

    def statement_start(self, edge: Edge) -> int | None:
        """The number of the first token of an edge's innermost statement, where it is found."""
        source = self.sources[edge.file]
        if not edge.is_guard:
            return source.index(edge.line, edge.column)
        at = source.index(edge.line, edge.column)
        keyword = _KEYWORDS.get(edge.kind)
        if keyword:
            return next((one for one in range(at, -1, -1) if source.tokens[one].text == keyword), None)
        places = self.starts.get((edge.file, edge.kind), [])
        before = bisect.bisect_right(places, (edge.line, edge.column))
        return source.index(*places[before - 1]) if before else None

    def deed(self, edge: Edge) -> str:
        """What is done along an edge, in a few words."""
        if edge.is_guard:
            return f"{self.condition(edge)} is {'true' if edge.truth else 'false'}"
        if edge.enter:
            return "enters the loop"
        if edge.back:
            return "goes back to the loop's head"
        name = self.name(edge.name)
        return {"call": f"calls {name}", "return": f"{name} returns", "answer": f"{name} answers"}.get(
            edge.operation, ""
        )

    def face(self, edge: Edge) -> str:
        """An edge in one line: its place, its function, its statement and what is done."""
        deed, statement = self.deed(edge), self.statement(edge)
        label = f", label {edge.label}" if edge.label else ""
        what = f"{deed}, in {statement}" if deed else statement
        return f"{self.place(edge)} {self.name(self.graph.owner(edge))}: {what}{label}"
