"""A source as its user wrote it: where each place of what fshell adapt wrote comes from, and the texts there (source_map.py)."""

import bisect
import functools
import os
import re
from collections.abc import Mapping, Sequence

from fshell_tools.core import program, source_map
from fshell_tools.core.source_map import Mapped, Spot
from fshell_tools.core.sources import CLOSING, OPENING, Source

_WORDS = ("if", "while", "for", "switch")
_JUMPS = ("return", "case", "goto", "break", "continue", "else", "do")
_ASSIGNED = ("=", "+=", "-=", "*=", "/=", "%=", "&=", "|=", "^=", "<<=", ">>=")
_CONNECTORS = ("&&", "||", "?", ":", ";", ",", "{", "}", "!", *_JUMPS, *_ASSIGNED, *_WORDS)
_ENDS = ("&&", "||", "?", ":", ";", ",", "{", "}")


class Original(Source):
    """The original of a source, beside what was written of it."""

    def __init__(self, mapped: Mapped, written: Source) -> None:
        super().__init__(mapped.original, mapped.data)
        self.mapped, self.written = mapped, written
        last = len(written.lines)
        known = [(at, spot) for at, spot in mapped.places.items() if spot[1] and 0 < at[0] <= last]
        self.known = sorted((written.offset(*at), spot) for at, spot in known)

    def spot(self, line: int, column: int) -> Spot:
        """The line and the column from which a place of what was written comes; a node, which has no column, has none."""
        if column == 0:
            return line, 0
        exact = self.mapped.places.get((line, column))
        if exact and exact[1]:
            return exact
        at = self.written.index(line, column)
        temporary = self.mapped.temporaries.get(self.written.tokens[at].text)
        if temporary:
            return temporary
        near = self._near(line, column, self.written.end_of(at, _ENDS))
        return near or (line, len(self.row(line)) - len(self.row(line).lstrip()) + 1)

    def _near(self, line: int, column: int, end: int) -> Spot | None:
        """The place that is known next: within the part of the expression that begins there, or else before it on its line."""
        last = self.written.tokens[end - 1].end if end > 0 else 0
        begin = self.written.offset(line, column)
        at = bisect.bisect_left(self.known, (begin, (0, 0)))
        if at < len(self.known) and self.known[at][0] < last:
            return self.known[at][1]
        return self.known[at - 1][1] if at and self.known[at - 1][0] >= self.written.lines[line - 1] else None

    def row(self, line: int) -> str:
        """A line as it stands; nothing behind the last one."""
        if line > len(self.lines):
            return ""
        end = self.lines[line] if line < len(self.lines) else len(self.text)
        return self.text[self.lines[line - 1] : end]

    def condition(self, line: int, column: int) -> str:
        """The text of the part of a condition of which a token stands at a place of what was written."""
        at = self.written.index(line, column)
        name = self.written.tokens[at].text
        temporary = self.mapped.temporaries.get(name)
        if temporary and not (self.mapped.places.get((line, column)) or (0, 0))[1]:
            end = self.written.end_of(at, _ENDS)
            if end == at + 1:
                return self.mapped.names[name]
        first = self.begin(self.index(*self.spot(line, column)))
        return self.between(first, max(first, self.end_of(first, _ENDS) - 1))

    def guard_spot(self, line: int, column: int) -> Spot:
        """The line and the column where the part of a condition begins of which a token stands at a place of what was written."""
        return self.where(self.begin(self.index(*self.spot(line, column))))

    def begin(self, at: int) -> int:
        """The number of the first token of the part of a condition that has a token."""
        first = at
        while first > 0:
            before = self.tokens[first - 1].text
            if before in _CONNECTORS:
                return first
            if before in CLOSING:
                opening = self._opening(first - 1)
                if opening and self.tokens[opening - 1].text in _WORDS:
                    return first
                first = opening
            elif before in OPENING:
                if not self._is_operand(first - 1):
                    return first
                first -= 1
            else:
                first -= 1
        return first

    def _opening(self, at: int) -> int:
        """The number of the token that opens what one closes."""
        depth = 0
        while at > 0:
            depth += (self.tokens[at].text in CLOSING) - (self.tokens[at].text in OPENING)
            if depth == 0:
                return at
            at -= 1
        return at

    def _is_operand(self, opening: int) -> bool:
        """Whether what brackets hold is a part of a greater operand: an index, a call, or what an operator stands behind."""
        before = self.tokens[opening - 1].text if opening else ""
        if self.tokens[opening].text == "[":
            return True
        if before in _WORDS or self.tokens[opening].text == "{":
            return False
        close = self.end_of(opening + 1, [])
        behind = self.tokens[close + 1].text if close + 1 < len(self.tokens) else ""
        is_call = re.fullmatch(r"[A-Za-z_]\w*", before) is not None and before not in _CONNECTORS
        if is_call or behind in (*_ENDS, ")", "]", ""):
            return is_call and not any(one.text in ("&&", "||", "?") for one in self.tokens[opening:close])
        return True

    def statement_start(self, line: int, column: int) -> int:
        """The number of the first token of the statement whose place was written: of a declaration with its type."""
        at = self.index(*self.spot(line, column))
        word = self.written.tokens[self.written.index(line, column)].text
        if word in _WORDS and self.tokens[at].text not in (*_WORDS, "do"):
            # (what was written last before the statement's head was a part of it, or what follows it)
            heads = (
                one for one in range(at - 1, max(at - 200, -1), -1) if self.tokens[one].text in (*_WORDS, ";", "{", "}")
            )
            head = next(heads, at)
            return head if self.tokens[head].text in _WORDS else at
        while at > 0 and re.fullmatch(r"[A-Za-z_]\w*|\*|\+\+|--", self.tokens[at - 1].text):
            if self.tokens[at - 1].text in ("else", "do", "return", "case", "goto") or self.tokens[at].text in _WORDS:
                break
            at -= 1
        return at

    def stands_for(self, text: str) -> str:
        """What a name of what was written stands for, or itself."""
        return self.mapped.names.get(text, text)


def of_source(written: Source, name: str, place: str) -> Original | None:
    """The original of a source, where a map beside it has one."""
    mapped = source_map.of_source(name, place)
    return Original(mapped, written) if mapped else None


@functools.cache
def _original(name: str, place: str) -> Original | None:
    return of_source(Source(name, program.read(os.path.join(place, name))), name, place)


def place_of(file: str, line: int, column: int, place: str | None, own: Mapping[str, str] | None = None) -> str:
    """A place as the user knows it: FILE:LINE:COLUMN, or without a column where that is 0. `own` has the name of each file as it
    is shown, where that isn't its path from `place`."""
    original = _original(file, place or ".")
    if original:
        name, (line, column) = original.name, original.spot(line, column)
        file = (own or {}).get(file, name)
    return f"{file}:{line}:{column}" if column else f"{file}:{line}"


def words_of(text: str, files: Sequence[str], place: str | None) -> str:
    """A text in which the names of what was written are those of the user's own."""
    names: dict[str, str] = {}
    for file in files:
        known = _original(file, place or ".")
        names |= known.mapped.names if known else {}
    return re.sub(r"[A-Za-z_]\w*", lambda found: names.get(found[0], found[0]), text)
