"""The tokens of sources with macros replaced, as docs/C_PROFILE.md says ("Directives and macros").

Each token has the place of the word that stands in the source. The sources must be ones that the program accepts.
"""

import bisect
import os
import re
from collections.abc import Iterator, Sequence
from dataclasses import dataclass

from fshell_tools.core import program
from fshell_tools.core.sources import Source

_DEFINE = re.compile(r"#\s*define\s+([A-Za-z_]\w*)(.*)", re.DOTALL | re.ASCII)
_COMMENT = re.compile(r"/\*.*?\*/|//[^\n]*", re.DOTALL)


@dataclass(frozen=True)
class Word:
    """A token: its text and its place, counted from 1."""

    text: str
    file: str
    line: int
    column: int

    @property
    def place(self) -> str:
        """`FILE:LINE:COLUMN`, the column in bytes from 1."""
        return f"{self.file}:{self.line}:{self.column}"


def _definition(directive: str) -> tuple[str, list[str]] | None:
    """The name and the tokens of a macro that a directive defines."""
    found = _DEFINE.fullmatch(_COMMENT.sub(" ", directive))
    if not found:
        return None
    return found[1], [token.text for token in Source("", found[2].encode("latin-1")).tokens]


def _replaced(text: str, macros: dict[str, list[str]]) -> Iterator[str]:
    """The tokens that a word becomes."""
    agenda = [text]
    while agenda:
        one = agenda.pop()
        if one in macros:
            agenda += reversed(macros[one])
        else:
            yield one


def of_source(name: str, data: bytes) -> list[Word]:
    """The tokens of a source in their order, macros replaced (C11 6.10.3), each at the place of the source where it, or
    the macro's name, stands."""
    source = Source(name, data)
    macros: dict[str, list[str]] = {}
    found: list[Word] = []
    definitions = [(one.start, _definition(one.text)) for one in source.directives]
    definitions.reverse()
    for token in source.tokens:
        while definitions and definitions[-1][0] < token.start:
            made = definitions.pop()[1]
            if made:
                macros[made[0]] = made[1]
        line = bisect.bisect_right(source.lines, token.start)
        column = token.start - source.lines[line - 1] + 1
        found += [Word(text, name, line, column) for text in _replaced(token.text, macros)]
    return found


def of_sources(names: Sequence[str], folder: str = ".") -> list[Word]:
    """The tokens of sources one behind the other, as one unit has them."""
    return [word for name in names for word in of_source(name, program.read(os.path.join(folder, name)))]
