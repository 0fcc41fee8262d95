"""The map beside what is written: from which place of the original each place comes, and what names stand for.

The parser's places are those of preprocessed rows. A row is laid beside the tokens of its line in the original: what is the same in
both belongs together, and what stands between belongs to the use of a macro.
"""

import bisect
import difflib
import os
from collections.abc import Iterator, Sequence
from typing import Optional

from fshell_tools.core import program, source_map
from fshell_tools.core.sources import CLOSING, OPENING, Source, plain

from fshell_tools.adapt.command import trap_entries
from fshell_tools.adapt.common import tree
from fshell_tools.adapt.common.c_types import INDEX, Pointer
from fshell_tools.adapt.common.objects import Variable
from fshell_tools.adapt.common.output import FELL, File
from fshell_tools.adapt.common.tree import walk
from fshell_tools.adapt.common.unit import Unit
from fshell_tools.adapt.write.writer import Writer

MACRO = "\x00"
Span = tuple[int, int, str]  # the first and the last token, and the text


def beside(ours: list[str], theirs: Sequence[Span]) -> list[Optional[Span]]:
    """For each token of preprocessed rows what it comes from, if that is known: itself, or the use of a macro."""
    found: list[Optional[Span]] = []
    for at, span in enumerate(theirs):
        if span[2] != MACRO:
            if len(found) == len(ours) or ours[len(found)] != span[2]:
                return _guessed(ours, theirs)
            found.append(span)
            continue
        behind = [text for _, _, text in theirs[at + 1 :]]
        run = behind[: behind.index(MACRO)] if MACRO in behind else behind
        end = _end_of_macro(ours, len(found), run, is_last=len(run) == len(behind))
        if end is None:
            return _guessed(ours, theirs)
        found += [span] * (end - len(found))
    return found if len(found) == len(ours) else _guessed(ours, theirs)


def _end_of_macro(ours: list[str], begin: int, run: list[str], is_last: bool) -> Optional[int]:
    """Where what a macro gave ends: before the first row of tokens that stands behind its use, outside of brackets."""
    depth = 0
    for end in range(begin, len(ours) + 1):
        if depth == 0 and ours[end : end + len(run)] == run and (not is_last or end + len(run) == len(ours)):
            return end
        if end < len(ours):
            depth += (ours[end] in OPENING) - (ours[end] in CLOSING)
    return None


def _guessed(ours: list[str], theirs: Sequence[Span]) -> list[Optional[Span]]:
    """The same where macros give parts of brackets, or stand side by side: what is the same in both, and near it a macro."""
    found: list[Optional[Span]] = [None] * len(ours)
    matcher = difflib.SequenceMatcher(None, ours, [text for _, _, text in theirs], autojunk=False)
    for word, first, last, begin, stop in matcher.get_opcodes():
        near: list[Optional[Span]] = [one for one in theirs[max(begin - 1, 0) : stop + 1] if one[2] == MACRO]
        near += [*theirs[begin:stop], None]
        for number in range(first, last):
            found[number] = theirs[begin + number - first] if word == "equal" else near[0]
    return found


class Original:
    """A file of the user's own, beside the preprocessed rows that come from it."""

    def __init__(self, path: str, units: Sequence[Unit]) -> None:
        self.data = program.read(path)
        self.source = Source(path, self.data)
        self.macros = {name: is_call for unit in units for name, is_call in unit.macros.items()}
        self.rows: dict[int, list[str]] = {}
        for unit in units:
            if not self.rows:
                self.rows = {line: rows for (file, line), rows in unit.rows.items() if file == path}
        self.lines = sorted(self.rows)
        self.spans = list(self._spans())
        self.starts = [self.spot(first)[0] for first, _, _ in self.spans]
        self.known: dict[int, dict[tuple[int, int], tuple[int, int]]] = {}

    def _spans(self) -> Iterator[Span]:
        """The tokens, the use of a macro as one: the first, the last, and the text, which is the same mark for each macro."""
        tokens, at = self.source.tokens, 0
        while at < len(tokens):
            last, text = at, tokens[at].text
            is_call = self.macros.get(text)
            if is_call and at + 1 < len(tokens) and tokens[at + 1].text == "(":
                last = min(self.source.end_of(at + 2, []), len(tokens) - 1)
            yield at, last, text if is_call is None or (is_call and last == at) else MACRO
            at = last + 1

    def spot(self, token: int) -> tuple[int, int]:
        """The line and the column of a token."""
        start = self.source.tokens[token].start
        line = bisect.bisect_right(self.source.lines, start)
        return line, start - self.source.lines[line - 1] + 1

    def aligned(self, line: int) -> dict[tuple[int, int], tuple[int, int]]:
        """For each token of a line's preprocessed rows, by the row's number and the column, the first and the last token that it
        comes from."""
        if line not in self.known:
            self.known[line] = dict(self._align(line)) if line in self.rows else {}
        return self.known[line]

    def _align(self, line: int) -> Iterator[tuple[tuple[int, int], tuple[int, int]]]:
        at = bisect.bisect_right(self.lines, line)
        first = bisect.bisect_left(self.starts, line)
        last = bisect.bisect_left(self.starts, self.lines[at]) if at < len(self.lines) else len(self.starts)
        cut = [
            (row, token)
            for row, text in enumerate(self.rows[line])
            for token in Source("", text.encode(errors="replace")).tokens
        ]
        laid = beside([token.text for _, token in cut], self.spans[first:last])
        for (row, token), span in zip(cut, laid):
            if span:
                yield (row, token.start + 1), span[:2]

    def tokens_at(self, line: int, column: int) -> Optional[tuple[int, int]]:
        """The first and the last token from which what the parser has at a place comes."""
        known = self.aligned(line)
        return next(
            (known[(row, column)] for row in range(len(self.rows.get(line, ()))) if (row, column) in known), None
        )

    def text(self, node: tree.Expression) -> Optional[tuple[tuple[int, int], str]]:
        """Where an expression stands, and its text."""
        coords = [one.coord for one in walk(node) if one.coord is not None and one.coord.file == self.source.name]
        spans = [span for one in coords if (span := self.tokens_at(one.line, one.column or 0))]
        if not spans:
            return None
        first, last = min(span[0] for span in spans), max(span[1] for span in spans)
        first, last = self._balanced(first, last)
        if isinstance(node, tree.UnaryOp):  # (whose place is that of its operand)
            mark = node.op.removeprefix("p")
            first -= self.source.tokens[first - 1].text == mark and first > 0 and node.op == mark
            last += node.op != mark and self.source.tokens[last + 1].text == mark
        return self.spot(first), self.source.between(first, last)

    def _balanced(self, first: int, last: int) -> tuple[int, int]:
        """Tokens with the brackets that belong to them."""
        tokens = self.source.tokens
        depth = 0
        least = 0
        for token in tokens[first : last + 1]:
            depth += (token.text in OPENING) - (token.text in CLOSING)
            least = min(least, depth)
        while least < 0 and first > 0:
            first -= 1
            least += (tokens[first].text in OPENING) - (tokens[first].text in CLOSING)
            depth += (tokens[first].text in OPENING) - (tokens[first].text in CLOSING)
        is_call = [token.text for token in tokens[last + 1 : last + 3]] == ["(", ")"]
        last += 2 if is_call else 0
        while depth > 0 and last + 1 < len(tokens):
            last += 1
            depth += (tokens[last].text in OPENING) - (tokens[last].text in CLOSING)
        return first, last


def places(original: Original, file: File) -> list[list[int]]:
    """The rows of a file's places: the line and the column in what is written, and those in the original."""
    found: dict[tuple[int, int], list[int]] = {}
    for line, column, source_line, source_column in file.marks:
        span = original.tokens_at(source_line, source_column)
        spot = original.spot(span[0]) if span else (source_line, 0)
        # (of several marks at one place the last is that of the innermost)
        if span or (line, column) not in found:
            found[(line, column)] = [line, column, *spot]
    return [found[key] for key in sorted(found)]


def shown(variable: Variable, path: Sequence[str]) -> str:
    """What a variable's integer is, in the words of C."""
    members = [one.lstrip("@") for one in path if one != INDEX]
    arrow = isinstance(variable.type, Pointer) and variable.is_bound
    return variable.name + "".join(("->" if arrow and at == 0 else ".") + one for at, one in enumerate(members))


def names(writer: Writer) -> dict[str, str]:
    """What names stand for: the member or the object behind each cell, and the functions that have another name."""
    found = {one.out: one.name for one in writer.names.functions}
    columns = {region.laid: region for region in writer.columns.made}
    for column, region in columns.items():
        found[column.out] = " or ".join(dict.fromkeys(one.name for one in region.objects))
    for (base, path), name in writer.spelling.leaves.items():
        owner = writer.spelling.owners[(base, path)]
        of = columns[owner].objects if owner in columns else [owner]
        found[name] = " or ".join(dict.fromkeys(shown(one, path) for one in of))
    return {name: text for name, text in sorted(found.items()) if text and name != text}


def is_pointer(parameter: Variable) -> bool:
    """Whether a parameter is a pointer in the original, however it is written."""
    return isinstance(parameter.type, Pointer) or parameter.binding is not None


def pointed(writer: Writer, path: str) -> dict[str, list[str]]:
    """The functions that a file of the user's defines, by the names that are written, each with its parameters that are pointers."""
    own = [one for one in writer.names.functions if one.definition is not None and one.where.file == path]
    return {one.out: [it.name for it in one.parameters if is_pointer(it)] for one in own}


def text_of(writer: Writer, units: Sequence[Unit], texts: dict[str, str], folder: str) -> str:
    """The map of all files that are written."""
    cells = names(writer)
    rows = []
    for path, text in texts.items():
        original = Original(path, units)
        known = {}
        for name, node in writer.stands_for.items():
            told = original.text(node)
            if told:
                known[name] = told
        named = {**cells, **{name: plain(shown_text) for name, (_, shown_text) in known.items()}}
        spots = {name: spot for name, (spot, _) in known.items()}
        plain_text = text.replace(FELL, "")
        written, traps = plain_text.encode(errors="surrogateescape"), trap_entries.rows(writer, plain_text)
        kept = os.path.relpath(os.path.realpath(path), os.path.realpath(folder))
        file = writer.files[path]
        rows.append(
            (
                os.path.basename(path),
                source_map.entry_of(
                    kept, original.data, written, places(original, file), named, spots, traps, pointed(writer, path)
                ),
            )
        )
    return source_map.text_of(rows)
