"""Writes each signed operation that can overflow as a call of a small function with an assert (--check-overflow), and each
implicit conversion that may lose a value (--check-conversions).

checked_operations.py asks it before an operation is written. An operation whose operands leave no room for an
overflow, by their kinds or as constants, stays as it is. Divisions and remainders trap in the profile itself. Each call carries a mark in its text
until the files are laid out; then the table of overflow.json tells of each call which operation of the original it is.
"""

import json
import os
import re
from collections.abc import Callable
from dataclasses import dataclass
from typing import TYPE_CHECKING, Optional, Union

from fshell_tools.core import program

from fshell_tools.adapt.bind.value_texts import LEVELS, PRIMARY, Value, number
from fshell_tools.adapt.common import c_types, tree
from fshell_tools.adapt.common.c_types import Int
from fshell_tools.adapt.common.output import FELL
from fshell_tools.adapt.common.parsing import printed
from fshell_tools.adapt.write import overflow_texts
from fshell_tools.adapt.write.component import Component
from fshell_tools.adapt.write.operator_locations import Original, spot

if TYPE_CHECKING:
    from fshell_tools.adapt.write.writer import Writer

HEADER, TABLE = "overflow.h", "overflow.json"
MARK = re.compile("\x04(\\d+)\x05")
CHECKED, KNOWN = ("+", "-", "*", "<<"), ("/", "%", "&", ">>")
Span = tuple[int, int]


def span_of(kind: Int) -> Span:
    """The least and the greatest number of a kind."""
    if kind.boolean:
        return 0, 1
    if kind.width:  # (a bit-field)
        half = 1 << (kind.width - 1)
        return (-half, half - 1) if kind.below_zero else (0, 2 * half - 1)
    return (-(1 << (kind.bits - 1)), (1 << (kind.bits - 1)) - 1) if kind.signed else (0, (1 << kind.bits) - 1)


def within(span: Span, kind: Int) -> bool:
    """Whether a kind has all numbers between two."""
    low, high = span_of(kind)
    return low <= span[0] and span[1] <= high


@dataclass(frozen=True)
class Ranged(Value):
    """A value of which more is known than its kind says."""

    low: int = 0
    high: int = 0


def span(value: Value) -> Span:
    """Between which numbers a value lies."""
    known = number(value)
    if known is not None:
        return known, known
    if isinstance(value, Ranged):
        return value.low, value.high
    return (0, 1) if value.truth else span_of(value.kind)


def result(op: str, left: Span, right: Span) -> Span:
    """Between which numbers the result of an operation lies, if it doesn't overflow."""
    if op == "<<":
        if left[0] < 0 or not 0 <= right[0] <= right[1] < 64:
            return -(1 << 200), 1 << 200  # (it may have no value)
        return left[0] << right[0], left[1] << right[1]
    if op == "+":
        return left[0] + right[0], left[1] + right[1]
    if op == "-":
        return left[0] - right[1], left[1] - right[0]
    if op == "*":
        products = [one * other for one in left for other in right]
        return min(products), max(products)
    return part(op, left, right)


def part(op: str, left: Span, right: Span) -> Span:
    """Between which numbers the result lies of an operation that doesn't grow, where the right operand is known and positive."""
    number_of = right[1] if right[0] == right[1] > 0 else 0
    if op == "&" and right[0] >= 0:
        return 0, right[1]
    if op == "/" and number_of:
        return -(-left[0] // number_of) if left[0] < 0 else left[0] // number_of, left[1] // number_of
    if op == "%" and number_of:
        return (0 if left[0] >= 0 else 1 - number_of), number_of - 1
    if op == ">>" and left[0] >= 0:
        return 0, left[1]
    return -(1 << 200), 1 << 200


def marked(line: str, column: int) -> int:
    """How many characters of marks stand in a line before a column."""
    return sum(len(found[0]) for found in MARK.finditer(line) if found.start() < column - 1)


@dataclass(frozen=True)
class Site:
    """What a call stands for: its function, and the operation of the original with its place and text."""

    function: str
    what: str
    file: str
    line: int
    column: int
    text: str


class Overflow(Component):
    """The calls of checked operations so far, with what each stands for. `overflows` and `conversions` say of what."""

    def __init__(self, writer: "Writer", overflows: bool, conversions: bool) -> None:
        super().__init__(writer)
        self.overflows, self.conversions = overflows, conversions
        self.helpers: dict[tuple[object, ...], tuple[str, str]] = {}
        self.sites: list[Site] = []
        self.originals: dict[str, Original] = {}
        self.last: tuple[Optional[tree.Expression], Optional[Value]] = (
            None,
            None,
        )  # the expression that was written last, and its value
        self.rows: list[dict[str, Union[str, int]]] = []

    # ---- calls

    def helper(self, key: tuple[object, ...], stem: str, text: Callable[[str], str]) -> str:
        """The name of a function of the header, which is written where it is used."""
        if key not in self.helpers:
            name = self.writer.spelling.fresh(stem, True)
            self.helpers[key] = name, text(name)
        return self.helpers[key][0]

    def original_of(self, file: str) -> Original:
        """The tokens of a file, which is read once."""
        if file not in self.originals:
            with open(file, encoding="utf-8", errors="surrogateescape") as opened:
                self.originals[file] = Original(opened.read())
        return self.originals[file]

    def site_text(self, name: str, what: str, node: tree.Expression, words: list[str]) -> str:
        """The text of a call, with the mark of its site."""
        file = node.where.file
        line, column = spot(self.original_of(file), node)
        text = " ".join(printed(node, True).split())
        self.sites.append(Site(name, what, file, line, column, text))
        return f"{name}\x04{len(self.sites) - 1}\x05({', '.join(words)})"

    def checked(self, node: tree.Expression, op: str, left: Value, right: Optional[Value]) -> Optional[Value]:
        """The operation as a call, or nothing where it can't overflow."""
        kind = c_types.promoted(left.kind) if op == "<<" or right is None else c_types.common(left.kind, right.kind)
        found = result("-", (0, 0), span(left)) if right is None else result(op, span(left), span(right))
        if not (self.overflows and kind.signed) or within(found, kind):
            return None
        name = "neg" if right is None else op
        function = self.helper(
            (name, kind.bits),
            overflow_texts.stem(name, kind.bits),
            lambda called: overflow_texts.operation(called, name, kind.bits),
        )
        words = [one.text for one in (left, right) if one is not None]
        text = self.site_text(function, "shift" if op == "<<" else "overflow", node, words)
        return Value(self.writer.at(node) + text, kind, PRIMARY, calls=True)

    def unchecked(self, op: str, left: Value, right: Value) -> Value:
        """A sum, product or shift without a call, with the least and greatest number that it may have where these fit."""
        level = LEVELS[op]
        kind = c_types.promoted(left.kind) if op in ("<<", ">>") else c_types.common(left.kind, right.kind)
        text, calls = f"{left.within(level)} {op} {right.within(level + 1)}", left.calls or right.calls
        found = result(op, span(left), span(right)) if op in CHECKED + KNOWN else span_of(kind)
        if not within(found, kind):
            return Value(text, kind, level, calls=calls)
        return Ranged(text, kind, level, calls=calls, low=found[0], high=found[1])

    def narrows(self, value: Value, kind: Int) -> bool:
        """Whether a conversion that is asked about may lose the value."""
        return self.conversions and not kind.boolean and not within(span(value), kind)

    # ---- what is written at last

    def finished(self, texts: dict[str, str]) -> dict[str, str]:
        """The files without marks, and the header before them; their sites are kept for the table."""
        made = {path: self.unmarked_file(path, text) for path, text in texts.items()}
        if not self.helpers:
            return made
        header = overflow_texts.HEAD + "".join("\n" + text for _, text in self.helpers.values())
        return {os.path.join("checked operations", HEADER): header} | made

    def unmarked_file(self, path: str, text: str) -> str:
        """A file's text without marks. The places that the file notes for the map are those without them too."""
        lines, file = [], self.writer.files[path]
        kept = text.replace(FELL, "").split("\n")
        file.marks = [(at, column - marked(kept[at - 1], column), line, of) for at, column, line, of in file.marks]
        for number_of, line in enumerate(text.split("\n"), 1):
            parts, clean = MARK.split(line), ""
            for part, site in zip(parts[0::2], [*parts[1::2], None]):
                clean += part
                if site is not None:
                    one = self.sites[int(site)]
                    column = len(clean.replace(FELL, "")) - len(one.function) + 1
                    row: dict[str, Union[str, int]] = {
                        "file": os.path.basename(path),
                        "line": number_of,
                        "column": column,
                    }
                    place = f"{one.file}:{one.line}:{one.column}"
                    self.rows.append(
                        row | {"function": one.function, "what": one.what, "place": place, "text": one.text}
                    )
            lines.append(clean)
        return "\n".join(lines)

    def put_table(self, folder: str) -> None:
        """Writes which call is which operation of the original."""
        if self.helpers:
            names = [name for name, _ in self.helpers.values()]
            value = json.dumps({"functions": names, "calls": self.rows}, indent=1)
            program.write_whole(os.path.join(folder, TABLE), value + "\n")
