"""Where the operator of an expression stands in the original: its line and its column there, as compilers tell them."""

import re
from bisect import bisect_left
from typing import Optional

from fshell_tools.adapt.common import tree

TOKEN = re.compile(
    r'//[^\n]*|/\*.*?\*/|"(?:\\.|[^"\\\n])*"|\'(?:\\.|[^\'\\\n])*\'|[A-Za-z_]\w*|\.?\d(?:[eEpP][+-]|[\w.])*'
    r"|<<=|>>=|\.\.\.|->|\+\+|--|<<|>>|[-+*/%&|^<>=!]=|&&|\|\||[^\s]",
    re.DOTALL,
)
Spot = tuple[int, int]


class Original:
    """The tokens of a file, without comments, each with its line and column from 1."""

    def __init__(self, text: str) -> None:
        starts = [0] + [one.end() for one in re.finditer("\n", text)]
        self.words: list[str] = []
        self.spots: list[Spot] = []
        for found in TOKEN.finditer(text):
            if found.group().startswith(("//", "/*")):
                continue
            line = bisect_left(starts, found.start() + 1)
            self.words.append(found.group())
            self.spots.append((line, found.start() - starts[line - 1] + 1))

    def at(self, coord: tree.Coord) -> Optional[int]:
        """The number of the token at a place, if one begins there."""
        spot = (coord.line, coord.column or 0)
        number = bisect_left(self.spots, spot)
        return number if number < len(self.spots) and self.spots[number] == spot else None

    def first_of(self, line: int) -> Spot:
        """Where the first token of a line stands."""
        number = bisect_left(self.spots, (line, 0))
        return self.spots[number] if number < len(self.spots) and self.spots[number][0] == line else (line, 1)

    def before(self, number: int, word: str, skipped: int) -> Optional[Spot]:
        """The token of this word before another one, behind so many of the same."""
        for at in range(number - 1, -1, -1):
            if self.words[at] in (";", "{", "}"):
                return None
            if self.words[at] == word:
                if skipped == 0:
                    return self.spots[at]
                skipped -= 1
        return None

    def behind(self, number: int, word: str) -> Optional[Spot]:
        """The token of this word behind another one, outside of brackets that open between."""
        depth = 0
        for at in range(number, len(self.words)):
            depth += (self.words[at] in ("(", "[")) - (self.words[at] in (")", "]"))
            if self.words[at] in (";", "{", "}"):
                return None
            if self.words[at] == word and depth <= 0:
                return self.spots[at]
        return None


def leftmost(node: tree.Expression, op: str) -> tuple[tree.Expression, int]:
    """The name or constant with which an expression begins, and how often the operator stands before it as a prefix."""
    count = 0
    while True:
        if isinstance(node, tree.UnaryOp):
            count += node.op == op
            node = node.expr
        elif isinstance(node, tree.BinaryOp):
            node = node.left
        elif isinstance(node, tree.TernaryOp):
            node = node.cond
        elif isinstance(node, tree.Assignment):
            node = node.lvalue
        elif isinstance(node, tree.Cast):
            node = node.expr
        elif isinstance(node, (tree.ArrayRef, tree.StructRef, tree.FuncCall)):
            node = node.name
        elif isinstance(node, tree.ExprList) and node.exprs:
            node = node.exprs[0]
        else:
            return node, count


def word_of(node: tree.Expression) -> str:
    """The text of a name or a constant."""
    return node.name if isinstance(node, tree.ID) else node.value if isinstance(node, tree.Constant) else ""


def spot(original: Original, node: tree.Expression) -> Spot:
    """The place of the operator of an expression, or of its name or constant; within a macro that of the line's first token."""
    if (
        not isinstance(node, (tree.BinaryOp, tree.UnaryOp, tree.Assignment))
        or node.op in ("*", "&")
        and isinstance(node, tree.UnaryOp)
    ):
        leaf, _ = leftmost(node, "")
        number = original.at(leaf.coord) if leaf.coord is not None else None
        is_there = number is not None and original.words[number] == word_of(leaf)
        return (
            original.spots[number]
            if number is not None and is_there
            else original.first_of(node.coord.line if node.coord else 1)
        )
    is_postfix = isinstance(node, tree.UnaryOp) and node.op in ("p++", "p--")
    forward = is_postfix or isinstance(node, tree.Assignment)
    op = node.op[1:] if is_postfix else node.op
    operand = (
        node.lvalue
        if isinstance(node, tree.Assignment)
        else node.right
        if isinstance(node, tree.BinaryOp)
        else node.expr
    )
    leaf, count = leftmost(operand, op)
    found, line = None, node.coord.line if node.coord else 1
    number = original.at(leaf.coord) if leaf.coord is not None else None
    if number is not None and original.words[number] == word_of(leaf):
        found = original.behind(number, op) if forward else original.before(number, op, count)
    return found or original.first_of(line)
