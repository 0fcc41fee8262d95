"""pycparser, which reads C and prints it: the one module that knows its nodes. What it reads becomes our own tree at once."""

import dataclasses
import functools
from typing import Any, Optional

from fshell_tools.adapt.common import tree
from fshell_tools.adapt.common.refusals import Stop

try:
    from pycparser import c_ast, c_generator, c_parser
except ModuleNotFoundError as missing:
    MISSING = missing.name
else:
    MISSING = None
LISTS = ("block_items", "stmts", "exprs", "params", "decls", "enumerators", "ext", "quals", "storage", "funcspec")
ABSENT = (("Struct", "decls"), ("Union", "decls"))  # where no list says more than an empty one


class Unread(Exception):
    """What the parser can't read: its text, with the place in front where it knows one."""


def check() -> None:
    """Raises Stop where pycparser isn't there."""
    if MISSING:
        raise Stop(f"{MISSING} isn't there (Debian's package python3-pycparser)")


def parsed(text: str, path: str = "") -> tree.FileAST:
    """The tree of a preprocessed text. Raises Unread where it is no C that the parser knows, RecursionError where it is nested
    too deep, and AssertionError where a brace is too many."""
    check()
    try:
        whole = c_parser.CParser().parse(text, path)
    except c_parser.ParseError as fault:
        raise Unread(str(fault)) from None
    made: tree.FileAST = own(whole, {})
    return made


FIELDS: dict[Any, tuple[str, ...]] = {}


def fields_of(kind: Any) -> tuple[str, ...]:
    """The names of what a node has, but for its place."""
    if kind not in FIELDS:
        FIELDS[kind] = tuple(one.name for one in dataclasses.fields(kind) if one.name != "coord")
    return FIELDS[kind]


def own(node: Any, known: dict[Any, tree.Node]) -> Any:
    """Our node of a parser's, with its parts; `known` has ours of those before, since one may stand in several places."""
    if isinstance(node, list):
        return [own(one, known) for one in node]
    if not isinstance(node, c_ast.Node):
        return node
    if node not in known:
        name = type(node).__name__
        kind = getattr(tree, name)
        given = {one: own(getattr(node, one), known) for one in fields_of(kind)}
        for slot in given:
            if given[slot] is None and slot in LISTS and (name, slot) not in ABSENT:
                given[slot] = []
        at = node.coord
        known[node] = kind(**given, coord=at and tree.Coord(str(at.file), at.line, at.column))
    return known[node]


def theirs(node: Any) -> Any:
    """The parser's node of ours, for its printer; of what GNU C adds a name with its text."""
    if isinstance(node, list):
        return [theirs(one) for one in node]
    if not isinstance(node, tree.Node):
        return node
    if isinstance(node, tree.StatementExpr):
        return c_ast.ID(f"({printed(node.body).rstrip()})")
    if isinstance(node, tree.CaseRange):
        return c_ast.ID(f"{printed(node.low)} ... {printed(node.high)}")
    if isinstance(node, tree.Typeof):
        return c_ast.IdentifierType([f"typeof ({printed(node.of)})"])
    ours: Any = type(node)
    kind = getattr(c_ast, ours.__name__)
    return kind(**{one: theirs(getattr(node, one)) for one in fields_of(ours)})


def printed(node: tree.Node, reduced: bool = False) -> str:
    """C's text of a tree; with `reduced` without parentheses that say nothing."""
    text: str = c_generator.CGenerator(reduce_parentheses=reduced).visit(theirs(node))
    return text


@functools.cache
def is_there() -> bool:
    """Whether pycparser is there."""
    return MISSING is None


def snippet(text: str, coord: Optional[tree.Coord]) -> list[tree.Node]:
    """The statements of a text, all at one place."""
    unit = parsed(f"void f(void) {{ {text} }}")
    function = unit.ext[0]
    assert isinstance(function, tree.FuncDef)
    items = function.body.block_items
    for item in items:
        for node in tree.walk(item):
            node.coord = coord
    return items
