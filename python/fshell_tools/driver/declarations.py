"""Reads sources by the machine's preprocessor and pycparser: their functions, types and constants."""

import os
import re
import shutil
from collections.abc import Iterator
from dataclasses import dataclass, field
from typing import Any

from fshell_tools.core import processes, program
from fshell_tools.core.program import Failure

HEADERS = os.path.join(program.PACKAGE, "adapt", "headers")
_INCLUDE = re.compile(r'^[ \t]*#[ \t]*include[ \t]*"([^"\n]+)"', re.MULTILINE)
_ATTRIBUTE = re.compile(r"\b__attribute__\s*\(\((?:[^()]|\((?:[^()]|\([^()]*\))*\))*\)\)|\b__extension__\b")


@dataclass
class Read:
    """What sources say together, by names, as pycparser's trees: functions that are `declared` and `defined` (with a
    body), `typedefs`, `structs` and `enums` with their members, `constants` of enums with their values, `variables` of
    files; which names are `called`, and of each source the headers that it `includes` in quotation marks."""

    declared: dict[str, Any] = field(default_factory=dict)
    defined: dict[str, Any] = field(default_factory=dict)
    typedefs: dict[str, Any] = field(default_factory=dict)
    structs: dict[str, Any] = field(default_factory=dict)
    enums: dict[str, Any] = field(default_factory=dict)
    constants: dict[str, int] = field(default_factory=dict)
    variables: dict[str, Any] = field(default_factory=dict)
    called: dict[str, None] = field(default_factory=dict)
    includes: dict[str, list[str]] = field(default_factory=dict)


def preprocessed(path: str, flags: list[str]) -> str:
    """A source as gcc or clang (-std=gnu11 -E) gives it, with the headers of python/fshell_tools/adapt alone and without attributes;
    `flags` are -I and -D. Raises Failure where neither is there, or with the first error that it writes."""
    compiler = shutil.which("gcc") or shutil.which("clang")
    if not compiler:
        raise Failure(
            "neither gcc nor clang is there, whose preprocessor reads the sources (Debian: apt-get install gcc)"
        )
    program.read(path)
    words = [compiler, "-std=gnu11", "-nostdinc", "-E", *flags, "-isystem", HEADERS, "-x", "c", path]
    ended = processes.run(
        words, capture_output=True, text=True, errors="replace", check=False, env={**os.environ, "LC_ALL": "C"}
    )
    if ended.returncode:
        lines = [line for line in ended.stderr.splitlines() if "error" in line] or ended.stderr.splitlines()
        raise Failure(lines[0] if lines else f"{path}: the preprocessor failed")
    return _ATTRIBUTE.sub(" ", ended.stdout)


def parsed(path: str, flags: list[str]) -> Any:
    """The tree of a source, by pycparser. Raises Failure where that isn't there, doesn't read the source, or the source
    is nested too deep; and those of `preprocessed`."""
    try:
        from pycparser import c_parser
    except ModuleNotFoundError:
        raise Failure("pycparser isn't there (Debian: apt-get install python3-pycparser)") from None
    try:
        return c_parser.CParser().parse(preprocessed(path, flags), path)
    except (c_parser.ParseError, AssertionError) as fault:
        raise Failure(f"{str(fault) or path}: pycparser can't read it") from None
    except RecursionError:
        raise Failure(f"{path}: it is nested too deep") from None


def walk(node: Any) -> Iterator[Any]:
    """A node of pycparser's tree and all nodes within it, in the order of the text."""
    waiting = [node]
    while waiting:
        one = waiting.pop()
        yield one
        waiting.extend(child for _, child in reversed(one.children()))


def kind(node: Any) -> str:
    """What a node of pycparser's tree is: the name of its class, such as "FuncDef"."""
    return type(node).__name__


def of_sources(paths: list[str], flags: list[str]) -> Read:
    """What the sources say together; of a name that several define, the last definition, and of a declaration the
    first. Raises Failure where one can't be read or parsed."""
    found = Read()
    for path in paths:
        found.includes[path] = _INCLUDE.findall(program.read(path).decode(errors="replace"))
        for item in parsed(path, flags).ext:
            _item(found, item)
    return found


def _item(found: Read, item: Any) -> None:
    """Notes a declaration or a definition."""
    for node in walk(item):
        _types(found, node)
        if kind(node) == "FuncCall" and kind(node.name) == "ID":
            found.called.setdefault(node.name.name)
    if kind(item) == "FuncDef":
        found.defined[item.decl.name] = item.decl
    elif kind(item) == "Typedef":
        found.typedefs[item.name] = item
    elif kind(item) == "Decl" and kind(item.type) == "FuncDecl":
        found.declared.setdefault(item.name, item)
    elif kind(item) == "Decl" and item.name:
        found.variables.setdefault(item.name, item)


def _types(found: Read, node: Any) -> None:
    """Notes a struct or an enum that is defined."""
    if kind(node) == "Struct" and node.decls is not None and node.name:
        found.structs[node.name] = node
    elif kind(node) == "Enum" and node.values is not None:
        if node.name:
            found.enums[node.name] = node
        value = -1
        for one in node.values.enumerators:
            known = constant(one.value, found.constants) if one.value else value + 1
            value = value + 1 if known is None else known
            found.constants.setdefault(one.name, value)


def constant(node: Any, known: dict[str, int]) -> int | None:
    """The value of an integer constant expression (C11 6.6) of numbers, constants of enums (`known`), casts, which are
    passed over, + - ~ of one operand and + - * / % << >> | & ^ of two; None where it is another, or isn't defined.
    Arithmetic is without a limit of size."""
    if kind(node) == "Constant" and node.type.endswith("int"):
        text = node.value.rstrip("uUlL")
        return int(text, 0) if not re.fullmatch(r"0\d+", text) else int(text, 8)
    if kind(node) == "ID":
        return known.get(node.name)
    if kind(node) == "UnaryOp" and node.op in "+-~":
        value = constant(node.expr, known)
        return None if value is None else {"+": value, "-": -value, "~": ~value}[node.op]
    if kind(node) == "Cast":
        return constant(node.expr, known)
    if kind(node) == "BinaryOp":
        left, right = constant(node.left, known), constant(node.right, known)
        return None if left is None or right is None else _applied(node.op, left, right)
    return None


def _applied(op: str, left: int, right: int) -> int | None:
    if op in ("/", "%"):
        if right == 0:
            return None
        quotient = abs(left) // abs(right) * (1 if (left < 0) == (right < 0) else -1)
        return quotient if op == "/" else left - quotient * right
    if op in ("<<", ">>"):
        return None if not 0 <= right < 64 else left << right if op == "<<" else left >> right
    found = {
        "+": left + right,
        "-": left - right,
        "*": left * right,
        "|": left | right,
        "&": left & right,
        "^": left ^ right,
    }
    return found.get(op)
