"""The values of constant expressions (6.6), the types of expressions, and `sizeof`."""

import re
from collections.abc import Callable
from functools import cache
from typing import TYPE_CHECKING, Optional, Union

from fshell_tools.adapt.common import c_types, tree
from fshell_tools.adapt.common.c_types import Array, Int, Pointer, Signature, Struct, Type, fit
from fshell_tools.adapt.common.objects import Enumerator, Function, Variable
from fshell_tools.adapt.common.refusals import Refused
from fshell_tools.adapt.names import unions
from fshell_tools.adapt.names.initializer_matching import Listed

if TYPE_CHECKING:
    from fshell_tools.adapt.names.scopes import Names

ESCAPES = {
    "n": 10,
    "t": 9,
    "r": 13,
    "a": 7,
    "b": 8,
    "f": 12,
    "v": 11,
    "\\": 92,
    "'": 39,
    '"': 34,
    "?": 63,
    "e": 27,
    "E": 27,
}
ESCAPE = re.compile(r"\\x([0-9A-Fa-f]+)|\\([0-7]{1,3})|\\(?:u([0-9A-Fa-f]{4})|U([0-9A-Fa-f]{8}))|\\(.)|([^\\])")
ARITHMETIC: dict[str, Callable[[int, int], int]] = {
    "+": lambda a, b: a + b,
    "-": lambda a, b: a - b,
    "*": lambda a, b: a * b,
    "&": lambda a, b: a & b,
    "|": lambda a, b: a | b,
    "^": lambda a, b: a ^ b,
    "<<": lambda a, b: a << (b & 63),
    ">>": lambda a, b: a >> (b & 63),
    "/": lambda a, b: abs(a) // abs(b) * (1 if (a < 0) == (b < 0) else -1),
    "%": lambda a, b: abs(a) % abs(b) * (-1 if a < 0 else 1),
}
COMPARED: dict[str, Callable[[int, int], bool]] = {
    "<": lambda a, b: a < b,
    ">": lambda a, b: a > b,
    "<=": lambda a, b: a <= b,
    ">=": lambda a, b: a >= b,
    "==": lambda a, b: a == b,
    "!=": lambda a, b: a != b,
}
SHIFTS = ("<<", ">>")
LOGICAL = ("&&", "||")


WIDE = {"L": c_types.INT, "u": c_types.FIXED["uint16_t"], "U": c_types.UINT}


def character(text: str) -> Int:
    """The type of a string's elements (6.4.5p6)."""
    return WIDE.get(text[: text.index('"')], c_types.Int(8, True, "char"))


def units(code: int, kind: Int) -> list[int]:
    """The elements of a string that a character becomes, in UTF-8, UTF-16 or UTF-32 as gcc has them; a byte that is no UTF-8 stays."""
    if code < 128 or kind.bits == 32:
        return [code]
    if kind.bits == 16:
        return [code] if code < 1 << 16 else [0xD7C0 + (code >> 10), 0xDC00 + (code & 0x3FF)]
    return list(chr(code).encode("utf-8", "surrogateescape"))


def codes(text: str) -> list[int]:
    """The values of the characters between the quotes of a constant or a string, as its elements (6.4.4.4, 6.4.5p6)."""
    found, kind = [], character(text) if text.endswith('"') else c_types.Int(8, True, "char")
    for hexadecimal, octal, short, long, simple, plain in ESCAPE.findall(text[text.index(text[-1]) + 1 : -1]):
        if hexadecimal or octal or simple:
            made = [
                int(hexadecimal, 16)
                if hexadecimal
                else int(octal, 8)
                if octal
                else ESCAPES.get(simple, ord(simple or "0"))
            ]
        else:
            made = units(int(short or long, 16) if short or long else ord(plain), kind)
        found += [fit(one, kind) for one in made]
    return found


def number(node: tree.Constant) -> tuple[int, Int]:
    """The value and the type of an integer or a character constant (6.4.4.1p5). Raises Refused for a constant that is
    no integer, or needs more than 64 bits."""
    try:
        return number_of(node.type, node.value)
    except Refused as refused:
        raise Refused(node.coord, refused.cause, refused.advice) from None


@cache
def number_of(kind_words: str, text: str) -> tuple[int, Int]:
    """The same by the words of its type and its text. Raises Refused without a place."""
    if "char" in kind_words:
        found = codes(text)
        if len(found) != 1 or not text.startswith("'"):
            raise Refused(None, f"the character constant {text}", "write its number")
        return found[0], c_types.INT
    if "int" not in kind_words:
        raise Refused(None, f"the constant {text}", "use integers in fixed point")
    if text.startswith("-"):
        return int(text), c_types.INT  # (a character of a string)
    whole = re.fullmatch(r"(0[xX][0-9a-fA-F]+|0[bB][01]+|\d+)([uUlL]*)", text)
    if not whole:
        raise Refused(None, f"the constant {text}", "write its number")
    digits, suffix = whole.groups()
    base = {"0x": 16, "0b": 2}.get(digits[:2].lower(), 8 if digits[0] == "0" and len(digits) > 1 else 10)
    value = int(digits, base)
    long, unsigned = "l" in suffix.lower(), "u" in suffix.lower()
    for kind in (c_types.INT, c_types.UINT, c_types.LONG, c_types.SIZE):
        sign = not unsigned if kind.signed else base != 10 or unsigned
        if sign and (kind.bits == 64 or not long) and fit(value, kind) == value:
            return value, kind
    raise Refused(None, f"the constant {text} is too large", "use at most 64 bits")


def is_offset(node: Optional[tree.Node]) -> bool:
    """Whether a call is `offsetof`."""
    return isinstance(node, tree.FuncCall) and isinstance(node.name, tree.ID) and node.name.name == "offsetof"


class Constants:
    """Values and types, by what names stand for."""

    def __init__(self, names: "Names") -> None:
        self.names = names

    def place_type(self, node: tree.Expression) -> Type:
        """The type of a name, an element or a member."""
        if isinstance(node, tree.ID):
            meaning = self.names.meaning.get(node)
            return meaning.type if isinstance(meaning, (Variable, Function)) else c_types.VOID
        if isinstance(node, tree.StructRef):
            of = self.type_of(node.name)
            of = (c_types.behind(of) or of) if node.type == "->" else of
            path = unions.found(of, node.field.name)
            for name in path or []:
                of = c_types.member(of, name)
            return of if path else c_types.VOID
        if isinstance(node, tree.ArrayRef):
            of = self.type_of(node.name)
            of = self.type_of(node.subscript) if isinstance(of, Int) else of
        else:
            of = self.type_of(node.expr) if isinstance(node, tree.UnaryOp) else c_types.VOID
        return c_types.behind(of) or c_types.VOID

    def type_of(self, node: tree.Expression) -> Type:
        """The type of an expression before any conversion of arrays."""
        if isinstance(node, tree.Constant):
            return (
                Array(character(node.value), len(codes(node.value)) + 1) if node.type == "string" else number(node)[1]
            )
        if isinstance(node, tree.ID) and isinstance(self.names.meaning.get(node), Enumerator):
            return c_types.INT
        if isinstance(node, (tree.ID, tree.StructRef, tree.ArrayRef)):
            return self.place_type(node)
        if isinstance(node, tree.UnaryOp):
            return self.type_of_unary(node)
        if isinstance(node, tree.BinaryOp):
            if node.op in COMPARED or node.op in LOGICAL:
                return c_types.INT
            left, right = self.type_of(node.left), self.type_of(node.right)
            if not isinstance(left, Int) and not isinstance(right, Int):
                return c_types.LONG  # (6.5.6p9)
            if not isinstance(left, Int) or not isinstance(right, Int):
                return c_types.adjusted(left if not isinstance(left, Int) else right)  # (6.3.2.1p3)
            return c_types.promoted(left) if node.op in SHIFTS else c_types.common(left, right)
        if isinstance(node, tree.TernaryOp):
            left, right = self.type_of(node.iftrue), self.type_of(node.iffalse)
            if self.value(node.iftrue) == 0 and not isinstance(right, Int):
                return c_types.adjusted(right)
            left = c_types.adjusted(left)
            return c_types.common(left, right) if isinstance(left, Int) and isinstance(right, Int) else left
        if isinstance(node, tree.Assignment):
            return self.type_of(node.lvalue)
        if isinstance(node, tree.ExprList):
            return c_types.adjusted(self.type_of(node.exprs[-1]))
        if isinstance(node, tree.StatementExpr):
            return c_types.VOID if node.last is None else c_types.adjusted(self.type_of(node.last))
        if isinstance(node, (tree.Cast, tree.CompoundLiteral)):
            return self.names.types.get(node.to_type if isinstance(node, tree.Cast) else node.type, c_types.VOID)
        if is_offset(node):
            return c_types.SIZE
        return self.called(node).result if isinstance(node, tree.FuncCall) else c_types.VOID

    def called(self, node: tree.FuncCall) -> Union[Function, Signature]:
        """The function, or the type of one, that a call calls."""
        known = self.names.meaning.get(node)
        if isinstance(known, Function):
            return known
        of = self.type_of(node.name)
        of = of.to if isinstance(of, Pointer) else of
        return of if isinstance(of, Signature) else Signature(c_types.VOID, [])

    def type_of_unary(self, node: tree.UnaryOp) -> Type:
        """The type of a unary expression (6.5.3)."""
        if node.op == "sizeof":
            return c_types.SIZE
        if node.op == "!":
            return c_types.INT
        if node.op == "&":
            return Pointer(self.type_of(node.expr))
        if node.op == "*":
            of = self.type_of(node.expr)
            return of if isinstance(of, Signature) else self.place_type(node)
        of = self.type_of(node.expr)
        return c_types.promoted(of) if isinstance(of, Int) and node.op in "+-~" else of

    def size_of(self, node: tree.Expression) -> int:
        """What `sizeof` gives of a type or an expression. The number is one of bytes (6.5.3.4p2). Raises Refused
        where it isn't known."""
        known = self.known_size(node)
        if known is None:
            raise Refused(node.coord, "the size isn't known", "write its number")
        return known

    def known_size(self, node: tree.Expression) -> Optional[int]:
        """The same; None where it isn't known."""
        meaning = self.names.meaning.get(node) if isinstance(node, tree.ID) else None
        if (
            isinstance(meaning, Variable)
            and meaning.home == "parameter"
            and not isinstance(meaning.type, (Int, Struct))
        ):
            return 8
        of = self.names.types.get(node) if isinstance(node, tree.Typename) else self.type_of(node)
        return c_types.size(of) if of is not None else None

    def offset(self, node: tree.Expression, of: Type) -> tuple[int, Type]:
        """Where a member lies in a struct, and its type (7.19p3). Raises Refused where it isn't known."""
        at, inner = 0, of
        if isinstance(node, tree.StructRef) and node.type == "->":
            base = self.type_of(node.name)
            inner, node = base.to if isinstance(base, Pointer) else of, node.field
        elif isinstance(node, tree.StructRef):
            at, inner = self.offset(node.name, of)
            node = node.field
        elif isinstance(node, tree.ArrayRef):
            at, inner = self.offset(node.name, of)
            known, size = self.value(node.subscript), c_types.size(inner.of if isinstance(inner, Array) else inner)
            if known is not None and size is not None and isinstance(inner, Array):
                return at + known * size, inner.of
        own = c_types.offsets(inner) if isinstance(inner, Struct) else {}
        if not isinstance(node, tree.ID) or node.name not in own:
            raise Refused(node.coord, "an offset that isn't known", "write its number")
        return at + own[node.name], c_types.member(inner, node.name)

    def is_null_offset(self, node: tree.Expression) -> bool:
        """Whether an expression is the address of a member of a struct at a null pointer, as offsetof was written once."""
        inner = node.expr if isinstance(node, tree.UnaryOp) and node.op == "&" else None
        while isinstance(inner, tree.ArrayRef) or (isinstance(inner, tree.StructRef) and inner.type == "."):
            inner = inner.name
        pointer = inner.name if isinstance(inner, tree.StructRef) else None
        while isinstance(pointer, tree.Cast):
            pointer = pointer.expr
        return pointer is not None and isinstance(pointer, tree.Constant) and self.value(pointer) == 0

    def length_of(self, init: tree.Expression, of: Type) -> int:
        """The length of an array that has none of its own, by its initialiser (6.7.9p22). The number is one of
        elements. Raises Refused where the list doesn't fit such elements."""
        return Listed(self, Array(of, None), init).length

    @staticmethod
    def characters(node: tree.Constant) -> list[int]:
        """The values of a string's elements, with its 0 (6.4.5p6)."""
        return codes(node.value) + [0]

    def value(self, node: tree.Expression) -> Optional[int]:
        """The value of a constant expression; None where it is none."""
        known = self.known(node)
        return None if known is None else known[0]

    def known(self, node: tree.Expression) -> Optional[tuple[int, Int]]:
        """The value of a constant expression with its type (6.6); None where it is none."""
        if isinstance(node, tree.Constant) and node.type != "string":
            return number(node)
        if isinstance(node, tree.ID):
            meaning = self.names.meaning.get(node)
            return (meaning.value, c_types.INT) if isinstance(meaning, Enumerator) else None
        if isinstance(node, tree.Cast) and isinstance(node.expr, tree.UnaryOp) and self.is_null_offset(node.expr):
            to, member = self.names.types.get(node.to_type), node.expr.expr
            return (fit(self.offset(member, c_types.VOID)[0], to), to) if isinstance(to, Int) else None
        if isinstance(node, tree.Cast):
            to, one = self.names.types.get(node.to_type), self.known(node.expr)
            return (fit(one[0], to), to) if one and isinstance(to, Int) else None
        if isinstance(node, tree.UnaryOp):
            return self.known_unary(node)
        if isinstance(node, tree.FuncCall) and is_offset(node):
            return self.offset(node.given[1], self.names.types[node.given[0]])[0], c_types.SIZE
        if isinstance(node, tree.TernaryOp):
            test, of = self.known(node.cond), self.type_of(node)
            one = self.known(node.iftrue if test[0] else node.iffalse) if test else None
            return (fit(one[0], of), of) if one and isinstance(of, Int) else None
        return self.known_binary(node) if isinstance(node, tree.BinaryOp) else None

    def known_unary(self, node: tree.UnaryOp) -> Optional[tuple[int, Int]]:
        """The same of a unary expression."""
        if node.op == "sizeof":
            known = self.known_size(node.expr)
            return None if known is None else (known, c_types.SIZE)
        one = self.known(node.expr)
        if one is None or node.op not in "+-~!":
            return None
        if node.op == "!":
            return int(not one[0]), c_types.INT
        kind = c_types.promoted(one[1])
        return fit({"+": one[0], "-": -one[0], "~": ~one[0]}[node.op], kind), kind

    def known_binary(self, node: tree.BinaryOp) -> Optional[tuple[int, Int]]:
        """The same of a binary one; of && and || the left operand may be enough, and a division by 0 has no value."""
        left, right = self.known(node.left), self.known(node.right)
        if node.op in LOGICAL and left and bool(left[0]) == (node.op == "||"):
            return int(bool(left[0])), c_types.INT
        if left is None or right is None:
            return None
        if node.op in LOGICAL:
            return int(bool(right[0])), c_types.INT
        kind = c_types.promoted(left[1]) if node.op in SHIFTS else c_types.common(left[1], right[1])
        a, b = fit(left[0], kind), right[0] if node.op in SHIFTS else fit(right[0], kind)
        if node.op in COMPARED:
            return int(COMPARED[node.op](a, b)), c_types.INT
        if node.op in "/%" and b == 0:
            return None
        return fit(ARITHMETIC[node.op](a, b), kind), kind
