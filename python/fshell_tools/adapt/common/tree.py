"""The tree that all stages but the first pass on: C's grammar (C11, 6.5 to 6.9) and what GNU C adds, each construct a class of its own.

The parser's nodes become these at once (parsing.py). A node is equal to itself alone, so that tables of later stages have nodes as
their keys: what a name stands for, the type of an expression, what a pointer may meet. `children()` gives a node's parts with the slots
in which they stand, in the order in which all stages go through them.
"""

from collections.abc import Iterator
from dataclasses import dataclass, field
from typing import ClassVar, NamedTuple, Optional


class Coord(NamedTuple):
    """A place of a source: its file, its line from 1, and its column from 1 where one is known."""

    file: str
    line: int
    column: Optional[int] = None


NOWHERE = Coord("", 0)


class Node:
    """A construct. `SLOTS` names the fields that are nodes or lists of nodes."""

    SLOTS: ClassVar[tuple[str, ...]] = ()
    BACK: ClassVar[tuple[str, ...]] = ()  # the same, the last first
    coord: Optional[Coord]

    def __init_subclass__(cls) -> None:
        """Notes its slots, the last first: most of the time of a walk is looking at them."""
        cls.BACK = cls.SLOTS[::-1]

    @property
    def where(self) -> Coord:
        """Its place; of what has none no line of any file."""
        return self.coord or NOWHERE

    def children(self) -> list[tuple[str, "Node"]]:
        """The parts with the slots in which they stand: `name`, or `name[3]` for one of a list."""
        found: list[tuple[str, Node]] = []
        for slot in self.SLOTS:
            part = getattr(self, slot)
            if isinstance(part, list):
                found += [(f"{slot}[{number}]", one) for number, one in enumerate(part)]
            elif part is not None:
                found.append((slot, part))
        return found

    def parts(self) -> list["Node"]:
        """The same without the slots."""
        found: list[Node] = []
        for slot in self.SLOTS:
            part = getattr(self, slot)
            if part.__class__ is list:
                found += part
            elif part is not None:
                found.append(part)
        return found

    def put(self, slot: str, made: "Node") -> None:
        """Puts a node into a slot, as `children()` names it."""
        name, _, rest = slot.partition("[")
        if rest:
            getattr(self, name)[int(rest[:-1])] = made
        else:
            setattr(self, name, made)

    def spread(self, slot: str, old: "Node", made: list["Node"], coord: Optional[Coord] = None) -> None:
        """Puts nodes where another one stands in a slot: side by side where it is one of a list, else, if they are several, in a
        block at this place."""
        name = slot.partition("[")[0]
        part = getattr(self, name)
        if isinstance(part, list):
            at = next(number for number, one in enumerate(part) if one is old)
            part[at : at + 1] = made
        else:
            setattr(self, name, made[0] if len(made) == 1 else Compound(made, coord))


class Expression(Node):
    """What may stand where an expression does: also the name of a type that `sizeof` takes, a list of first values, and the ends of a
    range of cases."""


class TypeNode(Node):
    """A declarator, or the words of a type that stand before it."""


# ---- expressions (6.5)


@dataclass(eq=False)
class ID(Expression):
    """An identifier that is used (6.4.2.1)."""

    name: str
    coord: Optional[Coord] = None


@dataclass(eq=False)
class Constant(Expression):
    """A constant or a string (6.4.4, 6.4.5) by its text; `type` is the parser's word for its kind."""

    type: str
    value: str
    coord: Optional[Coord] = None


@dataclass(eq=False)
class ArrayRef(Expression):
    """`name[subscript]` (6.5.2.1)."""

    SLOTS = ("name", "subscript")
    name: Expression
    subscript: Expression
    coord: Optional[Coord] = None


@dataclass(eq=False)
class StructRef(Expression):
    """A member by `.` or `->`, which `type` says (6.5.2.3)."""

    SLOTS = ("name", "field")
    name: Expression
    type: str
    field: ID
    coord: Optional[Coord] = None


@dataclass(eq=False)
class ExprList(Expression):
    """Expressions with commas between (6.5.17), or the arguments of a call."""

    SLOTS = ("exprs",)
    exprs: list[Expression]
    coord: Optional[Coord] = None


@dataclass(eq=False)
class FuncCall(Expression):
    """A call (6.5.2.2); `args` is None where there are no arguments."""

    SLOTS = ("name", "args")
    name: Expression
    args: Optional[ExprList]
    coord: Optional[Coord] = None

    @property
    def given(self) -> list[Expression]:
        """The expressions between the brackets, in order."""
        return list(self.args.exprs) if self.args else []


@dataclass(eq=False)
class UnaryOp(Expression):
    """`op` before its operand, with `p++` and `p--` for those behind it, and `sizeof` (6.5.2.4, 6.5.3)."""

    SLOTS = ("expr",)
    op: str
    expr: Expression
    coord: Optional[Coord] = None


@dataclass(eq=False)
class BinaryOp(Expression):
    """An operator between two operands (6.5.5 to 6.5.14)."""

    SLOTS = ("left", "right")
    op: str
    left: Expression
    right: Expression
    coord: Optional[Coord] = None


@dataclass(eq=False)
class TernaryOp(Expression):
    """`cond ? iftrue : iffalse` (6.5.15)."""

    SLOTS = ("cond", "iftrue", "iffalse")
    cond: Expression
    iftrue: Expression
    iffalse: Expression
    coord: Optional[Coord] = None


@dataclass(eq=False)
class Assignment(Expression):
    """`lvalue op rvalue`, where `op` is `=` or one that ends with it (6.5.16)."""

    SLOTS = ("lvalue", "rvalue")
    op: str
    lvalue: Expression
    rvalue: Expression
    coord: Optional[Coord] = None


@dataclass(eq=False)
class Cast(Expression):
    """A conversion (6.5.4)."""

    SLOTS = ("to_type", "expr")
    to_type: "Typename"
    expr: Expression
    coord: Optional[Coord] = None


@dataclass(eq=False)
class CompoundLiteral(Expression):
    """`(type) { values }` (6.5.2.5)."""

    SLOTS = ("type", "init")
    type: "Typename"
    init: "InitList"
    coord: Optional[Coord] = None


@dataclass(eq=False)
class StatementExpr(Expression):
    """`({ .. })` of GNU C: the block, whose last statement may be the expression that gives the value."""

    SLOTS = ("body",)
    body: "Compound"
    coord: Optional[Coord] = None

    @property
    def items(self) -> list[Node]:
        """The statements whose effect alone counts."""
        return self.body.block_items[:-1] if self.last is not None else list(self.body.block_items)

    @property
    def last(self) -> Optional[Expression]:
        """The expression that gives the value, if there is one."""
        one = self.body.block_items[-1] if self.body.block_items else None
        return one if isinstance(one, EXPRESSIONS) else None


@dataclass(eq=False)
class InitList(Expression):
    """A list of first values between braces (6.7.9)."""

    SLOTS = ("exprs",)
    exprs: list[Expression]
    coord: Optional[Coord] = None


@dataclass(eq=False)
class NamedInitializer(Expression):
    """A first value with its designators, members as names and indexes as expressions (6.7.9p6)."""

    SLOTS = ("expr", "name")
    name: list[Expression]
    expr: Expression
    coord: Optional[Coord] = None


# ---- types and declarations (6.7)


@dataclass(eq=False)
class IdentifierType(TypeNode):
    """The words of a type, or the name of a typedef (6.7.2, 6.7.8)."""

    names: list[str]
    coord: Optional[Coord] = None


@dataclass(eq=False)
class Typeof(TypeNode):
    """typeof of GNU C: the type of an expression, or of a type's name. Of one that is `known` the names have their meanings
    already. It isn't evaluated, so it has no parts."""

    of: Expression
    coord: Optional[Coord] = None
    known: bool = False


@dataclass(eq=False)
class Struct(TypeNode):
    """A struct (6.7.2.1); `decls` is None where its members aren't given."""

    SLOTS = ("decls",)
    name: Optional[str]
    decls: Optional[list[Node]]
    coord: Optional[Coord] = None


@dataclass(eq=False)
class Union(TypeNode):
    """A union (6.7.2.1); `decls` is None where its members aren't given."""

    SLOTS = ("decls",)
    name: Optional[str]
    decls: Optional[list[Node]]
    coord: Optional[Coord] = None


@dataclass(eq=False)
class Enumerator(Node):
    """A constant of an enum, with its value where one is given."""

    SLOTS = ("value",)
    name: str
    value: Optional[Expression]
    coord: Optional[Coord] = None


@dataclass(eq=False)
class EnumeratorList(Node):
    """The constants of an enum."""

    SLOTS = ("enumerators",)
    enumerators: list[Enumerator]
    coord: Optional[Coord] = None


@dataclass(eq=False)
class Enum(TypeNode):
    """An enum (6.7.2.2); `values` is None where its constants aren't given."""

    SLOTS = ("values",)
    name: Optional[str]
    values: Optional[EnumeratorList]
    coord: Optional[Coord] = None


@dataclass(eq=False)
class TypeDecl(TypeNode):
    """What a declarator is at its end: the name and the type that stands before all declarators."""

    SLOTS = ("type",)
    declname: Optional[str]
    quals: list[str]
    align: Optional[list[Node]]
    type: TypeNode
    coord: Optional[Coord] = None


@dataclass(eq=False)
class PtrDecl(TypeNode):
    """A pointer (6.7.6.1)."""

    SLOTS = ("type",)
    quals: list[str]
    type: TypeNode
    coord: Optional[Coord] = None


@dataclass(eq=False)
class ArrayDecl(TypeNode):
    """An array (6.7.6.2); `dim` is None where it has no length of its own."""

    SLOTS = ("type", "dim")
    type: TypeNode
    dim: Optional[Expression]
    dim_quals: list[str] = field(default_factory=list)
    coord: Optional[Coord] = None


@dataclass(eq=False)
class ParamList(Node):
    """What stands between the brackets of a function's declarator (6.7.6.3): declarations, and maybe an ellipsis."""

    SLOTS = ("params",)
    params: list["Parameter"]
    coord: Optional[Coord] = None


@dataclass(eq=False)
class EllipsisParam(Node):
    """The mark of a function with variable arguments (6.7.6.3p9)."""

    coord: Optional[Coord] = None


@dataclass(eq=False)
class FuncDecl(TypeNode):
    """A function (6.7.6.3); `args` is None where nothing stands between the parentheses."""

    SLOTS = ("args", "type")
    args: Optional[ParamList]
    type: TypeNode
    coord: Optional[Coord] = None

    @property
    def params(self) -> list["Parameter"]:
        """What stands between the parentheses, also a lone `void`; none where nothing does."""
        return list(self.args.params) if self.args else []


@dataclass(eq=False)
class Typename(Expression):
    """A type's name (6.7.7), or a parameter without a name."""

    SLOTS = ("type",)
    name: Optional[str]
    quals: list[str]
    align: Optional[list[Node]]
    type: TypeNode
    coord: Optional[Coord] = None


@dataclass(eq=False)
class Decl(Node):
    """A declaration of one name, of a member, or of a type alone (6.7)."""

    SLOTS = ("type", "init", "bitsize")
    name: Optional[str]
    quals: list[str]
    align: Optional[list[Node]]
    storage: list[str]
    funcspec: list[str]
    type: TypeNode
    init: Optional[Expression]
    bitsize: Optional[Expression]
    coord: Optional[Coord] = None


@dataclass(eq=False)
class DeclList(Node):
    """The declarations before a loop's condition."""

    SLOTS = ("decls",)
    decls: list[Decl]
    coord: Optional[Coord] = None


@dataclass(eq=False)
class Typedef(Node):
    """A typedef (6.7.8)."""

    SLOTS = ("type",)
    name: str
    quals: list[str]
    storage: list[str]
    type: TypeNode
    coord: Optional[Coord] = None


@dataclass(eq=False)
class Alignas(Node):
    """An alignment (6.7.5), which is refused where it is read."""

    SLOTS = ("alignment",)
    alignment: Expression
    coord: Optional[Coord] = None


# ---- statements (6.8)


@dataclass(eq=False)
class Compound(Node):
    """A block (6.8.2)."""

    SLOTS = ("block_items",)
    block_items: list[Node]
    coord: Optional[Coord] = None


@dataclass(eq=False)
class EmptyStatement(Node):
    """A null statement (6.8.3p3)."""

    coord: Optional[Coord] = None


@dataclass(eq=False)
class If(Node):
    """A branch (6.8.4.1)."""

    SLOTS = ("cond", "iftrue", "iffalse")
    cond: Expression
    iftrue: Node
    iffalse: Optional[Node]
    coord: Optional[Coord] = None


@dataclass(eq=False)
class Switch(Node):
    """A choice by a value (6.8.4.2)."""

    SLOTS = ("cond", "stmt")
    cond: Expression
    stmt: Node
    coord: Optional[Coord] = None


@dataclass(eq=False)
class CaseRange(Expression):
    """The ends of a range of cases of GNU C."""

    SLOTS = ("low", "high")
    low: Expression
    high: Expression
    coord: Optional[Coord] = None


@dataclass(eq=False)
class Case(Node):
    """A case with the statements up to the next one."""

    SLOTS = ("expr", "stmts")
    expr: Expression
    stmts: list[Node]
    coord: Optional[Coord] = None


@dataclass(eq=False)
class Default(Node):
    """`default:` with the statements up to the next case."""

    SLOTS = ("stmts",)
    stmts: list[Node]
    coord: Optional[Coord] = None


@dataclass(eq=False)
class While(Node):
    """A loop whose condition stands before it (6.8.5.1)."""

    SLOTS = ("cond", "stmt")
    cond: Expression
    stmt: Node
    coord: Optional[Coord] = None


@dataclass(eq=False)
class DoWhile(Node):
    """A loop whose condition stands behind it (6.8.5.2)."""

    SLOTS = ("cond", "stmt")
    cond: Expression
    stmt: Node
    coord: Optional[Coord] = None


@dataclass(eq=False)
class For(Node):
    """A loop with what stands before it, its condition and its step, each if there is one (6.8.5.3)."""

    SLOTS = ("init", "cond", "next", "stmt")
    init: Optional[Node]
    cond: Optional[Expression]
    next: Optional[Expression]
    stmt: Node
    coord: Optional[Coord] = None


@dataclass(eq=False)
class Label(Node):
    """A statement with a label (6.8.1)."""

    SLOTS = ("stmt",)
    name: str
    stmt: Node
    coord: Optional[Coord] = None


@dataclass(eq=False)
class Goto(Node):
    """A jump to a label (6.8.6.1)."""

    name: str
    coord: Optional[Coord] = None


@dataclass(eq=False)
class Break(Node):
    """`break` (6.8.6.3)."""

    coord: Optional[Coord] = None


@dataclass(eq=False)
class Continue(Node):
    """`continue` (6.8.6.2)."""

    coord: Optional[Coord] = None


@dataclass(eq=False)
class Return(Node):
    """`return` (6.8.6.4)."""

    SLOTS = ("expr",)
    expr: Optional[Expression]
    coord: Optional[Coord] = None


@dataclass(eq=False)
class Pragma(Node):
    """A pragma, which is left out."""

    string: str
    coord: Optional[Coord] = None


@dataclass(eq=False)
class StaticAssert(Node):
    """`_Static_assert`, which the compiler has judged."""

    SLOTS = ("cond", "message")
    cond: Expression
    message: Optional[Expression]
    coord: Optional[Coord] = None


# ---- units (6.9)


@dataclass(eq=False)
class FuncDef(Node):
    """A function with its body; `param_decls` are the parameters of a head without types (6.9.1)."""

    SLOTS = ("decl", "body", "param_decls")
    decl: Decl
    param_decls: Optional[list[Decl]]
    body: Compound
    coord: Optional[Coord] = None

    @property
    def head(self) -> FuncDecl:
        """The function's declarator (6.9.1p2)."""
        assert isinstance(self.decl.type, FuncDecl)
        return self.decl.type


@dataclass(eq=False)
class FileAST(Node):
    """All items of a source with what it includes."""

    SLOTS = ("ext",)
    ext: list[Node]
    coord: Optional[Coord] = None


def rename(decl: Decl | Typedef, name: str) -> None:
    """Gives what is declared another name, also at the end of its declarator."""
    decl.name = name
    of = decl.type
    while not isinstance(of, TypeDecl):
        assert isinstance(of, (PtrDecl, ArrayDecl, FuncDecl))
        of = of.type
    of.declname = name


Parameter = (
    Decl | Typename | EllipsisParam | ID
)  # (a name alone where its declaration stands behind the parentheses, 6.9.1p6)
# those that are statements, with a semicolon behind them
EXPRESSIONS = (
    *(ID, Constant, UnaryOp, BinaryOp, TernaryOp, Assignment, ExprList),
    *(Cast, CompoundLiteral, FuncCall, ArrayRef, StructRef, StatementExpr),
)
LOOPS = (For, While, DoWhile)
LEFT_BY_BREAK = (*LOOPS, Switch)


def walk(node: Node) -> list[Node]:
    """A tree's nodes, outer ones first."""
    found, rest = list[Node](), [node]
    while rest:
        one = rest.pop()
        found.append(one)
        for slot in one.BACK:
            part = getattr(one, slot)
            if part.__class__ is list:
                rest += part[::-1]
            elif part is not None:
                rest.append(part)
    return found


def with_parents(node: Node, parents: tuple[Node, ...] = ()) -> Iterator[tuple[Node, tuple[Node, ...]]]:
    """A tree's nodes, each with those around it, the nearest last; without what `sizeof` doesn't evaluate (6.5.3.4p2)."""
    rest = [(node, parents)]
    while rest:
        one, around = rest.pop()
        yield one, around
        if one.SLOTS and not (isinstance(one, UnaryOp) and one.op == "sizeof"):
            inner = around + (one,)
            rest += [(child, inner) for child in one.parts()[::-1]]
