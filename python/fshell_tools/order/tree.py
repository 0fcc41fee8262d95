"""The trees of a unit, as far as the order of evaluation goes by them. `at` is the number of a form's first token."""

from dataclasses import dataclass, field
from typing import Union


@dataclass(frozen=True)
class Kind:
    """An integer type by its width in bits and its sign; void has width 0."""

    width: int
    signed: bool

    @property
    def range(self) -> tuple[int, int]:
        """The least and the greatest number."""
        half = 1 << self.width - 1
        return (-half, half - 1) if self.signed else (0, 2 * half - 1)


INT = Kind(32, True)


# ---- expressions


@dataclass
class Number:
    """A constant, by the number of its token."""

    at: int
    value: int


@dataclass
class Name:
    """A variable or constant at a token."""

    at: int
    name: str


@dataclass
class Element:
    """An element of an array at a token."""

    at: int
    name: str
    index: "Expression"


@dataclass
class Call:
    """A function's call, by the number of its name's token, with its arguments."""

    at: int
    name: str
    arguments: list["Expression"]


@dataclass
class Unary:
    """An operator with one operand at a token."""

    at: int
    operator: str
    inner: "Expression"


@dataclass
class Cast:
    """A conversion at a token."""

    at: int
    kind: Kind
    inner: "Expression"


@dataclass
class Chain:
    """Operators of one level from the left, each with its right operand; `marks` are the numbers of their tokens."""

    at: int
    first: "Expression"
    rest: list[tuple[str, "Expression"]]
    marks: list[int] = field(default_factory=list)


@dataclass
class Ordered:
    """`&&`, `||` or `?:`: its parts are evaluated in their order, or are left out."""

    at: int
    operator: str
    parts: list["Expression"]


Expression = Union[Number, Name, Element, Call, Unary, Cast, Chain, Ordered]
Target = Union[Name, Element]


# ---- statements


@dataclass
class Variable:
    """A declaration; `listed` are the values of a list."""

    at: int
    name: str
    kind: Kind
    length: Expression | None = None
    value: Expression | None = None
    listed: list[Expression] | None = None


@dataclass
class Assign:
    """An assignment, by `=` or by an operator such as `+`; a step assigns by `+` or `-` and has no value."""

    at: int
    target: Target
    operator: str
    value: Expression | None
    mark: int = 0  # the number of the operator's token


@dataclass
class Check:
    """assert or assume."""

    at: int
    word: str
    value: Expression


@dataclass
class Loop:
    """A `for`, `while` or `do`."""

    at: int
    word: str
    first: "Statement | None"
    test: Expression | None
    step: "Statement | None"
    body: "Statement"


@dataclass
class Parts:
    """Any other statement: its expressions and statements in order. One that opens a scope is a block. `word` is the word
    that it begins with, `:` of a label, and `declaration` of one; a block has none."""

    at: int
    parts: list["Statement"]
    opens: bool = False
    word: str = ""


Statement = Union[Variable, Assign, Check, Loop, Parts, Number, Name, Element, Call, Unary, Cast, Chain, Ordered]


# ---- items


@dataclass
class Function:
    """A function that is defined; `calls` are the functions that it names."""

    at: int
    name: str
    parameters: list[Variable]
    body: Parts
    calls: set[str] = field(default_factory=set)
    kind: Kind = INT  # of its result
    name_at: int = 0  # the number of its name's token


@dataclass
class Unit:
    """What sources are together. Enumeration constants stand in order, each with its value where one is written."""

    functions: dict[str, Function] = field(default_factory=dict)
    variables: list[Variable] = field(default_factory=list)
    constants: list[tuple[str, Expression | None]] = field(default_factory=list)
