"""What names stand for: objects, functions and constants; and a place, which is an object or a part of one."""

from dataclasses import dataclass, field
from typing import Literal, Optional, Union

from fshell_tools.adapt.common import tree
from fshell_tools.adapt.common.c_types import Array, Int, Other, Path, Pointer, Region, Signature, Struct, Type
from fshell_tools.adapt.common.unit import Unit


# where an object is: in a file, static within a function, a local, a parameter, a column, memory of the heap, a string
Home = Literal["file", "static", "local", "parameter", "column", "pool", "text"]


@dataclass(eq=False)
class Variable:
    """An object; `binding` is how a parameter that is a pointer is written."""

    name: str
    type: Type
    coord: Optional[tree.Coord]
    home: Home
    init: Optional[tree.Expression] = None
    function: Optional["Function"] = None
    defined: bool = False
    const: bool = False
    binding: "Binding" = None
    out: str = ""
    unit: Optional[Unit] = None
    number: int = 0  # of the item in which it is first declared
    volatile: bool = False

    @property
    def where(self) -> tree.Coord:
        """The place of its declaration; of what has none no line of any file."""
        return self.coord or tree.NOWHERE

    @property
    def is_input(self) -> bool:
        """Whether it is a register: a volatile integer that no source defines, so that each read of it is an input."""
        return self.volatile and self.home == "file" and not self.defined and isinstance(self.type, Int)

    @property
    def shared(self) -> bool:
        """Whether several functions may name it."""
        return self.home in ("file", "static", "column")

    @property
    def is_bound(self) -> bool:
        """Whether it is a parameter that stands for an object."""
        return self.home == "parameter" and self.binding != "pointer"


@dataclass(eq=False)
class Function:
    """A function of the sources, declared or defined. `calls` are its calls with who calls, `taken` says that its
    address is taken."""

    name: str
    result: Type
    parameters: list[Variable]
    coord: Optional[tree.Coord]
    variadic: bool = False
    static: bool = False
    definition: Optional[tree.FuncDef] = None
    declaration: Optional[tree.Decl] = None  # the first one
    out: str = ""
    calls: list[tuple[Optional["Function"], tree.FuncCall]] = field(default_factory=list)
    number: int = 0  # of the item that defines it
    taken: bool = False
    own_type: Optional[Signature] = None

    @property
    def where(self) -> tree.Coord:
        """The place of its definition, or of its first declaration; of what has none no line of any file."""
        return self.coord or tree.NOWHERE

    @property
    def type(self) -> Signature:
        """The type of the function, whose pointers have the regions of its parameters and of its result."""
        if self.own_type is None:
            self.own_type = Signature(self.result, [one.type for one in self.parameters], self.variadic)
        return self.own_type

    @property
    def written(self) -> list[tree.Parameter]:
        """What its first declaration has between the parentheses."""
        of = self.declaration.type if self.declaration is not None else None
        return of.params if isinstance(of, tree.FuncDecl) else []


@dataclass
class Enumerator:
    """A constant of an `enum`. `out` is its text in what is written: its name, or its number."""

    name: str
    value: int
    out: str


Meaning = Union[
    Variable, Function, Enumerator, Int, Array, Struct, Pointer, Signature, Other
]  # a type where a typedef names it


@dataclass(frozen=True)
class View:
    """A part of an integer: its kind, and of one in an array the index and the array's length."""

    kind: Int
    index: Optional[tree.Expression]
    length: Optional[int]


@dataclass(frozen=True)
class Place:
    """An object: a variable, the members that lead to it, and on the way each index with the array's length. What is added
    to a number whole, as where an object begins in its column, has the length 1, and `shift` stands behind all of them.
    `around` is the outermost array in which the object is an element, and `region` where its elements lie."""

    variable: Variable
    path: Path
    indexes: tuple[tuple[tree.Expression, int], ...]
    type: Type
    shift: int = field(default=0, compare=False)
    region: Optional[Region] = field(default=None, compare=False)
    around: Optional["Place"] = field(default=None, compare=False)
    row: bool = field(default=False, compare=False)  # an array at a pointer to it
    stored: Optional[Type] = field(default=None, compare=False)  # of what a union has as another member
    view: Optional[View] = field(default=None, compare=False)
    inside: tuple[tuple[tree.Expression, int], ...] = field(
        default=(), compare=False
    )  # of bytes: indexes with their steps,
    offset: int = field(default=0, compare=False)  # what is added to them,
    whole: int = field(default=0, compare=False)  # and how many bytes the object has in which they lead

    def shifted(self) -> tuple[tuple[tree.Expression, int], ...]:
        """The indexes with what is added behind them."""
        return self.indexes + (((tree.Constant("int", str(self.shift)), 1),) if self.shift else ())


# the one object for which a parameter stands, a copy of it, a whole array, or a pointer as any other
Binding = Union[None, Place, Literal["copy", "lent", "pointer"]]
