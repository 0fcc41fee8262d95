"""The types of parameters, as far as a driver can fill objects of them."""

from dataclasses import dataclass
from typing import Any

from fshell_tools.driver.declarations import Read, constant, kind

INTEGERS = {"char", "short", "int", "long", "signed", "unsigned", "_Bool", "bool"}
FIXED = {f"{sign}int{width}_t" for sign in ("", "u") for width in (8, 16, 32, 64)} | {"size_t", "bool"}
MOST_PARTS = 256


class Unfit(Exception):
    """Why a driver can't fill an object of a type, or a stub can't be written, in a few words for the user."""


@dataclass(frozen=True)
class Int:
    """An integer type: `text` is how C writes it. Of an enum whose constants are 0 to N - 1, `count` is N, so that it
    gets one of these alone; else it is 0."""

    text: str
    count: int = 0

    @property
    def answer(self) -> str:
        """The type of the input function that gives its values, as C writes it."""
        return "unsigned int" if self.count else self.text

    def given(self, name: str) -> str:
        """What is assigned of the answer of the input function `name`: of an enum with a count, the answer's remainder
        by it."""
        return f"({self.text}) ({name}() % {self.count}u)" if self.count else f"{name}()"


@dataclass(frozen=True)
class Array:
    """An array of `length` elements, at least 1 (C11 6.7.6.2)."""

    element: "Type"
    length: int


@dataclass(frozen=True)
class Struct:
    """A struct, as C writes its name, with its members in their order, each with its type (C11 6.7.2.1)."""

    text: str
    members: "tuple[tuple[str, Type], ...]"


@dataclass(frozen=True)
class Pointer:
    """A pointer to an object; `is_const` says that what it leads to may not be changed (C11 6.7.6.1)."""

    target: "Type"
    is_const: bool


@dataclass(frozen=True)
class Void:
    """The type void (C11 6.2.5, paragraph 19): no value, or the target of a pointer to anything."""

    pass


Type = Int | Array | Struct | Pointer | Void


class Types:
    """Makes types of pycparser's trees, by the typedefs, structs, enums and constants that sources have."""

    def __init__(self, read: Read) -> None:
        self.read = read

    def of(self, node: Any, name: str = "") -> Type:
        """The type that a declaration's tree stands for; `name` is that of the typedef by which it is written, if any.
        Raises Unfit for unions, floating types, pointers to functions, arrays without a known length, members with a
        number of bits, and structs that aren't defined."""
        form = kind(node)
        if form in ("Decl", "Typename", "Typedef"):
            return self.of(node.type, name)
        if form == "TypeDecl":
            return self._plain(node, name)
        if form == "ArrayDecl":
            length = None if node.dim is None else constant(node.dim, self.read.constants)
            if length is None or length < 1:
                raise Unfit("an array whose length isn't known")
            return Array(self.of(node.type), length)
        if form == "PtrDecl":
            if kind(node.type) == "FuncDecl":
                raise Unfit("a pointer to a function")
            return Pointer(self.of(node.type), "const" in getattr(node.type, "quals", []))
        raise Unfit("a type that isn't known")

    def parameter(self, node: Any) -> Type:
        """The type of a parameter; of an array without a length, a pointer to its elements (C11 6.7.6.3, paragraph 7).
        Raises Unfit as `of` does."""
        if kind(node.type) == "ArrayDecl" and node.type.dim is None:
            return Pointer(self.of(node.type.type), "const" in getattr(node.type.type, "quals", []))
        return self.of(node.type)

    def _plain(self, node: Any, name: str) -> Type:
        """The type of words, of a typedef's name, of a struct or an enum."""
        inner = node.type
        if kind(inner) == "IdentifierType":
            return self._words(inner.names)
        if kind(inner) == "Enum":
            return Int(name or f"enum {inner.name}", self._count(inner))
        if kind(inner) == "Struct":
            return self._struct(inner, name)
        raise Unfit("a union")

    def _words(self, names: list[str]) -> Type:
        text = " ".join(names)
        if names == ["void"]:
            return Void()
        if text in FIXED or all(word in INTEGERS for word in names):
            return Int("bool" if text == "_Bool" else text)
        known = self.read.typedefs.get(text)
        if known is None:
            raise Unfit(f"{text}, which is no integer")
        found = self.of(known.type, text)
        return Int(text, found.count) if isinstance(found, Int) else found

    def _count(self, node: Any) -> int:
        """The number of an enum's values, where they are 0 to that number, less one."""
        defined = node if node.values is not None else self.read.enums.get(node.name)
        names = [one.name for one in defined.values.enumerators] if defined is not None else []
        values = sorted({self.read.constants[name] for name in names})
        return len(values) if values == list(range(len(values))) else 0

    def _struct(self, node: Any, name: str) -> Struct:
        defined = node if node.decls is not None else self.read.structs.get(node.name)
        text = name or f"struct {node.name}"
        if defined is None:
            raise Unfit(f"{text}, which isn't defined")
        members = []
        for one in defined.decls:
            if one.name is None or one.bitsize is not None:
                raise Unfit(f"a member of {text} without a name, or with a number of bits")
            members.append((one.name, self.of(one.type)))
        return Struct(text, tuple(members))


def parts(found: Type, place: str, name: str) -> list[tuple[str, Int, str]]:
    """The integers of an object, in the order of its members and elements: how C writes each (`place` is how it writes
    the object), its type, and its place in words that are joined by underscores. Raises Unfit where there is a pointer
    within it, or more than 256 integers."""
    made: list[tuple[str, Int, str]] = []
    if isinstance(found, Int):
        made = [(place, found, name)]
    elif isinstance(found, Array):
        for at in range(found.length):
            made += parts(found.element, f"{place}[{at}]", f"{name}_{at}")
    elif isinstance(found, Struct):
        for member, kind_of in found.members:
            made += parts(kind_of, f"{place}.{member}", f"{name}_{member}")
    else:
        raise Unfit(f"{place} is a pointer within an object")
    if len(made) > MOST_PARTS:
        raise Unfit(f"{place} has more than {MOST_PARTS} integers")
    return made


def declared(found: Type, name: str) -> str:
    """The declaration of an object of a type, as C writes it, without a semicolon. Raises Unfit for a pointer."""
    if isinstance(found, Array):
        return declared(found.element, f"{name}[{found.length}]")
    if isinstance(found, (Int, Struct)):
        return f"{found.text} {name}"
    raise Unfit(f"{name} is a pointer within an object")
