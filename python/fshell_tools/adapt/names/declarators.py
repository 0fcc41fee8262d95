"""The type that a declarator or a type name gives (6.7.2, 6.7.6)."""

from typing import TYPE_CHECKING

from fshell_tools.adapt.common import c_types, tree
from fshell_tools.adapt.common.c_types import Array, Int, Other, Pointer, Signature, Struct, Type
from fshell_tools.adapt.common.objects import Enumerator
from fshell_tools.adapt.common.refusals import Refused

if TYPE_CHECKING:
    from fshell_tools.adapt.names.scopes import Names


def bit_field(declared: Int, width: int) -> Int:
    """The kind that holds a bit-field of so many bits (6.7.2.1p10): of 8, 16 or 32 bits, signed where it was or where int holds it."""
    if declared.boolean:
        return declared
    bits = 8 if width <= 8 else 16 if width <= 16 else 32
    signed = declared.signed or 16 < width < 32
    return Int(bits, signed, f"{'' if signed else 'u'}int{bits}_t", False, width, declared.signed)


class Declarators:
    """The types that declarators, types' names and tags give, in the scopes that are open."""

    def __init__(self, names: "Names") -> None:
        self.names = names

    def type_of(self, node: tree.TypeNode | tree.Typename) -> Type:
        """The type that a declarator or a Typename gives. Raises Refused for a type that no object of the profile
        has."""
        if isinstance(node, (tree.Typename, tree.TypeDecl)):
            return self.type_of(node.type)
        if isinstance(node, tree.IdentifierType):
            return self.named(node)
        if isinstance(node, tree.Typeof):
            return self.type_of_typeof(node)
        if isinstance(node, tree.ArrayDecl):
            of = self.type_of(node.type)
            if node.dim is None:
                return Array(of, None)
            self.names.expression(node.dim)
            length = self.names.constants.value(node.dim)
            if length is None or length < 1:
                raise Refused(node.coord, "an array whose length is no positive constant", "give it a constant length")
            return Array(of, length)
        if isinstance(node, tree.PtrDecl):
            to = node.type
            return Pointer(self.type_of(to))
        if isinstance(node, (tree.Struct, tree.Union)):
            return self.struct(node)
        if isinstance(node, tree.Enum):
            return self.enum(node)
        if isinstance(node, tree.FuncDecl):
            return self.signature(node)
        raise Refused(node.coord, f"a type ({type(node).__name__})", "use an integer, an array or a struct")

    def type_of_typeof(self, node: tree.Typeof) -> Type:
        """What typeof gives, as gcc has it; its pointers have regions of their own."""
        if isinstance(node.of, tree.Typename):
            return self.type_of(node.of.type)
        if not node.known:
            self.names.expression(node.of)
        return c_types.renewed(self.names.constants.type_of(node.of))

    def signature(self, node: tree.FuncDecl) -> Signature:
        """The type of a function (6.7.6.3); its parameters are what they are adjusted to."""
        listed = node.params
        own = [self.usable(one.type) for one in listed if isinstance(one, (tree.Decl, tree.Typename))]
        taken = [c_types.adjusted(one) for one in own if one != c_types.VOID]
        return Signature(self.usable(node.type), taken, any(isinstance(one, tree.EllipsisParam) for one in listed))

    def usable(self, node: tree.TypeNode) -> Type:
        """The type, or one that is refused where it is used."""
        try:
            return self.type_of(node)
        except Refused as refused:
            return Other(refused.cause, refused.advice)

    def named(self, node: tree.IdentifierType) -> Type:
        """The type that words or a typedef's name give (6.7.2p2, 6.7.8); pointers in it get regions of their own."""
        found = self.names.scope.get(node.names[0]) if len(node.names) == 1 else None
        if isinstance(found, (Int, Array, Struct, Pointer, Signature, Other)):
            return c_types.renewed(found)
        if {"float", "double", "_Complex"} & set(node.names):
            return c_types.FLOATS[16 if "long" in node.names else 8 if "double" in node.names else 4]
        return c_types.plain(list(node.names)) or (
            c_types.VOID if node.names == ["void"] else Other(f"the type {' '.join(node.names)}")
        )

    def struct(self, node: tree.Struct | tree.Union) -> Struct:
        """The struct or union of a tag, or one without a tag (6.7.2.3); a member that can't be written is its fault."""
        tag = node.name or f"at line {node.where.line}"
        known = self.names.tags.get(tag) if node.name else None
        made = known if isinstance(known, Struct) else None
        if made is None or (node.decls is not None and node.name and tag not in self.names.tags.maps[0]):
            made = Struct(tag, union=isinstance(node, tree.Union))
            self.names.structs.append(made)
            if node.name:
                self.names.tags[tag] = made
        if node.decls is None or made.members is not None:
            return made
        members: list[tuple[str, Type]] = []
        for one in node.decls:
            if isinstance(one, tree.Decl) and one.bitsize is not None:
                members += self.bit_field(made, one)
                continue
            if isinstance(one, tree.Decl) and one.name is None and isinstance(one.type, (tree.Struct, tree.Union)):
                one.name = f"?{len(members)}"
            if not isinstance(one, tree.Decl) or one.name is None:
                cause = (one.coord or node.coord, "a member without a name", "use a member of its own")
                made.fault = made.fault or cause
                continue
            of = self.usable(one.type)
            if isinstance(of, Other) and self.is_open(one.type):
                made.fault = made.fault or (one.coord, of.name, of.advice)
            members.append((one.name, of))
            made.declared.append((one.name, of, None))
        made.members = members
        return made

    def is_open(self, node: tree.TypeNode) -> bool:
        """Whether a declarator is an array whose length is no constant, so that nothing is known of a struct's size (GNU C)."""
        while isinstance(node, tree.ArrayDecl):
            if node.dim is not None and self.names.constants.value(node.dim) is None:
                return True
            node = node.type
        return False

    def bit_field(self, made: Struct, node: tree.Decl) -> list[tuple[str, Type]]:
        """A bit-field, which is an integer of its own; one without a name only takes place (6.7.2.1p9 to p12)."""
        of = self.usable(node.type)
        assert node.bitsize is not None
        self.names.expression(node.bitsize)
        width = self.names.constants.value(node.bitsize)
        if not isinstance(of, Int) or width is None or 32 < width < of.bits:
            cause = (
                "a bit-field of more than 32 bits" if isinstance(of, Int) and width else "a bit-field of no known width"
            )
            made.fault = made.fault or (node.coord, cause, "use a member of its own")
            return []
        made.declared.append((node.name or "", of, width))
        if node.name is None:
            return []
        return [(node.name, of if width == of.bits else bit_field(of, width))]

    def enum(self, node: tree.Enum) -> Type:
        """The type of an enum, whose constants come into scope (6.7.2.2, gcc's choice of the type). Raises Refused
        for one that is no int."""
        if node.values is None:
            return self.names.tags.get(node.name or "", c_types.UINT)
        last, least = -1, 0
        for one in node.values.enumerators:
            if one.value is not None:
                self.names.expression(one.value)
                known = self.names.constants.value(one.value)
                if known is None:
                    raise Refused(
                        one.coord, f"the value of {one.name} is no constant that is known", "give it a number"
                    )
                last = known
            else:
                last += 1
            least = min(least, last)
            if c_types.fit(last, c_types.INT) != last:
                raise Refused(one.coord, f"{one.name} is no int", "use a macro or a const object")
            taken = (
                self.names.function is not None
                or one.name in self.names.enumerators
                and self.names.enumerators[one.name] != one.coord
            )
            made = Enumerator(one.name, last, str(last) if taken else one.name)
            self.names.scope[one.name] = self.names.meaning[one] = made
            self.names.enumerators.setdefault(one.name, one.coord)
        kind = c_types.INT if least < 0 else c_types.UINT
        if node.name:
            self.names.tags[node.name] = kind
        return kind
