"""Writes the assignments of whole structs, member by member, and members of structs that are no objects."""

from typing import Optional

from fshell_tools.adapt.bind.initializers import filled
from fshell_tools.adapt.bind.value_texts import Value
from fshell_tools.adapt.common import c_types, tree
from fshell_tools.adapt.common.c_types import Leaf
from fshell_tools.adapt.common.objects import Place, Variable
from fshell_tools.adapt.common.output import unmarked
from fshell_tools.adapt.common.refusals import Refused
from fshell_tools.adapt.effects.side_effects import objects
from fshell_tools.adapt.write import statement_exprs
from fshell_tools.adapt.write.component import Component


MOST_COPIED = 256


class Wholes(Component):
    """Writes copies, arguments and results of a struct type (6.5.16.1, 6.5.2.2), member by member."""

    def assign_whole(self, target: Place, source: tree.Expression, node: tree.Node) -> None:
        """Writes the assignment of a struct, member by member. Raises Refused for more than 256 integers."""
        if isinstance(source, tree.TernaryOp):
            self.writer.expressions.either(source, lambda one: self.assign_whole(target, one, node))
            return
        if isinstance(source, tree.StatementExpr):
            statement_exprs.whole(self.writer, target, source, node)
            return
        if isinstance(source, tree.ExprList):
            for one in source.exprs[:-1]:
                self.writer.assignments.effect(one)
            self.assign_whole(target, source.exprs[-1], node)
            return
        if sum(leaf.count for leaf in c_types.leaves(target.type)) > MOST_COPIED:
            raise Refused(node.coord, f"a struct of more than {MOST_COPIED} integers is copied", "copy what is needed")
        self.writer.order.unsequenced(node, [tree.ExprList([one for one, _ in target.indexes]), source])
        index = self.writer.elements.index(target, True, self.is_read(target, target))
        if isinstance(source, tree.CompoundLiteral):
            values = self.literal(target, source)
        else:
            values = self.writer.elements.integers(*self.whole(source, target))
        for (_, to), (_, of) in zip(self.writer.elements.integers(target, index), values):
            for text, value in zip(to, of):
                self.writer.emit(f"{text} = {value};")

    def kept_whole(self, node: tree.Expression) -> tree.Expression:
        """A member of a struct that is no object (6.5.2.3p3), as one of an object that is written before and has it."""
        if isinstance(node, (tree.StructRef, tree.ArrayRef)):
            base = self.kept_whole(node.name)
            if isinstance(node, tree.ArrayRef):
                return tree.ArrayRef(base, node.subscript, node.coord)
            return tree.StructRef(base, ".", node.field, node.coord)
        of = self.writer.constants.type_of(node)
        local = Variable("whole", of, node.coord, "local", out=self.writer.spelling.fresh("whole"))
        self.writer.calls.declared(local)
        self.assign_whole(Place(local, (), (), of), node, node)
        return self.named_as(local, node)

    def named_as(self, local: Variable, node: tree.Node) -> tree.ID:
        """A name for a local that is written without one of the sources."""
        made = tree.ID(local.out, node.coord)
        self.writer.names.meaning[made] = local
        return made

    def whole(self, source: tree.Expression, target: Place) -> tuple[Place, Optional[Value]]:
        """The object in which a struct's value stands. Raises Refused where no source defines the function that gives
        it."""
        if isinstance(source, tree.FuncCall):
            function = self.writer.calls.called(source)
            text, after = self.writer.calls.call(source)
            if function.definition is None:
                raise Refused(
                    source.coord,
                    f"no source defines {function.name}, which gives a struct",
                    "give the source that defines it",
                )
            for one in [text + ";", *after]:
                self.writer.emit(one)
            own = self.writer.spelling.special(function, "result", function.result, self.writer.special)
            return Place(own, (), (), function.result), None
        if isinstance(source, tree.Assignment) and source.op == "=":
            self.assign_whole(self.writer.places.place(source.lvalue), source.rvalue, source)
            source = source.lvalue
        place = self.writer.places.place(source)
        return place, self.writer.elements.index(place, True, self.is_read(place, target))

    def is_read(self, place: Place, target: Place) -> bool:
        """Whether the indexes of a place may read what is assigned."""
        reads = self.writer.effected.of(tree.ExprList([one for one, _ in place.indexes])).reads
        return any(one in reads for one in objects(target))

    def literal(self, target: Place, source: tree.CompoundLiteral) -> list[tuple[Leaf, list[str]]]:
        """The values of a compound literal, kept where the target itself may be among what they read. Raises Refused
        for a struct within it."""
        made = filled(self.writer.constants, target.type, source.init)
        if made.wholes:
            raise Refused(source.coord, "a struct within a compound literal", "give its members one by one")
        self.writer.order.unsequenced(source, made.expressions)
        if self.writer.raw.is_bytes_alone(target):
            values = self.writer.raw.first_bytes(made)
            return [(Leaf((), (len(values),), c_types.Int(8, False, "")), values)]
        reads = self.writer.effected.of(source)
        apart = not any(one in reads.reads for one in objects(target)) and not any(reads.reads.values())
        found = []
        for leaf in c_types.leaves(target.type):
            inits, texts = made.of(leaf), []
            for at in range(leaf.count):
                value = (
                    unmarked(
                        self.writer.conversions.converted(self.writer.expressions.value(inits[at]), leaf.kind).text
                    )
                    if at in inits
                    else "0"
                )
                texts.append(value if apart or at not in inits else self.writer.temporary(leaf.kind, value))
            found.append((leaf, texts))
        return found
