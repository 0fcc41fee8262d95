"""Writes calls: what they hand over, what they hand back, and that no two names of one object meet."""

from contextlib import contextmanager
from collections.abc import Iterator
from typing import Optional

from fshell_tools.adapt.bind.bindings import key
from fshell_tools.adapt.bind.initializers import none_of
from fshell_tools.adapt.bind.lvalues import arguments
from fshell_tools.adapt.bind.value_texts import PRIMARY, Value
from fshell_tools.adapt.common import c_types, tree
from fshell_tools.adapt.common.c_types import INDEX, Int, Pointer, Struct
from fshell_tools.adapt.common.objects import Function, Place, Variable
from fshell_tools.adapt.common.refusals import Refused
from fshell_tools.adapt.effects.side_effects import Object, in_pairs, may_be, objects, pointee
from fshell_tools.adapt.expand.library import OUTPUT
from fshell_tools.adapt.names.constants import is_offset
from fshell_tools.adapt.points_to.heap import heap_call
from fshell_tools.adapt.points_to.models import Model, model_of
from fshell_tools.adapt.write.component import Component

MOST_ELEMENTS = 1024


class Calls(Component):
    """The calls of one function (6.5.2.2)."""

    def called(self, node: tree.FuncCall) -> Function:
        """The function that a call calls. Raises Refused where it calls what is no function."""
        function = self.writer.choosers.called(node)
        if not isinstance(function, Function):
            self.writer.pointers.pointer(node.name)
            raise Refused(node.coord, "a call of what is no function", "call functions by their names")
        return function

    def call(self, node: tree.FuncCall) -> tuple[str, list[str]]:
        """A call's text, and the statements that must follow it. Raises Refused for a wrong number of arguments, and
        for two names of one object."""
        function = self.called(node)
        model = model_of(function)
        if model is not None and self.takes_model(node, model):
            return self.writer.models.model_parts(node, model)[INDEX].text, []
        if heap_call(function):
            return (
                self.writer.heap.freed(node)
                if function.name == "free"
                else self.writer.pointers.pointer(node)[INDEX].text,
                [],
            )
        if function.definition is None:
            return self.writer.outside.outer_call(node, function)
        given = arguments(node)
        if len(given) != len(function.parameters) and not function.variadic:
            raise Refused(
                node.coord,
                f"{function.name} gets {len(given)} arguments and takes {len(function.parameters)}",
                "hand over as many as it takes",
            )
        own = [not isinstance(one.binding, Place) and one.binding != "lent" for one in function.parameters]
        self.writer.order.unsequenced(node, [argument for argument, wanted in zip(given, own) if wanted])
        with self.else_apart(function.parameters):
            self.apart(node, function)
        texts = self.chosen_by(node, function)
        after: list[str] = []
        for argument, parameter in zip(given, function.parameters):
            with self.else_apart([parameter]):
                self.argument(argument, parameter, function, texts, after)
        return f"{self.writer.at(node)}{function.out}({', '.join(texts)})", after

    def chosen_by(self, node: tree.FuncCall, function: Function) -> list[str]:
        """Of a call by a pointer the number of the function, which is its first argument."""
        if self.writer.choosers.targets(function) is None:
            return []
        function.out = function.out or self.writer.spelling.fresh(function.name)
        self.writer.order.unsequenced(node, [node.name, *arguments(node)])
        return [self.writer.pointers.pointer(node.name)[INDEX].text]

    @contextmanager
    def else_apart(self, parameters: list[Variable]) -> Iterator[None]:
        """Where this is refused, the parameters that stand for objects are tried as pointers."""
        try:
            yield
        except Refused:
            bound = [one for one in parameters if one.is_bound and not isinstance(one.type, (Int, Struct))]
            self.writer.names.refusals.apart.update(key(one) for one in bound)
            raise

    def takes_model(self, node: tree.FuncCall, model: Model) -> bool:
        """Whether a call is one of a library's function by its model. Raises Refused where it is declared otherwise
        than in the library."""
        if len(arguments(node)) != len(model.parameters):
            raise Refused(
                node.coord, f"{model.name} is declared otherwise than in the library", "declare it as string.h does"
            )
        return True

    def argument(
        self, argument: tree.Expression, parameter: Variable, function: Function, texts: list[str], after: list[str]
    ) -> None:
        """What stands for an argument, and what follows the call for it. Raises Refused for a part of a union."""
        if isinstance(parameter.type, Int):
            texts.append(
                self.writer.conversions.converted(self.writer.expressions.value(argument), parameter.type).text
            )
        elif isinstance(parameter.type, Pointer) and not parameter.is_bound:
            parts = self.writer.pointers.pointer(argument)
            texts.extend(parts[name].text for name in parameter.type.region.parts())
        elif isinstance(parameter.binding, Place):
            return
        elif isinstance(parameter.type, Struct) and (
            not isinstance(argument, (tree.ID, tree.StructRef, tree.ArrayRef, tree.UnaryOp))
            or self.is_changed(parameter, function)
        ):
            local = Variable("whole", parameter.type, argument.coord, "local", out=self.writer.spelling.fresh("whole"))
            place = Place(local, (), (), parameter.type)
            self.declared(local)
            self.writer.wholes.assign_whole(place, argument, argument)
            texts.extend(self.handed(place, argument, None))
        else:
            place = self.writer.effected.target(argument, parameter)
            if place.view is not None:
                raise Refused(argument.coord, "a part of a union is handed over", "hand over the union")
            index = self.writer.elements.index(place, True, True)
            texts.extend(self.handed(place, argument, index))
            back = {leaf.path for one, leaf in self.writer.order.outs(function) if one is parameter}
            own = self.writer.spelling.special(function, parameter.name, pointee(parameter), self.writer.special)
            for leaf, elements in self.writer.elements.integers(place, index):
                if leaf.path in back:
                    after.append(f"{elements[0]} = {self.writer.spelling.leaf(own, leaf.path)};")

    def is_changed(self, parameter: Variable, function: Function) -> bool:
        """Whether a function writes an array of a struct that it gets by its value, so that a call hands over a copy."""
        if not isinstance(parameter.type, Struct):
            return False
        own = objects(Place(parameter, (), (), parameter.type))
        return any(one in self.writer.effected.summary_of(function).writes for one in own)

    def handed(self, place: Place, argument: tree.Expression, index: Optional[Value]) -> list[str]:
        """An object's integers as arguments, its arrays lent whole. Raises Refused for an array within an element of
        an array, and for one that lies in a column."""
        texts = []
        columns = self.writer.columns
        for leaf, elements in self.writer.elements.integers(place, index):
            if leaf.dims and (self.writer.places.is_raw(place) or columns.is_apart(place.region, leaf.path)):
                raise Refused(
                    argument.coord,
                    "an object with an array that pointers meet is handed over whole",
                    "hand over its address, or copy what is used of it",
                )
            if leaf.dims and index is not None:
                raise Refused(
                    argument.coord,
                    "an array within an element of an array is handed over",
                    "hand over the whole array and an index",
                )
            texts.append(
                self.writer.spelling.leaf(place.variable, place.path + leaf.path) if leaf.dims else elements[0]
            )
        return texts

    def apart(self, node: tree.FuncCall, function: Function) -> None:
        """Refuses a call in which a copied object has a second name, and one of both is written. Raises Refused then."""
        summary = self.writer.effected.summary_of(function)
        seen: list[tuple[Object, bool, bool]] = []
        for argument, parameter in zip(arguments(node), function.parameters):
            if (
                isinstance(parameter.type, Int)
                or isinstance(parameter.binding, Place)
                or parameter.binding == "pointer"
            ):
                continue
            by_value = isinstance(parameter.type, Struct)
            if by_value and self.is_changed(parameter, function):
                continue  # (which gets a copy)
            try:
                place = self.writer.effected.target(argument, parameter)
            except Refused:
                continue
            for mine, theirs in in_pairs(place, parameter):
                written = theirs in summary.writes
                copied = not theirs[2] or by_value
                if not by_value or theirs[2]:
                    seen.append((mine, written, copied))
        for at, (one, written, copied) in enumerate(seen):
            shared = one[0] is not None and one[0].shared
            within = copied and shared and (one in summary.writes or (written and one in summary.reads))
            within = within or (copied and any(may_be(one, two) for two in summary.writes if two[0] and two[0].shared))
            other = any(one == two and (written or too) and (copied or also) for two, too, also in seen[at + 1 :])
            if within or other:
                name = one[0].name if one[0] else ""
                raise Refused(
                    node.coord,
                    f"{function.name} gets {name} and may also reach it by another name",
                    "let it reach the object in one way alone",
                )

    def call_value(self, node: tree.FuncCall) -> Value:
        """The value of a call; what follows the call is written before it is used. Raises Refused for one that gives
        no integer."""
        if is_offset(node):
            return Value(self.writer.at(node) + f"{self.writer.constants.value(node)}ul", c_types.SIZE, PRIMARY)
        function = self.called(node)
        self.writer.outer_used.add(function)
        if not isinstance(function.result, Int):
            raise Refused(
                node.coord, f"the value of {function.name} is no integer", "assign it whole, in a statement of its own"
            )
        text, after = self.call(node)
        made = Value(text, function.result, PRIMARY, function.result.boolean and function.definition is not None, True)
        if after:
            made = Value(self.writer.temporary(made.kind, made.text), made.kind, PRIMARY, made.truth)
            for one in after:
                self.writer.emit(one)
        return self.writer.conversions.truth(made) if function.result.boolean else made

    def call_effect(self, node: tree.FuncCall) -> None:
        """Writes a call as a statement; calls that record nothing are left out, but not what their arguments do."""
        function = self.called(node)
        if function.name in ("assert", "assume") and function.definition is None:
            self.writer.emit(
                f"{self.writer.at(node)}{function.name}({self.writer.expressions.value(arguments(node)[0]).text});"
            )
            return
        if function.definition is None and function.name in OUTPUT:
            for one in self.writer.outside.outer_call(node, function)[1]:
                self.writer.emit(one)
            return
        model = model_of(function)
        if model is not None and self.takes_model(node, model) and self.writer.models.straight(node, model):
            return
        text, after = self.call(node)
        if (
            function.definition is not None
            or isinstance(function.result, Int)
            or model is not None
            or heap_call(function)
        ):
            self.writer.emit(text + ";")
        for one in after:
            self.writer.emit(one)

    @staticmethod
    def check_lengths(variable: Variable) -> None:
        """Refuses arrays that are longer than the profile's. Raises Refused then."""
        for leaf in c_types.leaves(variable.type):
            if leaf.count > MOST_ELEMENTS:
                raise Refused(
                    variable.coord,
                    f"{variable.name} has {leaf.count} elements",
                    f"the profile takes {MOST_ELEMENTS} at most",
                )

    def declared(self, variable: Variable) -> None:
        """Writes a local's declaration without values; pointers are null, so that their use is seen."""
        if self.writer.columns.in_column(variable):
            return
        region = self.writer.columns.home(variable)
        for leaf in c_types.leaves(variable.type):
            if self.writer.columns.is_apart(region, leaf.path):
                continue
            length = f"[{leaf.count}]" if leaf.dims else ""
            null = none_of(leaf)
            value = "" if null == "0" else f" = {{{', '.join([null] * leaf.count)}}}" if leaf.dims else f" = {null}"
            self.writer.declare(f"{leaf.kind.text} {self.writer.spelling.leaf(variable, leaf.path)}{length}{value};")
