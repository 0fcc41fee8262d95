"""How parameters that are pointers are written. One stands for an object, where it is only dereferenced, compared with null or
handed on: it is "lent" where it is indexed or handed an array, and becomes a whole array; else it is bound to the one object
of the file that each call hands over, or, where there are several, it is a "copy", in and out. Each other one is a "pointer",
an index into a column."""

from typing import Optional

from fshell_tools.adapt.bind.lvalues import Places, arguments
from fshell_tools.adapt.common import c_types, tree
from fshell_tools.adapt.common.c_types import VOID, Array, Pointer, Signature, Type
from fshell_tools.adapt.common.feedback import ApartParameter, Learned
from fshell_tools.adapt.common.objects import Function, Place, Variable
from fshell_tools.adapt.common.refusals import Refused
from fshell_tools.adapt.common.tree import walk, with_parents

SOMEWHERE = Variable("", VOID, None, "local")  # an object of which no more is known
MOST_LENT = 1024
CONDITIONS = (tree.If, tree.While, tree.DoWhile, tree.For, tree.TernaryOp)


def key(parameter: Variable) -> ApartParameter:
    """What names a parameter over several readings of the sources."""
    return ApartParameter(parameter.where, parameter.name)


class Bindings:
    """Binds the parameters of all functions; those in `apart` are pointers in any case. `of` has the function and the
    number of each."""

    def __init__(self, places: Places, apart: set[Learned]) -> None:
        self.places, self.names, self.apart = places, places.names, apart
        self.types: dict[Variable, Type] = {}
        self.of: dict[Variable, tuple[Function, int]] = {}
        for function in self.names.functions:
            for at, one in enumerate(function.parameters):
                if isinstance(one.type, Pointer) and isinstance(one.type.to, Signature):
                    one.binding = "pointer"
                elif isinstance(one.type, (Pointer, Array)):
                    self.types[one], self.of[one] = one.type, (function, at)

    def bind(self) -> None:
        """Binds each parameter that stands for an object, and leaves the others."""
        standing = {one for one in self.types if self.of[one][0].definition is not None and key(one) not in self.apart}
        standing = {one for one in standing if not self.of[one][0].taken}
        uses = {
            function: list(with_parents(function.definition))
            for function in self.names.functions
            if function.definition
        }
        while True:
            before = len(standing)
            standing = {one for one in standing if self.is_plain(one, standing, uses) and self.is_given(one, standing)}
            if before == len(standing):
                failed = self.bound_all(standing)
                if not failed:
                    break
                standing -= failed

    def bound_all(self, standing: set[Variable]) -> set[Variable]:
        """Binds these; those for which it can't be done."""
        for one, of in self.types.items():
            pointer = isinstance(of, Array) and one not in standing
            one.type, one.binding = of, None if one in standing else "pointer"
            if pointer and isinstance(of, Array):
                one.type = Pointer(of.of)
        waiting = list(standing)
        failed: set[Variable] = set()
        lent = self.lent(standing)
        while waiting and not failed:
            left = []
            for one in waiting:
                try:
                    if not self.bound(one, lent):
                        left.append(one)
                except Refused:
                    failed.add(one)
            if len(left) == len(waiting):
                if left[0] in lent or self.is_void(left[0]):
                    failed.add(left[0])
                else:
                    left.pop(0).binding = "copy"
            waiting = left
        return failed

    # ---- uses

    def is_plain(
        self,
        one: Variable,
        standing: set[Variable],
        uses: dict[Function, list[tuple[tree.Node, tuple[tree.Node, ...]]]],
    ) -> bool:
        """Whether a parameter is only dereferenced, compared with null, or handed on as such a one."""
        function = self.of[one][0]
        return all(
            self.plain_use(node, parents, standing)
            for node, parents in uses[function]
            if isinstance(node, tree.ID) and self.names.meaning.get(node) is one
        )

    def plain_use(self, node: tree.ID, parents: tuple[tree.Node, ...], standing: set[Variable]) -> bool:
        """Whether one use of a parameter is among those that let it stand for an object; a test for null only where
        calls hand objects over."""
        up, function = parents[-1], self.names.meaning.get(parents[0])
        called = isinstance(function, Function) and bool(function.calls)
        if self.argument(node, parents) is not None:
            return self.argument(node, parents) in standing
        if isinstance(up, tree.UnaryOp):
            if up.op in ("!", "sizeof"):
                return called or up.op == "sizeof"
            return up.op == "*" and self.plain_path(parents, standing)
        if isinstance(up, CONDITIONS):
            return up.cond is node and called
        if isinstance(up, tree.BinaryOp):
            other = up.right if up.left is node else up.left
            if up.op in ("&&", "||") or (up.op in ("==", "!=") and self.is_null(other)):
                return called
            above = parents[-2]
            plus = up.op == "+" and up.left is node and isinstance(above, tree.UnaryOp) and above.op == "*"
            return plus and self.plain_path(parents[:-1], standing)
        if isinstance(up, tree.StructRef):
            return up.type == "->" and self.plain_path(parents, standing)
        return isinstance(up, tree.ArrayRef) and up.name is node and self.plain_path(parents, standing)

    def plain_path(self, parents: tuple[tree.Node, ...], standing: set[Variable]) -> bool:
        """Whether the address of what a path of members and elements names stays with parameters of this kind."""
        node, parents = parents[-1], parents[:-1]
        up = parents[-1]
        array = isinstance(node, tree.Expression) and isinstance(self.names.constants.type_of(node), Array)
        if isinstance(up, tree.StructRef) and up.name is node and up.type == ".":
            return self.plain_path(parents, standing)
        if array and isinstance(up, tree.ArrayRef) and up.name is node:
            return self.plain_path(parents, standing)
        if array and isinstance(up, tree.UnaryOp) and up.op == "*":
            return self.plain_path(parents, standing)
        if isinstance(up, tree.UnaryOp) and up.op == "&":
            return self.argument(up, parents[:-1]) in standing
        if array:
            return self.argument(node, parents) in standing or (isinstance(up, tree.UnaryOp) and up.op == "sizeof")
        return True

    def argument(self, node: tree.Node, parents: tuple[tree.Node, ...]) -> Optional[Variable]:
        """The parameter to which an expression is handed, where it is an argument of a call of a function that is known."""
        if len(parents) < 2 or not isinstance(parents[-1], tree.ExprList) or not isinstance(parents[-2], tree.FuncCall):
            return None
        called = self.names.meaning.get(parents[-2])
        at = next(number for number, one in enumerate(parents[-1].exprs) if one is node)
        known = isinstance(called, Function) and called.definition is not None and at < len(called.parameters)
        return called.parameters[at] if known and isinstance(called, Function) else SOMEWHERE

    def is_null(self, node: tree.Expression) -> bool:
        """Whether an expression is a null pointer constant (6.3.2.3p3)."""
        while isinstance(node, tree.Cast):
            node = node.expr
        return self.names.constants.value(node) == 0

    # ---- arguments

    def is_given(self, one: Variable, standing: set[Variable]) -> bool:
        """Whether each call hands over an object, by its name or its address, or such a parameter."""
        function, at = self.of[one]
        given = [arguments(call)[at] for _, call in function.calls if at < len(arguments(call))]
        return all(self.is_object(node, standing) for node in given)

    def is_object(self, node: tree.Expression, standing: set[Variable]) -> bool:
        """Whether an argument is the address of a named object, an array by its name, or a parameter that stands for
        an object."""
        if isinstance(node, tree.UnaryOp) and node.op == "&":
            return isinstance(node.expr, (tree.ID, tree.StructRef, tree.ArrayRef))
        meaning = self.names.meaning.get(node) if isinstance(node, tree.ID) else None
        if isinstance(meaning, Variable) and meaning in self.types:
            return meaning in standing
        named = isinstance(node, (tree.ID, tree.StructRef, tree.ArrayRef))
        return named and isinstance(self.names.constants.type_of(node), Array)

    def lent(self, parameters: set[Variable]) -> set[Variable]:
        """The parameters that are arrays: declared so, indexed, or handed on as one."""
        found = {p for p in parameters if isinstance(p.type, Array)}
        for function in self.names.functions:
            for node in walk(function.definition) if function.definition is not None else []:
                plus = node.expr if isinstance(node, tree.UnaryOp) and node.op == "*" else None
                base = node.name if isinstance(node, tree.ArrayRef) else None
                base = plus.left if isinstance(plus, tree.BinaryOp) else base
                meaning = self.names.meaning.get(base) if base is not None else None
                if isinstance(meaning, Variable) and meaning in parameters:
                    constant = isinstance(node, tree.ArrayRef) and self.names.constants.value(node.subscript) == 0
                    found |= set() if constant else {meaning}
        handed = [
            (self.names.meaning.get(argument), parameter)
            for function in self.names.functions
            for _, call in function.calls
            for argument, parameter in zip(arguments(call), function.parameters)
        ]
        before = -1
        while before != len(found):
            before = len(found)
            found.update(
                given for given, one in handed if one in found and isinstance(given, Variable) and given in parameters
            )
        return found

    def bound(self, parameter: Variable, lent: set[Variable]) -> bool:
        """Binds a parameter where all that its calls hand over is known. Raises Refused where it can't stand for an object."""
        function, at = self.of[parameter]
        targets = []
        for _, call in function.calls:
            given = arguments(call)[at] if at < len(arguments(call)) else None
            if given is None or self.names.meaning.get(given) is parameter:
                continue
            within = [self.names.meaning.get(one) for one in walk(given)]
            handed_on = [one.binding for one in within if isinstance(one, Variable) and one in self.types]
            if None in handed_on:
                return False
            targets.append(self.target(given, parameter in lent))
            if targets[-1].view is not None:
                raise Refused(given.coord, "a part of a union is handed over", "hand over the union")
        if parameter in lent:
            return self.bound_array(parameter, targets, bool(function.calls))
        one = targets[0] if targets else None
        same = one and all((t.variable, t.path) == (one.variable, one.path) and not t.indexes for t in targets)
        known = one and one.variable.home == "file" and one.variable.number < function.number
        if not (same and known) and self.is_void(parameter):
            raise Refused(parameter.coord, "an object whose type isn't known", "use a pointer to its type")
        parameter.binding = one if same and known else "copy"
        return True

    @staticmethod
    def is_void(parameter: Variable) -> bool:
        """Whether a parameter is a pointer to void, so that no integers go in and out in its place."""
        return c_types.behind(parameter.type) == VOID

    def target(self, given: tree.Expression, lent: bool) -> Place:
        """What an argument hands over; what a pointer points to is an object of its own here."""
        try:
            return self.places.whole_array(given) if lent else self.places.handed(given)
        except Refused:
            if lent:
                raise
            return Place(SOMEWHERE, (), (), SOMEWHERE.type)

    def bound_array(self, parameter: Variable, targets: list[Place], called: bool) -> bool:
        """Lends a parameter whole arrays of one length; whether that length is known. Raises Refused where lengths
        differ, or are large."""
        lengths = {t.type.length for t in targets if isinstance(t.type, Array)}
        if not called and isinstance(parameter.type, Array) and parameter.type.length:
            lengths = {parameter.type.length}
        if any((length or 0) > MOST_LENT for length in lengths):
            raise Refused(parameter.coord, "an array that is large", "hand over a smaller one")
        if len(lengths) != 1 or not all(isinstance(t.type, Array) for t in targets):
            if len(targets) > 1 or not called:
                raise Refused(parameter.coord, "no array of one length", "hand over whole arrays of one length")
            return False
        of = c_types.behind(parameter.type)
        assert of is not None
        parameter.type, parameter.binding = Array(of, lengths.pop()), "lent"
        return True
