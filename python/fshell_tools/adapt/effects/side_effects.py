"""What expressions and calls read and write, and where C leaves an order open in which that matters (6.5p2, 6.5.2.2p10)."""

from dataclasses import dataclass, field
from typing import Optional

from fshell_tools.adapt.bind.lvalues import Places, arguments
from fshell_tools.adapt.common import tree
from fshell_tools.adapt.common.c_types import Array, Int, Pointer, Struct, Type, leaves
from fshell_tools.adapt.common.objects import Function, Place, Variable
from fshell_tools.adapt.common.parsing import printed
from fshell_tools.adapt.common.refusals import Refused
from fshell_tools.adapt.effects.undefined_functions import changed
from fshell_tools.adapt.layout.choosers import Choosers
from fshell_tools.adapt.layout.regions import Columns
from fshell_tools.adapt.names.constants import is_offset
from fshell_tools.adapt.points_to.models import Model, model_of

STEPS = ("++", "--", "p++", "p--")
# a variable with the members that lead to one of its integers, and whether that is an element of an array
Object = tuple[Optional[Variable], tuple[str, ...], bool]
OUTSIDE: Object = (None, (), False)


@dataclass
class Effects:
    """The objects that are read and written, each with whether a called function does it; `elements` are those of arrays that an
    expression itself names, each with how, and whether it is written."""

    reads: dict[Object, bool] = field(default_factory=dict)
    writes: dict[Object, bool] = field(default_factory=dict)
    elements: list[tuple[Object, tree.Node, bool]] = field(default_factory=list)

    def add(self, other: "Effects", called: bool = False) -> None:
        """Adds what another one has, as done by a call with `called`."""
        for ours, theirs in ((self.reads, other.reads), (self.writes, other.writes)):
            for one, by_call in theirs.items():
                ours[one] = ours.get(one, False) or by_call or called
        self.elements += other.elements

    def clash(self, other: "Effects") -> Optional[Object]:
        """An object for which the order of both matters. Elements that plain expressions name otherwise are different ones, or C
        gives the whole no meaning."""
        for one, node, written in self.elements:
            for two, named, too in other.elements:
                if (written or too) and one == two and alike(node, named):
                    return one
        for a, b in ((self, other), (other, self)):
            for one, by_call in a.writes.items():
                for theirs in (b.reads, b.writes):
                    if one in theirs and (by_call or theirs[one] or not one[2]):
                        return one
                    if any(may_be(one, two) and (by_call or too) for two, too in theirs.items()):
                        return one
        return None


def may_be(one: Object, two: Object) -> bool:
    """Whether arrays may be the same although their names differ: a parameter may stand for any that outlives its call."""
    pair = [each[0] for each in (one, two) if each[2] and each[0] and each[0].home != "local"]
    return len(pair) == 2 and pair[0] is not pair[1] and "parameter" in (pair[0].home, pair[1].home)


def alike(one: tree.Node, other: tree.Node) -> bool:
    """Whether two expressions without effects are the same, so that they name one object."""
    if isinstance(one, (tree.ID, tree.Constant)):
        return isinstance(other, type(one)) and printed(one) == printed(other)
    if not isinstance(one, (tree.StructRef, tree.ArrayRef, tree.UnaryOp, tree.BinaryOp)) or type(one) is not type(
        other
    ):
        return False
    pairs = list(zip(one.parts(), other.parts()))
    return sign(one) == sign(other) and sign(one) not in STEPS and all(alike(mine, theirs) for mine, theirs in pairs)


def opened(node: tree.Node) -> list[tree.Node]:
    """The nodes of a value between whose side effects and what uses the value C has no sequence point: none within a call, whose
    arguments come before it (6.5.2.2p10), and none before a comma, `&&`, `||` or `?` (6.5.13p4, 6.5.15p4, 6.5.17p2)."""
    found, rest = list[tree.Node](), [node]
    while rest:
        one = rest.pop()
        found.append(one)
        if isinstance(one, (tree.FuncCall, tree.StatementExpr)):
            continue
        parts = list(one.parts())
        ordered = isinstance(one, (tree.ExprList, tree.TernaryOp)) or sign(one) in ("&&", "||")
        rest += parts[-1:] if ordered and not isinstance(one, tree.TernaryOp) else parts[1:] if ordered else parts
    return found


def sign(node: tree.Node) -> str:
    """The operator of an expression."""
    if isinstance(node, (tree.UnaryOp, tree.BinaryOp)):
        return node.op
    return node.type if isinstance(node, tree.StructRef) else ""


def objects(place: Place) -> list[Object]:
    """The integers of a place as objects; bytes are one."""
    region = place.region.root() if place.region is not None else None
    if region is not None and region.raw and place.variable is region.column:
        return [(place.variable, (), True)]
    inner = bool(place.indexes) or place.variable.home == "column"
    if place.view is not None:
        return [(place.variable, place.path, inner)]
    found = [(where(place, leaf.path), leaf) for leaf in leaves(place.type)]
    return [(*at, inner or bool(leaf.dims) or at[0].home == "column") for at, leaf in found]


def where(place: Place, path: tuple[str, ...]) -> tuple[Variable, tuple[str, ...]]:
    """The variable in which a member of a place lies, and the members that lead to it there: some have columns of their own."""
    variable, inside, region = place.variable, place.path, place.region
    for name in path:
        region = region.root().members.get(name) if region is not None else None
        column = region.root().column if region is not None else None
        variable, inside = (variable, (*inside, name)) if column is None else (column, ())
    return variable, inside


def in_pairs(place: Place, parameter: Variable) -> list[tuple[Object, Object]]:
    """The integers of an object that is handed over, each with the parameter's that stands for it."""
    own, theirs = objects(place), objects(Place(parameter, (), (), pointee(parameter)))
    return list(zip(own if len(own) > 1 else own * len(theirs), theirs))


class Effected:
    """The effects of all functions, and of expressions."""

    def __init__(self, places: Places, columns: Columns, choosers: Choosers, inputs: set[str]) -> None:
        self.names, self.places, self.columns, self.choosers, self.inputs = (
            places.names,
            places,
            columns,
            choosers,
            inputs,
        )
        names = self.names
        self.of_function: dict[Function, Effects] = {function: Effects() for function in names.functions}
        self.kept: dict[tree.Node, Effects] = {}
        self.asked: set[Function] = set()
        self.settle([function for function in names.functions if function.definition is not None])

    def settle(self, defined: list[Function]) -> None:
        """The effects of all functions: each is looked at again where one that it calls has others than when it was looked at."""
        seen: dict[Function, dict[Function, Effects]] = {}
        kept: dict[Function, dict[tree.Node, Effects]] = {}
        changed = True
        while changed:
            changed = False
            for function in defined:
                before = seen.get(function)
                if before is not None and all(self.of_function[one] is effects for one, effects in before.items()):
                    continue
                self.asked = set()
                made = self.summary(function)
                seen[function] = {one: self.of_function[one] for one in self.asked}
                kept[function], self.kept = self.kept, {}
                if made != self.of_function[function]:
                    changed = True
                    self.of_function[function] = made
        self.kept = {node: effects for own in kept.values() for node, effects in own.items()}

    def summary(self, function: Function) -> Effects:
        """The effects of a call on what outlives it: shared objects, and what its parameters stand for."""
        assert function.definition is not None
        whole, made = self.of(function.definition.body), Effects()
        for ours, theirs in ((made.reads, whole.reads), (made.writes, whole.writes)):
            for one, _ in theirs.items():
                if one[0] is None or one[0].shared or (one[0].home == "parameter" and self.outlives(one)):
                    if not self.is_own(one, function):
                        ours[one] = True
        return made

    def summary_of(self, function: Function) -> Effects:
        """The effects of a call; of a function that chooses, those of all that it may call."""
        targets = self.choosers.targets(function)
        self.asked.update([function] if targets is None else targets)
        if targets is None:
            return self.of_function[function]
        made = Effects()
        for one in targets:
            if one.definition is None:
                made.writes[OUTSIDE] = True
            own: dict[Optional[Variable], Variable] = dict(zip(one.parameters, function.parameters))
            for ours, theirs in zip((made.reads, made.writes), self.parts(self.of_function[one])):
                ours.update({(own.get(variable, variable), path, inner): True for variable, path, inner in theirs})
        return made

    @staticmethod
    def parts(effects: Effects) -> tuple[dict[Object, bool], dict[Object, bool]]:
        """What is read, and what is written."""
        return effects.reads, effects.writes

    def is_own(self, one: Object, function: Function) -> bool:
        """Whether a column has objects of this function alone, which end with its call."""
        region = self.columns.of_column.get(one[0]) if one[0] and one[0].home == "column" else None
        if region is None or self.columns.inner.get(region):
            return False  # (members of other objects lie in it too)
        objects_of = region.objects
        return bool(objects_of) and all(v.function is function and v.home in ("local", "parameter") for v in objects_of)

    @staticmethod
    def outlives(one: Object) -> bool:
        """Whether what a parameter stands for is there behind the call."""
        of = one[0].type if one[0] else None
        if one[0] is not None and not one[0].is_bound:
            return False
        return isinstance(of, (Pointer, Array)) or (isinstance(of, Struct) and one[2])

    def of(self, node: tree.Node) -> Effects:
        """The effects of an expression or a statement."""
        if node not in self.kept:
            self.kept[node] = self.made(node)
        return self.kept[node]

    def made(self, node: tree.Node) -> Effects:
        """The effects of a node, from those of its parts."""
        found = Effects()
        if isinstance(node, tree.UnaryOp) and node.op == "sizeof" or is_offset(node):
            return found
        if isinstance(node, tree.Assignment):
            self.named(node.lvalue, found, True, node.op != "=")
            found.add(self.of(node.rvalue))
        elif isinstance(node, tree.UnaryOp) and node.op in STEPS:
            self.named(node.expr, found, True, True)
        elif isinstance(node, tree.FuncCall):
            self.called(node, found)
        elif isinstance(node, (tree.ID, tree.StructRef, tree.ArrayRef)) or (
            isinstance(node, tree.UnaryOp) and node.op == "*"
        ):
            self.named(node, found, False, True)
        else:
            for child in node.parts():
                found.add(self.of(child))
            found.elements = found.elements if isinstance(node, tree.Expression) else []
            init = node.init if isinstance(node, tree.Decl) else None
            variable = self.names.meaning.get(node) if init is not None else None
            if isinstance(variable, Variable) and variable.home == "local":
                found.add(Effects({}, {one: False for one in objects(Place(variable, (), (), variable.type))}))
        return found

    def named(self, node: tree.Expression, found: Effects, written: bool, read: bool) -> None:
        """Adds those of naming an object, with its indexes; of what is no named object those of its parts."""
        try:
            place = self.places.place(node)
        except Refused:
            for child in node.parts():
                found.add(self.of(child))
            return
        for index, _ in place.indexes:
            found.add(self.of(index))
        for index, _ in place.inside:
            found.add(self.of(index))
        if place.view is not None and place.view.index is not None:
            found.add(self.of(place.view.index))
        if place.variable.is_input:
            found.writes[OUTSIDE] = True
        found.elements += [
            (one, node, written) for one in objects(place) if one[2] and isinstance(place.type, (Int, Pointer))
        ]
        if read:
            found.add(Effects({one: False for one in objects(place)}))
        if written:
            found.add(Effects({}, {one: False for one in objects(place)}))

    def called(self, node: tree.FuncCall, found: Effects) -> None:
        """Adds those of a call: of its arguments, and what the function may read and write (6.5.2.2p10)."""
        function = self.choosers.called(node)
        model = model_of(function)
        if not isinstance(function, Function) or function.definition is None:
            for argument in arguments(node):
                found.add(self.of(argument))
            if model is not None:
                self.modelled(node, model, found)
                return
            if not isinstance(function, Function) or function.name not in ("assert", "assume"):
                found.writes[OUTSIDE] = True
            for place in changed(self.places, node, function, self.inputs):
                found.add(Effects({}, {one: True for one in objects(place)}))
            return
        if self.choosers.targets(function) is not None:
            found.add(self.of(node.name))
        summary = self.summary_of(function)
        reads, writes = [
            {one: True for one in part if one[0] is None or one[0].shared} for part in (summary.reads, summary.writes)
        ]
        shared = Effects(reads, writes)
        found.add(shared)
        for argument, parameter in zip(arguments(node), function.parameters):
            if isinstance(parameter.type, Int) or parameter.binding == "pointer":
                found.add(self.of(argument))
            elif not isinstance(parameter.binding, Place):
                self.handed(argument, parameter, summary, found)

    def modelled(self, node: tree.FuncCall, model: Model, found: Effects) -> None:
        """What a library's function reads and writes: the objects of its pointers, the first written where it isn't const."""
        for argument, parameter in zip(arguments(node), model.parameters):
            if "*" not in parameter:
                continue
            try:
                region = self.columns.pointer(argument).region.root()
            except Refused:
                continue
            if region.column is None or region.fault:
                continue
            at = [self.columns.leaf_at(region, leaf.path) for leaf in leaves(region.type)]
            whole: dict[Object, bool] = {(variable, path, True): True for variable, path, _, _ in at}
            found.add(Effects(whole, {} if "const" in parameter else whole))

    def handed(self, argument: tree.Expression, parameter: Variable, summary: Effects, found: Effects) -> None:
        """What a call does to the object that an argument hands over."""
        try:
            place = self.target(argument, parameter)
        except Refused:
            found.add(self.of(argument))
            return
        for index, _ in place.indexes:
            found.add(self.of(index))
        for mine, theirs in in_pairs(place, parameter):
            lent = isinstance(parameter.type, Array)
            if not lent or theirs in summary.reads:
                found.reads[mine] = found.reads.get(mine, False) or not isinstance(parameter.type, Struct)
            if theirs in summary.writes and not isinstance(parameter.type, Struct):
                found.writes[mine] = True

    def target(self, argument: tree.Expression, parameter: Variable) -> Place:
        """The object that an argument stands for."""
        if isinstance(parameter.type, Pointer):
            return self.places.handed(argument)
        return self.places.place(argument)


def pointee(parameter: Variable) -> Type:
    """The type of what a parameter stands for."""
    return parameter.type.to if isinstance(parameter.type, Pointer) and parameter.is_bound else parameter.type
