"""Which pointers may still have the address of a local when its function ends (6.2.4p2): the address flows through assignments,
arguments and results (inclusion, as Andersen has it; a pointer object is told by the region in which it lies). Where only objects of
the file or of the heap have it then, they become -1 at the end of the function, which ends a run that uses them; else it is refused."""

from collections.abc import Iterator
from dataclasses import dataclass
from functools import cached_property
from typing import Optional, Union

from fshell_tools.adapt.bind.initializers import filled
from fshell_tools.adapt.bind.lvalues import arguments
from fshell_tools.adapt.common import c_types, tree
from fshell_tools.adapt.common.c_types import INDEX, Array, Pointer, Region, Struct, Type
from fshell_tools.adapt.common.objects import Function, Variable
from fshell_tools.adapt.common.refusals import Refused
from fshell_tools.adapt.common.tree import walk, with_parents
from fshell_tools.adapt.layout.regions import Columns
from fshell_tools.adapt.names.scopes import Names
from fshell_tools.adapt.points_to.models import model_of


@dataclass(frozen=True)
class Inside:
    """The pointers in a region."""

    region: Region


@dataclass(frozen=True)
class Result:
    """What a function gives; of a struct the pointer to which members lead."""

    function: Function
    path: tuple[str, ...]


@dataclass(frozen=True)
class Local:
    """A local, whose address is taken."""

    variable: Variable


Node = Union[Inside, Result, Local]


def pointer_paths(of: Type) -> list[tuple[str, ...]]:
    """The members that lead to pointers in an object of a type."""
    return [leaf.path[:-1] for leaf in c_types.leaves(c_types.element(of)) if leaf.path and leaf.path[-1] == INDEX]


def inner_region(region: Region, of: Type, path: tuple[str, ...]) -> tuple[Type, Region]:
    """The type and the region of what members lead to."""
    of = c_types.element(of)
    for name in path:
        of = c_types.element(c_types.member(of, name))
        region = region.root().member(name, of)
    return of, region.root()


class Lifetimes:
    """The flow of addresses. `ended` has for each function its locals with the regions whose pointers become -1 behind it."""

    def __init__(self, names: Names, columns: Columns) -> None:
        self.names, self.columns, self.points = names, columns, columns.points
        self.flows: list[tuple[list[Node], Node, Optional[tree.Coord]]] = []
        self.function: Optional[Function] = None
        self.ended: dict[Function, list[tuple[Variable, Region]]] = {}
        locals_of = [one for one in names.variables if one.home == "local"]
        locals_of += [one for function in names.functions for one in function.parameters]
        kept = [one for one in locals_of if not one.is_bound and one.function and self.columns.in_column(one)]
        kept = [one for one in kept if one.function and one.function.calls]
        if kept:
            self.gather()
            self.solve()
            self.owned = self.owners()
            for one in kept:
                self.check(one)

    # ---- what flows

    def gather(self) -> None:
        """Gathers all flows of the sources."""
        for variable in self.names.variables:
            if isinstance(variable.init, tree.InitList):
                self.listed(variable)
        for function in self.names.functions:
            self.function = function
            for node, _ in with_parents(function.definition.body) if function.definition is not None else []:
                try:
                    self.visit(node)
                except Refused:
                    pass  # (told where it is written)

    def visit(self, node: tree.Node) -> None:
        """Gathers those of one node."""
        if isinstance(node, tree.Decl) and node.init is not None and not isinstance(node.init, tree.InitList):
            variable = self.names.meaning.get(node)
            if isinstance(variable, Variable):
                self.put(variable.type, self.points.home(variable), node.init, node.coord)
        elif isinstance(node, tree.Assignment) and node.op == "=":
            of, region = self.points.place(node.lvalue)
            self.put(of, region, node.rvalue, node.coord)
        elif isinstance(node, tree.Return) and node.expr is not None and self.function is not None:
            of = self.function.result
            for path in pointer_paths(of):
                found = self.sources(node.expr) if isinstance(of, Pointer) else self.of_member(node.expr, path)
                self.flows.append((found, Result(self.function, path), node.coord))
        elif isinstance(node, tree.FuncCall):
            self.called(node)

    def put(self, of: Type, region: Region, source: tree.Expression, at: Optional[tree.Coord]) -> None:
        """A value goes into an object of a type that lies in a region."""
        for path in pointer_paths(of) if isinstance(of, (Pointer, Struct)) else []:
            found = self.sources(source) if isinstance(of, Pointer) else self.of_member(source, path)
            self.flows.append((found, Inside(inner_region(region, of, path)[1]), at))

    def listed(self, variable: Variable) -> None:
        """Gathers those of a list of first values."""
        try:
            made = filled(self.names.constants, variable.type, variable.init)
        except Refused:
            return
        parts = [*made.given.items(), *((spot, source) for spot, _, source in made.wholes)]
        for (path, _), source in parts:
            of, region = inner_region(self.points.home(variable), variable.type, path)
            self.put(of, region, source, variable.coord)

    def called(self, node: tree.FuncCall) -> None:
        """Gathers those of a call: from arguments to parameters."""
        model = model_of(self.names.meaning.get(node))
        given = arguments(node)
        if model is not None and len(given) > 1:
            regions = [of.region for of in map(self.points.value, given[:2]) if isinstance(of, Pointer)]
            if len(regions) == 2:
                self.same(regions[0], regions[0].root().type, regions[1], node.coord)
        for function in self.targets(node):
            for argument, one in zip(given, function.parameters):
                if one.is_bound and not isinstance(one.type, (c_types.Int, Struct)):
                    of, region = self.points.bound(one)
                    self.same(region, of, self.points.pointee(argument)[1], node.coord)
                else:
                    self.put(one.type, self.points.home(one), argument, node.coord)

    def same(self, one: Region, of: Type, other: Region, at: Optional[tree.Coord]) -> None:
        """Pointers in two objects may be each other's."""
        for path in pointer_paths(of) if one.root() is not other.root() else []:
            nodes: list[Node] = [Inside(inner_region(region, of, path)[1]) for region in (one, other)]
            self.flows += [(nodes[:1], nodes[1], at), (nodes[1:], nodes[0], at)]

    def targets(self, node: tree.FuncCall) -> list[Function]:
        """The functions that a call may call."""
        known = self.names.meaning.get(node)
        if isinstance(known, Function):
            return [known] if known.definition is not None else []
        of = self.points.value(node.name)
        targets = of.region.root().targets if isinstance(of, Pointer) else []
        return [one for one in targets if one.definition is not None]

    # ---- where values come from

    def sources(self, node: tree.Expression) -> list[Node]:
        """Where a pointer's value comes from."""
        if isinstance(node, tree.Cast):
            return self.sources(node.expr)
        if isinstance(node, tree.TernaryOp):
            return self.sources(node.iftrue) + self.sources(node.iffalse)
        if isinstance(node, tree.ExprList):
            return self.sources(node.exprs[-1])
        if isinstance(node, tree.StatementExpr):
            return self.sources(node.last) if node.last is not None else []
        if isinstance(node, tree.Assignment):
            return self.sources(node.lvalue)
        if isinstance(node, tree.BinaryOp):
            return self.sources(node.left) + self.sources(node.right) if node.op in "+-" else []
        if isinstance(node, tree.UnaryOp) and node.op == "&":
            return self.base(node.expr)
        if isinstance(node, tree.UnaryOp) and node.op != "*":
            return self.sources(node.expr) if node.op in ("++", "--", "p++", "p--") else []
        if isinstance(node, tree.FuncCall):
            return self.given(node)
        if isinstance(node, (tree.ID, tree.StructRef, tree.ArrayRef, tree.UnaryOp)):
            of = self.names.constants.type_of(node)
            if isinstance(of, Array):
                return self.base(node)
            return [Inside(self.points.place(node)[1].root())] if isinstance(of, Pointer) else []
        return []

    def given(self, node: tree.FuncCall) -> list[Node]:
        """What a call gives; a function of the library that gives a pointer gives its first argument's."""
        model = model_of(self.names.meaning.get(node))
        if model is not None:
            return self.sources(arguments(node)[0]) if model.gives_pointer and arguments(node) else []
        return [Result(one, ()) for one in self.targets(node)]

    def base(self, node: tree.Expression) -> list[Node]:
        """The object in which something lies."""
        if isinstance(node, tree.ID):
            meaning = self.names.meaning.get(node)
            if isinstance(meaning, Variable) and meaning.home in ("local", "parameter") and not meaning.is_bound:
                return [Local(meaning)]
            return []
        if isinstance(node, tree.StructRef):
            return self.base(node.name) if node.type == "." else self.sources(node.name)
        if isinstance(node, tree.ArrayRef):
            is_array = isinstance(self.names.constants.type_of(node.name), Array)
            return self.base(node.name) if is_array else self.sources(node.name) + self.sources(node.subscript)
        return self.sources(node.expr) if isinstance(node, tree.UnaryOp) and node.op == "*" else []

    def of_member(self, node: tree.Expression, path: tuple[str, ...]) -> list[Node]:
        """Where a pointer in a struct's value comes from."""
        if isinstance(node, tree.TernaryOp):
            return self.of_member(node.iftrue, path) + self.of_member(node.iffalse, path)
        if isinstance(node, tree.ExprList):
            return self.of_member(node.exprs[-1], path)
        if isinstance(node, tree.StatementExpr):
            return self.of_member(node.last, path) if node.last is not None else []
        if isinstance(node, tree.Assignment):
            return self.of_member(node.lvalue, path)
        if isinstance(node, tree.FuncCall):
            return [Result(one, path) for one in self.targets(node)]
        if isinstance(node, tree.CompoundLiteral):
            of = self.names.types.get(node.type, c_types.VOID)
            made = filled(self.names.constants, of, node.init)
            found = [one for (own, _), source in made.given.items() if own == path for one in self.sources(source)]
            wholes = [(own, source) for (own, _), _, source in made.wholes if path[: len(own)] == own]
            return found + [one for own, source in wholes for one in self.of_member(source, path[len(own) :])]
        of, region = self.points.place(node)
        return [Inside(inner_region(region, of, path)[1])]

    # ---- what has which

    def solve(self) -> None:
        """The locals whose address each node may have."""
        self.has: dict[Node, set[Variable]] = {}
        self.behind: dict[Node, list[Node]] = {}
        rest: list[Node] = []
        for sources, target, _ in self.flows:
            for one in sources:
                if isinstance(one, Local):
                    self.has.setdefault(target, set()).add(one.variable)
                    rest.append(target)
                else:
                    self.behind.setdefault(one, []).append(target)
        while rest:
            here = rest.pop()
            for target in self.behind.get(here, []):
                own = self.has.setdefault(target, set())
                if not self.has[here] <= own:
                    own |= self.has[here]
                    rest.append(target)

    def owners(self) -> dict[Region, list[Variable]]:
        """The variables that have pointers in a region."""
        found: dict[Region, list[Variable]] = {}
        for variable, region in list(self.points.homes.items()):
            if variable.home != "column":
                for one in self.within(region.root(), set()):
                    found.setdefault(one, []).append(variable)
        return found

    def within(self, region: Region, seen: set[Region]) -> Iterator[Region]:
        """The pointers that lie in an object."""
        if region not in seen:
            seen.add(region)
            yield region
            for inner in region.members.values():
                yield from self.within(inner.root(), seen)

    def check(self, local: Variable) -> None:
        """What may have the address of a local behind its function."""
        assert local.function is not None
        nodes = [node for node, has in self.has.items() if local in has]
        for node in [one for one in nodes if isinstance(one, Result) and one.function is local.function]:
            cause = f"the address of the local {local.name} as a result"
            self.names.refusals.add(self.place(local, node), cause, "make it static")
            return
        for inside in [one for one in nodes if isinstance(one, Inside)]:
            outliving = [one for one in self.owned.get(inside.region, []) if self.outlives(one, local.function)]
            if any(one.home in ("local", "parameter") for one in outliving):
                self.refuse(local, inside)
            elif outliving:
                self.ended.setdefault(local.function, []).append((local, inside.region))

    def outlives(self, holder: Variable, function: Optional[Function]) -> bool:
        """Whether a pointer is there when a function has ended, which may have set it."""
        if holder.home in ("local", "parameter"):
            apart = holder.function is not None and holder.function is not function and not self.is_its_own(holder)
            return apart and holder.function is not None and self.calls(holder.function, function)
        return holder.home != "text" and not holder.const

    def is_its_own(self, holder: Variable) -> bool:
        """Whether a pointer is one that only its own function sets, since nothing takes its address."""
        if not isinstance(holder.type, Pointer) or holder.is_bound:
            return False
        return holder not in self.addressed

    @cached_property
    def addressed(self) -> set[Variable]:
        """The objects of whose whole the address is taken."""
        bodies = [one.definition.body for one in self.names.functions if one.definition is not None]
        nodes = [node for body in bodies for node in walk(body) if isinstance(node, tree.UnaryOp) and node.op == "&"]
        found = [self.names.meaning.get(node.expr) for node in nodes if isinstance(node.expr, tree.ID)]
        return {one for one in found if isinstance(one, Variable)}

    def calls(self, one: Function, other: Optional[Function]) -> bool:
        """Whether a function may call another one, in the end."""
        seen, rest = {other}, [other] if other is not None else []
        while rest:
            for caller, _ in rest.pop().calls:
                if caller is one:
                    return True
                if caller is not None and caller not in seen:
                    seen.add(caller)
                    rest.append(caller)
        return False

    def refuse(self, local: Variable, node: Node) -> None:
        """Tells that the address of a local stays behind."""
        function = local.function.name if local.function else ""
        cause = f"the address of the local {local.name} may be kept where it outlives {function}"
        self.names.refusals.add(self.place(local, node), cause, "make it static")

    def place(self, local: Variable, node: Node) -> Optional[tree.Coord]:
        """Where an address is taken that gets into what has it too long."""
        for sources, target, at in self.flows:
            if Local(local) in sources and self.leads(target, node):
                return at
        return local.coord

    def leads(self, one: Node, other: Node) -> bool:
        """Whether a local's address may reach a pointer."""
        seen, rest = {one}, [one]
        while rest and other not in seen:
            for target in self.behind.get(rest.pop(), []):
                if target not in seen:
                    seen.add(target)
                    rest.append(target)
        return other in seen
