"""Which objects pointers may meet: every assignment, argument, result and comparison brings regions together (regions.py)."""

from typing import Optional

from fshell_tools.adapt.bind.initializers import filled
from fshell_tools.adapt.bind.lvalues import arguments
from fshell_tools.adapt.common import c_types, tree
from fshell_tools.adapt.common.c_types import Array, Int, Pointer, Region, Signature, Struct, Type
from fshell_tools.adapt.common.feedback import Learned
from fshell_tools.adapt.common.objects import Function, Place, Variable
from fshell_tools.adapt.common.refusals import Refused
from fshell_tools.adapt.common.tree import with_parents
from fshell_tools.adapt.names import unions
from fshell_tools.adapt.names.scopes import Names
from fshell_tools.adapt.points_to.byte_objects import settle
from fshell_tools.adapt.points_to.call_flow import visit
from fshell_tools.adapt.points_to.heap import GIVES, Pool, heap_call, known_call
from fshell_tools.adapt.points_to.models import Model, model_of
from fshell_tools.adapt.points_to.unification import Unification


class PointsTo(Unification):
    """The regions of all objects and of the pointers' values."""

    def __init__(self, names: Names, learned: set[Learned]) -> None:
        self.names, self.constants, self.learned = names, names.constants, learned
        self.pools: dict[tree.Node, Pool] = {}
        self.parts: list[tuple[Region, Region, Optional[tree.Coord]]] = []
        self.modelled: list[tuple[tree.FuncCall, Model]] = []
        self.by_bytes: list[tuple[Region, Optional[tree.Coord]]] = []  # those in which a pointer to void moves
        super().__init__()
        self.texts: dict[tree.Node, Variable] = {}
        self.values: dict[tree.Node, Type] = {}
        self.function: Optional[Function] = None
        self.pointer_calls: list[tuple[Optional[Function], tree.FuncCall]] = []
        self.codes: dict[Function, Pointer] = {}
        for function in names.functions:
            function.own_type = None  # (parameters have got their types)
        for variable in list(names.variables):
            if variable.init is not None:
                self.first_values(variable.type, variable.init)
        for function in names.functions:
            if function.definition is not None:
                self.function = function
                for node, _ in with_parents(function.definition.body):
                    visit(self, node)
        settle(self)

    # ---- types of expressions, with their regions

    def place(self, node: tree.Expression) -> tuple[Type, Region]:
        """The type of what an expression names, and the region in which it lies. Raises Refused for what is no named
        object."""
        meaning = self.names.meaning.get(node) if isinstance(node, tree.ID) else None
        if isinstance(meaning, Variable):
            return meaning.type, self.home(meaning)
        if isinstance(node, tree.StructRef):
            of, region = self.pointee(node.name) if node.type == "->" else self.place(node.name)
            path = unions.found(of, node.field.name)
            if path is None:
                raise Refused(node.coord, f"the member {node.field.name}", "use a struct")
            for name in path:
                of, region = self.member(of, region, name, node)
            return of, region
        if isinstance(node, tree.ArrayRef):
            base, index = node.name, node.subscript
            if isinstance(self.constants.type_of(base), Int):
                base, index = index, base
            of, region = self.pointee(base)
            if not isinstance(self.constants.type_of(base), Array):
                self.moves(region, index)
            return of, region
        if isinstance(node, tree.UnaryOp) and node.op == "*":
            return self.pointee(node.expr)
        if isinstance(node, (tree.FuncCall, tree.StatementExpr)):
            of = self.constants.type_of(node)
            return of, Region(of)
        if isinstance(node, (tree.ExprList, tree.Assignment, tree.TernaryOp)):
            parts = (
                [node.iftrue]
                if isinstance(node, tree.TernaryOp)
                else [node.exprs[-1] if isinstance(node, tree.ExprList) else node.lvalue]
            )
            return self.place(parts[0])
        raise Refused(node.coord, "what is no named object", "use a variable")

    def member(self, of: Type, region: Region, name: str, node: tree.Expression) -> tuple[Type, Region]:
        """The type and the region of a member. A part of an integer can't be pointed to."""
        assert isinstance(of, Struct)
        inner = of.type_of(name)
        if region.root().raw:
            return inner, region.root()
        if of.is_parts():
            made = Region(c_types.element(inner))
            made.fault = (node.coord, "a pointer to a part of a union", "read and write it by its name")
            self.parts.append((made, region, node.coord))
            return inner, made
        own = region.member(of.path_of(name), c_types.element(inner))
        if of.union and of.carrier:
            assert own.elem is not None
            self.same_type(own.elem, inner, node.coord, own)
        return inner, own.root()

    def pointee(self, node: tree.Expression) -> tuple[Type, Region]:
        """What a pointer, or an array, leads to. Raises Refused for what is no pointer."""
        meaning = self.names.meaning.get(node) if isinstance(node, tree.ID) else None
        if isinstance(meaning, Variable) and meaning.is_bound and not isinstance(meaning.type, (Int, Struct)):
            return self.bound(meaning)
        if isinstance(node, tree.UnaryOp) and node.op == "&":
            return self.place(node.expr)
        text = self.names.meaning.get(node) if isinstance(node, tree.Constant) else None
        if isinstance(text, Variable):
            return c_types.element(text.type), self.home(text)
        if isinstance(node, (tree.ID, tree.StructRef, tree.ArrayRef, tree.UnaryOp)):
            if isinstance(self.constants.type_of(node), Array):
                of, region = self.place(node)
                return (of.of if isinstance(of, Array) else of), region
        made = self.value(node)
        if not isinstance(made, Pointer):
            raise Refused(node.coord, "what is no pointer", "use a pointer")
        if made.to != c_types.VOID and not made.region.is_code:
            made.region.root().pointed = True
        return made.to, made.region.root()

    def bound(self, meaning: Variable) -> tuple[Type, Region]:
        """What a parameter that stands for an object leads to."""
        if isinstance(meaning.binding, Place):
            of, region = meaning.binding.variable.type, self.home(meaning.binding.variable)
            for name in meaning.binding.path:
                of = c_types.member(of, name)
                region = region.member(name, c_types.element(of))
            return of, region
        return c_types.behind(meaning.type) or meaning.type, self.home(meaning)

    def value(self, node: tree.Expression) -> Type:
        """The type of a value; of a pointer with its region."""
        if node not in self.values:
            self.values[node] = self.made(node)
        return self.values[node]

    def made(self, node: tree.Expression) -> Type:
        """The type of a value by its form."""
        if isinstance(node, tree.Constant) and node.type == "string":
            return self.text(node)
        if isinstance(self.constants.type_of(node), Signature):
            return self.code(node)
        if isinstance(node, tree.UnaryOp) and node.op == "&":
            return self.address(node)
        if isinstance(node, tree.UnaryOp) and node.op in ("++", "--", "p++", "p--"):
            return self.value(node.expr)
        if isinstance(node, tree.BinaryOp) and node.op in ("+", "-"):
            return self.sum(node)
        if isinstance(node, tree.TernaryOp):
            one, other = self.value(node.iftrue), self.value(node.iffalse)
            if isinstance(one, Pointer) and isinstance(other, Pointer):
                self.unify(one.region, other.region, node.coord)
            if self.is_null(node.iftrue) and isinstance(other, Pointer):
                return other
            return one
        if isinstance(node, tree.ExprList):
            return self.value(node.exprs[-1])
        if isinstance(node, tree.StatementExpr):
            return c_types.VOID if node.last is None else self.value(node.last)
        if isinstance(node, tree.Assignment):
            return self.value(node.lvalue)
        if isinstance(node, tree.FuncCall) and self.of_heap(node) in GIVES:
            return self.allocated(node)
        model = model_of(self.names.meaning.get(node))
        if isinstance(node, tree.FuncCall) and model is not None and model.gives_pointer and arguments(node):
            return self.value(arguments(node)[0])
        if isinstance(node, tree.Cast):
            to = self.names.types.get(node.to_type, c_types.VOID)
            of = self.value(node.expr) if isinstance(to, c_types.Int) and not to.boolean else None
            if isinstance(of, Pointer):
                of.region.root().numbered = of.region.root().numbered or node.coord or tree.NOWHERE
            self.flow(node.expr, to)
            return to
        if isinstance(node, (tree.ID, tree.StructRef, tree.ArrayRef, tree.UnaryOp)):
            return self.decayed(node)
        return self.constants.type_of(node)

    def code(self, node: tree.Expression) -> Type:
        """The pointer that a function's name, or what a pointer to one leads to, is (6.3.2.1p4)."""
        meaning = self.names.meaning.get(node) if isinstance(node, tree.ID) else None
        if not isinstance(meaning, Function):
            assert isinstance(node, tree.UnaryOp)
            return self.value(node.expr)
        if meaning not in self.codes:
            self.codes[meaning] = Pointer(meaning.type)
            self.codes[meaning].region.targets.append(meaning)
        return self.codes[meaning]

    def decayed(self, node: tree.Expression) -> Type:
        """The type of what names an object; an array is a pointer to its first element."""
        of = self.constants.type_of(node)
        if isinstance(of, (Array, Pointer, Struct)):
            of, region = self.place(node)
            if isinstance(of, Array):
                region.root().pointed = True
                return Pointer(of.of, region)
        return of

    def address(self, node: tree.UnaryOp) -> Type:
        """What `&` gives (6.5.3.2p3): a pointer into the region of its operand, which is now pointed to."""
        if isinstance(self.constants.type_of(node.expr), Signature):
            return self.value(node.expr)
        of, region = self.place(node.expr)
        region.root().pointed = True
        inner = node.expr
        while isinstance(inner, tree.ArrayRef):
            self.moves(region, inner.subscript)
            inner = inner.name
        return Pointer(of, region)

    def of_heap(self, node: tree.FuncCall) -> str:
        """The function of the heap that a call calls, if it does."""
        return heap_call(self.names.meaning.get(node)) or known_call(node, self.learned)

    def allocated(self, node: tree.FuncCall) -> Type:
        """Memory that a call gives: an object of its own."""
        name = self.of_heap(node)
        variable = Variable("heap", c_types.VOID, node.coord, "pool", function=self.function, defined=True)
        self.pools[node] = Pool(node, name, variable, self.names.pool[0])
        made = Pointer(c_types.VOID)
        made.region.objects.append(variable)
        made.region.pointed = True
        if name == "realloc":
            self.flow(arguments(node)[0], made)
            made.region.root().freed = True
        return made

    def text(self, node: tree.Constant) -> Type:
        """A string is an object of its own."""
        if node not in self.texts:
            of = self.constants.type_of(node)
            made = Variable("text", of, node.coord, "text", node, self.function, True, True)
            self.texts[node] = made
        made = self.texts[node]
        region = self.home(made)
        region.pointed = True
        return Pointer(c_types.element(made.type), region)

    def sum(self, node: tree.BinaryOp) -> Type:
        """The type of a sum or a difference, by which a pointer moves (6.5.6p8)."""
        left, right = self.value(node.left), self.value(node.right)
        for one in (left, right):
            self.moves_by_bytes(one, node.coord)
        if isinstance(left, Pointer) and isinstance(right, Pointer):
            self.unify(left.region, right.region, node.coord)
            return c_types.LONG
        if isinstance(right, Pointer):
            self.moves(right.region, node.left)
            return right
        if isinstance(left, Pointer):
            self.moves(left.region, node.right, node.op == "-")
            return left
        return self.constants.type_of(node)

    def moves(self, region: Region, index: tree.Expression, back: bool = False) -> None:
        """A pointer into a region is moved by so many elements."""
        known, of = self.constants.value(index), self.constants.type_of(index)
        root = region.root()
        if known is None:
            root.moved, root.down = True, root.down or back or not isinstance(of, Int) or of.signed
        elif known:
            root.moved, root.down = True, root.down or (known < 0) != back

    def moves_by_bytes(self, of: Type, at: Optional[tree.Coord]) -> None:
        """A pointer to void moves by bytes (gcc's manual, Pointer Arith)."""
        if isinstance(of, Pointer) and of.to == c_types.VOID:
            self.by_bytes.append((of.region, at))

    def is_null(self, node: tree.Expression) -> bool:
        """Whether an expression is a null pointer constant (6.3.2.3p3)."""
        while isinstance(node, tree.Cast):
            node = node.expr
        return self.constants.value(node) == 0

    # ---- what brings regions together

    def flow(self, node: tree.Expression, to: Type) -> None:
        """A value becomes one of a type."""
        if isinstance(node, tree.InitList):
            self.first_values(to, node)
            return
        of = self.value(node)
        if isinstance(to, Pointer) and not self.is_null(node):
            if isinstance(of, Pointer):
                if isinstance(of.to, Signature) != isinstance(to.to, Signature):
                    self.fault(to.region, of.to, to.to, node.coord)
                self.unify(to.region, of.region, node.coord)
            else:
                root = to.region.root()
                root.fault = root.fault or (node.coord, "a pointer that is made of an integer", "name the object")
        elif isinstance(to, Struct) and isinstance(of, Struct):
            self.same_type(to, of, node.coord, Region())

    def first_values(self, of: Type, init: tree.Expression) -> None:
        """First values flow into an object of a type."""
        try:
            made = filled(self.constants, of, init)
        except Refused:
            return  # (told where it is written)
        for (path, _), node in made.given.items():
            part = c_types.element(of)
            for name in path:
                part = c_types.element(c_types.member(part, name))
            self.tried(node, part)
        for _, whole, node in made.wholes:
            self.tried(node, whole)

    def tried(self, node: tree.Expression, to: Type) -> None:
        """A value becomes one of a type; what is refused in it is told where it is written."""
        try:
            self.flow(node, to)
        except Refused:
            pass  # (told where it is written)
