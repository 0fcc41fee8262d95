"""What each name of the units stands for: scopes as C has them (6.2.1)."""

import copy
from collections import ChainMap
from typing import Optional, Union


from fshell_tools.adapt.common import c_types, tree
from fshell_tools.adapt.common.c_types import Array, Int, Other, Struct, Type
from fshell_tools.adapt.common.objects import Function, Home, Meaning, Variable
from fshell_tools.adapt.common.parsing import printed
from fshell_tools.adapt.common.refusals import Refusals, Refused
from fshell_tools.adapt.common.unit import Unit
from fshell_tools.adapt.names.constants import Constants, is_offset
from fshell_tools.adapt.names.declarators import Declarators
from fshell_tools.adapt.read.preprocessing import is_system


Key = Union[str, tuple[str, str]]  # what links declarations: a name, and of static ones the file


class Names:
    """Reads the units, and ties each name to what it stands for: `meaning` has what names, declarations and calls stand for, `types`
    what types' names give. `pool` is how many slots a call of malloc has, and how many elements where their number isn't constant.
    """

    def __init__(self, refusals: Refusals, pool: tuple[int, int]) -> None:
        self.refusals = refusals
        self.heads: dict[c_types.Signature, tree.FuncDecl] = {}  # the declarators of function types that have names
        self.linked: dict[Key, Union[Variable, Function]] = {}
        self.meaning: dict[tree.Node, Optional[Meaning]] = {}
        self.types: dict[tree.Node, Type] = {}
        self.functions: list[Function] = []
        self.variables: list[Variable] = []
        self.enumerators: dict[str, Optional[tree.Coord]] = {}
        self.constants, self.declarators = Constants(self), Declarators(self)
        self.function: Optional[Function] = None
        self.structs: list[Struct] = []
        self.named_members: set[str] = set()
        self.initialised: list[Type] = []  # types of objects that have lists of first values
        self.pool = pool
        self.scope: ChainMap[str, Meaning] = ChainMap()
        self.tags: ChainMap[str, Union[Struct, Int]] = ChainMap()
        self.items: list[tuple[Unit, tree.Node]] = []
        self.current: Optional[Unit] = None  # the one that is read

    def unit(self, unit: Unit) -> None:
        """Reads one source; what is refused in an item is gathered."""
        self.scope, self.tags, self.current = ChainMap(), ChainMap(), unit
        for item in unit.tree.ext:
            self.refusals.go(item.coord)
            with self.refusals.gathered():
                self.item(item)
            self.items.append((unit, item))

    # ---- declarations

    def item(self, item: tree.Node) -> None:
        """A declaration or a definition of the file or of a block."""
        if isinstance(item, tree.Typedef):
            self.typedef(item)
        elif isinstance(item, tree.Decl):
            self.declaration(item)
        elif isinstance(item, tree.FuncDef):
            self.definition(item)

    def typedef(self, node: tree.Typedef) -> None:
        """The name of a type; the library's own of known widths are kept as they are."""
        fixed = c_types.FIXED.get(node.name) if is_system(node.where.file) else None
        self.scope[node.name] = made = fixed or self.declarators.usable(node.type)
        head = node.type if isinstance(node.type, tree.FuncDecl) else self.head_named(node.type)
        if isinstance(made, c_types.Signature) and head is not None:
            self.heads[made] = head

    def head_named(self, node: tree.TypeNode) -> Optional[tree.FuncDecl]:
        """The declarator of the function type that a name stands for, if it does."""
        word = node.type if isinstance(node, tree.TypeDecl) else None
        found = self.scope.get(word.names[-1]) if isinstance(word, tree.IdentifierType) else None
        return self.heads.get(found) if isinstance(found, c_types.Signature) else None

    def declaration(self, node: tree.Decl) -> None:
        """A declaration of a type alone, of a function, or of an object."""
        if isinstance(node.type, (tree.Struct, tree.Enum, tree.Union)) and node.name is None:
            self.declarators.type_of(node.type)
        elif isinstance(node.type, tree.FuncDecl):
            self.meaning[node] = self.declared_function(node)
        elif (head := self.head_named(node.type)) is not None:  # (6.7.6.3p1, 6.9.1p2)
            node.type = copy.deepcopy(head)
            tree.rename(node, node.name or "")
            self.meaning[node] = self.declared_function(node)
        else:
            self.meaning[node] = self.variable(node)

    def key(self, node: tree.Decl, static: bool) -> Key:
        """What links declarations of the file: the name, and of static ones the file, which for a header is its own."""
        name = node.name or ""
        return (name, node.where.file) if static else name

    def variable(self, node: tree.Decl) -> Variable:
        """The object that a declaration declares, which may be known already (6.2.2). Raises Refused for static ones
        that differ from source to source."""
        of = self.declarators.usable(node.type)
        if isinstance(of, Array) and of.length is None and node.init is not None:
            self.initialiser(node.init)
            of = Array(of.of, self.constants.length_of(node.init, of.of))
        local = self.function is not None and "extern" not in node.storage
        name = node.name or ""
        before = self.scope.get(name)
        if self.function is not None and not local and isinstance(before, Variable) and before.home != "file":
            raise Refused(
                node.coord,
                f"{node.name} is declared with extern where another object of its name stands",
                "give one of them another name",
            )
        static = "static" in node.storage
        home: Home = "static" if local and static else "local" if local else "file"
        old = self.scope.maps[-1].get(name) if home == "file" else None
        key = self.key(node, static or (isinstance(old, Variable) and (name, node.where.file) in self.linked))
        linked = self.linked.get(key)
        if home == "file" and isinstance(linked, Variable):
            made = linked
            if static and made.unit is not self.current and not made.const:
                raise Refused(
                    node.coord,
                    f"{node.name} is another object in each source",
                    "define it in one source, or make it const",
                )
            if isinstance(made.type, Array) and made.type.length is None:
                made.type = of
        else:
            const = "const" in self.quals(node.type)
            made = Variable(name, of, node.coord, home, function=self.function, const=const, unit=self.current)
            made.number = len(self.items)
            self.variables.append(made)
            if home == "file":
                self.linked[key] = made
        made.volatile = made.volatile or "volatile" in self.quals(node.type)
        made.defined = made.defined or "extern" not in node.storage or node.init is not None
        self.scope[name] = made
        if isinstance(node.init, tree.InitList):
            self.initialised.append(of)
        if node.init is not None:
            made.init = node.init
            self.initialiser(node.init)
        return made

    @staticmethod
    def quals(node: tree.TypeNode) -> list[str]:
        """The qualifiers of what an array has, or of the object itself."""
        while isinstance(node, tree.ArrayDecl):
            node = node.type
        return list(node.quals or []) if isinstance(node, (tree.TypeDecl, tree.PtrDecl)) else []

    def initialiser(self, node: tree.Expression) -> None:
        """Ties the names in a first value."""
        if isinstance(node, tree.InitList):
            for one in node.exprs or []:
                self.initialiser(one)
        elif isinstance(node, tree.NamedInitializer):
            for one in node.name:
                if isinstance(one, tree.ID):  # (a member's name, or a constant)
                    self.named_members.add(one.name)
                    self.meaning[one] = self.scope.get(one.name)
                else:
                    self.expression(one)
            self.initialiser(node.expr)
        else:
            self.expression(node)

    def declared_function(self, node: tree.Decl) -> Function:
        """The function that a declaration declares, which may be known already (6.2.2p5)."""
        assert isinstance(node.type, tree.FuncDecl)
        name, result = node.name or "", node.type.type
        old = self.scope.maps[-1].get(name)
        static = "static" in node.storage or (isinstance(old, Function) and old.static)
        key = self.key(node, static)
        made = old if isinstance(old, Function) else self.linked.get(key)
        parameters = self.parameters(node)
        if not isinstance(made, Function):
            made = Function(
                name, self.declarators.usable(result), parameters, node.coord, static=static, declaration=node
            )
            self.linked[key] = made
            self.functions.append(made)
        elif made.definition is None and (parameters or not made.parameters):
            made.parameters = parameters
        made.variadic = made.variadic or any(isinstance(one, tree.EllipsisParam) for one in node.type.params)
        self.scope.maps[-1][name] = self.scope[name] = made
        return made

    def parameters(self, node: tree.Decl) -> list[Variable]:
        """The parameters as objects; an ellipsis and void are none."""
        made = []
        for one in node.type.params if isinstance(node.type, tree.FuncDecl) else []:
            if not isinstance(one, (tree.Decl, tree.Typename)):
                continue
            of = self.declarators.usable(one.type)
            if of == c_types.VOID:
                continue
            of = c_types.Pointer(of) if isinstance(of, c_types.Signature) else of
            variable = Variable(one.name or "", of, one.coord or node.coord, "parameter")
            self.meaning[one] = variable
            made.append(variable)
        return made

    def definition(self, node: tree.FuncDef) -> None:
        """The definition of a function, with the scopes of its body."""
        self.prototyped(node)
        made = self.declared_function(node.decl)
        self.meaning[node] = made
        if made.definition is not None:
            self.same_again(made, node)
            return
        made.definition, made.coord, self.function = node, node.decl.coord, made
        made.number = len(self.items)
        made.parameters = self.parameters(node.decl)
        self.scope, self.tags = self.scope.new_child(), self.tags.new_child()
        for parameter in made.parameters:
            parameter.function = made
            self.scope[parameter.name] = parameter
        self.scope["__func__"] = Other("a string")
        self.children(node.body)
        self.scope, self.tags = self.scope.parents, self.tags.parents
        self.function = None

    @staticmethod
    def prototyped(node: tree.FuncDef) -> None:
        """Puts parameters that are declared behind the parentheses between them; without a type they are `int` (K&R)."""
        own = {one.name: one for one in node.param_decls or []}
        if node.head.args is None:
            return
        for at, one in enumerate(node.head.args.params):
            if isinstance(one, tree.ID):
                word = tree.TypeDecl(one.name, [], None, tree.IdentifierType(["int"], one.coord), one.coord)
                made = tree.Decl(one.name, [], [], [], [], word, None, None, one.coord)
                node.head.args.params[at] = own.get(one.name, made)
        node.param_decls = None

    def same_again(self, made: Function, node: tree.FuncDef) -> None:
        """A second definition must be that of a header, read anew. Raises Refused where it is another one."""
        if any(one.function is made and one.home == "static" and not one.const for one in self.variables):
            raise Refused(
                node.decl.coord, f"{made.name} has another static object in each source", "define it in one source"
            )
        first = made.definition
        if first is None or first.decl.where.file != node.decl.where.file or printed(first) != printed(node):
            raise Refused(
                node.decl.coord, f"{made.name} is defined again, or otherwise in another source", "define it once"
            )

    # ---- statements and expressions

    def statement(self, node: tree.Node) -> None:
        """Ties the names of a statement; a block has a scope of its own (6.2.1p4)."""
        self.refusals.go(node.coord)
        with self.refusals.gathered():
            if isinstance(node, tree.DeclList):
                for one in node.decls:
                    self.statement(one)
            elif isinstance(node, (tree.Decl, tree.Typedef)):
                self.item(node)
            elif isinstance(node, (tree.Compound, tree.For, tree.While, tree.DoWhile, tree.If, tree.Switch)):
                self.scope, self.tags = self.scope.new_child(), self.tags.new_child()
                self.children(node)
                self.scope, self.tags = self.scope.parents, self.tags.parents
            else:
                self.expression(node)

    def children(self, node: tree.Node) -> None:
        """Ties the names of all parts of a node."""
        for _, child in node.children():
            self.statement(child)

    def expression(self, node: tree.Node) -> None:
        """Ties the names of an expression, and gives types' names their types."""
        if isinstance(node, tree.ID):
            self.meaning[node] = meaning = self.scope.get(node.name)
            if isinstance(meaning, Function):
                meaning.taken = True
        elif isinstance(node, tree.FuncCall):
            self.call(node)
        elif isinstance(node, tree.StructRef):
            self.named_members.add(node.field.name)
            self.expression(node.name)
        elif isinstance(node, tree.ArrayRef) and isinstance(node.name, tree.Constant) and node.name.type == "string":
            of = self.constants.type_of(node.name)
            text = Variable("text", of, node.coord, "static", node.name, self.function, True, True)
            self.variables.append(text)
            self.meaning[node.name] = text
            self.expression(node.subscript)
        elif isinstance(node, tree.StatementExpr):
            self.statement(node.body)
        elif isinstance(node, tree.Typename):
            self.types[node] = self.declarators.type_of(node.type)
        elif isinstance(node, tree.InitList):
            self.initialiser(node)
        elif isinstance(node, tree.CompoundLiteral):
            self.children(node)
            self.initialised.append(self.types[node.type])
        else:
            self.children(node)

    def call(self, node: tree.FuncCall) -> None:
        """Ties a call to its function where it is called by its name."""
        if is_offset(node):
            self.expression(node.given[0])
            return
        called = self.scope.get(node.name.name) if isinstance(node.name, tree.ID) else None
        if isinstance(called, Function):
            self.meaning[node] = called
            called.calls.append((self.function, node))
        else:
            self.expression(node.name)
        for one in node.given:
            self.expression(one)
