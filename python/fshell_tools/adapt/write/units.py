"""Writes the items of the units: constants, variables, functions, each into the file that it stands in."""

from typing import TYPE_CHECKING

from fshell_tools.adapt.bind.initializers import Part, filled, none_of
from fshell_tools.adapt.common import c_types, tree
from fshell_tools.adapt.common.c_types import Int, Pointer, Struct
from fshell_tools.adapt.common.objects import Enumerator, Function, Place, Variable
from fshell_tools.adapt.common.output import FELL, File, unmarked
from fshell_tools.adapt.common.refusals import Refused
from fshell_tools.adapt.common.tree import walk
from fshell_tools.adapt.effects.side_effects import pointee
from fshell_tools.adapt.points_to.heap import heap_call
from fshell_tools.adapt.points_to.models import model_of
from fshell_tools.adapt.read.preprocessing import is_system
from fshell_tools.adapt.write.calls import MOST_ELEMENTS
from fshell_tools.adapt.write.chooser_texts import written
from fshell_tools.adapt.write.component import Component
from fshell_tools.adapt.write.first_uses import first_uses, is_outer

if TYPE_CHECKING:
    from fshell_tools.adapt.write.writer import Writer


class Units(Component):
    """Writes all units. `done` are the items that were written, and `uses` the first functions that name objects."""

    def __init__(self, writer: "Writer") -> None:
        super().__init__(writer)
        self.done: set[object] = set()
        self.uses = first_uses(writer)

    def write(self) -> dict[str, File]:
        """Writes all items; the files, by what they are made from."""
        self.writer.column_items.write_columns()
        for number, (unit, item) in enumerate(self.writer.names.items):
            source = str(item.coord.file) if item.coord else unit.path
            if is_system(source):
                continue
            self.writer.file = self.writer.files.setdefault(source, File(source))
            self.writer.original, self.writer.closings = source, unit.closings
            self.writer.go(item)
            self.writer.names.refusals.go(item.coord)
            with self.writer.names.refusals.gathered():
                self.item(item, number)
        front, end = written(self.writer)
        gives = [f"{text} {name}(void);" for (_, text), name in self.writer.outer_values.items()]
        outer = [
            *gives,
            *(self.heading(one) + ";" for one in self.writer.names.functions if is_outer(self.writer, one)),
        ]
        models = [text for _, text in self.writer.models.written_models.values()]
        own = [*self.writer.levels.front(), *self.writer.heap.front(), *self.writer.raw.front()]
        made = [(self.writer.begin[1], text) for text in [*outer, *own, *front, *models]]
        if end:
            last = self.writer.files.setdefault(
                self.writer.names.items[-1][0].path, File(self.writer.names.items[-1][0].path)
            )
            last.pieces += [(last.pieces[-1][0] if last.pieces else 1, text) for text in end]
        if made:
            file = self.writer.files.setdefault(self.writer.begin[0], File(self.writer.begin[0]))
            file.pieces[self.writer.begin[2] : self.writer.begin[2]] = made
        for file in self.writer.files.values():
            file.pieces = [(line, self.writer.large.rewritten(text)) for line, text in file.pieces]
        return self.writer.files

    def once(self, key: object) -> bool:
        """Whether an item comes for the first time."""
        new = key not in self.done
        self.done.add(key)
        return new

    def item(self, item: tree.Node, number: int) -> None:
        """One item of a unit: a declaration or a function. Raises Refused for an object that no source defines."""
        self.enumerations(item.decl if isinstance(item, tree.FuncDef) else item)
        meaning = self.writer.names.meaning.get(item)
        if isinstance(item, tree.FuncDef) and isinstance(meaning, Function):
            if meaning.definition is item:
                self.whole_function(meaning, item)
        elif isinstance(meaning, Function) and isinstance(item, tree.Decl):
            self.prototype(meaning, item)
        elif isinstance(meaning, Variable):
            early = self.uses.get(meaning, len(self.writer.names.items) + 1) < self.defined_at(meaning)
            if meaning.defined and (early or self.defined_at(meaning) == number) and self.once(meaning):
                self.variable(meaning, False, self.defined_at(meaning) == number)
            elif meaning.is_input and not self.writer.columns.in_column(meaning):
                if meaning in self.uses and self.once(meaning):
                    self.writer.registers.append(meaning)
                    assert isinstance(meaning.type, Int)
                    self.writer.emit(f"{meaning.type.text} {meaning.out}(void);")
            elif not meaning.defined and meaning in self.uses and self.once(meaning):
                self.check_type(meaning)
                raise Refused(item.coord, f"no source defines {meaning.name}", "give the source that defines it")

    def defined_at(self, variable: Variable) -> int:
        """The number of the item that defines a variable; of several the first."""
        for number, (_, item) in enumerate(self.writer.names.items):
            is_it = isinstance(item, tree.Decl) and self.writer.names.meaning.get(item) is variable
            if isinstance(item, tree.Decl) and is_it and ("extern" not in item.storage or item.init is not None):
                return number
        return -1

    def enumerations(self, item: tree.Node) -> None:
        """Writes the enums of an item whose constants keep their names."""
        for node in walk(item):
            if isinstance(node, tree.Enum) and node.values is not None and self.once(node.coord):
                listed = [(self.writer.at(one), self.writer.names.meaning.get(one)) for one in node.values.enumerators]
                known = [(at, one) for at, one in listed if isinstance(one, Enumerator)]
                texts = [f"{at}{one.name} = {one.value}" for at, one in known if one.out == one.name]
                if texts:
                    self.writer.emit(f"enum {{ {', '.join(texts)} }};")

    # ---- variables

    @staticmethod
    def check_type(variable: Variable) -> None:
        """Raises Refused for a type that can't be written."""
        fault = c_types.fault_of(variable.type)
        if fault:
            raise Refused(variable.coord, f"{variable.name}: {fault[0]}", fault[1])

    def variable(self, variable: Variable, static: bool = False, here: bool = False) -> None:
        """Writes an object of the file with its first values, on their lines where they stand here. Raises Refused
        for a struct as the first value of a part."""
        if self.writer.columns.in_column(variable):
            return
        self.check_type(variable)
        made = filled(self.writer.constants, variable.type, variable.init)
        for _, _, source in made.wholes:
            raise Refused(source.coord, "a struct as the first value of a part", "give its members one by one")
        words = ("static " if static or variable.name and self.is_static(variable) else "") + (
            "const " if variable.const else ""
        )
        leaves = list(c_types.leaves(variable.type))
        for leaf in leaves:
            if self.writer.columns.is_apart(self.writer.columns.home(variable), leaf.path):
                continue
            name = self.writer.spelling.leaf(variable, leaf.path)
            if leaf.count > MOST_ELEMENTS:
                values = made.texts(leaf, lambda one: self.writer.column_items.first_number(one, leaf.kind))
                self.writer.emit(
                    self.writer.large.declared(name, leaf.kind, leaf.count, values, variable.const, variable.coord)
                )
                continue
            texts = made.texts(leaf, lambda one: self.first(one, leaf.kind, here and len(leaves) == 1))
            whole = f"{{{', '.join(texts)}}}" if leaf.dims else texts[0]
            value = "" if variable.init is None and none_of(leaf) == "0" else f" = {whole}"
            self.writer.emit(f"{words}{leaf.kind.text} {name}{f'[{leaf.count}]' if leaf.dims else ''}{value};")

    def is_static(self, variable: Variable) -> bool:
        """Whether an object of the file is one of its source alone (6.2.2p3)."""
        return variable.home == "static" or (variable.name, variable.where.file) in self.writer.names.linked

    def first(self, node: tree.Expression, kind: Int, marked: bool) -> str:
        """A first value of an object of the file, which is a constant. Raises Refused for one that isn't."""
        if isinstance(node, Part):
            return self.writer.column_items.first_number(node, kind)
        known = self.writer.constants.value(node)
        if known is None:
            raise Refused(node.coord, "a first value that is no constant", "give a number")
        if kind.boolean or kind.width:
            return str(c_types.fit(known, kind))
        text = self.writer.expressions.value(node).text
        return text if marked else unmarked(text)

    # ---- functions

    def parameters(self, function: Function) -> str:
        """The parameters as they are written: integers, arrays, pointers' integers, and structs' integers one by one.
        Raises Refused for other types."""
        texts = []
        for number, one in enumerate(function.parameters, 1):
            if not one.name:
                one.name = one.out = self.writer.spelling.fresh("unused")
            if isinstance(one.type, Int):
                texts.append(f"{one.type.text} {self.writer.spelling.leaf(one, ())}")
                continue
            if isinstance(one.binding, Place):
                continue
            fault = c_types.UNION if c_types.is_mixed(pointee(one)) else c_types.fault_of(pointee(one))
            if fault:
                raise Refused(
                    one.coord,
                    f"{one.name} of {function.name}: {fault[0]}",
                    fault[1],
                )
            if not isinstance(one.type, Pointer):
                self.writer.calls.check_lengths(one)
            for leaf in c_types.leaves(pointee(one)):
                texts.append(
                    f"{leaf.kind.text} {self.writer.spelling.leaf(one, leaf.path)}{f'[{leaf.count}]' if leaf.dims else ''}"
                )
        return ", ".join(texts) or "void"

    def heading(self, function: Function) -> str:
        """The head of a function. Raises Refused for a result that isn't written, and for any number of arguments."""
        result = function.result
        if function.variadic and function.definition is not None:
            raise Refused(
                function.coord, f"{function.name} takes any number of arguments", "give it a fixed number of parameters"
            )
        fault = c_types.fault_of(result) if isinstance(result, Pointer) else None
        fault = c_types.UNION if c_types.is_mixed(result) else fault
        if not isinstance(result, (Int, Struct, Pointer)) and result != c_types.VOID or fault:
            cause, advice = fault or c_types.fault_of(result) or ("what is no integer", "")
            raise Refused(function.coord, f"{function.name} gives {cause}", advice)
        static = "static " if function.static and function.definition is not None else ""
        index = isinstance(result, Pointer) and bool(function.calls)
        text = result.text if isinstance(result, Int) else "int" if index else "void"
        listed = "void" if function.definition is None else self.parameters(function)
        return f"{static}{text} {function.out}({listed})"

    def before(self, function: Function) -> None:
        """Writes what a function hands back, and its own static objects, before its first declaration."""
        if not self.once((function, "before")) or function.definition is None:
            return
        if isinstance(function.result, Pointer):
            for part in function.result.region.parts()[1 if function.calls else 0 :]:
                self.writer.emit(f"static int {self.writer.pointers.result_part(function, part)};")
        if isinstance(function.result, Struct):
            self.variable(self.writer.spelling.special(function, "result", function.result, self.writer.special), True)
        for parameter in dict.fromkeys(parameter for parameter, _ in self.writer.order.outs(function)):
            own = self.writer.spelling.special(function, parameter.name, pointee(parameter), self.writer.special)
            backs = [leaf for one, leaf in self.writer.order.outs(function) if one is parameter]
            for leaf in backs:
                self.writer.emit(f"static {leaf.kind.text} {self.writer.spelling.leaf(own, leaf.path)};")

    def prototype(self, function: Function, item: tree.Decl) -> None:
        """Writes a declaration of a function that is called."""
        wanted = function.calls and (function.definition is not None or isinstance(function.result, Int))
        wanted = wanted and not (model_of(function) or heap_call(function))
        if (
            function.name in ("assert", "assume")
            or not wanted
            or not self.once((item.where.file, item.where.line, item.name))
        ):
            return
        if function.definition is None and not self.once((function, "declared")):
            return
        self.before(function)
        self.writer.emit(self.heading(function) + ";")

    def declared_within(self, function: Function, body: tree.Compound) -> None:
        """Writes before a function what blocks of it declare: functions, and objects of the file that are defined later."""
        for node in walk(body):
            if not isinstance(node, tree.Decl):
                continue
            meaning = self.writer.names.meaning.get(node)
            with self.writer.names.refusals.gathered():
                if isinstance(meaning, Function) and (meaning.definition is None or meaning.number > function.number):
                    self.prototype(meaning, node)
                elif isinstance(meaning, Variable) and meaning.home == "file":
                    self.outer(meaning, node, function.number)

    def outer(self, variable: Variable, node: tree.Node, number: int) -> None:
        """Writes an object that a block declares with extern, where it is defined behind the item of this number.
        Raises Refused where no source defines it."""
        if not variable.defined and variable in self.uses:
            self.check_type(variable)
            raise Refused(node.coord, f"no source defines {variable.name}", "give the source that defines it")
        if variable.defined and self.defined_at(variable) > number and self.once(variable):
            self.variable(variable)

    def whole_function(self, function: Function, node: tree.FuncDef) -> None:
        """Writes a function, with what stands before it."""
        self.writer.function = function
        self.writer.ranges.learn(node.body)
        self.declared_within(function, node.body)
        with self.writer.names.refusals.gathered():
            self.before(function)
        for variable in self.writer.names.variables:
            if variable.home == "static" and variable.function is function:
                with self.writer.names.refusals.gathered():
                    self.variable(variable, True)
        with self.writer.names.refusals.gathered():
            self.writer.checks.check_names(function)
        with self.writer.names.refusals.gathered():
            self.writer.emit(self.heading(function) + " {")
        self.writer.levels.begin(function)
        self.normal(function)
        self.writer.heap.begin(function)
        self.writer.column_items.into_columns(function)
        items = node.body.block_items or []
        for one in items:
            self.writer.statements.statement(one)
        self.writer.statements.go_to_end(node.body)
        if self.writer.statements.hands_back() and not (items and isinstance(items[-1], tree.Return)):
            self.writer.statements.hand_back()
        self.writer.emit("}" if function.result == c_types.VOID else FELL + "}")
        self.writer.function = None

    def normal(self, function: Function) -> None:
        """Writes that parameters of type bool are 0 or 1, where the function may be an entry: it has no arrays."""
        given = [
            (one, leaf)
            for one in function.parameters
            if not isinstance(one.binding, Place)
            for leaf in c_types.leaves(pointee(one))
        ]
        for one, leaf in given if not any(leaf.dims for _, leaf in given) else []:
            if leaf.kind.boolean:
                name = self.writer.spelling.leaf(one, leaf.path)
                self.writer.emit(f"{name} = {name} != 0;")
