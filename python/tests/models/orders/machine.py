"""Runs a program by one order: statements one after the other, and the steps of a full expression as a chooser says."""

from typing import Any

from pycparser import c_ast

from tests.models.orders.expressions import Expressions
from tests.models.orders.parts import DEPTH, TURNS, Cell, Chooser, Env, Jump, Part, Stop, has_call
from tests.models.orders.values import INT, Value, binary, fit, kind_of, number, promoted


View = tuple[tuple[int, ...], ...]  # the values of all variables of the file, by their names' order


class Machine(Expressions):
    """A unit whose functions are run, one order of evaluation at a time."""

    def __init__(self, unit: Any, chooser: Chooser) -> None:
        super().__init__(chooser)
        self.views: list[tuple[str, View]] = []
        for item in unit.ext:
            if isinstance(item, c_ast.FuncDef):
                self.functions[item.decl.name] = item
            elif isinstance(item, c_ast.Decl) and isinstance(item.type, c_ast.FuncDecl):
                self.inputs[item.name] = kind_of(item.type)
            elif isinstance(item, c_ast.Decl) and item.name:
                self.declare(item, self.globals, [])

    def run(self, entry: str, args: list[int], answers: list[int]) -> tuple[str, Value | None, View, int]:
        """How a run ends, its value, the globals at its end and how many answers it took."""
        self.answers, self.taken, self.turns, self.depth, self.views = answers, 0, 0, 0, []
        for _, cell in sorted(self.globals.items()):
            cell.values = list(cell.first)
        value: Value | None
        try:
            value = self.call(entry, [*args])
            end = "returned"
        except Stop as stop:
            end, value = stop.args[0], None
        return end, value, self.view(), self.taken

    def view(self) -> View:
        """The values of all globals, by their names' order."""
        return tuple(tuple(cell.values) for _, cell in sorted(self.globals.items()))

    def declare(self, item: Any, scope: dict[str, Cell], env: Env) -> None:
        """Puts a variable with its first values into a scope."""
        array = isinstance(item.type, c_ast.ArrayDecl)
        length = number(item.type.dim.value) if array else 0
        cell = scope[item.name] = Cell(kind_of(item.type), length)
        if isinstance(item.init, c_ast.InitList):
            parts = [self.part(one, env) for one in item.init.exprs]
            late = self.choose.flip() if env else False  # the elements may be set as their values come, or behind all
            root = Part("list", item, parts)
            root.store = None if late else (cell, parts)
            self.finish(root)
            for at, one in enumerate(parts if late else ()):
                cell.values[at] = fit(one.value[0], cell.kind)
        elif item.init:
            cell.values[0] = fit(self.full(item.init, env)[0], cell.kind)
        cell.first = list(cell.values)

    # calls and statements

    def call(self, name: str, args: list[int | Cell]) -> Value:
        """What a call of a function gives, by numbers, and cells for arrays. Raises Stop at the 65th activation."""
        if self.depth >= DEPTH:
            raise Stop("deep")
        self.turn()
        self.depth += 1
        self.views.append((name, self.view()))
        node = self.functions[name]
        scope: dict[str, Cell] = {}
        for one, value in zip(node.decl.type.args.params if node.decl.type.args else (), args):
            if isinstance(one, c_ast.Decl):
                scope[one.name] = (
                    value if isinstance(value, Cell) else Cell(kind_of(one.type), 0, [fit(value, kind_of(one.type))])
                )
        result, of = 0, kind_of(node.decl.type)
        try:
            for item in node.body.block_items or ():
                self.statement(item, [self.globals, scope])
        except Jump as jump:
            result = fit(jump.args[1] or 0, of)
        self.depth -= 1
        self.views.append((name, self.view()))
        return result, of

    def turn(self) -> None:
        """Takes a turn. Raises Stop past the last one."""
        self.turns += 1
        if self.turns > TURNS:
            raise Stop("endless")

    def statement(self, node: Any, env: Env) -> None:
        """Runs a statement. Raises Jump where control leaves it, and Stop where the run ends."""
        name = type(node).__name__
        if name == "Compound":
            env = env + [{}]
            for item in node.block_items or ():
                self.statement(item, env)
        elif name == "Decl":
            self.declare(node, env[-1], env)
        elif name == "DeclList":
            for one in node.decls:
                self.statement(one, env)
        elif name == "If":
            chosen = node.iftrue if self.full(node.cond, env)[0] else node.iffalse
            if chosen:
                self.statement(chosen, env + [{}])
        elif name in ("While", "DoWhile", "For"):
            self.loop(node, env + [{}], name)
        elif name == "Return":
            raise Jump("return", self.full(node.expr, env)[0] if node.expr else None)
        elif name in ("Break", "Continue"):
            raise Jump(name, None)
        elif name == "Switch":
            self.switch(node, env + [{}])
        elif name != "EmptyStatement":
            self.effect(node, env)

    def loop(self, node: Any, env: Env, name: str) -> None:
        """Runs a loop. A return within it comes out as a Jump."""
        if name == "For" and node.init:
            self.statement(node.init, env)
        first = name == "DoWhile"
        while first or not node.cond or self.full(node.cond, env)[0]:
            first = False
            self.turn()
            try:
                self.statement(node.stmt, env + [{}])
            except Jump as jump:
                if jump.args[0] == "return":
                    raise
                if jump.args[0] == "Break":
                    break
            if name == "For" and node.next:
                self.effect(node.next, env)

    def switch(self, node: Any, env: Env) -> None:
        """Runs a switch; what is no break of its own comes out as a Jump."""
        value, of = self.full(node.cond, env)
        groups = node.stmt.block_items or []
        fits = [
            at
            for at, one in enumerate(groups)
            if isinstance(one, c_ast.Case) and fit(self.full(one.expr, env)[0], promoted(of)) == value
        ]
        fits += [at for at, one in enumerate(groups) if isinstance(one, c_ast.Default)]
        try:
            for group in groups[fits[0] :] if fits else ():
                for one in group.stmts or ():
                    self.statement(one, env)
        except Jump as jump:
            if jump.args[0] != "Break":
                raise

    def effect(self, node: Any, env: Env) -> None:
        """Runs an assignment, a step, a call, an assert or an assume. Raises Stop where the run ends."""
        if isinstance(node, c_ast.FuncCall) and node.name.name in ("assert", "assume"):
            if not self.full(node.args.exprs[0], env)[0]:
                raise Stop("trap" if node.name.name == "assert" else "blocked")
        elif isinstance(node, c_ast.Assignment) or (
            isinstance(node, c_ast.UnaryOp) and node.op.strip("p") in ("++", "--")
        ):
            plain = isinstance(node, c_ast.Assignment)
            target, op = (node.lvalue, node.op[:-1]) if plain else (node.expr, node.op.strip("p")[0])
            if not has_call(node):
                cell = self.find(target.name if isinstance(target, c_ast.ID) else target.name.name, env)
                at = 0 if isinstance(target, c_ast.ID) else self.direct(target.subscript, env)[0]
                if not 0 <= at < (cell.length or 1):
                    raise Stop("trap")
                right_value = self.direct(node.rvalue, env) if plain else (1, INT)
                value = binary(op, (cell.values[at], cell.kind), right_value) if op else right_value
                if value is None:
                    raise Stop("trap")
                cell.values[at] = fit(value[0], cell.kind)
                return
            place = self.target(target, env, op != "")
            right = self.part(node.rvalue, env) if plain else Part("pure", c_ast.Constant("int", "1"), [])
            root = Part("pure", node, [place, right])
            root.whole = (op, place.cell.kind)
            self.finish(root)
            place.cell.values[place.index] = fit(root.value[0], place.cell.kind)
        else:
            self.full(node, env)
