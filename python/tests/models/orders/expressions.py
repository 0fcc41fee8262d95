"""Full expressions, step by step: a step is a read of a variable of the file or of an element, a trap, or a whole call."""

from typing import Any

from pycparser import c_ast

from tests.models.orders.parts import Cell, Chooser, Env, Part, Stop, has_call
from tests.models.orders.values import INT, Kind, Value, binary, common, fit, kind, kind_of, number, promoted


class Expressions:
    """What a machine does with expressions; a chooser picks one of the parts that are ready."""

    def __init__(self, chooser: Chooser) -> None:
        self.choose = chooser
        self.functions: dict[str, Any] = {}
        self.inputs: dict[str, Kind] = {}
        self.globals: dict[str, Cell] = {}
        self.answers: list[int] = []
        self.taken, self.turns, self.depth = 0, 0, 0

    def call(self, name: str, args: list[int | Cell]) -> Value:
        """What a call of a function gives. A machine runs it; here it raises NotImplementedError."""
        raise NotImplementedError(name)

    def full(self, node: Any, env: Env) -> Value:
        """The value of a full expression with its kind. Raises Stop where a trap ends the run."""
        if not has_call(node):  # nothing is done, so its order can't be told
            return self.direct(node, env)
        root = self.part(node, env)
        self.finish(root)
        return root.value

    def direct(self, node: Any, env: Env) -> Value:
        """The value of an expression without calls, whose order nothing can tell. Raises Stop at a trap."""
        if isinstance(node, c_ast.ID):
            cell = self.find(node.name, env)
            return cell.values[0], cell.kind
        if isinstance(node, c_ast.ArrayRef):
            cell, at = self.find(node.name.name, env), self.direct(node.subscript, env)[0]
            if not 0 <= at < cell.length:
                raise Stop("trap")
            return cell.values[at], cell.kind
        if isinstance(node, c_ast.BinaryOp) and node.op in ("&&", "||"):
            first = bool(self.direct(node.left, env)[0])
            return int(bool(self.direct(node.right, env)[0]) if first == (node.op == "&&") else first), INT
        if isinstance(node, c_ast.TernaryOp):
            chosen = node.iftrue if self.direct(node.cond, env)[0] else node.iffalse
            of = common(self.kind(node.iftrue, env), self.kind(node.iffalse, env))
            return fit(self.direct(chosen, env)[0], of), of
        needs = (
            (node.left, node.right)
            if isinstance(node, c_ast.BinaryOp)
            else ()
            if isinstance(node, c_ast.Constant)
            else (node.expr,)
        )
        value = self.pure(node, [self.direct(one, env) for one in needs], None)
        if value is None:
            raise Stop("trap")
        return value

    def finish(self, root: Part) -> None:
        """Does the parts of an expression, one after the other as the chooser says. Raises Stop at a trap."""
        self.settle(root)
        while not root.done:
            leaves: list[Part] = []
            root.ready(leaves)
            leaf = self.choose.of(root, leaves, self)
            leaf.touched = True
            if leaf.trap:
                raise Stop("trap")
            if leaf.form == "read":
                leaf.value, leaf.done = (leaf.cell.values[leaf.index], leaf.cell.kind), True
            elif leaf.form == "call":
                self.step_call(leaf)
            self.settle(root)

    def step_call(self, leaf: Part) -> None:
        """Does a call: an answer that is read, or a function's run."""
        name = leaf.node.name.name
        if name in self.inputs and name not in self.functions:
            answer = self.answers[self.taken] if self.taken < len(self.answers) else 0
            self.taken += 1
            leaf.value = fit(answer, self.inputs[name]), self.inputs[name]
        else:
            words = iter(leaf.needs)
            leaf.value = self.call(name, [one if one else next(words).value[0] for one in leaf.arguments])
        leaf.done = True

    def find(self, name: str, env: Env) -> Cell:
        """The cell of a name, the innermost scope first. Raises KeyError where there is none."""
        for scope in reversed(env):
            if name in scope:
                return scope[name]
        raise KeyError(name)

    def target(self, node: Any, env: Env, read: bool) -> Part:
        """The part that a place is, read or not."""
        if isinstance(node, c_ast.ID):
            cell = self.find(node.name, env)
            return Part("read" if read and cell in self.globals.values() else "place", node, [], cell, read)
        return Part(
            "read" if read else "place", node, [self.part(node.subscript, env)], self.find(node.name.name, env), read
        )

    def part(self, node: Any, env: Env) -> Part:
        """The part that an expression is, with those that it needs."""
        if isinstance(node, c_ast.ID):
            cell = self.find(node.name, env)
            made = Part("read" if cell in self.globals.values() else "pure", node, [], cell)
            if made.form == "pure":
                made.done, made.value = True, (cell.values[0], cell.kind)
            return made
        if isinstance(node, c_ast.ArrayRef):
            return self.target(node, env, True)
        if isinstance(node, c_ast.FuncCall):
            arguments, needs = list[Cell | None](), list[Part]()
            for one in node.args.exprs if node.args else ():
                lent = self.find(one.name, env) if isinstance(one, c_ast.ID) else None
                arguments.append(lent if lent and lent.length else None)
                if not arguments[-1]:
                    needs.append(self.part(one, env))
            whole = Part("call", node, needs)
            whole.arguments = arguments
            return whole
        if isinstance(node, c_ast.BinaryOp) and node.op in ("&&", "||"):
            return self.waiting("logic", node, node.left, env)
        if isinstance(node, c_ast.TernaryOp):
            return self.waiting("cond", node, node.cond, env)
        if isinstance(node, c_ast.BinaryOp):
            return Part("pure", node, [self.part(node.left, env), self.part(node.right, env)])
        if isinstance(node, (c_ast.UnaryOp, c_ast.Cast)):
            return Part("pure", node, [self.part(node.expr, env)])
        return Part("pure", node, [])

    def waiting(self, form: str, node: Any, first: Any, env: Env) -> Part:
        """A part whose first operand says which others it needs."""
        made = Part(form, node, [self.part(first, env)])
        made.env = env
        return made

    def settle(self, part: Part) -> None:
        """Does what has no effect and can't be told apart."""
        if part.done:
            return
        for one in part.needs:
            self.settle(one)
        if part.form == "list" and part.store:
            for at, one in enumerate(part.store[1]):
                if one.done and not one.kept:
                    part.store[0].values[at], one.kept = fit(one.value[0], part.store[0].kind), True
        if not all(one.done for one in part.needs):
            return
        node = part.node
        if part.form in ("read", "place"):
            if isinstance(node, c_ast.ArrayRef):
                part.index = part.needs[0].value[0]
                part.trap = not 0 <= part.index < part.cell.length
            if part.form == "place" and not part.trap:
                part.value, part.done = (part.cell.values[part.index], part.cell.kind), True
        elif part.form == "logic":
            first = part.needs[0].value[0]
            if len(part.needs) == 1 and bool(first) == (node.op == "&&"):
                part.needs.append(self.part(node.right, part.env))
                return self.settle(part)
            part.value, part.done = (int(bool(part.needs[-1].value[0])), INT), True
        elif part.form == "cond":
            if len(part.needs) == 1:
                part.needs.append(self.part(node.iftrue if part.needs[0].value[0] else node.iffalse, part.env))
                return self.settle(part)
            of = common(self.kind(node.iftrue, part.env), self.kind(node.iffalse, part.env))
            part.value, part.done = (fit(part.needs[1].value[0], of), of), True
        elif part.form == "list":
            part.done = True
        elif part.form == "pure":
            value = self.pure(node, [one.value for one in part.needs], part.whole)
            part.done, part.trap, part.value = value is not None, value is None, value or part.value

    def pure(self, node: Any, values: list[Value], whole: tuple[str, Kind] | None) -> Value | None:
        """The value of an operator or a conversion of values, by 6.3 and 6.5; None where it traps."""
        if whole:  # of an assignment
            op, _ = whole
            return values[1] if not op else binary(op, values[0], values[1])
        if isinstance(node, c_ast.Constant):
            return number(node.value), INT if not node.value.rstrip("lL").endswith(("u", "U")) else (32, 0)
        if isinstance(node, c_ast.BinaryOp):
            return binary(node.op, *values)
        value, of = values[0]
        if isinstance(node, c_ast.Cast):
            of = kind(node.to_type.type.type.names)
            return fit(value, of), of
        if node.op == "!":
            return int(not value), INT
        of = promoted(of)
        return fit({"-": -value, "+": value, "~": ~value}[node.op], of), of

    def kind(self, node: Any, env: Env) -> Kind:
        """The kind that an expression has, without its being done (6.5)."""
        if isinstance(node, (c_ast.ID, c_ast.ArrayRef)):
            return self.find(node.name if isinstance(node, c_ast.ID) else node.name.name, env).kind
        if isinstance(node, c_ast.FuncCall):
            made = self.functions.get(node.name.name)
            return kind_of(made.decl.type) if made else self.inputs[node.name.name]
        if isinstance(node, c_ast.Cast):
            return kind(node.to_type.type.type.names)
        if isinstance(node, c_ast.TernaryOp):
            return common(self.kind(node.iftrue, env), self.kind(node.iffalse, env))
        if isinstance(node, c_ast.BinaryOp) and node.op in ("+", "-", "*", "/", "%", "&", "|", "^"):
            return common(self.kind(node.left, env), self.kind(node.right, env))
        if isinstance(node, c_ast.BinaryOp) and node.op in ("<<", ">>"):
            return promoted(self.kind(node.left, env))
        if isinstance(node, c_ast.UnaryOp) and node.op != "!":
            return promoted(self.kind(node.expr, env))
        made = self.pure(node, [], None) if isinstance(node, c_ast.Constant) else None
        return made[1] if made else INT
