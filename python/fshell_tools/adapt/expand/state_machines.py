"""`goto` back, or into a block: what has labels is taken apart (a loop becomes tests and jumps, 6.8.5), and its parts are the cases of
one loop over a state, in which a jump sets the state and goes on (6.8.6.1)."""

from collections import Counter
from collections.abc import Callable, Sequence
from typing import Optional, Union

from fshell_tools.adapt.common import tree
from fshell_tools.adapt.common.parsing import snippet
from fshell_tools.adapt.common.refusals import Refused
from fshell_tools.adapt.common.tree import LEFT_BY_BREAK, LOOPS, walk
from fshell_tools.adapt.expand.list_assignments import listed

Part = Union[tree.Node, str]  # a statement, or a label by its name


def holds(node: tree.Node, names: set[str]) -> bool:
    """Whether a label of these stands in a statement."""
    return any(isinstance(one, tree.Label) and one.name in names for one in walk(node))


def jump(name: str, coord: Optional[tree.Coord]) -> tree.Goto:
    """A `goto` of this name at a place, as it goes into a tree (6.8.6.1)."""
    return tree.Goto(name, coord)


def unless(test: tree.Expression, name: str, coord: Optional[tree.Coord]) -> tree.If:
    """A jump where a condition doesn't hold."""
    return tree.If(tree.UnaryOp("!", test, coord), jump(name, coord), None, coord)


def spoken(nodes: Sequence[tree.Node]) -> Counter[str]:
    """How often the nodes of trees name a variable, a constant or a typedef, by its name; a tag has its word in front."""
    found = Counter[str]()
    for node in nodes:
        for one in walk(node):
            if isinstance(one, tree.ID):
                found[one.name] += 1
            elif isinstance(one, tree.IdentifierType) and len(one.names) == 1:
                found[one.names[0]] += 1
            elif isinstance(one, (tree.Struct, tree.Union, tree.Enum)) and one.name:
                found[f"tag {one.name}"] += 1
    return found


class States:
    """One function, whose jumps go to labels of `names`."""

    def __init__(self, fresh: Callable[[str], str], names: set[str]) -> None:
        self.fresh, self.names = fresh, names
        self.declared: list[tree.Node] = []
        self.own: set[str] = set()
        self.labels = 0
        self.coord: Optional[tree.Coord] = None
        self.count = Counter[str]()  # (how often the whole body names each, also what went in front)

    def function(self, body: tree.Compound, parameters: set[str]) -> None:
        """Writes the body anew."""
        self.coord, self.own, self.count = body.coord, set(parameters), spoken([body])
        items = self.flat_Compound(body)
        at, taken = self.fresh("at"), self.fresh("jumped")
        cases: list[tuple[int, list[tree.Node]]] = [(0, [])]
        numbers: dict[str, int] = {}
        for one in items:
            if isinstance(one, str):
                if cases[-1][1] or cases[-1][0] == 0:
                    cases.append((cases[-1][0] + 1, []))
                numbers[one] = cases[-1][0]
            else:
                cases[-1][1].append(one)
        made: list[tree.Case] = []
        coord = body.coord
        for number, own in cases:
            block = tree.Compound(own, coord)
            self.jumps(block, at, taken, numbers, 0)
            inner = list(block.block_items) or [tree.EmptyStatement(coord)]
            where = next((one.coord for one in inner if one.coord), coord)
            made.append(tree.Case(tree.Constant("int", str(number), where), inner, where))
        if made[-1].stmts and not isinstance(made[-1].stmts[-1], (tree.Return, tree.Break)):
            made[-1].stmts.append(tree.Break(self.last(made[-1])))
        switch = tree.Switch(tree.ID(at, coord), tree.Compound([*made]), coord)
        used = any(isinstance(one, tree.ID) and one.name == taken for one in walk(switch))
        head = snippet(f"{taken} = 0;", coord) if used else []
        inside = tree.Compound([*head, switch, tree.Break(self.last(switch))])
        loop = tree.For(None, None, None, inside, coord)
        begin = snippet(f"int {at} = 0;" + (f" int {taken} = 0;" if used else ""), coord)
        body.block_items = [*self.declared, *begin, loop]

    @staticmethod
    def last(node: tree.Node) -> Optional[tree.Coord]:
        """The last place in a node."""
        found = [one.coord for one in walk(node) if one.coord]
        return max(found, key=lambda coord: coord.line) if found else node.coord

    def label(self) -> str:
        """A label that no source has."""
        self.labels += 1
        return f"?{self.labels}"  # (no name of C)

    # ---- taking apart

    def flat(self, node: tree.Node, top: bool = False) -> list[Part]:
        """The statements of one that may hold labels; a label is its name. Raises Refused for a goto into a statement
        that can't be taken apart."""
        if isinstance(node, tree.Label) and node.name in self.names:
            return [node.name, *self.flat(node.stmt, top)]
        if top and isinstance(node, tree.DeclList):
            return [one for item in node.decls for one in self.flat(item, True)]
        if top and isinstance(node, (tree.Decl, tree.Typedef)):
            return self.hoisted(node)
        if not holds(node, self.names):
            return [node]
        return self.apart(node)

    def apart(self, node: tree.Node) -> list[Part]:
        """The statements of one that holds labels, by its form. Raises Refused for one that can't be taken apart."""
        if isinstance(node, tree.Label):
            return self.flat(node.stmt)  # (nothing goes to it)
        if isinstance(node, tree.Compound):
            return self.flat_Compound(node)
        if isinstance(node, tree.If):
            return self.flat_If(node)
        if isinstance(node, tree.While):
            return self.flat_While(node)
        if isinstance(node, tree.DoWhile):
            return self.flat_DoWhile(node)
        if isinstance(node, tree.For):
            return self.flat_For(node)
        if isinstance(node, tree.Switch):
            return self.flat_Switch(node)
        raise Refused(node.coord, "a goto into this statement", "use a loop, or a flag")

    def hoisted(self, node: tree.Decl | tree.Typedef) -> list[Part]:
        """A declaration goes in front of all; its first value stays."""
        self.declared.append(node)
        if not isinstance(node, tree.Decl):
            return []
        init, at, name = node.init, node.coord, node.name or ""
        if isinstance(node.type, (tree.TypeDecl, tree.PtrDecl, tree.ArrayDecl)):
            node.coord = self.coord  # (so that it moves no line)
        if init is None or {"static", "extern"} & set(node.storage):
            return []
        node.init, node.quals = None, []
        if isinstance(init, tree.InitList) or isinstance(node.type, tree.ArrayDecl):
            return [*listed(node.type, tree.ID(name, at), init, at)]
        of = node.type
        while isinstance(of, tree.PtrDecl):
            of.quals = []
            of = of.type
        return [tree.Assignment("=", tree.ID(name, at), init, at)]

    def flat_Compound(self, node: tree.Compound) -> list[Part]:
        """A block, whose names become those of the function."""
        self.block(node.block_items or [])
        return [one for item in node.block_items or [] for one in self.flat(item, True)]

    def block(self, items: list[tree.Node]) -> None:
        """The names that a block's statements declare. Raises Refused for types and constants that have a name of others."""
        inside = spoken(items)  # (from the statement at hand on)
        for at, one in enumerate(items):
            inside.subtract(spoken(items[at - 1 : at] if at else []))
            if isinstance(one, (tree.Decl, tree.Typedef)):
                self.types(one, inside)
                if one.name:
                    self.renamed(items[at:], one, inside)

    def types(self, declared: tree.Decl | tree.Typedef, inside: Counter[str]) -> None:
        """Tags and constants that a block declares become those of the function (6.2.1p4, 6.2.3). Raises Refused for one whose name has
        another meaning there."""
        for one in walk(declared.type):
            name = f"tag {one.name}" if isinstance(one, (tree.Struct, tree.Union, tree.Enum)) and one.name else ""
            if isinstance(one, tree.Enumerator):
                name = one.name
            elif isinstance(one, tree.Enum) and one.values is None:
                continue
            elif isinstance(one, (tree.Struct, tree.Union)) and one.decls is None:
                continue
            if name and (name in self.own or self.count[name] > inside[name]):
                cause = f"{name.removeprefix('tag ')}: another type or constant has its name, and a goto leads back or into a block"
                raise Refused(one.coord or declared.coord, cause, "give each a name of its own")
            self.own.add(name)

    def renamed(self, scope: list[tree.Node], declared: tree.Decl | tree.Typedef, inside: Counter[str]) -> None:
        """A name that is declared in a block becomes one of the whole function, so it is another one where that has it."""
        name = declared.name or ""
        if name not in self.own and self.count[name] == inside[name]:
            self.own.add(name)
            return
        if isinstance(declared.type, tree.FuncDecl) or "extern" in declared.storage:
            return
        other = self.fresh(name)
        self.own.add(other)
        declared.name = other
        changed = self.rename(scope, name, other)
        tree.rename(declared, other)
        for count in (self.count, inside):
            count.update({name: -changed, other: changed})

    def rename(self, nodes: Sequence[tree.Node], name: str, other: str) -> int:
        """Renames what a name stands for in some statements of one block, up to where the block declares it anew. Gives the number
        of the uses that are renamed."""
        changed = 0
        for node in nodes:
            declared = [node, *(node.decls if isinstance(node, tree.DeclList) else [])]
            if any(isinstance(one, (tree.Decl, tree.Typedef)) and one.name == name for one in declared):
                break
            if isinstance(node, tree.For) and isinstance(node.init, tree.DeclList):
                if any(isinstance(one, tree.Decl) and one.name == name for one in node.init.decls):
                    continue
            if isinstance(node, tree.ID) and node.name == name:
                node.name, changed = other, changed + 1
            elif isinstance(node, tree.IdentifierType) and node.names == [name]:
                node.names, changed = [other], changed + 1
            elif isinstance(node, tree.StructRef):
                changed += self.rename([node.name], name, other)
            elif isinstance(node, tree.NamedInitializer):  # (whose names are members, or constants)
                inner = [one for one in node.name if not isinstance(one, tree.ID)]
                changed += self.rename([*inner, node.expr], name, other)
            elif isinstance(node, tree.Compound):
                changed += self.rename(list(node.block_items or []), name, other)
            else:
                changed += sum(self.rename([child], name, other) for child in node.parts())
        return changed

    def flat_If(self, node: tree.If) -> list[Part]:
        """A branch as jumps."""
        behind, end = self.label(), self.label()
        made = [unless(node.cond, behind, node.coord), *self.flat(node.iftrue)]
        if node.iffalse is None:
            return [*made, behind]
        return [*made, jump(end, node.coord), behind, *self.flat(node.iffalse), end]

    def turn(self, node: tree.While | tree.DoWhile | tree.For, again: str, end: str) -> list[Part]:
        """A loop's body, in which break and continue are jumps."""
        self.left(node.stmt, again, end)
        return self.flat(node.stmt)

    def flat_While(self, node: tree.While) -> list[Part]:
        """A loop as tests and jumps (6.8.5.1)."""
        again, end = self.label(), self.label()
        return [again, unless(node.cond, end, node.coord), *self.turn(node, again, end), jump(again, node.coord), end]

    def flat_DoWhile(self, node: tree.DoWhile) -> list[Part]:
        """The same with the test behind the body (6.8.5.2)."""
        begin, again, end = self.label(), self.label(), self.label()
        back = tree.If(node.cond, jump(begin, node.cond.coord), None, node.cond.coord)
        return [begin, *self.turn(node, again, end), again, back, end]

    def flat_For(self, node: tree.For) -> list[Part]:
        """The same with what stands in the head (6.8.5.3)."""
        begin, again, end = self.label(), self.label(), self.label()
        first: list[Part] = [] if node.init is None else [node.init]
        if isinstance(node.init, tree.DeclList):
            for one in node.init.decls:
                self.renamed([node], one, spoken([node]))
            first = [one for item in node.init.decls for one in self.flat(item, True)]
        test = [] if node.cond is None else [unless(node.cond, end, node.coord)]
        step = [] if node.next is None else [node.next]
        return [*first, begin, *test, *self.turn(node, again, end), again, *step, jump(begin, node.coord), end]

    def flat_Switch(self, node: tree.Switch) -> list[Part]:
        """A switch that jumps to its cases (6.8.4.2). Raises Refused for statements before its first case."""
        end, heads, made = self.label(), list[tree.Node](), list[Part]()
        default = end
        self.left(node.stmt, "", end)
        parts = node.stmt.block_items if isinstance(node.stmt, tree.Compound) else []
        for at, one in enumerate(parts):
            if isinstance(one, (tree.Case, tree.Default)):
                self.block([*one.stmts, *parts[at + 1 :]])
        for one in node.stmt.block_items if isinstance(node.stmt, tree.Compound) else [node.stmt]:
            if not isinstance(one, (tree.Case, tree.Default)):
                raise Refused(one.coord, "a goto into this switch", "use a loop, or a flag")
            name = self.label()
            made.append(name)
            made += [inner for item in one.stmts or [] for inner in self.flat(item, True)]
            if isinstance(one, tree.Default):
                default = name
            else:
                heads.append(tree.Case(one.expr, [jump(name, one.coord)], one.coord))
        heads.append(tree.Default([jump(default, node.coord)], node.coord))
        return [tree.Switch(node.cond, tree.Compound(heads), node.coord), *made, end]

    def left(self, node: tree.Node, again: str, end: str, in_switch: bool = False) -> None:
        """Turns what leaves a loop or a switch, or goes on with a loop, into jumps."""
        for slot, child in node.children():
            if isinstance(child, tree.Break) and not in_switch:
                node.put(slot, jump(end, child.coord))
            elif isinstance(child, tree.Continue) and again:
                node.put(slot, jump(again, child.coord))
            elif isinstance(child, LOOPS):
                continue
            else:
                self.left(child, again, end, in_switch or isinstance(child, tree.Switch))

    # ---- jumps

    def jumps(self, node: tree.Node, at: str, taken: str, numbers: dict[str, int], depth: int) -> bool:
        """Writes the jumps within a statement at which so many loops, and switches in these, are open; whether one leaves it."""
        out = False
        for slot, child in list(node.children()):
            if isinstance(child, tree.Goto):
                text = f"{at} = {numbers[child.name]};" + (f" {taken} = 1;" if depth else "")
                leave = tree.Break(child.coord) if depth else tree.Continue(child.coord)
                made = [*snippet(text, child.coord), leave]
                node.spread(slot, child, made)
                out = True
                continue
            inside = depth + 1 if isinstance(child, LOOPS) or (depth and isinstance(child, tree.Switch)) else depth
            if self.jumps(child, at, taken, numbers, inside):
                out = True
                if inside and isinstance(child, LEFT_BY_BREAK):
                    coord = self.last(child)
                    leave = tree.Break(coord) if depth else tree.Continue(coord)
                    made = [child, tree.If(tree.ID(taken, coord), leave, None, coord)]
                    node.spread(slot, child, made)
        return out
