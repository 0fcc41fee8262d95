"""`goto` forward, out of loops or to a later label of a block around it, becomes `break`, with a flag where more than one
loop or `switch` is left. The tree of a function is changed in place."""

from collections.abc import Callable
from typing import Optional

from fshell_tools.adapt.common import tree
from fshell_tools.adapt.common.parsing import snippet
from fshell_tools.adapt.common.refusals import Refusals
from fshell_tools.adapt.common.tree import LEFT_BY_BREAK, LOOPS, walk
from fshell_tools.adapt.expand.state_machines import States


def goto_names(node: tree.Node) -> set[str]:
    """The labels to which jumps in a tree go."""
    return {one.name for one in walk(node) if isinstance(one, tree.Goto)}


def leaves_by(node: tree.Node, in_loop: bool = False, in_switch: bool = False) -> bool:
    """Whether a `break` or `continue` in it belongs to a loop or `switch` around it."""
    if isinstance(node, tree.Break):
        return not in_loop and not in_switch
    if isinstance(node, tree.Continue):
        return not in_loop
    in_loop, in_switch = in_loop or isinstance(node, LOOPS), in_switch or isinstance(node, tree.Switch)
    return any(leaves_by(child, in_loop, in_switch) for _, child in node.children())


def parameters_of(item: tree.FuncDef) -> set[str]:
    """The names of a function's parameters."""
    return {one.name or "" for one in item.head.params if not isinstance(one, tree.EllipsisParam)}


class Jumps:
    """Rewrites each `goto` of one function (6.8.6.1) as `break`, flags and, where it goes back, a state."""

    def __init__(self, fresh: Callable[[str], str], refusals: Refusals) -> None:
        self.fresh, self.refusals = fresh, refusals

    def function(self, item: tree.FuncDef) -> None:
        """Rewrites the jumps of a function in its body."""
        body = item.body
        for block in reversed([one for one in walk(body) if isinstance(one, tree.Compound)]):
            for label in [one for one in block.block_items or [] if isinstance(one, tree.Label)]:
                self.label(block, label)
        names = goto_names(body)
        if names:
            with self.refusals.gathered():
                States(self.fresh, names).function(body, parameters_of(item))

    def label(self, block: tree.Compound, label: tree.Label) -> None:
        """Rewrites the jumps that come from earlier statements of the label's block."""
        items, name = block.block_items, label.name
        to = next(at for at, item in enumerate(items) if item is label)
        begin = next((at for at in range(to) if name in goto_names(items[at])), None)
        if begin is None:
            return
        region, rest = items[begin:to], items[to:]
        used = {one.name for item in rest for one in walk(item) if isinstance(one, tree.ID)}
        late = [
            item
            for item in region
            if isinstance(item, tree.Typedef) or (isinstance(item, tree.Decl) and (item.name in used or not item.name))
        ]
        alone = len(region) == 1 and isinstance(region[0], LEFT_BY_BREAK)
        if late or (not alone and any(leaves_by(item) for item in region)):
            return  # (by a state)
        flag = self.fresh(f"{name}_taken")
        inner = tree.Compound(region, coord=region[0].coord)
        flagged = self.replaced(inner, name, flag, 0 if alone else 1)
        declared = snippet(f"int {flag} = 0;", inner.coord) if flagged else []
        region = inner.block_items
        if not alone:
            region.append(tree.Break(coord=label.coord))
            region = [tree.For(None, None, None, inner, coord=inner.coord)]
        block.block_items = items[:begin] + declared + region + rest

    @staticmethod
    def end(item: tree.Node) -> tree.Coord:
        """The last place in a statement."""
        found = [one.coord for one in walk(item) if one.coord]
        return max(found, key=lambda coord: coord.line)

    def replaced(self, node: tree.Node, name: str, flag: Optional[str], depth: int) -> bool:
        """Replaces the jumps within a statement at which `depth` loops and switches are open; whether the flag is used."""
        used = False
        depth += isinstance(node, LEFT_BY_BREAK)
        for slot, child in node.children():
            made: list[tree.Node] = [child]
            if isinstance(child, tree.Goto) and child.name == name:
                made = [tree.EmptyStatement(coord=child.coord)] if flag is None else [tree.Break(coord=child.coord)]
                if flag is not None and depth != 1:
                    made, used = snippet(f"{flag} = 1;", child.coord) + made, True
            elif self.replaced(child, name, flag, depth):
                used = True
                if depth >= 1 and isinstance(child, LEFT_BY_BREAK):
                    made.extend(snippet(f"if ({flag}) break;", self.end(child)))
            if made != [child]:
                node.spread(slot, child, made, made[0].coord)
        return used
