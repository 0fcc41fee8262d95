"""A `switch` whose cases stand within its statements, or which has statements before its first case: its cases become labels, and
what chooses among them jumps there (6.8.4.2)."""

from collections.abc import Callable, Iterator

from fshell_tools.adapt.common import tree
from fshell_tools.adapt.common.tree import LOOPS, walk

LABELS = (tree.Case, tree.Default)
Labelled = tree.Case | tree.Default


def cases_of(node: tree.Node) -> Iterator[tuple[tree.Node, str, Labelled]]:
    """The cases of a switch, each with the node and the slot in which it stands."""
    for slot, child in node.children():
        if isinstance(child, LABELS):
            yield node, slot, child
        if not isinstance(child, tree.Switch):
            yield from cases_of(child)


def is_plain(switch: tree.Switch) -> bool:
    """Whether all cases stand directly in the switch, and nothing before them."""
    items = switch.stmt.block_items or [] if isinstance(switch.stmt, tree.Compound) else [switch.stmt]
    direct = all(isinstance(one, LABELS) for one in items)
    return direct and all(any(child is one for one in items) for _, _, child in cases_of(switch))


def leaves(node: tree.Node, end: str) -> None:
    """Turns the breaks of a switch into jumps."""
    for slot, child in node.children():
        if isinstance(child, tree.Break):
            node.put(slot, tree.Goto(end, child.coord))
        elif not isinstance(child, LOOPS) and not isinstance(child, tree.Switch):
            leaves(child, end)


class Cases:
    """Rewrites the switches of one function."""

    def __init__(self, fresh: Callable[[str], str]) -> None:
        self.fresh = fresh

    def function(self, body: tree.Compound) -> None:
        """Rewrites the switches of a body, inner ones first."""
        switches = [one for one in walk(body) if isinstance(one, tree.Switch) and not is_plain(one)]
        for switch in reversed(switches):
            self.replaced(body, switch)

    def replaced(self, body: tree.Compound, switch: tree.Switch) -> None:
        """Puts in place of a switch one that only jumps, and behind it its statements with labels."""
        end, heads = self.fresh("end"), list[tree.Node]()
        leaves(switch.stmt, end)
        default = end
        holder = tree.Compound([switch.stmt])
        while (found := next(cases_of(holder), None)) is not None:
            node, slot, child = found
            name = self.fresh("case")
            if isinstance(child, tree.Default):
                default = name
            else:
                heads.append(tree.Case(child.expr, [tree.Goto(name, child.coord)], child.coord))
            stmts = list(child.stmts or []) or [tree.EmptyStatement(child.coord)]
            label = tree.Label(name, stmts[0], child.coord)
            node.spread(slot, child, [label, *stmts[1:]])
        heads.append(tree.Default([tree.Goto(default, switch.coord)], switch.coord))
        chosen = tree.Switch(switch.cond, tree.Compound(heads), switch.coord)
        made = tree.Compound(
            [chosen, holder.block_items[0], tree.Label(end, tree.EmptyStatement(switch.coord), switch.coord)]
        )
        for above in walk(body):
            for slot, one in above.children():
                if one is switch:
                    above.put(slot, made)
                    return
