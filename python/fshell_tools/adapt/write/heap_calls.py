"""The calls of malloc and its kin (7.22.3): a call fails, as C allows, where no slot of its pool is left, where more elements are asked
for than a slot has, and where an answer says so: the first call of all reads one number, whose bit k lets call k fail."""

import math
from functools import cached_property
from typing import TYPE_CHECKING, Union

from fshell_tools.adapt.bind.lvalues import arguments
from fshell_tools.adapt.bind.value_texts import PRIMARY, Value, number, plus, times
from fshell_tools.adapt.common import c_types, tree
from fshell_tools.adapt.common.c_types import BEGIN, END, INDEX, NIL, Region
from fshell_tools.adapt.common.objects import Function
from fshell_tools.adapt.common.output import FELL
from fshell_tools.adapt.common.refusals import Refused
from fshell_tools.adapt.points_to.heap import GIVES, Pool, heap_call
from fshell_tools.adapt.write.component import Component

if TYPE_CHECKING:
    from fshell_tools.adapt.write.writer import Writer

Key = Union[
    str, tuple[str, Union[Region, tree.FuncCall]]
]  # what a text is for: of the whole, of a region, or of a call


def plus_one(count: str) -> str:
    """The text of a number of elements and 1."""
    return str(int(count) + 1) if count.isdecimal() else f"{count} + 1"


class Heap(Component):
    """What a writer does with calls of the heap. `text` has what stands in front, by what it is for."""

    def __init__(self, writer: "Writer") -> None:
        super().__init__(writer)
        self.texts: dict[Key, str] = {}
        self.names: dict[Key, str] = {}
        self.asked = ""  # the input function

    def name(self, key: Key, stem: str) -> str:
        """A name for what a key stands for, always the same."""
        if key not in self.names:
            self.names[key] = self.writer.spelling.fresh(stem)
        return self.names[key]

    def fails(self) -> str:
        """The name of the function that says whether a call fails."""
        if "fails" not in self.texts:
            self.asked = self.writer.spelling.fresh("malloc_fails", True)
            mask, known, calls = [self.name(stem, stem) for stem in ("malloc_mask", "malloc_known", "malloc_calls")]
            own = "" if self.entries else f" static int {known};"
            self.texts[
                "asked"
            ] = f"unsigned int {self.asked}(void); static unsigned int {mask};{own} static int {calls};"
            first = "" if self.entries else f"if (!{known}) {{ {mask} = {self.asked}(); {known} = 1; }} "
            self.texts["fails"] = (
                f"static int {self.name('fails', 'heap_fails')}(void) {{ {first}"
                f"int bit = {mask} >> ({calls} & 31) & 1; {calls}++; return bit; }}"
            )
        return self.name("fails", "heap_fails")

    @cached_property
    def entries(self) -> set[Function]:
        """The functions that read at their begin which calls fail: those that nothing calls and that come to such a call, where each
        other one that does is static and called by its name. None where there is another, as then any call may be the first.
        """
        makers = [one for one in self.writer.names.functions if heap_call(one) in GIVES]
        calls = [call for one in makers for call in one.calls]
        if set(self.writer.columns.points.pools) - {node for _, node in calls}:
            return set()
        reached, rest = set[Function](), [caller for caller, _ in calls]
        while rest:
            one = rest.pop()
            if one is None or one.taken or (one.calls and not one.static):
                return set()
            if one not in reached:
                reached.add(one)
                rest += [caller for caller, _ in one.calls]
        return {one for one in reached if not one.calls}

    def begin(self, function: Function) -> None:
        """Writes at the begin of a function that it reads which calls fail, where it is one that does."""
        if function in self.entries:
            self.fails()
            self.writer.emit(f"{self.name('malloc_mask', 'malloc_mask')} = {self.asked}();")

    def sizes(self, region: Region) -> str:
        """The array that has at the begin of each slot in use 1, or where memory may be given back for other how many elements it has,
        and 1; nothing where nobody asks."""
        if not region.freed or not self.has_pool(region):
            return ""
        key = ("sizes", region)
        if key not in self.texts:
            length, kind = self.writer.columns.counts[region], "int" if self.is_resized(region) else "unsigned char"
            self.texts[key] = f"static {kind} {self.name(key, 'heap_size')}[{length}];"
        return self.name(key, "heap_size")

    def is_resized(self, region: Region) -> bool:
        """Whether a call may give memory of a region back for other."""
        pools = self.writer.columns.points.pools.values()
        return any(one.called == "realloc" and one.variable in region.objects for one in pools)

    def has_pool(self, region: Region) -> bool:
        """Whether memory of the heap lies in a region."""
        return any(one.home == "pool" for one in region.objects)

    # ---- calls

    def allocated(self, node: tree.FuncCall, called: str) -> dict[str, Value]:
        """Writes a call that gives memory; the pointer's integers. Raises Refused where its objects can't lie in one
        column."""
        writer = self.writer
        region = self.writer.columns.pointer(node).region.root()
        if region.fault:
            raise Refused(node.coord, region.fault[1], region.fault[2])
        writer.order.unsequenced(node, arguments(node))
        pool = self.writer.columns.points.pools[node]
        given = arguments(node)
        old = [writer.pointers.pointer(given[0])[INDEX].text] if called == "realloc" else []
        values = []
        for one in given[len(old) :]:
            known = writer.constants.value(one)
            value = writer.expressions.value(one) if known is None else Value(str(known), c_types.SIZE, PRIMARY)
            values.append(
                value
                if number(value) is not None
                else Value(writer.temporary(c_types.SIZE, value.text), c_types.SIZE, PRIMARY)
            )
        numbers = [number(one) for one in values]
        name = self.function(called, pool, region, [] if None in numbers else [one or 0 for one in numbers])
        texts = [one.text for one in values] if None in numbers else []
        text = f"{name}({', '.join([*old, *texts])})"
        index = Value(writer.temporary(c_types.INT, text, "pointer"), c_types.INT, PRIMARY)
        return {INDEX: index, END: plus(index, self.elements(values, region)), BEGIN: index}

    def elements(self, values: list[Value], region: Region) -> Value:
        """How many elements a call asks for."""
        size = c_types.size(region.type) or 1
        known = [number(one) for one in values]
        if None not in known:
            whole = 1
            for one in known:
                whole *= one or 0
            return Value(str(whole // size), c_types.INT, PRIMARY)
        text = " * ".join(one.text for one in values)
        return Value(f"(int) ({text}{f' / {size}' if size > 1 else ''})", c_types.INT, PRIMARY)

    def function(self, called: str, pool: Pool, region: Region, known: list[int]) -> str:
        """The function that a call becomes; `known` are what it asks for, where all of it is constant."""
        key = (called, pool.node)
        name = self.name(key, called)
        if key in self.texts:
            return name
        fails, sizes, used = self.fails(), self.sizes(region), self.name(("used", pool.node), f"{name}_used")
        begin = self.writer.columns.begins[(region, pool.variable)]
        heads, more, whole = self.asked_for(called, pool, c_types.size(region.type) or 1, known)
        # (--compare, where no answer lets a call fail, ends its runs at FELL: there the pool has no room)
        body = f"int failed = {fails}(); "
        body += f"if (failed | {more}{used} >= {pool.slots}) {{ {FELL} return {NIL}; }} "
        slot = times(Value(used, c_types.INT, PRIMARY), pool.count).text
        body += f"int q = {f'{begin} + ' if begin else ''}{slot}; {used}++; "
        body += f"{sizes}[q] = {plus_one(whole) if self.is_resized(region) else '1'}; " if sizes else ""
        body += self.copied(region, sizes, whole) if called == "realloc" else ""
        self.texts[key] = f"static int {used}; static int {name}({heads}) {{ {body}return q; }}"
        return name

    @staticmethod
    def asked_for(called: str, pool: Pool, size: int, known: list[int]) -> tuple[str, str, str]:
        """The parameters of what a call becomes, the test whether it asks for more elements than a slot has, with `|` behind it, and
        the number of these; fewer bytes than an element has are no element."""
        old = "int p" if called == "realloc" else ""
        if known:
            count = math.prod(known) // size
            return old or "void", f"{count} > {pool.count} | " if count > pool.count else "", str(count)
        heads = ", ".join([*([old] if old else []), *(["size_t k"] if called == "calloc" else []), "size_t n"])
        wide, whole = ("k > 65535 | n > 65535 | ", "k * n") if called == "calloc" else ("", "n")
        test = f"{wide}{whole} > {(pool.count + 1) * size - 1} | "
        return heads, test, f"{whole} / {size}" if size > 1 else whole

    def copied(self, region: Region, sizes: str, whole: str) -> str:
        """What was in memory that is given back for other, as far as both reach."""
        moves = []
        for leaf in c_types.leaves(region.type):
            variable, inside, factor, add = self.writer.columns.leaf_at(region, leaf.path)
            name = self.writer.spelling.leaf(variable, inside)
            for at in range(leaf.count):
                plain = factor == 1 and add + at == 0
                to, of = [
                    f"{name}[{one} + i]" if plain else f"{name}[({one} + i) * {factor} + {add + at}]" for one in "qp"
                ]
                moves.append(f"{to} = {of};")
        loop = f"for (int i = 0; i + 1 < {sizes}[p] & i < {whole}; i++) {{ {' '.join(moves)} }}"
        return f"if (p != {NIL}) {{ assert({sizes}[p] > 0); {loop} {sizes}[p] = 0; }} "

    def freed(self, node: tree.FuncCall) -> str:
        """The text of a call of free. Raises Refused where its objects can't lie in one column."""
        writer, given = self.writer, arguments(node)[0]
        if writer.pointers.is_null(given):
            return ""
        region = self.writer.columns.pointer(given).region.root()
        if region.fault:
            raise Refused(node.coord, region.fault[1], region.fault[2])
        index, sizes = writer.pointers.pointer(given)[INDEX], self.sizes(region)
        if not sizes:
            if index.calls:
                writer.temporary(c_types.INT, index.text)
            return ""
        key = ("free", region)
        name = self.name(key, "free")
        self.texts[
            key
        ] = f"static void {name}(int p) {{ if (p != {NIL}) {{ assert({sizes}[p] > 0); {sizes}[p] = 0; }} }}"
        return f"{name}({index.text})"

    def front(self) -> list[str]:
        """What stands in front of all else."""
        rank = {"asked": 0, "fails": 1, "sizes": 2}
        return [
            text
            for _, text in sorted(
                self.texts.items(), key=lambda one: rank.get(one[0] if isinstance(one[0], str) else one[0][0], 3)
            )
        ]
