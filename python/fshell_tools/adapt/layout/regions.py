"""The columns: for each region to which a pointer may point an array that has all of its objects, one behind the other."""

from functools import cached_property
from typing import Optional

from fshell_tools.adapt.bind.lvalues import MOST_CALLS, Level, Owner, aligned
from fshell_tools.adapt.common import c_types, tree
from fshell_tools.adapt.common.c_types import MOST_INDEX, Array, Path, Pointer, Region, Struct, Type
from fshell_tools.adapt.common.feedback import HeapCall, Learned
from fshell_tools.adapt.common.objects import Function, Variable
from fshell_tools.adapt.common.refusals import Refused
from fshell_tools.adapt.layout.identifiers import Spelling
from fshell_tools.adapt.layout.type_feedback import learn
from fshell_tools.adapt.names.scopes import Names
from fshell_tools.adapt.points_to.analysis import PointsTo
from fshell_tools.adapt.points_to.heap import bytes_asked, heap_call


class Columns:
    """The columns of all regions to which pointers are made. `begins` has where each object begins in its own,
    `counts` how many elements they have."""

    def __init__(self, names: Names, learned: set[Learned]) -> None:
        self.names, self.points = names, PointsTo(names, learned)
        self.pools = {pool.variable: pool for pool in self.points.pools.values()}
        for caller, node in self.points.pointer_calls:
            targets = self.pointer(node.name).region.root().targets
            heap = {heap_call(target) for target in targets}
            if len(heap) == 1 and "" not in heap and node.coord is not None:
                names.refusals.apart.add(HeapCall(node.coord, heap.pop()))
            for target in targets:
                target.calls.append((caller, node))
        learn(names, self.points, names.refusals.apart)
        self.levels: dict[Function, Optional[Level]] = {}
        self.begins: dict[tuple[Region, Owner], int] = {}
        self.counts: dict[Region, int] = {}
        self.open: set[Region] = set()  # those that are laid out now
        self.inner: dict[Region, list[tuple[Region, str]]] = {}
        self.regions = self.known()
        for region in self.regions:
            for name, inner in region.members.items():
                self.inner.setdefault(inner.root(), []).append((region, name))
        self.made = [region for region in self.regions if region.pointed and not self.is_function(region)]
        for region in self.made:
            self.lay_out(region)
        self.of_column = {region.laid: region for region in self.made}
        self.check_locals()

    def known(self) -> list[Region]:
        """All regions: those of objects and of the pointers in their types, and of their members."""
        found: dict[Region, None] = {}
        rest = [self.points.home(one) for one in list(self.points.homes)]
        rest += [of.region for of in self.points.values.values() if isinstance(of, Pointer)]
        while rest:
            one = rest.pop(0).root()
            if one not in found:
                found[one] = None
                rest += one.members.values()
                rest += [one.elem.region] if isinstance(one.elem, Pointer) else []
        return list(found)

    @staticmethod
    def is_function(region: Region) -> bool:
        """Whether a region is that of pointers to functions, which has no column."""
        return region.is_code

    # ---- layout

    def lay_out(self, region: Region) -> int:
        """Gives each object of a region its begin; how many elements there are. Tells of an object that lies within itself by a
        pointer."""
        if region in self.counts:
            return self.counts[region]
        if region in self.open:
            at = next((one.coord for one in self.owned(region) if one.coord is not None), None)
            self.names.refusals.add(at, "an object that lies within itself by a pointer", "use objects apart")
            return 0
        self.open.add(region)
        if region.elem is None or region.elem == c_types.VOID or self.points.is_open(region.elem):
            region.elem = c_types.Int(8, False, "unsigned char")
        end, objects = 0, 0
        owners: list[Owner] = [*region.objects, *self.inner.get(region, [])]
        owners.sort(key=self.is_levelled)  # (those have no first values)
        for owner in owners:
            is_pool = isinstance(owner, Variable) and owner in self.pools
            count, each = self.pool(owner, region) if isinstance(owner, Variable) and is_pool else self.extent(owner)
            end = aligned(end) if region.raw else end
            self.begins[(region, owner)] = end
            end += count + 1
            objects += each
        region.single = objects <= 1
        end = max(end - 1, 1)
        self.counts[region] = end
        alone = region.objects[0] if len(owners) == 1 and region.objects else None
        self.column(region, end, alone)
        return end

    def owned(self, region: Region) -> list[Variable]:
        """The objects of a region, and those in whose members it lies."""
        found, rest = list[Variable](), [region]
        for one in rest:
            found += one.objects
            rest += [outer for outer, _ in self.inner.get(one, []) if outer not in rest]
        return found

    def pool(self, owner: Variable, region: Region) -> tuple[int, int]:
        """How many elements the memory of a call of malloc has, and how many objects. It has fewer slots where its integers would
        otherwise be too many for one array."""
        pool, size = self.pools[owner], c_types.size(region.type) or 1
        try:
            asked = bytes_asked(self.names.constants, pool.node, pool.called)
        except Refused:
            asked = None  # (told where it is written)
        each = max((c_types.size(one) or 1 for one in region.views), default=1) if region.raw else 1
        pool.count = self.names.pool[1] * each if asked is None else max(1, asked // size)
        largest = max((leaf.count for leaf in c_types.leaves(region.type)), default=1) * pool.count
        pool.slots = max(1, min(pool.slots, (MOST_INDEX + 1) // largest))
        owner.type = Array(region.type, pool.slots * pool.count)
        return pool.slots * pool.count, pool.slots

    def extent(self, owner: Owner) -> tuple[int, int]:
        """How many elements an owner has, and how many objects these are."""
        if isinstance(owner, Variable):
            whole = owner.type.to if owner.is_bound and isinstance(owner.type, Pointer) else owner.type
            region = self.points.home(owner).root()
            count = self.points.count(whole, region)
            if self.level(owner) is None:
                return count, 1
            return MOST_CALLS * (aligned(count) if region.raw else count), MOST_CALLS
        outer, name = owner
        if not isinstance(outer.elem, Struct) or not outer.elem.has(name):
            return 0, 0  # (objects of two types, which is a fault where one is used)
        of = outer.elem.type_of(name)
        owners: list[Owner] = [*outer.objects, *self.inner.get(outer, [])]
        count = self.lay_out(outer) if outer.pointed else sum(self.extent(one)[0] for one in owners)
        return count * self.points.count(of, outer.member(name, c_types.element(of))), count

    def column(self, region: Region, count: int, alone: Optional[Variable]) -> None:
        """Makes the variable of a region's column."""
        coord = region.objects[0].coord if region.objects else None
        made = Variable(alone.name if alone else "r", Array(region.type, count), coord, "column", defined=True)
        kept = [
            one.const and one.home not in ("local", "parameter") for one in region.objects
        ]  # (those get their values anew)
        made.const = bool(kept) and all(kept) and not self.inner.get(region)
        region.column = made

    def check_locals(self) -> None:
        """A local object in a column of a function that calls itself is there as often as it may be called, so it may not be large."""
        for region in self.made:
            for one in region.objects:
                if one.function is not None and self.level(one) is not None and self.extent(one)[0] > -c_types.NIL:
                    cause = f"the address of {one.name} is taken in {one.function.name}, which calls itself"
                    self.names.refusals.add(one.coord, cause, "hand over an object of the caller")

    def level(self, variable: Variable) -> Optional[Level]:
        """Which of a local's objects is meant, where its function may be called while it runs."""
        function = variable.function if variable.home in ("local", "parameter") else None
        if function is None:
            return None
        if function not in self.levels:
            self.levels[function] = Level(function) if self.recurs(function) else None
        return self.levels[function]

    def is_levelled(self, owner: Owner) -> bool:
        """Whether an owner is a local of which there are several objects at once."""
        return isinstance(owner, Variable) and self.level(owner) is not None

    @cached_property
    def levelled(self) -> set[Function]:
        """The functions that call themselves and have locals in columns."""
        found = [one for one in self.names.variables if one.home == "local"]
        found += [one for function in self.names.functions for one in function.parameters]
        return {
            one.function
            for one in found
            if one.function is not None
            and self.level(one) is not None
            and (self.in_column(one) or self.any_apart(self.home(one), one.type))
        }

    def recurs(self, function: Function) -> bool:
        """Whether a function may be called while it runs."""
        seen, rest = set[Function](), [function]
        while rest:
            one = rest.pop()
            for other in self.names.functions:
                if any(caller is one for caller, _ in other.calls) and other not in seen:
                    seen.add(other)
                    rest.append(other)
        return function in seen

    # ---- what others ask

    def home(self, variable: Variable) -> Optional[Region]:
        """The region in which a variable lies; none of a column itself."""
        return self.points.home(variable) if variable.home != "column" else None

    def begin(self, region: Region, owner: Owner) -> int:
        """The number of the element with which an object begins in its column."""
        if not isinstance(owner, Variable):
            owner = next(one for one in self.inner[region] if one[0] is owner[0] and one[1] == owner[1])
        return self.begins[(region, owner)]

    def pointer(self, node: tree.Expression) -> Pointer:
        """The type of a pointer's value, with its region. Raises Refused for what is no pointer."""
        of = self.points.value(node)
        if not isinstance(of, Pointer):
            raise Refused(node.coord, "what is no pointer", "use a pointer")
        return of

    def count(self, of: Type, region: Region) -> int:
        """How many elements an object takes in a column."""
        return self.points.count(of, region)

    def number(self, region: Region) -> int:
        """The number of a region among all."""
        return self.regions.index(region) if region in self.regions else len(self.regions)

    def in_column(self, variable: Variable) -> bool:
        """Whether the whole of a variable lies in a column."""
        return self.points.home(variable).column is not None

    def is_apart(self, region: Optional[Region], path: Path) -> bool:
        """Whether a leaf lies in the column of a member that leads to it."""
        for name in path:
            inner = region.root().members.get(name) if region else None
            region = inner.root() if inner else None
            if region is not None and region.column is not None:
                return True
        return False

    def leaf_at(self, region: Region, path: Path) -> tuple[Variable, Path, int, int]:
        """Where a leaf of a region's elements lies: the column, the members there, and by what an element's number is multiplied
        and what is added for the leaf's first one."""
        inside: Path = ()
        variable, factor, add = region.laid, 1, 0
        at: Optional[Region] = region
        for name in path:
            of = c_types.member(at.root().type, name) if at is not None and not name.startswith("@") else None
            inner = at.root().members.get(name) if at is not None else None
            count = c_types.elements(of) if of is not None else 1
            factor, add = factor * count, add * count
            if inner is not None and inner.root().column is not None and at is not None:
                variable, inside = inner.root().laid, ()
                add += self.begin(inner.root(), (at.root(), name))
            else:
                inside = inside + (name,)
            at = inner.root() if inner is not None else Region(c_types.element(of)) if of is not None else None
        return variable, inside, factor, add

    def any_apart(self, region: Optional[Region], of: Type) -> bool:
        """Whether some integer of an object lies in a column of its own, or all of them as bytes."""
        if region is not None and region.root().raw:
            return True
        return any(self.is_apart(region, leaf.path) for leaf in c_types.leaves(of))

    def named(self, spelling: Spelling) -> None:
        """Gives each column its name: that of its object where there is one alone, which is no local one."""
        hidden = {one.name for one in self.names.variables if not one.shared}
        hidden |= {one.name for function in self.names.functions for one in function.parameters}
        for region in self.made:
            alone = region.objects[0] if len(region.objects) == 1 and not self.inner.get(region) else None
            if alone is not None and alone.shared and alone.out and alone.out not in hidden:
                region.laid.out = alone.out
            elif alone is not None and alone.home != "text":
                stem = f"{alone.function.name}_{alone.name}" if alone.function else alone.name
                region.laid.out = spelling.fresh(stem, True)
            else:
                region.laid.out = spelling.fresh("text" if alone is not None else "r")
