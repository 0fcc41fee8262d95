"""Writes the columns with the first values of what lies in them, and what parameters hand into them."""

import re
from fshell_tools.adapt.bind.bindings import key
from fshell_tools.adapt.bind.initializers import Part, filled, none_of
from fshell_tools.adapt.bind.lvalues import FIELD
from fshell_tools.adapt.common import c_types, tree
from fshell_tools.adapt.common.c_types import MOST_INDEX, Int, Path, Pointer, Region
from fshell_tools.adapt.common.objects import Function, Place, Variable
from fshell_tools.adapt.common.output import File, unmarked
from fshell_tools.adapt.common.refusals import Refused
from fshell_tools.adapt.effects.side_effects import pointee
from fshell_tools.adapt.write.byte_access import masks
from fshell_tools.adapt.write.calls import MOST_ELEMENTS
from fshell_tools.adapt.write.component import Component


class ColumnItems(Component):
    """What stands of columns in front of all else, and at the begin of functions."""

    def write_columns(self) -> None:
        """Writes the columns, before all else; those that have the name of a file's object with its own words."""
        columns = self.writer.columns
        columns.named(self.writer.spelling)
        given = self.column_values()
        path = next((unit.files[0] for unit, _ in self.writer.names.items if unit.files), "")
        self.writer.original, self.writer.closings = path, {}
        lines = [item.where.line for _, item in self.writer.names.items if item.where.file == path]
        self.writer.line = min(lines, default=1)
        self.writer.begin = (path, self.writer.line, len(columns.made))
        if not columns.made:
            return
        self.writer.file = self.writer.files.setdefault(path, File(path))
        for region in columns.made:
            self.writer.names.refusals.go(region.laid.coord)
            with self.writer.names.refusals.gathered():
                self.write_column(region, given)
        self.writer.begin = (path, self.writer.line, len(self.writer.file.pieces))

    def write_column(self, region: Region, given: dict[tuple[Variable, Path], dict[int, str]]) -> None:
        """Writes one column, an array for each integer of its elements. Raises Refused where its objects can't lie in
        one, or are too many."""
        column = region.laid
        if region.fault:
            raise Refused(*region.fault)
        self.writer.units.check_type(column)
        for leaf in c_types.leaves(column.type):
            if self.writer.columns.is_apart(region, leaf.path):
                continue
            values = [none_of(leaf)] * leaf.count
            for at, text in given.get((column, leaf.path), {}).items():
                values[at] = text
            if leaf.count > MOST_INDEX + 1:
                advice = f"at most {MOST_INDEX + 1}, of all objects together that one pointer meets"
                raise Refused(column.coord, f"{column.out} has {leaf.count} elements", advice)
            if leaf.count > MOST_ELEMENTS:
                name = self.writer.spelling.leaf(column, leaf.path)
                self.writer.emit(
                    self.writer.large.declared(name, leaf.kind, leaf.count, values, column.const, column.coord)
                )
                continue
            while len(values) > 1 and values[-1] == "0":
                values.pop()
            values = [f"{one}ul" if one.isdecimal() and int(one) >> 63 else one for one in values]
            first = "" if values == ["0"] else f" = {{{', '.join(values)}}}"
            words = "static const " if column.const else "static "
            self.writer.emit(
                f"{words}{leaf.kind.text} {self.writer.spelling.leaf(column, leaf.path)}[{leaf.count}]{first};"
            )

    def column_values(self) -> dict[tuple[Variable, Path], dict[int, str]]:
        """The first values that lie in columns, by the column, the members and the number of the element. Raises Refused for a
        struct as the first value of a part."""
        found: dict[tuple[Variable, Path], dict[int, str]] = {}
        for variable in [*self.writer.names.variables, *self.writer.columns.points.texts.values()]:
            if variable.init is None or variable.home in ("local", "parameter"):
                continue
            region = self.writer.columns.home(variable)
            if not self.writer.columns.in_column(variable) and not self.writer.columns.any_apart(region, variable.type):
                continue
            self.writer.names.refusals.go(variable.coord)
            with self.writer.names.refusals.gathered():
                if region is not None and region.root().raw:
                    self.writer.raw.check_whole(variable.type, variable.coord)
                made = filled(self.writer.constants, variable.type, variable.init)
                for _, _, source in made.wholes:
                    raise Refused(source.coord, "a struct as the first value of a part", "give its members one by one")
                for path, spot, node in made.integers():
                    self.first_value(self.writer.pointer_effects.placed(variable, path, spot), node, found)
        return found

    def first_value(
        self, place: Place, node: tree.Expression, found: dict[tuple[Variable, Path], dict[int, str]]
    ) -> None:
        """Puts one first value where its integer lies, if that is in a column. Raises Refused where it is no constant."""
        index, of = self.writer.elements.index(place, False), place.type
        if index is None or not isinstance(of, Int):
            return
        if self.writer.places.is_raw(place) and place.path and place.path[-1].startswith(FIELD):
            first, own = int(place.path[-1][len(FIELD) :]), found.setdefault((place.variable, ()), {})
            word = int(self.first_number(node, of)) % (1 << of.width) << first
            for byte in range(len(masks(of, first))):
                own[int(index.text) + byte] = str(int(own.get(int(index.text) + byte, "0")) | word >> (8 * byte) & 255)
        elif self.writer.places.is_raw(place) and place.path:
            first, count, more = c_types.PACKED[place.path[-1]]
            word, own = int(self.first_number(node, of)) + more, found.setdefault((place.variable, ()), {})
            own.update({int(index.text) + first + byte: str(word >> (8 * byte) & 255) for byte in range(count)})
        elif self.writer.places.is_raw(place):
            word = int(self.first_number(node, of))
            own = found.setdefault((place.variable, ()), {})
            own.update({int(index.text) + byte: str(word >> (8 * byte) & 255) for byte in range(of.bits // 8)})
        elif place.variable.home == "column":
            found.setdefault((place.variable, place.path), {})[int(index.text)] = self.first_number(node, of)

    def first_number(self, node: tree.Expression, kind: Int) -> str:
        """A first value as a number. Raises Refused where it is no constant."""
        if isinstance(node, Part):
            text = unmarked(self.writer.expressions.value(node).text)
            if not re.fullmatch(r"-?\d+", text):
                raise Refused(node.coord, "a first value that is no constant", "assign it")
            return text
        known = self.writer.constants.value(node)
        if known is None:
            raise Refused(node.coord, "a first value that is no constant", "give a number")
        return str(c_types.fit(known, kind))

    def into_columns(self, function: Function) -> None:
        """Writes that what parameters have goes into the columns in which they lie. Raises Refused for the address of
        what a copied parameter stands for."""
        for one in function.parameters:
            if isinstance(one.binding, Place) or one.binding == "lent":
                continue
            region, of = self.writer.columns.home(one), pointee(one)
            place = self.writer.places.of_variable(one)
            if place.variable.home != "column" and not self.writer.columns.any_apart(region, of):
                continue
            with self.writer.names.refusals.gathered():
                if one.is_bound and isinstance(one.type, Pointer):
                    self.writer.names.refusals.apart.add(key(one))
                    raise Refused(one.coord, f"the address of what {one.name} points to", "hand over the object itself")
                for leaf, texts in self.writer.pointer_effects.each_integer(
                    place, self.writer.elements.index(place, True) if place.shifted() else None
                ):
                    if place.variable.home == "column" or self.writer.columns.is_apart(region, leaf.path):
                        name = self.writer.spelling.leaf(one, leaf.path)
                        for at, text in enumerate(texts):
                            self.writer.emit(f"{text} = {name}{f'[{at}]' if leaf.dims else ''};")
