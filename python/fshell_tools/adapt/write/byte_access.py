"""Objects that stand as their bytes (6.2.6.1p4), little endian as gcc's x86-64 has them: where pointers to several types meet them, or a
union's members differ. An integer of more than a byte is read and set by two functions, whose calls the last step writes
(large_arrays.py); an access that isn't within its object becomes the index -1."""

from dataclasses import replace
from functools import partial
from typing import TYPE_CHECKING, Optional, Union

from fshell_tools.adapt.bind.initializers import Filled
from fshell_tools.adapt.bind.lvalues import FIELD, At, Level
from fshell_tools.adapt.bind.value_texts import PRIMARY, UNARY, Known, Value, minus, number, plus, times
from fshell_tools.adapt.common import c_types, tree
from fshell_tools.adapt.common.c_types import BEGIN, END, INDEX, MOST_INDEX, NIL, Int, Leaf, Pointer
from fshell_tools.adapt.common.objects import Place
from fshell_tools.adapt.common.refusals import Refused
from fshell_tools.adapt.names.value_ranges import SMALL, Range, within
from fshell_tools.adapt.write.component import Component
from fshell_tools.adapt.write.large_arrays import Large

if TYPE_CHECKING:
    from fshell_tools.adapt.write.writer import Writer

STEMS = {INDEX: "pointer", END: "pointer_end", BEGIN: "pointer_begin"}
WIDEST: Range = -(1 << 63), 1 << 64


def part(column: str, name: str, begin: Union[int, str]) -> str:
    """The text of a part of a pointer out of its bytes, which begin at a number, or at what a name says."""
    first, count, more = c_types.PACKED[name]
    texts = []
    for at in range(count):
        index = (
            str(begin + first + at) if isinstance(begin, int) else f"{begin} + {first + at}" if first + at else begin
        )
        texts.append(f"(unsigned int) {column}[{index}]{f' << {8 * at}' if at else ''}")
    return f"((int) ({' | '.join(texts)}){f' - {more}' if more else ''})"


def masks(kind: Int, first: int) -> list[int]:
    """The bits of a bit-field in each byte that it has a part of."""
    bits = ((1 << kind.width) - 1) << first
    return [bits >> 8 * at & 255 for at in range(-(-(first + kind.width) // 8))]


def field(column: str, kind: Int, first: int, begin: Union[int, str]) -> str:
    """The text of a bit-field out of its bytes, which begin at a number, or at what a name says."""
    count, texts = len(masks(kind, first)), []
    word = "unsigned long" if first + kind.width > 32 else "unsigned int"
    for at in range(count):
        index = str(begin + at) if isinstance(begin, int) else f"{begin} + {at}" if at else begin
        texts.append(f"({word}) {column}[{index}]{f' << {8 * at}' if at else ''}")
    bits = f"(({' | '.join(texts)}) >> {first})" if first else f"({' | '.join(texts)})"
    mask, sign = (1 << kind.width) - 1, 1 << (kind.width - 1)
    if not kind.below_zero:
        return f"({kind.text}) ({bits} & {hex(mask)})"
    return f"({kind.text}) ((int) (({bits} & {hex(mask)}) ^ {hex(sign)}) - {sign})"


def whole(column: str, kind: Int, begin: Union[int, str]) -> str:
    """The text of an integer out of its bytes, which begin at a number, or at what a name says."""
    word, parts = "unsigned long" if kind.bits == 64 else "unsigned int", []
    for at in range(kind.bits // 8):
        index = str(begin + at) if isinstance(begin, int) else f"{begin} + {at}" if at else begin
        parts.append(f"({word}) {column}[{index}]{f' << {8 * at}' if at else ''}")
    return f"({kind.text}) ({' | '.join(parts)})"


class Raw(Component):
    """What a writer does with such objects. `texts` has the functions, by what they are for."""

    def __init__(self, writer: "Writer") -> None:
        super().__init__(writer)
        self.texts: dict[tuple[str, str], str] = {}
        self.names: dict[tuple[str, str], str] = {}

    def array(self, place: Place) -> str:
        """The name of what has the integers of a place's kind: the column, or an array that there isn't."""
        kind, column = place.type, self.writer.spelling.leaf(place.variable, ())
        assert isinstance(kind, Int)
        if kind.bits == 8 and not place.path:
            return column
        own = place.path[-1] if place.path else ""
        if own.startswith(FIELD):
            return self.field(column, kind, int(own[len(FIELD) :]), bool(place.variable.const))
        key = (column, own or kind.text)
        if key not in self.names:
            name = self.writer.spelling.fresh(f"{column}_{STEMS[own] if own else self.letters(kind)}", True)
            self.names[key] = name
            fresh, const = self.writer.spelling.fresh, bool(place.variable.const)
            reads, sets = fresh(f"{name}_at", True), fresh(f"{name}_set", True)
            at = partial(part, column, own) if own else partial(whole, column, kind)
            self.writer.large.known[name] = Large(name, kind, 0, reads, sets, at)
            self.texts[key] = (
                self.part_functions(column, own, reads, sets, const)
                if own
                else self.functions(column, kind, reads, sets, const)
            )
        return self.names[key]

    @staticmethod
    def letters(kind: Int) -> str:
        """What the name of a kind is within names: its sign and its bits."""
        return f"{'i' if kind.signed else 'u'}{kind.bits}"

    def field(self, column: str, kind: Int, first: int, const: bool) -> str:
        """The name of what has the bit-fields of a kind that begin with a bit of their first byte."""
        key = (column, f"{FIELD}{first} {kind.width} {kind.below_zero}")
        if key not in self.names:
            fresh = self.writer.spelling.fresh
            name = fresh(f"{column}_{'i' if kind.below_zero else 'u'}{kind.width}_{first}", True)
            self.names[key], reads, sets = name, fresh(f"{name}_at", True), fresh(f"{name}_set", True)
            self.writer.large.known[name] = Large(name, kind, 0, reads, sets, partial(field, column, kind, first))
            i, v = ("at" if column == "i" else "i"), ("value" if column == "v" else "v")
            text = f"static {kind.text} {reads}(int {i}) {{ return {field(column, kind, first, i)}; }}"
            steps = []
            for at, mask in enumerate(masks(kind, first)):
                byte = f"{column}[{i}{f' + {at}' if at else ''}]"
                moved = f"{v} << {first}" if at == 0 and first else f"{v} >> {8 * at - first}" if 8 * at > first else v
                steps.append(
                    f"{byte} = {byte} & {255 - mask} | ({moved}) & {mask};" if mask < 255 else f"{byte} = {moved};"
                )
            sets_text = f" static void {sets}(int {i}, unsigned int {v}) {{ {' '.join(steps)} }}"
            self.texts[key] = text if const else text + sets_text
        return self.names[key]

    @staticmethod
    def part_functions(column: str, own: str, reads: str, sets: str, const: bool) -> str:
        """The functions that read and set a part of a pointer."""
        i, v = ("at" if column == "i" else "i"), ("value" if column == "v" else "v")
        text = f"static int {reads}(int {i}) {{ return {part(column, own, i)}; }}"
        first, count, more = c_types.PACKED[own]
        value = f"{v} + {more}" if more else v
        steps = [
            f"{column}[{i}{f' + {first + at}' if first + at else ''}] = {f'({value}) >> {8 * at}' if at else value};"
            for at in range(count)
        ]
        return text if const else f"{text} static void {sets}(int {i}, int {v}) {{ {' '.join(steps)} }}"

    @staticmethod
    def functions(column: str, kind: Int, reads: str, sets: str, const: bool) -> str:
        """The functions that read and set an integer of several bytes."""
        count = kind.bits // 8
        i, v = ("at" if column == "i" else "i"), ("value" if column == "v" else "v")
        text = f"static {kind.text} {reads}(int {i}) {{ return {whole(column, kind, i)}; }}"
        if const:
            return text
        steps = [
            f"{column}[{i}{f' + {at}' if at else ''}] = {v}{f' >> {8 * at}' if at else ''};" for at in range(count)
        ]
        return f"{text} static void {sets}(int {i}, {kind.text} {v}) {{ {' '.join(steps)} }}"

    def front(self) -> list[str]:
        """What stands in front of all else."""
        return list(self.texts.values())

    @staticmethod
    def check_whole(of: c_types.Type, at: Optional[tree.Coord]) -> None:
        """Refuses an object that is copied, or gets values, whole by its integers, which have not all of its bytes. Raises Refused
        then."""
        if c_types.has_others(of):
            cause = "a struct with a floating point number, which stands as its bytes, is copied or gets values whole"
            raise Refused(at, cause, "copy it by memcpy, or set its members")

    # ---- first values

    def is_bytes_alone(self, place: Place) -> bool:
        """Whether an object has a form as its bytes alone, since a union in it has no other one."""
        return self.writer.places.is_raw(place) and c_types.is_mixed(place.type)

    def first_bytes(self, made: Filled) -> list[str]:
        """The bytes that an object's first values give it; those without any are 0. Raises Refused for one of a bit-field."""
        found = ["0"] * (c_types.size(made.of_type) or 0)
        for spot, node in made.given.items():
            kind, begin = made.types[spot], made.offset(spot)
            if isinstance(kind, Pointer):
                for own, texts in self.pointer_bytes(node, kind).items():
                    first = begin + c_types.PACKED[own][0]
                    found[first : first + len(texts)] = texts
                continue
            assert isinstance(kind, Int)
            if kind.width:
                raise Refused(
                    node.coord, "a first value of a bit-field of a union that stands as its bytes", "assign it"
                )
            known = self.writer.constants.value(node)
            if known is None:
                value = self.writer.conversions.converted(self.writer.expressions.value(node), kind)
                name = self.writer.temporary(kind, value.text)
                texts = [f"{name} >> {8 * at}" if at else name for at in range(kind.bits // 8)]
            else:
                texts = [str(c_types.fit(known, kind) >> 8 * at & 255) for at in range(kind.bits // 8)]
            found[begin : begin + len(texts)] = texts
        return found

    def pointer_bytes(self, node: tree.Expression, of: Pointer) -> dict[str, list[str]]:
        """The bytes of a pointer's value, part by part."""
        found = {}
        for own, value in self.writer.pointers.pointer(node).items():
            _, count, more = c_types.PACKED[own]
            if own in of.region.parts():
                name = self.writer.temporary(c_types.INT, plus(value, Value(str(more), c_types.INT, PRIMARY)).text)
                found[own] = [f"{name} >> {8 * at}" if at else name for at in range(count)]
        return found

    def put_bytes(self, integers: list[tuple[Leaf, list[str]]], values: list[str]) -> None:
        """Writes that an object's bytes get values."""
        for _, texts in integers:
            for text, value in zip(texts, values):
                self.writer.emit(f"{text} = {value};")

    # ---- indexes

    def index(self, place: Place, stable: bool = False, checked: bool = True) -> Value:
        """The number of a place's first byte in its column; -1 where the place isn't within its object."""
        writer = self.writer
        tests: list[str] = []
        at = place.indexes[0][0] if len(place.indexes) == 1 and isinstance(place.indexes[0][0], At) else None
        base = Value("0", c_types.INT, PRIMARY)
        for node, length in place.shifted():
            one = writer.expressions.value(node)
            if not isinstance(node, (At, Level)):
                one = self.narrow(writer.elements.steady_value(one), tests, node)
            base = plus(times(base, length), one)
        if at is not None and at.tests is not None:
            tests += at.tests
        inner = Value(str(place.offset), c_types.INT, PRIMARY)
        for node, step in place.inside:
            inner = plus(
                inner,
                times(self.narrow(writer.elements.steady_value(writer.expressions.value(node)), tests, node), step),
            )
        total, size = plus(base, inner), c_types.size(place.type) or 1
        if place.path and place.path[-1].startswith(FIELD) and isinstance(place.type, Int):
            size = len(masks(place.type, int(place.path[-1][len(FIELD) :])))
        if at is not None and at.ends:
            last = plus(total, Value(str(size - 1), c_types.INT, PRIMARY))
            tests += [f"{last.within(8)} >= {at.ends[END].within(8)}"] if END in at.ends else []
            tests += [f"{total.within(8)} < {at.ends[BEGIN].within(8)}"] if BEGIN in at.ends else []
        elif place.whole and number(inner) is None and not within(self.inner_range(place), (0, place.whole - size)):
            tests.append(f"(unsigned int) ({inner.text}) > {place.whole - size}")
        if tests and checked:
            text = " | ".join([total.within(4), *(f"-({writer.elements.plain(one)})" for one in tests)])
            total = Value(text, c_types.INT, 3, calls=total.calls)
        if stable and number(total) is None:
            total = Value(writer.temporary(c_types.INT, total.text, "index"), c_types.INT, PRIMARY)
        return total

    def pointing(self, place: Place) -> dict[str, Value]:
        """A pointer to a place within an object, with the end and the begin of the whole object: those of the pointer by which the
        place is named, or those of the variable."""
        index = self.index(place, True, False)
        at = place.indexes[0][0] if len(place.indexes) == 1 and isinstance(place.indexes[0][0], At) else None
        if at is not None:
            return {INDEX: index, END: index, BEGIN: index, **(at.ends or {})}
        if place.region is None or place.region.parts() == [INDEX]:
            return {INDEX: index, END: index, BEGIN: index}
        begin = plus(index, minus(place.offset))
        if place.inside:
            begin = self.index(replace(place, inside=(), offset=0), True, False)
        return {INDEX: index, END: plus(begin, Value(str(place.whole), c_types.INT, PRIMARY)), BEGIN: begin}

    def inner_range(self, place: Place) -> Range:
        """Between which bytes of its object a place begins."""
        low = high = place.offset
        for node, step in place.inside:
            found = self.writer.ranges.of(node) or WIDEST
            low, high = low + found[0] * step, high + found[1] * step
        return low, high

    def narrow(self, value: Value, tests: list[str], node: tree.Expression) -> Value:
        """An index as an `int`, with the test that no array has it, unless its kinds and constants show it."""
        found = self.writer.ranges.of(node)
        if number(value) is None and (found is None or not within(found, SMALL)):
            low = value.kind.signed and value.kind.bits == 64
            text = f"(unsigned long) {value.within(UNARY)} + {-NIL} > {2 * MOST_INDEX + 1}"
            tests.append(text if low else f"{value.within(8)} > {MOST_INDEX}")
        if value.kind.bits == 64 and number(value) is None:
            return Value(f"(int) {value.within(UNARY)}", c_types.INT, UNARY, calls=value.calls)
        return value

    def known(self, place: Place, index: Value) -> Place:
        """The same place at a number that is known."""
        return replace(place, indexes=((Known(index, None), 1),), shift=0, inside=(), offset=0, whole=0)
