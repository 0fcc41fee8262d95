"""Writes the calls of the library's functions on memory and strings: each by its model (models.py), once for each pair of columns that
calls meet."""

import re
from typing import TYPE_CHECKING, Union

from fshell_tools.adapt.bind.initializers import none_of
from fshell_tools.adapt.bind.lvalues import arguments
from fshell_tools.adapt.bind.value_texts import PRIMARY, UNARY, Value, plus, times
from fshell_tools.adapt.common import c_types, tree
from fshell_tools.adapt.common.c_types import BEGIN, END, INDEX, NIL, Int, Pointer, Region, Struct
from fshell_tools.adapt.common.output import unmarked
from fshell_tools.adapt.common.refusals import Refused
from fshell_tools.adapt.names.value_ranges import within
from fshell_tools.adapt.points_to.models import WHOLE, Model, element_count, letter
from fshell_tools.adapt.write.component import Component

if TYPE_CHECKING:
    from fshell_tools.adapt.write.writer import Writer

ACCESS = re.compile(r"\$([ab])\[([^\]]+)\]")
SET = re.compile(r"\$([ab])\[([^\]]+)\] = (?:\$([ab])\[([^\]]+)\]|([$\w]+));")
OWN = re.compile(
    r"\b(a|b|c|i|j|n|last)\b"
)  # the names of models; `$` stands before them until they have their own ones
OPEN = "\x04"  # the bracket of an access that is written already
EACH = re.compile(
    r"for \(int i = 0; i < n; i\+\+\) \{ ([^{}]*;) \}(?: return a;)?"
)  # a model that does the same with each element
MOST_LEAVES = 256  # the statements that set an element
MOST_STRAIGHT = 16  # the integers that a call, or those of an array within an element, sets without a loop


class Written:
    """One model for the regions of its pointers."""

    def __init__(self, model: Model, name: str, regions: dict[str, Region], own: "ModelCalls", count: str) -> None:
        self.model, self.name, self.regions, self.count = model, name, regions, count
        self.leaf, self.names = own.model_leaf, own.model_word

    def text(self) -> str:
        """What is written of a model for the regions of one call: its head, with integers for pointers, and its body."""
        heads = []
        for one in self.model.parameters:
            at = letter(one)
            if "*" in one:
                heads += [f"int ${at}{'_' + part[1:] if part != INDEX else ''}" for part in self.regions[at].parts()]
            else:
                heads.append(f"{self.count} $n" if at == "n" else "int $c")
        result = "int" if self.model.gives_pointer else "size_t" if "size_t" in self.model.result else "int"
        body = SET.sub(self.set_elements, OWN.sub(r"$\1", self.model.body))
        body = ACCESS.sub(lambda found: self.access(found.group(1), found.group(2), ()), body)
        body = body.replace("$i < $n", f"({self.count}) $i < $n").replace("NULL", str(NIL)).replace(OPEN, "[")
        whole = f"static {result} {self.name}({', '.join(heads)}) {{ {body} }}"
        return re.sub(r"\$(\w+)", lambda found: self.names(found.group(1)), whole)

    def line(self, given: dict[str, str], at: int) -> str:
        """What a model does with one element, by its number, where these texts stand for its names."""
        found = EACH.fullmatch(self.model.body)
        assert found
        text = SET.sub(self.set_elements, OWN.sub(r"$\1", found[1]).replace("$i", str(at))).replace(OPEN, "[")
        return re.sub(r"\$(\w+)", lambda word: given[word[1]], text)

    def access(self, at: str, index: str, path: tuple[str, ...], element: str = "0") -> str:
        """The text of an element, which is -1's where it lies outside of its object. `element` is the number of one of its integers, or
        the name of what counts these."""
        whole, parts = f"${at} + {index}" if index != "0" else f"${at}", self.regions[at].parts()
        tests = [f" | -({whole} >= ${at}_e)"] * (END in parts) + [f" | -({whole} < ${at}_b)"] * (BEGIN in parts)
        name, factor, add = self.leaf(self.regions[at], path)
        checked = Value(f"{whole}{''.join(tests)}", c_types.INT, 3 if tests else PRIMARY if index == "0" else 9)
        known = int(element) if element.isdecimal() else 0
        checked = plus(times(checked, factor), Value(str(add + known), c_types.INT, PRIMARY))
        if not element.isdecimal():
            checked = plus(checked, Value(element, c_types.INT, PRIMARY))
        return f"{name}{OPEN}{checked.text}]"

    def set_elements(self, found: "re.Match[str]") -> str:
        """The text that sets an element, integer by integer."""
        to, index, of, other, value = found.groups()
        elem, made = self.regions[to].type, []
        if isinstance(elem, Int):
            right = self.access(of, other, ()) if of else f"({elem.text}) {value}" if value == "$c" else value
            return f"{self.access(to, index, ())} = {right};"
        for leaf in c_types.leaves(elem):
            few = leaf.count <= MOST_STRAIGHT
            for at in [str(number) for number in range(leaf.count)] if few else ["$k"]:
                right = self.access(of, other, leaf.path, at) if of else none_of(leaf)
                text = f"{self.access(to, index, leaf.path, at)} = {right};"
                made.append(text if few else f"for (int $k = 0; $k < {leaf.count}; $k++) {{ {text} }}")
        return " ".join(made)


class ModelCalls(Component):
    """What a writer does with calls of the library's functions. `written_models` has each by its name and columns."""

    def __init__(self, writer: "Writer") -> None:
        super().__init__(writer)
        self.written_models: dict[tuple[Union[str, Region], ...], tuple[str, str]] = {}
        self.model_words: dict[str, str] = {}

    def model_parts(self, node: tree.FuncCall, model: Model) -> dict[str, Value]:
        """The call of a model, with what else a pointer that it gives has: that of its first argument."""
        self.writer.order.unsequenced(node, arguments(node))
        texts: list[str] = []
        first: dict[str, Value] = {}
        regions: dict[str, Region] = {}
        for argument, parameter in zip(arguments(node), model.parameters):
            if "*" in parameter:
                regions[letter(parameter)] = region = self.model_region(argument)
                parts = {
                    name: self.writer.elements.steady_value(one)
                    for name, one in self.writer.pointers.pointer(argument).items()
                }
                texts += [parts[name].text for name in region.parts()]
                first = first or parts
        count = "unsigned int"
        for argument, parameter in zip(arguments(node), model.parameters):
            if "*" not in parameter:
                value, count = self.number_argument(argument, letter(parameter), regions["a"], model, count)
                texts.append(value)
        text = f"{self.writer.at(node)}{self.model_name(node, model, regions, count)}({', '.join(texts)})"
        return {**first, INDEX: Value(text, c_types.INT, PRIMARY, calls=True)}

    def straight(self, node: tree.FuncCall, model: Model) -> bool:
        """Writes a call of a constant number without a loop, where it sets 16 integers at most; whether it is one whose model does
        the same with each element."""
        given = dict(zip((letter(one) for one in model.parameters), arguments(node)))
        pointers = [letter(one) for one in model.parameters if "*" in one]
        if not EACH.fullmatch(model.body) or self.writer.constants.value(given["n"]) is None:
            return False
        regions = {at: self.model_region(given[at]) for at in pointers}
        elem = regions["a"].type
        count, rest = divmod(self.writer.constants.value(given["n"]) or 0, c_types.size(elem) or 1)
        leaves = 1 if isinstance(elem, Int) else sum(leaf.count for leaf in c_types.leaves(elem))
        if rest or count * leaves > MOST_STRAIGHT:
            return False
        self.number_argument(given["n"], "n", regions["a"], model, "")
        self.writer.order.unsequenced(node, arguments(node))
        names = self.names_of(given, regions, model)
        made = Written(model, "", regions, self, "")
        for number in range(count):
            self.writer.emit(made.line(names, number))
        return True

    def names_of(self, given: dict[str, tree.Expression], regions: dict[str, Region], model: Model) -> dict[str, str]:
        """The texts that stand for a model's parameters, each of which may be named often."""
        names = dict[str, str]()
        for at, argument in given.items():
            if at in regions:
                parts = self.writer.pointers.pointer(argument)
                for part in regions[at].parts():
                    names[at if part == INDEX else f"{at}_{part[1:]}"] = self.named(parts[part], "index")
            elif at != "n":
                text, _ = self.number_argument(argument, at, regions["a"], model, "")
                names[at] = self.named(Value(text, c_types.INT, 0), "value")
        return names

    def named(self, value: Value, stem: str) -> str:
        """The text of a value that may be named often: a name, a number, or a local that is written for it."""
        text = unmarked(value.text)
        return text if re.fullmatch(r"-?\w+", text) else self.writer.temporary(c_types.INT, value.text, stem)

    def number_argument(
        self, node: tree.Expression, at: str, region: Region, model: Model, count: str
    ) -> tuple[str, str]:
        """An argument that is no pointer, with the type of the number of elements. Raises Refused for bytes of what
        has none, and for a constant number of them that is no whole number of elements."""
        if at != "n":
            narrow = isinstance(region.elem, Int) and region.elem.bits == 8
            if model.name == "memset" and not narrow and self.writer.constants.value(node) != 0:
                raise Refused(node.coord, "memset of what is no array of bytes", "assign the elements")
            return self.writer.expressions.value(node).text, count
        size = c_types.size(region.type)
        if size is None or (not isinstance(region.elem, Int) or region.elem.bits != 8) and model.name not in WHOLE:
            raise Refused(node.coord, f"{model.name} of what are no bytes", "use the elements")
        try:
            whole = element_count(self.writer.constants, node, size)
        except Refused:  # (a part of an element, which is no whole number of them, ends the run)
            if self.writer.constants.value(node) is not None:
                raise
            given = self.writer.elements.steady_value(self.writer.expressions.value(node))
            text = given.within(UNARY)
            return f"{text} / {size} | -({text} % {size} != 0)", "size_t"
        if isinstance(whole, int):
            return str(whole), count
        if whole is node or not self.may_wrap(node, whole, size):
            value = self.writer.expressions.value(whole)
            return value.text, "unsigned int" if value.kind.bits <= 32 else "size_t"
        return self.wrapped(node, whole, size)

    def may_wrap(self, node: tree.Expression, factor: tree.Expression, size: int) -> bool:
        """Whether a number of bytes, which is a factor times a size, may be cut in its unsigned type or by a cast (6.2.5p9, 6.3.1.3p2)."""
        bits, cut = self.bits_of(node)
        found, plain, of_type = self.writer.ranges.of(factor), factor, self.writer.constants.type_of
        while isinstance(plain, tree.Cast) and isinstance(of_type(plain), Int) and isinstance(of_type(plain.expr), Int):
            if c_types.size(of_type(plain)) != c_types.size(c_types.SIZE):
                break
            plain = plain.expr
        of = of_type(plain)
        if found is not None and within(found, (0, ((1 << bits - (not cut)) - 1) // size)):
            return False
        narrow = isinstance(of, Int) and of.bits <= 32
        return not (bits == 64 and narrow) and (cut or not narrow or bits < 64)

    def bits_of(self, node: tree.Expression) -> tuple[int, bool]:
        """In how many bits a product is reckoned, through its casts, and whether it may wrap there: a signed one may not (6.5p5)."""
        bits, cut, constants = 64, False, self.writer.constants
        while isinstance(node, tree.Cast):
            to = self.writer.names.types.get(node.to_type)
            bits, node = min(bits, to.bits if isinstance(to, Int) else 64), node.expr
            cut = cut or bits < 64
        of = constants.type_of(node)
        if isinstance(of, Int):
            cut = cut and bits < of.bits or not of.signed
            bits = min(bits, of.bits)
        return bits, cut

    def wrapped(self, node: tree.Expression, factor: tree.Expression, size: int) -> tuple[str, str]:
        """The number of elements of a product that may wrap: the factor's last bits where the size is a power of two, else the product
        divided; a number of bytes that is no whole number of elements ends the run."""
        bits, _ = self.bits_of(node)
        of = self.writer.constants.type_of(node)
        if size & (size - 1) == 0 and isinstance(of, Int) and not of.signed:
            value, mask = self.writer.expressions.value(factor), (1 << bits) // size - 1
            kind = "unsigned int" if bits <= 32 else "size_t"
            return f"({kind}) {value.within(UNARY)} & {hex(mask)}{'u' if bits <= 32 else 'ul'}", kind
        given = self.writer.elements.steady_value(self.writer.expressions.value(node))
        text = f"(size_t) {given.within(UNARY)}"
        return f"{text} / {size} | -({text} % {size} != 0)", "size_t"

    def model_region(self, node: tree.Expression) -> Region:
        """The region of a pointer that a model gets. Raises Refused where its objects aren't known, or are large."""
        of = self.writer.columns.pointer(node)
        region = of.region.root()
        fault = region.fault
        if fault:
            raise Refused(node.coord, fault[1], fault[2])
        leaves = list(c_types.leaves(region.type)) if isinstance(region.elem, (Int, Struct, Pointer)) else []
        texts = sum(leaf.count if leaf.count <= MOST_STRAIGHT else 1 for leaf in leaves)
        if region.column is None or not leaves or texts > MOST_LEAVES:
            raise Refused(node.coord, "memory whose objects aren't known, or are large", "assign the elements")
        return region

    def model_leaf(self, region: Region, path: tuple[str, ...]) -> tuple[str, int, int]:
        """Where an integer of a region's elements lies: its array, the factor of an element's number, and what is
        added."""
        variable, inside, factor, add = self.writer.columns.leaf_at(region, path)
        return self.writer.spelling.leaf(variable, inside), factor, add

    def model_word(self, word: str) -> str:
        """A name within models that nothing else has."""
        if word not in self.model_words:
            self.model_words[word] = self.writer.spelling.fresh(word)
        return self.model_words[word]

    def model_name(self, node: tree.FuncCall, model: Model, regions: dict[str, Region], count: str) -> str:
        """The name of a model for some regions, which is written with its first call."""
        key: tuple[Union[str, Region], ...] = (model.name, *regions.values(), count)
        if key not in self.written_models:
            name = self.writer.spelling.fresh(model.name)
            made = Written(model, name, regions, self, count)
            self.written_models[key] = (name, made.text())
        return self.written_models[key][0]
