"""Writes the caller of a function: objects that are filled by input functions, and calls, one or several in a row."""

from dataclasses import dataclass, field
from typing import Any

from fshell_tools.driver.types import Array, Int, Pointer, Struct, Type, Types, Unfit, Void, declared, parts

LENGTHS = ("n", "len", "length", "size", "count", "num")


@dataclass(frozen=True)
class Wanted:
    """What is asked of a driver: the function, how many times it is called (`steps`, 1 to 999), the function that is
    called first (or nothing), variables that are set before, the number of elements of pointers by their parameters'
    names, and that of a pointer that isn't named."""

    function: str
    steps: int = 1
    init: str = ""
    state: tuple[str, ...] = ()
    lengths: dict[str, int] = field(default_factory=dict)
    length: int = 4


@dataclass
class Text:
    """The parts of the file that grow while the function is written: the types of the input functions (`answers`, by
    their names), declarations of static `objects`, and the caller's own `parameters`."""

    answers: dict[str, str] = field(default_factory=dict)
    objects: list[str] = field(default_factory=list)
    parameters: list[str] = field(default_factory=list)

    def answer(self, name: str, found: Int) -> str:
        """The expression that gives an answer of an input function of this type; the function is declared. Where the
        name stands for another type already, it gets _2 at its end."""
        if self.answers.setdefault(name, found.answer) != found.answer:
            return self.answer(name + "_2", found)
        return found.given(name)

    def fill(self, found: Type, place: str, name: str) -> list[str]:
        """The statements that fill an object, an assignment for each of its integers; `place` is how C writes the
        object, `name` the words of its input functions' names. Raises Unfit as `parts` does."""
        return [f"{part} = {self.answer(f'in_{word}', one)};" for part, one, word in parts(found, place, name)]


@dataclass(frozen=True)
class Parameter:
    """A parameter of a function; one without a name in its declaration is argumentN, from 0."""

    name: str
    type: Type


def parameters(types: Types, decl: Any) -> list[Parameter]:
    """The parameters of a function's declaration in their order; none for (void). Raises Unfit for variable arguments
    (C11 6.7.6.3), and for types that can't be filled."""
    listed = decl.type.args.params if decl.type.args else []
    found = []
    for number, one in enumerate(listed):
        if type(one).__name__ == "EllipsisParam":
            raise Unfit("variable arguments")
        made = types.parameter(one)
        if not isinstance(made, Void):
            found.append(Parameter(one.name or f"argument{number}", made))
    return found


def is_length(one: Parameter) -> bool:
    """Whether a parameter is an integer whose name has a word for a number of elements: n, len, length, size, count or
    num."""
    words = one.name.lower().replace("-", "_").split("_")
    return isinstance(one.type, Int) and any(word in LENGTHS for word in words)


class Caller:
    """Writes the caller of a function: its parameters and result, those of the function that is called first, and the
    variables that are set before. Raises Unfit where one has a type that can't be filled."""

    def __init__(self, types: Types, wanted: Wanted, step: Any, init: Any, variables: dict[str, Any]) -> None:
        self.wanted, self.text = wanted, Text()
        self.step = parameters(types, step)
        self.result = types.of(step.type.type)
        self.init = parameters(types, init) if init is not None else []
        self.state = [(name, types.of(variables[name].type)) for name in wanted.state]
        shared = [one.type.target for one in self.init if isinstance(one.type, Pointer)]
        self.shared = [target for target in shared if isinstance(target, Struct)]

    def object(self, name: str, found: Type) -> str:
        """The name of a static object of the driver, which is declared once. Raises Unfit for a pointer."""
        made = f"drive_{self.wanted.function}_{name}"
        line = f"static {declared(found, made)};"
        if line not in self.text.objects:
            self.text.objects.append(line)
        return made

    def length_of(self, one: Parameter, after: Parameter | None) -> int:
        """How many elements the object behind a pointer has: as --length says, or 4 (`wanted.length`) where it leads to
        integers and the parameter `after` it has the name of a length; 0 where it leads to one object alone."""
        if one.name in self.wanted.lengths:
            return self.wanted.lengths[one.name]
        is_row = isinstance(one.type, Pointer) and isinstance(one.type.target, Int)
        return self.wanted.length if is_row and after is not None and is_length(after) else 0

    def arguments(self, listed: list[Parameter], is_step: bool) -> tuple[list[str], list[str]]:
        """The statements before a call, and its arguments, in the order of the parameters. A parameter that has the
        name of a length, behind an array, gets a value up to the array's length. Raises Unfit where one can't be
        filled."""
        before: list[str] = []
        made: list[str] = []
        limit = 0
        for at, one in enumerate(listed):
            after = listed[at + 1] if at + 1 < len(listed) else None
            if isinstance(one.type, Int):
                made.append(self.integer(one, one.type, is_step, limit if is_length(one) else 0))
                continue
            lines, argument, limit = self.whole(one, after)
            before += lines
            made.append(argument)
        return before, made

    def integer(self, one: Parameter, found: Int, is_step: bool, limit: int) -> str:
        """The argument for an integer: a parameter of the driver, or in a row of calls (`is_step` and several steps)
        the answer of an input function. With a `limit` above 0 it is from 0 to that."""
        if is_step and self.wanted.steps > 1:
            value = self.text.answer(f"in_{one.name}", found)
        else:
            name = one.name
            taken = [word.split()[-1] for word in self.text.parameters]
            name = f"{self.wanted.init}_{name}" if name in taken and not is_step else name
            if name not in taken:
                self.text.parameters.append(f"{found.answer} {name}")
            value = f"({found.text}) ({name} % {found.count}u)" if found.count else name
        return f"({found.text}) ((unsigned long) {value} % {limit + 1}u)" if limit else value

    def whole(self, one: Parameter, after: Parameter | None) -> tuple[list[str], str, int]:
        """The statements that fill an object for a parameter, the argument, and the object's number of elements, 0
        where it is no array. Raises Unfit for void, and as `pointed` does."""
        if isinstance(one.type, (Array, Struct)):
            name = self.object(one.name, one.type)
            length = one.type.length if isinstance(one.type, Array) else 0
            return self.text.fill(one.type, name, one.name), name, length
        if isinstance(one.type, Pointer):
            return self.pointed(one, one.type.target, self.length_of(one, after))
        raise Unfit(f"{one.name} is nothing that can be filled")

    def pointed(self, one: Parameter, target: Type, length: int) -> tuple[list[str], str, int]:
        """The same for a pointer to `target`: to an array of `length` elements, to the state that the first function
        made where it has a struct of this type, or to one object. Raises Unfit for a pointer to void or to a pointer.
        """
        if isinstance(target, (Void, Pointer)):
            raise Unfit(f"{one.name} is a pointer to {'void' if isinstance(target, Void) else 'a pointer'}")
        if length:
            found = Array(target, length)
            name = self.object(one.name, found)
            return self.text.fill(found, name, one.name), name, length
        if target in self.shared:
            return [], f"&{self.object('state', target)}", 0
        name = self.object(one.name, target)
        return self.text.fill(target, name, one.name), f"&{name}", 0

    def body(self) -> list[str]:
        """The statements of the driver: the first function's call, the variables that are set, and the calls. Raises
        Unfit where something can't be filled."""
        lines: list[str] = []
        if self.wanted.init:
            before, made = self.arguments(self.init, False)
            lines += [*before, f"{self.wanted.init}({', '.join(made)});"]
        for name, found in self.state:
            lines += self.text.fill(found, name, name)
        before, made = self.arguments(self.step, True)
        call = f"{self.wanted.function}({', '.join(made)})"
        return lines + self.calls(before, call)

    def calls(self, before: list[str], call: str) -> list[str]:
        """The statements of one call, or of several in a row (with `before` in front of each). What the last one gives
        is returned; a struct is kept in an object. Raises Unfit where the result is a pointer."""
        is_one = self.wanted.steps == 1
        if isinstance(self.result, Int):
            if is_one:
                return [*before, f"return {call};"]
            head, kept, tail = ([f"{self.result.text} result = 0;"], f"result = {call};", ["return result;"])
        elif isinstance(self.result, Struct):
            head, kept, tail = [], f"{self.object('result', self.result)} = {call};", []
        elif isinstance(self.result, Void):
            head, kept, tail = [], f"{call};", []
        else:
            raise Unfit("its result is a pointer")
        if is_one:
            return [*before, kept]
        loop = [f"for (int step = 0; step < {self.wanted.steps}; step++) {{"]
        return head + loop + [f"  {line}" for line in (*before, kept)] + ["}"] + tail

    def function(self) -> list[str]:
        """The driver's lines: declarations of input functions, objects, and the function drive_FUNCTION. Raises Unfit
        where something can't be filled."""
        body = self.body()
        result = self.result.text if isinstance(self.result, Int) else "void"
        head = f"{result} drive_{self.wanted.function}({', '.join(self.text.parameters) or 'void'})"
        answers = [f"{found} {name}(void);" for name, found in self.text.answers.items()]
        blocks = [answers, self.text.objects, [head, "{", *(f"  {line}" if line else "" for line in body), "}"]]
        return [line for block in blocks if block for line in ("", *block)]
