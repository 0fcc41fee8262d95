"""Some hundred small sources over the whole grammar, made by its rules, and how many items each has.

Each repetition of the grammar is made with none, one, two, three and four elements, and each choice is taken, by a
generator of fixed seed. The program must read every one of them: it refuses none for its tokens or its syntax (what they
mean is mostly refused later, since their names are declared nowhere), and with a bracket too many on a line behind, it
refuses that bracket. Where count_items is built, as rt ci leaves it, it must count the items of every one.
"""

import functools
import os
import random
import re
import subprocess
import tempfile
from collections.abc import Callable, Sequence
from typing import TypeVar

from tests import environment
from tests.parallel_groups import Outcome

T = TypeVar("T")

COUNT = 400
CHUNK = 50
LATER = re.compile(r"error (29|3\d|41|72) ")  # refused by its types, by its automaton's size, or since it has no edge
TYPES = [
    "int",
    "char",
    "signed char",
    "short",
    "unsigned short int",
    "long",
    "long long",
    "long unsigned int long",
    "unsigned",
    "int8_t",
    "uint64_t",
    "size_t",
]
INFIX = [
    ["||"],
    ["&&"],
    ["|"],
    ["^"],
    ["&"],
    ["==", "!="],
    ["<", "<=", ">", ">="],
    ["<<", ">>"],
    ["+", "-"],
    ["*", "/", "%"],
]
ASSIGN = ["=", "+=", "-=", "*=", "/=", "%=", "<<=", ">>=", "&=", "^=", "|="]
NUMBERS = ["0", "7", "017", "0x1f", "1u", "2L", "3ull", "'a'", "'\\n'", "4294967296", "00"]


class Grammar:
    """Texts of the grammar of docs/C_PROFILE.md that are drawn, each of its methods the rule of its name."""

    def __init__(self, seed: int) -> None:
        self.random = random.Random(seed)

    def one(self, of: Sequence[T]) -> T:
        """One of some things."""
        return self.random.choice(of)

    def some(self, make: Callable[[], str], least: int = 0) -> list[str]:
        """So many things of one rule, none to four beside the least number."""
        return [make() for _ in range(self.one([0, 1, 2, 3, 4]) + least)]

    def perhaps(self, make: Callable[[], str]) -> str:
        """A thing of a rule, or nothing."""
        return make() if self.random.random() < 0.5 else ""

    def name(self) -> str:
        """An identifier of one letter and perhaps a digit or `_q` (C11 6.4.2), so that some stand several times."""
        return self.one("abcxyz") + self.one(["", "1", "_q"])

    # ---- expressions

    def choice(self, depth: int = 2) -> str:
        """An expression with `?:`, so deep at most."""
        if depth > 0 and self.random.random() < 0.2:
            return f"{self.level(0, depth - 1)} ? {self.choice(depth - 1)} : {self.choice(depth - 1)}"
        return self.level(0, depth)

    def level(self, level: int, depth: int) -> str:
        """An expression of the operators that bind as strongly as those of a row of INFIX, from 0, or more strongly."""
        if level == len(INFIX):
            return self.unary(depth)
        parts = [self.level(level + 1, depth)]
        if depth > 0 and self.random.random() < 0.12:
            for _ in range(self.one([1, 2, 3])):
                parts += [self.one(INFIX[level]), self.level(level + 1, depth - 1)]
        return " ".join(parts)

    def unary(self, depth: int) -> str:
        """An operand with signs before it."""
        if depth > 0 and self.random.random() < 0.25:
            mark = self.one(["+", "-", "~", "!", f"({self.one(TYPES)})"])
            return f"{mark} {self.unary(depth - 1)}"
        return self.primary(depth)

    def primary(self, depth: int) -> str:
        """A number, a name, an element, a call or brackets."""
        form = self.one(["number", "name", "element", "call", "parens"]) if depth > 0 else self.one(["number", "name"])
        if form == "number":
            return self.one(NUMBERS)
        if form == "name":
            return self.name()
        if form == "element":
            return f"{self.name()}[{self.choice(depth - 1)}]"
        if form == "call":
            return f"{self.name()}({', '.join(self.some(lambda: self.choice(depth - 1)))})"
        return f"({self.choice(depth - 1)})"

    # ---- declarations

    def declarator(self) -> str:
        """A name with its length and first values."""
        length = self.perhaps(lambda: f"[{self.choice(1)}]")
        last = self.perhaps(lambda: ",")
        first = self.one(
            ["", f" = {self.choice(1)}", f" = {{{', '.join(self.some(lambda: self.choice(1), 1))}{last}}}"]
        )
        return self.name() + length + first

    def declarators(self) -> str:
        """One or more, with commas between, up to the `;`."""
        return ", ".join(self.some(self.declarator, 1)) + ";"

    def consts(self) -> str:
        """Words `const`, perhaps none."""
        return "const " * self.one([0, 0, 1, 3])

    def local(self) -> str:
        """A variable of a block."""
        return f"{self.consts()}{self.one(TYPES)} {self.declarators()}"

    # ---- statements

    def place(self) -> str:
        """A variable, or an element of an array, to which a value is assigned."""
        return self.name() + self.perhaps(lambda: f"[{self.choice(1)}]")

    def simple(self) -> str:
        """An assignment, a step or a call."""
        return self.one(
            [
                f"{self.place()} {self.one(ASSIGN)} {self.choice()}",
                f"{self.place()}{self.one(['++', '--'])}",
                f"{self.one(['++', '--'])}{self.place()}",
                f"{self.name()}({', '.join(self.some(self.choice))})",
            ]
        )

    def body(self, depth: int) -> str:
        """Statements and variables."""

        def part() -> str:
            makers: list[Callable[[], str]] = [self.local, lambda: self.statement(depth)]
            return self.one(makers)()

        return " ".join(self.some(part))

    def block(self, depth: int) -> str:
        """A compound statement, whose statements have others within them, so deep at most."""
        return f"{{ {self.body(depth)} }}"

    def labels(self) -> str:
        """One or more `case` and `default` in a row, as they stand before a group of a `switch`."""
        return " ".join(self.some(lambda: self.one([f"case {self.choice(1)}:", "default:"]), 1))

    def groups(self, depth: int) -> str:
        """What stands in the braces of a `switch`: labels with statements behind them, and perhaps labels alone."""
        groups = self.some(lambda: f"{self.labels()} {self.statement(depth)} {self.body(depth)}")
        return " ".join(groups) + self.perhaps(lambda: " " + self.labels())

    def statement(self, depth: int) -> str:
        """A statement with others within it, so deep at most."""
        if depth == 0:
            return self.one(
                [
                    ";",
                    f"{self.simple()};",
                    "break;",
                    "continue;",
                    "return;",
                    f"return {self.choice()};",
                    f"assert({self.choice()});",
                    f"assume({self.choice()});",
                    "{}",
                ]
            )
        inner = depth - 1
        form = self.one(["leaf", "block", "if", "while", "do", "for", "switch", "label"])
        if form == "block":
            return self.block(inner)
        if form == "if":
            arms = "".join(f" else if ({self.choice()}) {self.block(inner)}" for _ in range(self.one([0, 1, 2, 3, 4])))
            last = self.perhaps(lambda: f" else {self.statement(inner)}")
            return f"if ({self.choice()}) {self.block(inner)}{arms}{last}"
        if form == "while":
            return f"while ({self.choice()}) {self.statement(inner)}"
        if form == "do":
            return f"do {self.statement(inner)} while ({self.choice()});"
        if form == "for":
            first = self.one([";", f"{self.simple()};", self.local()])
            return f"for ({first} {self.perhaps(self.choice)}; {self.perhaps(self.simple)}) {self.statement(inner)}"
        if form == "switch":
            return f"switch ({self.choice()}) {{ {self.groups(inner)} }}"
        if form == "label":
            return f"{self.name()}: {self.statement(inner)}"
        return self.statement(0)

    # ---- items

    def parameter(self) -> str:
        """What declares a parameter, with or without a name, or an array."""
        named = self.perhaps(lambda: self.name() + self.perhaps(lambda: f"[{self.choice(1)}]"))
        return f"{self.consts()}{self.one(TYPES)} {named}"

    def item(self) -> str:
        """A function, variables or constants."""
        before = " ".join(self.some(lambda: self.one(["static", "const"])))
        form = self.one(["function", "function", "variables", "constants"])
        if form == "variables":
            return f"{before} {self.one(TYPES)} {self.declarators()}"
        if form == "constants":
            constants = ", ".join(self.some(lambda: self.name() + self.perhaps(lambda: f" = {self.choice(1)}"), 1))
            last = self.perhaps(lambda: ",")
            return f"enum {self.perhaps(self.name)} {{ {constants}{last} }};"
        parameters = self.one(["void", ", ".join(self.some(self.parameter))])
        end = self.one([";", self.block(3)])
        more = " ".join(self.some(lambda: self.one(["extern", "inline"])))
        return f"{before} {more} {self.one(TYPES + ['void'])} {self.name()}({parameters}) {end}"


def source(number: int) -> tuple[str, int]:
    """A source with the number of its items; the last one has as many tokens as are allowed, but for a few."""
    if number == COUNT:
        return "int f(void) { return 1; }\n" * 18_000 + "int x;\n" * 6_000, 24_000
    grammar = Grammar(number)
    items = grammar.some(grammar.item)
    return "\n".join(items) + "\n", len(items)


def answer(program: str, folder: str, name: str) -> tuple[int, str]:
    """What the program answers of a source: its status and its line on standard error."""
    ended = subprocess.run([program, "goals", "cover EDGES(ID)", name], cwd=folder, capture_output=True, text=True)
    return ended.returncode, ended.stderr.strip()


def fault(program: str, folder: str, source: str) -> str | None:
    """What is wrong with the answers of a source, and of the source with a bracket too many on a line behind, if anything is."""
    for name, text in (("a.c", source), ("b.c", source + ")\n")):
        with open(os.path.join(folder, name), "w") as file:
            file.write(text)
    status, line = answer(program, folder, "a.c")
    if status and not LATER.match(line):
        return f"status {status} {line}"
    line = answer(program, folder, "b.c")[1]
    due = f"error 20 Syntax b.c:{source.count(chr(10)) + 1}"
    return None if line == due else f"with a bracket too many: {line}, not {due}"


def counts(folder: str, sources: list[str]) -> list[str]:
    """What count_items says of each source."""
    names = [f"{number}.c" for number in range(len(sources))]
    for name, source in zip(names, sources):
        with open(os.path.join(folder, name), "w") as file:
            file.write(source)
    lines = subprocess.run([environment.COUNT_ITEMS, *names], cwd=folder, capture_output=True, text=True).stdout.split(
        "\n"
    )
    return lines + [""] * len(names)


def tried(numbers: Sequence[int]) -> Outcome:
    """The number of sources, and a line for each that isn't read, or whose items aren't counted."""
    made, program = [source(number) for number in numbers], environment.program()
    with tempfile.TemporaryDirectory() as folder:
        found = [fault(program, folder, source) for source, _ in made]
        if os.path.exists(environment.COUNT_ITEMS):
            lines = counts(folder, [source for source, _ in made])
            found = [
                fault or (None if line == str(count) else f"{line} items, not {count}")
                for fault, line, (_, count) in zip(found, lines, made)
            ]
    return len(made), [f"corpus: source {number}: {wrong}" for number, wrong in zip(numbers, found) if wrong]


def parts() -> list[Callable[[], Outcome]]:
    """The sources, in rows, a part each."""
    return [
        functools.partial(tried, range(first, min(first + CHUNK, COUNT + 1))) for first in range(0, COUNT + 1, CHUNK)
    ]
