"""Random small programs of the profile with many calls in their expressions."""

import random as randoms
from typing import TypeVar

Array = tuple[str, int]  # a name and a length
Function = tuple[
    str, int, list[Array], tuple[set[str], set[str]], bool
]  # .. what it may read and write, whether it reads inputs
One = TypeVar("One")


def last_of(name: str) -> bool:
    """Whether a function is the entry."""
    return name == "k"


class Programs:
    """Programs that are drawn, by a source of random numbers."""

    def __init__(self, random: randoms.Random) -> None:
        self.r = random
        self.scalars: list[str] = []
        self.arrays: list[Array] = []
        self.inputs: list[str] = []
        self.functions: list[Function] = []
        self.busy, self.stop = 0.0, 0.0  # how often a function may do something at all, and may end the run
        self.small, self.ends, self.takes, self.writes_lent, self.recurs = False, False, False, False, False
        self.may: tuple[set[str], set[str]] = set(), set()
        self.words: list[str] = []
        self.lent: list[Array] = []
        self.local: list[Array] = []
        self.counter, self.name = 0, ""

    def pick(self, *things: One) -> One:
        """One of some things."""
        return self.r.choice(things)

    def program(self) -> str:
        """The text of the next program, whose entry is k."""
        r = self.r
        self.scalars = ["g%d" % n for n in range(r.randint(1, 3))]
        self.arrays = [("a%d" % n, r.choice((2, 2, 3))) for n in range(r.randint(1, 2))]
        self.inputs = ["in0", "in1"][: r.choice((0, 1, 1, 2))]
        self.functions = []
        self.busy = r.choice((0.25, 0.5, 0.9))
        self.stop = r.choice((0, 0, 0.3, 0.7))
        text = [
            "%s %s = %d;" % (self.pick("int", "int", "unsigned", "signed char"), one, r.randint(0, 3))
            for one in self.scalars
        ]
        text += [
            "int %s[%d] = { %s };" % (one, many, ", ".join(str(r.randint(0, 3)) for _ in range(many)))
            for one, many in self.arrays
        ]
        text += ["int %s(void);" % one for one in self.inputs]
        self.small = r.random() < 0.7
        for at in range(r.randint(1, 2) if self.small else r.randint(2, 4)):
            text.append(self.function("f%d" % at))
        every = set(self.scalars + [a for a, _ in self.arrays])
        self.may = every, every
        self.ends, self.takes = r.random() < 0.3, True
        text.append(self.function("k", True))
        return "\n".join(text) + "\n"

    def function(self, name: str, last: bool = False) -> str:
        """The text of a function; the last one is the entry."""
        r = self.r
        every = self.scalars + [a for a, _ in self.arrays]
        words = ["x", "y"][: 2 if last else r.randint(0, 2)]
        lent = [] if last else [("p%d" % n, r.choice((2, 2, 3))) for n in range(r.choice((0, 0, 1, 1, 2)))]
        if not last:
            self.may = self.some(every, 0.7), self.some(every, self.busy)
            self.ends, self.takes = r.random() < self.stop, r.random() < 0.25
        self.writes_lent = last or r.random() < self.busy
        self.words, self.lent, self.local, self.counter = words, lent, [], 0
        self.name, self.recurs = name, (not last and len(words) > 0 and self.ends and r.random() < 0.3)
        head = ["int %s" % one for one in words] + ["int %s[%d]" % one for one in lent]
        body = ["int t = %d;" % r.randint(0, 2)]
        self.words = words + ["t"]
        if r.random() < 0.25:
            self.local = [("b%d" % n, r.choice((2, 3))) for n in range(r.randint(1, 2))]
            for one, many in self.local[:]:
                self.local = [each for each in self.local if each[0] < one]
                body.append(
                    "int %s[%d] = { %s };" % (one, many, ", ".join(self.expression(1) for _ in range(r.randint(1, 2))))
                )
                self.local = self.local + [(one, many)]
        body += [self.statement(2) for _ in range(r.randint(1, 1 if self.small else 4 if last else 2))]
        if self.recurs:
            body.append(
                "if (%s > 0) { return %s; }"
                % (
                    words[0],
                    self.pick("%s(%s) + 1", "t + %s(%s)", "%s(%s)")
                    % (
                        name,
                        ", ".join(
                            ["%s %s" % (words[0], self.pick("- 1", "- 1", "+ 1"))]
                            + words[1:]
                            + [one for one, _ in lent]
                        ),
                    ),
                )
            )
        body.append("return %s;" % self.expression(3 if last else 2))
        if not last:
            self.functions.append((name, len(words), lent, self.may, self.takes))
        return "int %s(%s) { %s }" % (name, ", ".join(head) or "void", " ".join(body))

    def some(self, names: list[str], often: float) -> set[str]:
        """Half of the names, or seldom (as often as `often` leaves) none."""
        return {one for one in names if self.r.random() < 0.5} if self.r.random() < often else set()

    def target(self) -> str:
        """A place that the function may write."""
        may = [one for one in self.scalars if one in self.may[1]]
        arrays = (
            [one for one in self.arrays if one[0] in self.may[1]] + self.local + (self.lent if self.writes_lent else [])
        )
        if arrays and self.r.random() < 0.5:
            return self.element(self.pick(*arrays), 2)
        return self.pick(*may) if may and self.r.random() < 0.8 else "t"

    def statement(self, deep: int) -> str:
        """A statement with others within it, so many deep."""
        r, form = self.r, self.r.random()
        if form < 0.5 or deep == 0:
            return "%s %s %s;" % (
                self.target(),
                self.pick("=", "=", "+=", "-=", "^="),
                self.expression(3 if last_of(self.name) else 2),
            )
        if form < 0.6:
            return "%s++;" % self.target()
        if form < 0.68:
            made = self.call(2)
            return made + ";" if made.endswith(")") and made[0] in "fi" else "t++;"
        if form < 0.83:
            other = " else { %s }" % self.statement(deep - 1) if r.random() < 0.4 else ""
            return "if (%s) { %s }%s" % (self.expression(3), self.statement(deep - 1), other)
        if form < 0.9:
            self.counter += 1
            return "for (int i%d = 0; i%d < 2; i%d++) { %s }" % ((self.counter,) * 3 + (self.statement(0),))
        if not self.ends:
            return "t = %s;" % self.expression(3)
        return self.pick("assert(%s);", "assume(%s);", "assume(%s);", "while (%s) { }") % self.expression(1)

    def element(self, array: Array, deep: int) -> str:
        """An element of an array, its index within it or seldom not."""
        if deep <= 0 or self.r.random() < 0.4:
            index = self.pick("0", "1")
        else:
            inner = self.call(1) if self.r.random() < 0.3 else self.pick(*self.words + self.scalars_read())
            index = "%s & %d" % (inner, 3 if self.ends and self.r.random() < 0.3 else 1)
        return "%s[%s]" % (array[0], index)

    def scalars_read(self) -> list[str]:
        """The globals that the function may read."""
        return [one for one in self.scalars if one in self.may[0]]

    def leaf(self) -> str:
        """An operand without a call."""
        may = self.scalars_read()
        arrays = [one for one in self.arrays if one[0] in self.may[0]] + self.local + self.lent
        form = self.r.random()
        if may and form < 0.4:
            return self.pick(*may)
        if arrays and form < 0.6:
            return self.element(self.pick(*arrays), 1)
        return self.pick(*self.words) if form < 0.85 else str(self.r.randint(0, 4))

    def call(self, deep: int) -> str:
        """A call of an earlier function or an input, or an operand where there is none."""
        fits = []
        for name, words, lent, may, takes in self.functions:
            visible = self.arrays + self.local + self.lent
            if (
                may[0] <= self.may[0]
                and may[1] <= self.may[1]
                and (self.takes or not takes)
                and all(any(one[1] == each[1] for one in visible) for each in lent)
            ):
                fits.append((name, words, lent))
        if self.takes and self.inputs and (not fits or self.r.random() < 0.25):
            return "%s()" % self.pick(*self.inputs)
        if not fits:
            return self.leaf()
        name, words, lent = self.pick(*fits)
        visible = self.arrays + self.local + self.lent
        args = [self.expression(deep - 1) for _ in range(words)]
        args += [self.pick(*[one[0] for one in visible if one[1] == each[1]]) for each in lent]
        return "%s(%s)" % (name, ", ".join(args))

    def expression(self, deep: int) -> str:
        """An expression, so many operators deep."""
        form = self.r.random()
        if deep <= 0 or form < 0.2:
            return self.leaf()
        if form < 0.5:
            return self.call(deep)
        if form < 0.8:
            op = self.pick("+", "+", "-", "-", "*", "^", "<")
            weight = self.pick("", "", "2 * ", "3 * ")
            return "(%s%s %s %s)" % (weight, self.expression(deep - 1), op, self.expression(deep - 1))
        if self.ends and form < 0.86:
            return "(%s %s %s)" % (self.expression(deep - 1), self.pick("/", "%", "/", "<<"), self.expression(deep - 1))
        if form < 0.93:
            return "(%s %s %s)" % (self.expression(deep - 1), self.pick("&&", "||"), self.expression(deep - 1))
        if form < 0.97:
            return "(%s ? %s : %s)" % tuple(self.expression(deep - 1) for _ in range(3))
        return "%s%s" % (self.pick("-", "!", "~", "(signed char)"), self.leaf())
