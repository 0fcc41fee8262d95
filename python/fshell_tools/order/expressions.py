"""Reads the tokens of expressions as the trees of order_tree, by the grammar of docs/C_PROFILE.md."""

from collections.abc import Callable, Sequence
from typing import TypeVar

from fshell_tools.order.tokens import Word
from fshell_tools.order.tree import Call, Cast, Chain, Element, Expression, Kind, Name, Number, Ordered, Unary

NAMED = {f"{sign}int{width}_t": Kind(width, not sign) for sign in ("", "u") for width in (8, 16, 32, 64)}
NAMED["size_t"] = Kind(64, False)
WIDTHS = {"char": 8, "short": 16, "long": 64}
TYPE_WORDS = {*NAMED, *WIDTHS, "int", "signed", "unsigned"}
# the operators between operands, from loose to tight, without && and ||
LEVELS = (("|",), ("^",), ("&",), ("==", "!="), ("<", ">", "<=", ">="), ("<<", ">>"), ("+", "-"), ("*", "/", "%"))
SIGNS = ("+", "-", "~", "!")
ESCAPED = {"n": 10, "t": 9, "r": 13, "0": 0}
T = TypeVar("T")


def number(text: str) -> int:
    """The value of a number or of a character constant."""
    if text[0] == "'":
        return ESCAPED.get(text[2], ord(text[2])) if text[1] == "\\" else ord(text[1])
    digits = text.rstrip("uUlL")
    return int(digits, 16 if digits[:2] == "0x" else 8 if digits[0] == "0" else 10)


class Expressions:
    """Reads from a place in the tokens on. What isn't as the grammar has it is a ValueError."""

    def __init__(self, words: Sequence[Word]) -> None:
        self.texts = [word.text for word in words] + ["", "", ""]
        self.at = 0
        self.calls: set[str] = set()

    @property
    def text(self) -> str:
        """The next token's text."""
        return self.texts[self.at]

    def note(self, form: str, first: int, mark: int) -> None:
        """Is told of each form that was just read, with the numbers of its first token and of its mark: operators, `[`, `call`,
        `condition`, `branch` of a `?:`, `statement` and `constant`. Who wants them overrides it (python/fshell_tools/rte/failing_operations.py).
        """

    def take(self, *texts: str) -> bool:
        """Goes behind the next token where it is one of these."""
        found = self.text in texts
        self.at += found
        return found

    def need(self, text: str) -> None:
        """Goes past a token. Raises ValueError where another one stands there."""
        if not self.take(text):
            raise ValueError(f"{text} is missing")

    def word(self) -> str:
        """The next token, which is a word. Raises ValueError where it is none."""
        found = self.text
        if not found or not (found[0].isalpha() or found[0] == "_"):
            raise ValueError("a name is missing")
        self.at += 1
        return found

    def list_to(self, end: str, read: Callable[[], T]) -> list[T]:
        """What stands between commas up to a mark, before which a comma may stand."""
        found: list[T] = []
        while not self.take(end):
            found.append(read())
            if not self.take(","):
                self.need(end)
                break
        return found

    def kind(self) -> Kind:
        """The kind that the next words name. Raises ValueError where they name none."""
        words = []
        while self.text in TYPE_WORDS:
            words.append(self.word())
        if not words:
            raise ValueError("a type is missing")
        if words[0] in NAMED:
            return NAMED[words[0]]
        return Kind(next((WIDTHS[word] for word in words if word in WIDTHS), 32), "unsigned" not in words)

    def expression(self) -> Expression:
        """The next expression, with its choices (6.5.15)."""
        at = start = self.at
        parts = [self.either()]
        while self.text == "?":
            self.note("condition", start, start)
            start = self.at = self.at + 1
            parts.append(self.expression())
            self.note("branch", start, start)
            self.need(":")
            start = self.at
            parts.append(self.either())
        if len(parts) > 1:
            self.note("branch", start, start)
        return Ordered(at, "?:", parts) if len(parts) > 1 else parts[0]

    def either(self) -> Expression:
        """The next expression with `||` and `&&` (6.5.13, 6.5.14)."""
        return self.ordered("||", lambda: self.ordered("&&", lambda: self.level(0)))

    def ordered(self, operator: str, read: Callable[[], Expression]) -> Expression:
        """The next row of operands of an operator that has an order, each read by a function."""
        at, parts = self.at, [read()]
        while self.text == operator:
            if len(parts) == 1:
                self.note("condition", at, at)
            start = self.at = self.at + 1
            parts.append(read())
            self.note("condition", start, start)
        return Ordered(at, operator, parts) if len(parts) > 1 else parts[0]

    def level(self, level: int) -> Expression:
        """A chain of the operators of a level, or what binds tighter."""
        if level == len(LEVELS):
            return self.signed()
        at, first = self.at, self.level(level + 1)
        rest: list[tuple[str, Expression]] = []
        marks: list[int] = []
        while self.text in LEVELS[level]:
            operator, mark = self.text, self.at
            self.at += 1
            rest.append((operator, self.level(level + 1)))
            marks.append(mark)
            self.note(operator, at, mark)
        return Chain(at, first, rest, marks) if rest else first

    def signed(self) -> Expression:
        """An operand behind its signs and casts."""
        before: list[tuple[int, str | Kind]] = []
        while self.text in SIGNS or (self.text == "(" and self.texts[self.at + 1] in TYPE_WORDS):
            at = self.at
            if self.take("("):
                before.append((at, self.kind()))
                self.need(")")
            else:
                before.append((at, self.text))
                self.at += 1
        found = self.operand()
        for at, one in reversed(before):
            found = Cast(at, one, found) if isinstance(one, Kind) else Unary(at, one, found)
        return found

    def operand(self) -> Expression:
        """The next operand: a bracket, a number, a call, an element or a name."""
        at = self.at
        if self.take("("):
            found = self.expression()
            self.need(")")
            return found
        if self.text[:1].isdigit() or self.text[:1] == "'":
            self.at += 1
            return Number(at, number(self.texts[at]))
        name = self.word()
        if self.take("("):
            return self.call(at, name)
        return self.target(at, name)

    def call(self, at: int, name: str) -> Call:
        """A call, behind its name and the mark."""
        self.calls.add(name)
        made = Call(at, name, self.list_to(")", self.expression))
        self.note("call", at, at)
        return made

    def target(self, at: int, name: str) -> Name | Element:
        """A variable or an element, behind its name."""
        mark = self.at
        if not self.take("["):
            return Name(at, name)
        index = self.expression()
        self.need("]")
        self.note("[", at, mark)
        return Element(at, name, index)
