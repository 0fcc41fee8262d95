"""Reads the tokens of statements and items as the trees of order_tree, by the grammar of docs/C_PROFILE.md."""

from collections.abc import Sequence

from fshell_tools.order.expressions import TYPE_WORDS, Expressions
from fshell_tools.order.tokens import Word
from fshell_tools.order.tree import (
    Assign,
    Call,
    Check,
    Expression,
    Function,
    Kind,
    Loop,
    Parts,
    Statement,
    Unit,
    Variable,
)

BEFORE_TYPES = ("static", "extern", "inline", "const")


class Items(Expressions):
    """Reads statements and items from a place in the tokens on."""

    def declarator(self, kind: Kind) -> Variable:
        """The next declarator with its length and first values."""
        at = self.at
        made = Variable(at, self.word(), kind)
        if self.take("["):
            made.length = self.constant()
            self.need("]")
        if self.take("="):
            if self.take("{"):
                made.listed = self.list_to("}", self.expression)
            else:
                made.value = self.expression()
        return made

    def constant(self) -> Expression:
        """A constant expression, which is computed before all runs."""
        at, found = self.at, self.expression()
        self.note("constant", at, at)
        return found

    def declarators(self, kind: Kind) -> list[Variable]:
        """The next declarators, up to the `;`."""
        found = [self.declarator(kind)]
        while self.take(","):
            found.append(self.declarator(kind))
        self.need(";")
        return found

    def begins_declaration(self) -> bool:
        """Whether a declaration begins at the next token."""
        return self.text == "const" or self.text in TYPE_WORDS

    def declaration(self) -> Statement:
        """The next declaration of a block."""
        at = self.at
        while self.take("const"):
            pass
        made = Parts(at, [*self.declarators(self.kind())], word="declaration")
        self.note("statement", at, at)
        return made

    def simple(self) -> Statement:
        """An assignment, a step or a call."""
        at, made = self.at, self.assignment()
        self.note("statement", at, at)
        return made

    def assignment(self) -> Assign | Call:
        """The next assignment, step or call statement. Raises ValueError where none stands there."""
        at, before = self.at, ""
        if self.text in ("++", "--"):
            before, self.at = self.text, self.at + 1
        name_at, name = self.at, self.word()
        if not before and self.take("("):
            return self.call(at, name)
        target, behind, mark = self.target(name_at, name), before or self.text, self.at
        self.at += not before
        if behind in ("++", "--"):
            return Assign(at, target, behind[0], None)
        if behind[-1:] != "=":
            raise ValueError("an assignment is missing")
        made = Assign(at, target, behind[:-1], self.expression(), mark)
        self.note(behind[:-1], at, mark)
        return made

    def in_brackets(self) -> Expression:
        """The next expression between brackets, as a condition."""
        self.need("(")
        found = self.tested()
        self.need(")")
        return found

    def tested(self) -> Expression:
        """What an `if`, a loop, a `switch`, an assert or an assume asks."""
        at, found = self.at, self.expression()
        self.note("test", at, at)
        return found

    def block(self) -> Parts:
        """Reads a compound statement from its `{` on (C11 6.8.2). Raises ValueError where none begins there."""
        at = self.at
        self.need("{")
        found: list[Statement] = []
        while not self.take("}"):
            found.append(self.statement())
        return Parts(at, found, opens=True)

    def body(self) -> Statement:
        """A statement that is a scope of its own."""
        return Parts(self.at, [self.statement()], opens=True)

    def statement(self) -> Statement:
        """The next statement, whose first token is noted."""
        at, made = self.at, self.any_statement()
        self.note("statement", at, at)
        return made

    def any_statement(self) -> Statement:
        """The next statement, of whichever kind."""
        at = self.at
        if self.text == "{":
            return self.block()
        if self.begins_declaration():
            return self.declaration()
        if self.text in ("while", "do", "for"):
            return self.loop()
        if self.text in ("if", "switch"):
            return self.choice()
        if self.text in ("assert", "assume"):
            word = self.word()
            made: Statement = Check(at, word, self.in_brackets())
        elif self.take("case", "default"):  # (the group's statements follow it)
            if self.text != ":":
                self.constant()
            self.need(":")
            return Parts(at, [], word=self.texts[at])
        elif self.texts[at + 1] == ":":
            self.at += 2
            return Parts(at, [self.statement()], word=":")
        elif self.take("return"):
            made = Parts(at, [] if self.text == ";" else [self.expression()], word="return")
        elif self.take("break", "continue") or self.text == ";":
            made = Parts(at, [], word=self.texts[at])
        else:
            made = self.simple()
        self.need(";")
        return made

    def choice(self) -> Statement:
        """An `if` with its arms, each a condition and a body, and its last `else`; or a `switch`."""
        at, word = self.at, self.word()
        parts: list[Statement] = [self.in_brackets(), self.body()]
        while word == "if" and self.take("else"):
            if not self.take("if"):
                parts.append(self.body())
                break
            parts += [self.in_brackets(), self.body()]
        return Parts(at, parts, word=word)

    def loop(self) -> Statement:
        """Reads a `while`, `do` or `for` from its word on (C11 6.8.5). Raises ValueError where it isn't one of these."""
        at, word = self.at, self.word()
        if word == "while":
            test = self.in_brackets()
            return Loop(at, word, None, test, None, self.body())
        if word == "do":
            body = self.body()
            self.need("while")
            made = Loop(at, word, None, self.in_brackets(), None, body)
            self.need(";")
            return made
        self.need("(")
        first: Statement | None = None
        if self.begins_declaration():
            first = self.declaration()
        else:
            first = None if self.text == ";" else self.simple()
            self.need(";")
        condition = None if self.text == ";" else self.tested()
        self.need(";")
        step = None if self.text == ")" else self.simple()
        self.need(")")
        return Loop(at, word, first, condition, step, self.body())

    def parameter(self) -> Variable:
        """The next parameter; one without a name has the empty one."""
        while self.take("const"):
            pass
        kind, at = self.kind(), self.at
        made = Variable(at, "" if self.text in (",", ")", "[") else self.word(), kind)
        if self.take("["):
            made.length = self.constant()
            self.need("]")
        return made

    def item(self, unit: Unit) -> None:
        """Reads the next function, variable, constant or prototype into a unit."""
        at = self.at
        while self.take(*BEFORE_TYPES):
            pass
        if self.take("enum"):
            self.constants(unit)
            return
        kind = Kind(0, True) if self.take("void") else self.kind()
        if self.texts[self.at + 1] != "(":
            unit.variables += self.declarators(kind)
            return
        name_at, name = self.at, self.word()
        self.need("(")
        if self.text == "void" and self.texts[self.at + 1] == ")":
            self.at += 1
        parameters = self.list_to(")", self.parameter)
        if not self.take(";"):
            self.calls = set()
            body = self.block()
            unit.functions[name] = Function(at, name, parameters, body, self.calls, kind, name_at)

    def constants(self, unit: Unit) -> None:
        """Reads the constants of an enum into a unit."""
        if self.text != "{":
            self.word()
        self.need("{")

        def one() -> tuple[str, Expression | None]:
            return self.word(), self.expression() if self.take("=") else None

        unit.constants += self.list_to("}", one)
        self.need(";")


def unit_of(words: Sequence[Word]) -> Unit:
    """The unit that tokens are; a ValueError where they are none."""
    made, items = Unit(), Items(words)
    while items.text:
        items.item(made)
    return made
