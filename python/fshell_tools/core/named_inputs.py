"""Inputs whose arguments and answers have names, turned into the program's form and back.

    {"id": "TC-7", "requirements": ["R-12"], "arguments": {"speed": 0}, "answers": {"rx_byte": [1, 2]}}

Arguments are named after the entry's parameters, answers after the input functions that give them. The program wants answers in
the order in which a run asks for them, which the run itself tells.
"""

import json
from collections.abc import Callable, Iterable, Sequence
from dataclasses import dataclass
from typing import Any

from fshell_tools.core.declarations import function_name, is_name, items
from fshell_tools.core.program import Failure
from fshell_tools.core.reports import number
from fshell_tools.core.sources import CLOSING, OPENING, Source

# for each input, the input functions that its run asks, in order
Asks = Callable[[list[tuple[tuple[int, ...], tuple[int, ...]]]], list[list[str]]]
MOST_TRIES = 1_000


@dataclass(frozen=True)
class Signature:
    """An entry with the types and names of its parameters."""

    function: str
    parameters: tuple[tuple[str, str], ...]

    @property
    def names(self) -> list[str]:
        """The names of the parameters, in their order."""
        return [name for _, name in self.parameters]

    def __str__(self) -> str:
        return f"{self.function}({', '.join(f'{kind} {name}' for kind, name in self.parameters) or 'void'})"


def _parameters(tokens: Sequence[str]) -> tuple[tuple[str, str], ...]:
    """The parameters between the brackets of a head."""
    parts: list[list[str]] = [[]]
    depth = 0
    for text in tokens:
        depth += (text in OPENING) - (text in CLOSING)
        if text == "," and depth == 0:
            parts.append([])
        else:
            parts[-1].append(text)
    found = []
    for part in parts:
        plain = part[: part.index("[")] if "[" in part else part
        if part not in ([], ["void"]) and is_name(plain[-1]):
            found.append((" ".join([*plain[:-1], *part[len(plain) :]]), plain[-1]))
    return tuple(found)


def signature(sources: Iterable[Source], function: str) -> Signature:
    """The signature of a function that a source defines; a failure where none does. The failure is a Failure."""
    defined = []
    for source in sources:
        for item in items(source):
            name = function_name(item)
            if item.has_body and name:
                defined.append(name)
            if item.has_body and name == function:
                first = item.tokens.index("(", item.tokens.index(name))
                return Signature(name, _parameters(item.tokens[first + 1 : -1]))
    raise Failure(f"no source defines the function {function}; they define {', '.join(sorted(set(defined)))}")


@dataclass(frozen=True)
class Named:
    """An input in the program's form, with its own keys; `id` is empty where it has none."""

    args: tuple[int, ...]
    answers: tuple[int, ...] = ()
    id: str = ""
    requirements: tuple[str, ...] = ()
    own: str = ""

    @property
    def numbers(self) -> tuple[tuple[int, ...], tuple[int, ...]]:
        """The arguments and the answers, without names."""
        return self.args, self.answers

    def value(self) -> dict[str, Any]:
        """The object of the program's form, with all keys."""
        answers = {"answers": list(self.answers)} if self.answers else {}
        return {"args": list(self.args), **answers, **self.keys()}

    def keys(self) -> dict[str, Any]:
        """The keys beside the numbers."""
        name: dict[str, Any] = {"id": self.id} if self.id else {}
        needed: dict[str, Any] = {"requirements": list(self.requirements)} if self.requirements else {}
        own: dict[str, Any] = json.loads(self.own) if self.own else {}
        return {**name, **needed, **own}


def is_named(value: object) -> bool:
    """Whether an object is an input with names."""
    return isinstance(value, dict) and ("arguments" in value or isinstance(value.get("answers"), dict))


def _numbers(values: object, what: str) -> tuple[int, ...]:
    if not isinstance(values, list):
        raise ValueError(f"{what} is no list")
    try:
        return tuple(number(one) for one in values)
    except ValueError as fault:
        raise ValueError(f"{what}: {fault}") from None


def keys_of(value: dict[str, Any], taken: tuple[str, ...]) -> dict[str, Any]:
    """The id, the requirements and the own keys of an object. Raises ValueError where one has another form."""
    name, needed = value.get("id", ""), value.get("requirements", [])
    if not isinstance(name, str):
        raise ValueError("id is no text")
    if not isinstance(needed, list) or not all(isinstance(one, str) for one in needed):
        raise ValueError("requirements is no list of texts")
    own = {key: part for key, part in value.items() if key not in ("id", "requirements", *taken)}
    return {"id": name, "requirements": tuple(needed), "own": json.dumps(own) if own else ""}


def plain(value: dict[str, Any]) -> Named:
    """The input of an object in the program's form."""
    args, answers = _numbers(value.get("args"), "args"), _numbers(value.get("answers", []), "answers")
    return Named(args, answers, **keys_of(value, ("args", "answers")))


def arguments(value: dict[str, Any], entry: Signature) -> tuple[int, ...]:
    """The arguments of an object with names, in the order of the entry's parameters. Raises ValueError for a name
    that is no parameter, and for a parameter without a number."""
    given = value.get("arguments", {})
    if not isinstance(given, dict):
        raise ValueError(f"arguments is no object; the entry is {entry}")
    for name in given:
        if name not in entry.names:
            raise ValueError(f"{name} is no parameter of {entry}")
    for name in entry.names:
        if name not in given:
            raise ValueError(f"the argument {name} is missing; the entry is {entry}")
    return _numbers([given[name] for name in entry.names], "arguments")


def answers(value: dict[str, Any], known: Sequence[str], entry: Signature) -> dict[str, tuple[int, ...]]:
    """The answers of an object with names, by their input functions. Raises ValueError for a name that is no input
    function, and for what is no list of numbers."""
    given = value.get("answers", {})
    if not isinstance(given, dict):
        raise ValueError(f"answers is no object of input functions; the entry is {entry}")
    for name in given:
        if name not in known:
            raise ValueError(
                f"{name} is no input function; they are {', '.join(known) or 'none'}; the entry is {entry}"
            )
    return {name: _numbers(row, name) for name, row in given.items()}


def row(given: dict[str, tuple[int, ...]], asked: list[str]) -> tuple[int, ...]:
    """The answers in the order in which they are asked for; 0 where a list is at its end, but for the last of all."""
    left = {name: list(values) for name, values in given.items()}
    found, end = [], 0
    for name in asked:
        values = left.get(name)
        found.append(values.pop(0) if values else 0)
        end = len(found) if values is not None and name in given and len(left[name]) < len(given[name]) else end
        if not any(left.values()):
            break
    return tuple(found[:end])


def in_order(given: list[tuple[tuple[int, ...], dict[str, tuple[int, ...]]]], asks: Asks) -> list[tuple[int, ...]]:
    """The answers of inputs in the order in which their runs ask for them. Which function is asked next depends on
    the answers before, so each try is right for one answer more at least. Raises Failure where a run asks a
    function that has no answer left."""
    found: list[tuple[int, ...]] = [() for _ in given]
    waiting = [number for number, (_, answered) in enumerate(given) if any(answered.values())]
    for _ in range(MOST_TRIES):
        if not waiting:
            return found
        told = asks([(given[number][0], found[number]) for number in waiting])
        rows = {number: row(given[number][1], asked) for number, asked in zip(waiting, told)}
        waiting = [number for number, one in rows.items() if one != found[number]]
        for place, one in rows.items():
            found[place] = one
    raise Failure("an input has more answers than can be brought into their order")


def by_name(answered: Sequence[int], asked: Sequence[str]) -> dict[str, list[int]]:
    """The answers that a run took by the input functions that gave them, without zeros at the ends of lists."""
    found: dict[str, list[int]] = {}
    for name, value in zip(asked, [*answered, *[0] * len(asked)]):
        found.setdefault(name, []).append(value)
    for values in found.values():
        while values and values[-1] == 0:
            values.pop()
    return {name: values for name, values in found.items() if values}
