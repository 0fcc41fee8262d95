"""The inputs of --compare: calls of the entries, one after the other, and answers of input functions, at random or at boundaries."""

import random
from collections.abc import Iterator
from dataclasses import dataclass

from fshell_tools.adapt.command.compare_texts import Texts
from fshell_tools.adapt.common.c_types import Array, Int, Struct, Type
from fshell_tools.adapt.common.objects import Function

CALLS, ANSWERS = 6, 40
RANDOM, BOUNDARY = "random", "boundary"
TELLING = [0, 1, -1, 2, 3, 4, 5, 7, 8, 10, 16, 31, 64, 100, 127, 128, 200, 255, 256, -128, 32767, 65535]
TELLING += [2**31 - 1, -(2**31), 2**32 - 1, 2**63 - 1]


@dataclass(frozen=True)
class Given:
    """An input: answers, and calls, each the number of an entry with its arguments."""

    kind: str
    answers: list[int]
    calls: list[list[int]]

    def line(self, calls: int) -> str:
        """The words for the driver, of the first calls alone."""
        words = [len(self.answers), *self.answers, *(word for call in self.calls[:calls] for word in call)]
        return " ".join(map(str, words))


def lengths(of: Type) -> Iterator[int]:
    """The lengths of all arrays in an object."""
    if isinstance(of, Array):
        yield of.length or 0
        yield from lengths(of.of)
    elif isinstance(of, Struct) and not of.fault:
        for _, member in of.held:
            yield from lengths(member)


def ends(kind: Int, known: list[int]) -> list[int]:
    """The boundaries of an integer type: its ends and what is next to them, 0, 1 and -1, and those of lengths that it has."""
    if kind.boolean:
        return [0, 1]
    least = -(2 ** (kind.bits - 1)) if kind.signed else 0
    most = 2 ** (kind.bits - (1 if kind.signed else 0)) - 1
    near = [one for length in known for one in (length - 1, length, length + 1)]
    found = [one for one in (0, 1, -1, least, most, least + 1, most - 1, *near) if least <= one <= most]
    # (words are read as signed ones of 64 bits)
    return list(dict.fromkeys(one - 2**64 if one >= 2**63 else one for one in found))


class Inputs:
    """What makes the inputs of some entries."""

    def __init__(self, texts: Texts) -> None:
        self.entries: list[Function] = texts.entries
        names = texts.writer.names
        known = {length for variable in names.variables for length in lengths(variable.type)}
        self.lengths = sorted(one for one in known if one > 1)
        results = [one.result for one in texts.outer if isinstance(one.result, Int)]
        self.answers = list(dict.fromkeys(one for kind in results for one in ends(kind, self.lengths))) or [0]

    def at_random(self, seed: int) -> Given:
        """An input by chance, in which numbers that tell much come often."""
        chance = random.Random(seed)

        def small() -> int:
            if chance.random() < 0.7:
                return chance.choice(TELLING[:12])
            return chance.choice(TELLING) if chance.random() < 0.8 else chance.randrange(-(2**63), 2**63)

        answers, calls = [small() for _ in range(ANSWERS)], []
        for _ in range(CALLS):
            which = chance.randrange(len(self.entries))
            calls.append([which] + [small() for _ in self.entries[which].parameters])
        return Given(RANDOM, answers, calls)

    def at_boundaries(self, number: int) -> Given:
        """Input `number`, from 0, of those at boundaries: the entries take turns, and each parameter of one goes through all its
        boundaries, beside those of others by chance; then all are by chance. Answers begin where those of the input before end.
        """
        chance = random.Random(f"boundaries {number}")
        answers = [self.answers[(number * 7 + at) % len(self.answers)] for at in range(ANSWERS)]
        if number % 2:
            chance.shuffle(answers)
        calls = []
        for at in range(number * CALLS, (number + 1) * CALLS):
            which, turn = at % len(self.entries), at // len(self.entries)
            calls.append([which, *self.arguments(self.entries[which], turn, chance)])
        return Given(BOUNDARY, answers, calls)

    def arguments(self, entry: Function, turn: int, chance: random.Random) -> list[int]:
        """The arguments of a call: one parameter has the boundary whose turn it is, the others one by chance."""
        rows = [ends(one.type, self.lengths) for one in entry.parameters if isinstance(one.type, Int)]
        found = [chance.choice(row) for row in rows]
        for at, row in enumerate(rows):
            if 0 <= turn < len(row):
                found[at] = row[turn]
                break
            turn -= len(row)
        return found

    def all(self, count: int) -> list[Given]:
        """So many inputs of each kind."""
        return [self.at_random(seed) for seed in range(1, count + 1)] + [
            self.at_boundaries(number) for number in range(count)
        ]

    def shown(self, call: list[int]) -> str:
        """A call as C has it."""
        entry = self.entries[call[0]]
        words = [str(word % 2**64 if unsigned(one.type) else word) for word, one in zip(call[1:], entry.parameters)]
        return f"{entry.name}({', '.join(words)})"


def unsigned(kind: Type) -> bool:
    """Whether a type is one of 64 bits without a sign."""
    return isinstance(kind, Int) and kind.bits == 64 and not kind.signed
