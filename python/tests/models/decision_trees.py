"""Random decisions, and by all their inputs which of their conditions show that they decide on their own."""

import itertools
import random
from collections.abc import Sequence
from typing import Any

Tree = Any  # a name; or ! with an operand; or an operator with two operands


def expression(chance: random.Random, depth: int) -> Tree:
    """A random expression: a name, or an operator with its operands."""
    if depth == 0 or chance.random() < 0.2:
        return chance.choice("abc")
    op = chance.choice(["&&", "||", "&&", "||", "!"])
    return (
        ("!", expression(chance, depth - 1))
        if op == "!"
        else (op, expression(chance, depth - 1), expression(chance, depth - 1))
    )


def text_of(tree: Tree) -> str:
    """The text of an expression, each operator in brackets."""
    if isinstance(tree, str):
        return tree
    return f"!({text_of(tree[1])})" if tree[0] == "!" else f"({text_of(tree[1])} {tree[0]} {text_of(tree[2])})"


def evaluated(tree: Tree, values: dict[str, bool], leaves: list[bool | None]) -> bool:
    """The value of an expression; each leaf that is evaluated is listed with its value, and each other one with None."""
    if isinstance(tree, str):
        leaves.append(values[tree])
        return values[tree]
    if tree[0] == "!":
        return not evaluated(tree[1], values, leaves)
    first = evaluated(tree[1], values, leaves)
    if first == (tree[0] == "||"):
        leaves.extend([None] * count(tree[2]))
        return first
    return evaluated(tree[2], values, leaves)


def count(tree: Tree) -> int:
    """How many leaves an expression has."""
    return 1 if isinstance(tree, str) else sum(count(part) for part in tree[1:])


def deciding(tree: Tree, row: Sequence[bool | None]) -> tuple[list[bool], bool | None]:
    """The leaves that decide: each operand beside them, up to the top, is one that leaves the value to them, or isn't evaluated."""
    if isinstance(tree, str):
        return [row[0] is not None], row[0]
    if tree[0] == "!":
        marks, value = deciding(tree[1], row)
        return marks, None if value is None else not value
    split = count(tree[1])
    (first, one), (second, other) = deciding(tree[1], row[:split]), deciding(tree[2], row[split:])
    passes = tree[0] == "&&"
    marks = [mark and other in (passes, None) for mark in first] + [mark and one == passes for mark in second]
    if one is None:
        return marks, None
    return marks, one if one != passes else other


def all_inputs_show(tree: Tree) -> list[bool]:
    """For each leaf whether two of all inputs show that it decides on its own."""
    seen = set()
    for values in itertools.product([False, True], repeat=3):
        leaves: list[bool | None] = []
        outcome = evaluated(tree, dict(zip("abc", values)), leaves)
        seen.add((tuple(leaves), tuple(deciding(tree, leaves)[0]), outcome))
    return [
        any(
            one[1][leaf] and other[1][leaf] and one[0][leaf] != other[0][leaf] and one[2] != other[2]
            for one in seen
            for other in seen
        )
        for leaf in range(count(tree))
    ]
