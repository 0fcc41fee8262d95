"""Reads the inputs of an entry from files, with the names of arguments and answers or without, and writes them with names."""

import json
import os
from collections.abc import Sequence
from typing import Any

from fshell_tools.core import named_inputs, program
from fshell_tools.core.graph import Graph
from fshell_tools.core.named_inputs import Named, Signature
from fshell_tools.core.program import Failure
from fshell_tools.core.reports import Run
from fshell_tools.core.sources import Source

Numbers = tuple[tuple[int, ...], tuple[int, ...]]
STEPS = "1000000"


class Reader:
    """Reads and writes the inputs of one entry. `place` is the folder in which the sources' names stand."""

    def __init__(self, place: str, sources: Sequence[str], graph: Graph, entry: str) -> None:
        self.place, self.names, self.graph, self.entry = place, list(sources), graph, entry
        texts = (Source(name, program.read(os.path.join(place, name))) for name in sources)
        self.signature: Signature = named_inputs.signature(texts, entry)

    def asks(self, given: list[Numbers]) -> list[list[str]]:
        """For each input, the input functions that its run asks, in order."""
        return self.runs(given)[0]

    def runs(self, given: list[Numbers]) -> tuple[list[list[str]], list[Run]]:
        """For each input, the input functions that its run asks, in order, and the run."""
        if not given:
            return [], []
        text = json.dumps([{"args": args, "answers": answers} for args, answers in given])
        with program.as_file(text) as path:
            words = ["runs", self.entry, path, *self.names, "--steps", STEPS]
            runs = program.report(words, self.place).runs
        edges = self.graph.edges
        asked = [[edges[one].name for one in run.edges if edges[one].operation == "answer"] for run in runs]
        return asked, runs

    def of_text(self, text: str, shown: str) -> list[Named]:
        """The inputs of a JSON text; `shown` is how its file is named in what is told. Raises Failure where it isn't
        read."""
        try:
            values = json.loads(text)
        except (ValueError, RecursionError) as fault:
            raise Failure(f"{shown}: no inputs are read: {fault}") from None
        return self.of_values(values, shown)

    def of_values(self, values: list[Any], shown: str) -> list[Named]:
        """The inputs of objects, with names or in the program's form. Raises Failure for one that is none."""
        found: list[Named] = []
        for number, value in enumerate(values, 1):
            name = (
                value.get("id") if isinstance(value, dict) and isinstance(value.get("id"), str) else f"input {number}"
            )
            try:
                found.append(self._one(value))
            except ValueError as fault:
                raise Failure(f"{shown}: {name}: {fault}") from None
        ids = [one.id for one in found if one.id]
        twice = next((one for one in ids if ids.count(one) > 1), None)
        if twice:
            raise Failure(f"{shown}: the id {twice} stands twice")
        return self._ordered(values, found, shown)

    def _one(self, value: Any) -> Named:
        """An input whose answers, where they have names, are still to be put in order."""
        if not isinstance(value, dict):
            raise ValueError("it is no object")
        if not named_inputs.is_named(value):
            one = named_inputs.plain(value)
            if len(one.args) != len(self.signature.parameters):
                raise ValueError(f"it has {len(one.args)} arguments; the entry is {self.signature}")
            return one
        named_inputs.answers(value, self.graph.inputs, self.signature)
        keys = named_inputs.keys_of(value, ("arguments", "answers"))
        return Named(named_inputs.arguments(value, self.signature), **keys)

    def _ordered(self, values: list[Any], found: list[Named], shown: str) -> list[Named]:
        """The inputs with their answers in order; a failure where a run takes fewer than are named."""
        given = []
        for value, one in zip(values, found):
            answered = (
                named_inputs.answers(value, self.graph.inputs, self.signature) if named_inputs.is_named(value) else {}
            )
            given.append((one.args, answered))
        rows = named_inputs.in_order(given, self.asks)
        told = self.asks([(one.args, answers) for one, answers in zip(found, rows)]) if any(g[1] for g in given) else []
        for number, (asked, (_, answered)) in enumerate(zip(told, given), 1):
            for name, row in answered.items():
                if len(row) > asked.count(name):
                    raise Failure(
                        f"{shown}: {found[number - 1].id or f'input {number}'}: {name} has {len(row)} answers, and its run "
                        f"asks for {asked.count(name)}; the entry is {self.signature}"
                    )
        return [
            Named(one.args, rows[at] if given[at][1] else one.answers, one.id, one.requirements, one.own)
            for at, one in enumerate(found)
        ]

    def with_names(self, given: Sequence[Named], told: list[list[str]]) -> list[dict[str, Any]]:
        """Inputs as objects with names, where it is told which input functions their runs ask."""
        found = []
        for one, asked in zip(given, told):
            answers = named_inputs.by_name(one.answers, asked)
            value: dict[str, Any] = {
                "arguments": dict(zip(self.signature.names, one.args)),
                **({"answers": answers} if answers else {}),
            }
            keys = one.keys()
            head = {key: keys.pop(key) for key in ("id", "requirements") if key in keys}
            found.append({**head, **value, **keys})
        return found


def of_value(value: dict[str, Any], entry: Signature) -> Named:
    """The input of an object in the program's form; a failure where it isn't one of the entry."""
    try:
        one = named_inputs.plain(value)
    except ValueError as fault:
        raise Failure(str(fault)) from None
    if len(one.args) != len(entry.parameters):
        raise Failure(f"an input has {len(one.args)} arguments; the entry is {entry}")
    return one


def has_names(text: str) -> bool:
    """Whether a text is a JSON list in which an input has names."""
    if text.lstrip(" \t\r\n")[:1] != "[":
        return False
    try:
        values = json.loads(text)
    except (ValueError, RecursionError):
        return False
    return isinstance(values, list) and any(named_inputs.is_named(one) for one in values)
