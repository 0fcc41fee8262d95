"""The map from sources that a tool wrote to the user's own: where each place comes from, and what names stand for.

`fshell.map` stands beside the sources that fshell adapt wrote (docs/FORMATS.md, Maps). All tools read it by `of_source`: a source
that it names is shown as the user wrote it, and one beside which there is no map as it stands.
"""

import functools
import hashlib
import json
import os
from collections.abc import Iterable
from dataclasses import dataclass
from typing import Any

from fshell_tools.core import program
from fshell_tools.core.program import Failure

NAME = "fshell.map"
FORM = "fshell map 1"
Spot = tuple[int, int]  # a line and a column


@dataclass(frozen=True)
class Mapped:
    """What a map says of a source: the path of the original, and the bytes of it; for a line and a column those of the original,
    whose column is 0 where it isn't known; for a name what it stands for; and for a temporary its expression's place.
    """

    original: str
    data: bytes
    places: dict[Spot, Spot]
    names: dict[str, str]
    temporaries: dict[str, Spot]
    traps: list[tuple[int, str, str, bool]]  # the line, the reason, C's clause, and whether C gives it no meaning
    functions: dict[str, list[str]] | None  # the user's own, with their parameters that are pointers


def sum_of(data: bytes) -> str:
    """The SHA-256 sum of bytes."""
    return hashlib.sha256(data).hexdigest()


# ---- reading


def _wrong(path: str, why: str) -> Failure:
    return Failure(f"{path}: {why}; run fshell adapt again, or take the map away")


def _spots(value: object, width: int) -> list[list[int]]:
    """Rows of whole numbers; ValueError where they are none."""
    if not isinstance(value, list):
        raise ValueError
    for row in value:
        is_row = isinstance(row, list) and len(row) == width
        if not is_row or any(type(one) is not int or one < 0 for one in row):
            raise ValueError
    return value


def _texts(value: object) -> dict[str, str]:
    if not isinstance(value, dict) or not all(isinstance(one, str) for one in value.values()):
        raise ValueError
    return value


def _traps(value: object) -> list[tuple[int, str, str, bool]]:
    """Rows of traps; ValueError where they are none."""
    if not isinstance(value, list):
        raise ValueError
    rows = [(line, reason, clause, bool(fault)) for line, reason, clause, fault in value]
    if not all(
        type(line) is int and isinstance(reason, str) and isinstance(clause, str) for line, reason, clause, _ in rows
    ):
        raise ValueError
    return rows


def _functions(value: object) -> dict[str, list[str]] | None:
    """Functions with the names of parameters, or none; ValueError where it is something else."""
    if value is None:
        return None
    if not isinstance(value, dict) or not all(isinstance(names, list) for names in value.values()):
        raise ValueError
    if not all(isinstance(name, str) for names in value.values() for name in names):
        raise ValueError
    return value


@functools.cache
def _read(path: str) -> dict[str, Any] | None:
    """The map at a path, or nothing where there is none."""
    if not os.path.lexists(path):
        return None
    try:
        value = json.loads(program.read(path))
        if not isinstance(value, dict) or value.get("form") != FORM or not isinstance(value.get("files"), dict):
            raise ValueError
        for one in value["files"].values():
            _spots(one["places"], 4)
            _texts({name: one[name] for name in ("original", "sum", "original-sum")})
            _texts(one["names"])
            _spots(list(one["temporaries"].values()), 2)
            _traps(one.get("traps", []))
            _functions(one.get("functions"))
    except (ValueError, KeyError, TypeError, AttributeError, RecursionError):
        raise _wrong(path, "it is no map of sources") from None
    return value


def of_source(name: str, place: str = ".") -> Mapped | None:
    """What the map beside a source says of it, or nothing where there is none or it doesn't name the source. A map of another
    text than that of the source, or whose original is gone or another one, is a failure."""
    path = os.path.normpath(os.path.join(place, os.path.dirname(name), NAME))
    value = _read(path)
    one = value["files"].get(os.path.basename(name)) if value else None
    if one is None:
        return None
    if sum_of(program.read(os.path.join(place, name))) != one["sum"]:
        raise _wrong(path, f"{name} isn't what was written with it")
    original = os.path.normpath(os.path.join(os.path.dirname(name), one["original"]))
    try:
        data = program.read(os.path.normpath(os.path.join(place, original)))
    except Failure as failure:
        raise _wrong(path, str(failure)) from None
    if sum_of(data) != one["original-sum"]:
        raise _wrong(path, f"{original} has changed since {name} was written")
    places = {(row[0], row[1]): (row[2], row[3]) for row in one["places"]}
    temporaries = {key: (row[0], row[1]) for key, row in one["temporaries"].items()}
    return Mapped(
        original,
        data,
        places,
        one["names"],
        temporaries,
        _traps(one.get("traps", [])),
        _functions(one.get("functions")),
    )


# ---- writing


def text_of(files: Iterable[tuple[str, dict[str, Any]]]) -> str:
    """The text of a map: for each source that is written what it says of it, a line each."""
    rows = [f" {json.dumps(name)}: {json.dumps(one, separators=(',', ':'))}" for name, one in files]
    return f'{{"form": "{FORM}", "files": {{\n' + ",\n".join(rows) + "\n}}\n"


def entry_of(
    original: str,
    data: bytes,
    written: bytes,
    places: list[list[int]],
    names: dict[str, str],
    temporaries: dict[str, Spot],
    traps: list[list[int | str]],
    functions: dict[str, list[str]],
) -> dict[str, Any]:
    """What a map says of one source."""
    return {
        "original": original,
        "sum": sum_of(written),
        "original-sum": sum_of(data),
        "places": places,
        "names": names,
        "temporaries": {name: list(spot) for name, spot in temporaries.items()},
        "traps": traps,
        "functions": functions,
    }
