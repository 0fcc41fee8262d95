"""What one reading of the sources tells the next one: what can't be written as it was tried, or needs copies. Places name it, since each
reading has a tree of its own."""

from dataclasses import dataclass
from typing import Union

from fshell_tools.adapt.common.tree import Coord


@dataclass(frozen=True)
class ApartParameter:
    """A parameter that can't stand for an object, so that it is a pointer as any other."""

    at: Coord
    name: str


@dataclass(frozen=True)
class CopiedFunction:
    """A function of a file that each call gets a copy of."""

    file: str
    name: str


@dataclass(frozen=True)
class DirectCall:
    """A call by a pointer that meets the function of this name alone."""

    at: Coord
    name: str


@dataclass(frozen=True)
class HeapCall:
    """A call by a pointer that meets the function of the heap of this name alone."""

    at: Coord
    name: str


Learned = Union[ApartParameter, CopiedFunction, DirectCall, HeapCall]
