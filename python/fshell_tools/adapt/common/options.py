"""The words of the command line, by which sources are adapted."""

from dataclasses import dataclass, field
from typing import Optional


@dataclass
class Words:
    """What is asked for; docs/ADAPT.md has the options. `pool` is how many slots a call of malloc has, and how many elements where their
    number isn't constant; `harness` an entry and a file of inputs; `compare` how many inputs of each kind are compared.
    """

    sources: list[str] = field(default_factory=list)
    folders: list[str] = field(default_factory=list)  # with headers
    macros: list[str] = field(default_factory=list)
    inputs: list[str] = field(default_factory=list)  # functions that give inputs
    out: str = "adapted"
    pool: tuple[int, int] = (4, 16)
    check: bool = False
    check_overflow: bool = False
    check_conversions: bool = False
    bounds: bool = False
    harness: Optional[list[str]] = None
    compare: int = 0

    @property
    def flags(self) -> list[str]:
        """The compiler's words for headers and macros."""
        return [f"-I{one}" for one in self.folders] + [f"-D{one}" for one in self.macros]
