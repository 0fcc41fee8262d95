"""The programs of bench/sources/turned: functions that can be turned round (ciphers, CRCs, hashes, generators), products and
guards that exclude each other, each with its entry and the turns of its loops."""

import os
from dataclasses import dataclass

HERE = os.path.dirname(os.path.abspath(__file__))


@dataclass(frozen=True)
class Turned:
    """A program: its file below the repository, its entry, and the turns of its bounds."""

    file: str
    entry: str
    turns: int = 4

    @property
    def name(self) -> str:
        """What its file is called, without the folder and `.c`."""
        return os.path.basename(self.file)[:-2]

    @property
    def path(self) -> str:
        """Where its file stands on this machine."""
        return os.path.join(HERE, "..", self.file)

    @property
    def bounds(self) -> list[str]:
        """The options of `generate` that bound its runs."""
        return ["--turns", str(self.turns)]


TURNED = [
    Turned("examples/programs/tea.c", "unlock"),
    Turned("bench/sources/turned/sealed_crc.c", "boot", 8),
    Turned("bench/sources/turned/mixed.c", "slot"),
    Turned("bench/sources/turned/generator.c", "drawn"),
    Turned("bench/sources/turned/congruent.c", "lottery"),
    Turned("bench/sources/turned/speck.c", "unlock"),
    Turned("bench/sources/turned/factors.c", "factors"),
    Turned("bench/sources/turned/divided.c", "divided"),
    Turned("bench/sources/turned/djb.c", "command", 5),
    Turned("bench/sources/turned/fnv.c", "slot"),
    Turned("bench/sources/turned/counted.c", "counted"),
]
