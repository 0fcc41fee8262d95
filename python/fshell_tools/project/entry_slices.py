"""What of a unit the runs of an entry depend on: the tokens outside of functions, and those of the functions that it reaches.

A change of a comment, of a layout or of another function leaves it as it is.
"""

from collections.abc import Iterator, Sequence

from fshell_tools.core import program
from fshell_tools.core.declarations import Item, function_name, is_name
from fshell_tools.core.sources import CLOSING, OPENING, Source
from fshell_tools.project.unit import Unit, sum_of_text


def parts(source: Source) -> Iterator[tuple[str, str]]:
    """The tokens of a source in parts, each as one text with the name of the function that it defines, or with none."""
    kept: list[str] = []
    depth, name = 0, ""
    for token in source.tokens:
        if depth == 0 and token.text == "{" and "=" not in kept and "enum" not in kept:
            name = function_name(Item(tuple(kept), True))
        kept.append(token.text)
        depth += (token.text in OPENING) - (token.text in CLOSING)
        if depth == 0 and (token.text == ";" or (name and token.text == "}")):
            yield name, " ".join(kept)
            kept, name = [], ""
    if kept:
        yield "", " ".join(kept)


class Slices:
    """The parts of a unit's sources, each as one text: those `outside` of functions, with the directives, and each
    function's."""

    def __init__(self, unit: Unit) -> None:
        self.outside: list[str] = []
        self.functions: dict[str, str] = {}
        for name in unit.sources:
            source = Source(name, program.read(unit.at(name)))
            self.outside += [directive.text for directive in source.directives]
            for function, text in parts(source):
                if function and is_name(function):
                    self.functions[function] = text
                else:
                    self.outside.append(text)

    def sum(self, functions: Sequence[str]) -> str:
        """One SHA-256 sum of what runs through these functions depend on, in hexadecimal digits."""
        bodies = [self.functions.get(name, "") for name in functions]
        return sum_of_text("\n".join([*self.outside, *bodies]))
