"""A source as it is read."""

from dataclasses import dataclass, field

from fshell_tools.adapt.common.tree import FileAST


@dataclass
class Unit:
    """One source with all that it includes, as a tree. `closings` has for each line the lines of the braces that close its `{`."""

    path: str
    tree: FileAST = field(default_factory=lambda: FileAST([]))
    files: list[str] = field(default_factory=list)
    closings: dict[tuple[str, int], list[int]] = field(default_factory=dict)
    words: set[str] = field(default_factory=set)
    # the preprocessed rows that come from each line of a file, and the macros, each with whether it takes arguments
    rows: dict[tuple[str, int], list[str]] = field(default_factory=dict)
    macros: dict[str, bool] = field(default_factory=dict)
