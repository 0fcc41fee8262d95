"""Whether an entry's environment is closed: each of its parameters is an integer, so that inputs choose all that it is handed.

In sources that fshell adapt wrote a pointer is an integer too, or the parts of an object that is apart from all others. No input chooses
the object that an entry's own pointer points to, or that two pointers point to one. So such an entry is open: what is refuted of it is
refuted for some objects alone (C11 6.3.2.3, 6.5.3.2p4).
"""

from collections.abc import Sequence

from fshell_tools.core import source_map


def functions(sources: Sequence[str], place: str = ".") -> dict[str, list[str]] | None:
    """The user's own functions in sources that fshell adapt wrote, each with its parameters that are pointers; None of other sources.
    Functions of models are none of the user's. Raises Failure where a map isn't that of its sources."""
    found: dict[str, list[str]] | None = None
    for name in sources:
        mapped = source_map.of_source(name, place)
        if mapped and mapped.functions is not None:
            found = {**(found or {}), **mapped.functions}
    return found


def open_parameters(entry: str, sources: Sequence[str], place: str = ".") -> list[str]:
    """The parameters of an entry that are pointers; none where its environment is closed."""
    return (functions(sources, place) or {}).get(entry, [])


def told(entry: str, parameters: Sequence[str]) -> str:
    """That an environment is open, and which command closes it."""
    point = "points" if len(parameters) == 1 else "point"
    return (
        f"{entry} is open: no input chooses the object that {', '.join(parameters)} {point} to; "
        f"`fshell driver {entry}` writes a caller that does"
    )


def restriction(entry: str, sources: Sequence[str], place: str | None = None) -> str:
    """Why a goal that is refuted of an entry isn't called unreachable, in words; nothing where its environment is closed."""
    parameters = open_parameters(entry, sources, place or ".")
    return told(entry, parameters) if parameters else ""
