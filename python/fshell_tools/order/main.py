"""fshell order: lists the expressions whose result can depend on the order in which their parts are evaluated.

C leaves that order open (6.5p3, 6.5.2.2p10), and FShell takes one. Each place is told with its class, a line each:

    FILE:LINE:COLUMN: warning: CLASS: why

value    one part writes what another reads or writes
answers  two parts take answers of input functions
end      two parts may end the run in different ways
watched  one part writes what a predicate of --query or --watch reads, and another has nodes of its own
strict   one part may end the run, and another does something; asked for with --ends trapped and any alone

The status is 1 where something is told, and 0 where nothing is: then each order gives the same (docs/ORDER.md).
"""

import argparse
import json
import re
import sys
from collections.abc import Iterable, Sequence
from dataclasses import dataclass

from fshell_tools.core import argument_parsers, original_sources, program, snapshots
from fshell_tools.core.program import Failure
from fshell_tools.core.reports import ENDS
from fshell_tools.order import statements, tokens
from fshell_tools.order.tree import Unit
from fshell_tools.order.unsequenced import told

ALWAYS = ("value", "answers", "end")
DEEPEST = 1_000_000
_PREDICATE = re.compile(r"\{([^{}]*)\}")
_NAME = re.compile(r"[A-Za-z_]\w*", re.ASCII)
_COMMENT = re.compile(r"/\*.*?\*/|//[^\n]*", re.DOTALL)


@dataclass(frozen=True)
class Warned:
    """A place whose parts have no order, though it matters; and the function that it stands in."""

    kind: str
    file: str
    line: int
    column: int
    function: str
    why: str

    @property
    def place(self) -> str:
        """`FILE:LINE:COLUMN`, the column in bytes from 1, of the token as it stands, also within a macro's line."""
        return f"{self.file}:{self.line}:{self.column}"

    def shown(self, sources: Sequence[str]) -> "Warned":
        """The same as the user wrote it, where the source was written of another one."""
        file, line, column = original_sources.place_of(self.file, self.line, self.column, None).rsplit(":", 2)
        why = original_sources.words_of(self.why, sources, None)
        return Warned(self.kind, file, int(line), int(column), self.function, why)

    @property
    def text(self) -> str:
        """The line of the warning."""
        return f"{self.place}: warning: {self.kind}: {self.why}"


def watched_by(query: str) -> set[str]:
    """All words that stand in the predicates of a query, so the names that they read."""
    return {name for text in _PREDICATE.findall(query) for name in _NAME.findall(_COMMENT.sub(" ", text))}


def classes(query: str | None = "", ends: str = "returned", watch: Iterable[str] = ()) -> tuple[str, ...]:
    """Which kinds of open orders matter for a query, the ends of runs that count, and variables that are watched
    (docs/ORDER.md); the query None stands for any."""
    return (
        ALWAYS
        + (("watched",) if watch or query is None or watched_by(query) else ())
        + (("strict",) if ends != "returned" else ())
    )


def deep() -> None:
    """Lets the reading of deeply nested sources recur."""
    sys.setrecursionlimit(max(DEEPEST, sys.getrecursionlimit()))


def unit_of(sources: Sequence[str], folder: str | None = None) -> tuple[Unit, list[tokens.Word]]:
    """The unit of sources that the program accepts, and its tokens. Raises Failure where the program refuses them,
    or where they can't be read here."""
    program.check_names(sources)
    program.answer(["graph", *sources], folder)
    words = tokens.of_sources(sources, folder or ".")
    deep()
    try:
        return statements.unit_of(words), words
    except (ValueError, IndexError) as fault:
        raise Failure(f"the sources aren't read as the program reads them: {fault}") from None


def warnings(
    entry: str,
    sources: Sequence[str],
    query: str | None = "",
    ends: str = "returned",
    watch: Iterable[str] = (),
    folder: str | None = None,
) -> list[Warned]:
    """All that is told of what an entry reaches, in the order of the sources; each place once for each class. Where
    the query isn't known, its predicates may read anything. Raises Failure as unit_of does."""
    unit, words = unit_of(sources, folder)
    function = unit.functions.get(entry)
    if not function or any(one.length for one in function.parameters):
        raise Failure(f"{entry} is no function with a body and without array parameters")
    wanted = classes(query, ends, watch)
    found: dict[tuple[str, str], Warned] = {}
    for one in told(unit, entry, None if query is None else {*watch, *watched_by(query)}):
        if one.kind in wanted:
            word = words[one.at]
            made = Warned(one.kind, word.file, word.line, word.column, one.function, one.why)
            found.setdefault((made.place, made.kind), made)
    return list(found.values())


def needed(query: str | None, ends: str) -> tuple[str, ...]:
    """The classes of which a unit must be free where a goal is called unreachable, whatever the order (docs/ORDER.md)."""
    return ("value", "watched") if ends == "returned" else classes(query, ends)


def restriction(entry: str, sources: Sequence[str], query: str | None, ends: str, folder: str | None = None) -> str:
    """Why a goal isn't called unreachable though it is by FShell's order of evaluation; nothing where each order gives the
    same."""
    try:
        found = warnings(entry, sources, query, ends, folder=folder)
    except Failure as failure:
        return f"whether its order of evaluation matters isn't known: {failure}"
    told_of = [one for one in found if one.kind in needed(query, ends)]
    places = list(dict.fromkeys(original_sources.place_of(one.file, one.line, one.column, folder) for one in told_of))
    if not places:
        return ""
    more = f" and at {len(places) - 1} more places, which fshell order tells" if len(places) > 1 else ""
    return f"C leaves the order of evaluation open at {places[0]} ({told_of[0].kind}){more}"


def parser_of_words() -> argument_parsers.Parser:
    """What reads the words of fshell order; a wrong word ends the tool with status 2."""
    parser = argument_parsers.parser(
        "order", __doc__, "nothing is told: each order of evaluation gives the same", "places are told"
    )
    argument_parsers.takes_entry(parser)
    parser.add_argument("--ends", choices=ENDS, default="returned", help="as for generate: which runs count")
    parser.add_argument("--query", default="", help="a query, whose predicates watch the variables that they read")
    parser.add_argument("--watch", action="append", default=[], metavar="NAME", help="a variable that is watched")
    parser.add_argument("--json", action="store_true", help="one line of JSON")
    return parser


def parsed() -> argparse.Namespace:
    """What the words of fshell order say."""
    return parser_of_words().parse_intermixed_args()


def main() -> int:
    """Prints the warnings; the status is 1 where there are some."""
    given = parsed()
    snapshots.take(given.sources)
    told_of = warnings(given.entry, given.sources, given.query, given.ends, given.watch)
    found = [one.shown(given.sources) for one in told_of]
    if given.json:
        rows = [{**vars(one)} for one in found]
        text = json.dumps({"classes": classes(given.query, given.ends, given.watch), "warnings": rows}) + "\n"
    else:
        text = "".join(one.text + "\n" for one in found)
    program.give(text, None)
    return program.OPEN if found else program.DONE
