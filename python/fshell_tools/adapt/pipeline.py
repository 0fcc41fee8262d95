"""The way of C sources through fshell adapt, stage by stage. Each stage is a folder here (STAGES), and knows those before it alone.

    read        the text of each source, by the machine's preprocessor and compiler, as a tree of our own (tree.py)
    expand      copies of functions, models of the library, switches and jumps: trees as they were, written otherwise
    names       what each name stands for, and the types of declarations and expressions
    bind        which parameters stand for objects
    points_to   which objects each pointer may meet
    layout      where these objects lie in arrays, the columns, and how long they live
    effects     what expressions and calls read and write
    write       each statement in the profile, on its line
    judge       the program reads what would be written

What a later stage learns, that parameters can't stand for objects or that functions need copies, begins the whole anew.
"""

from collections.abc import Callable
from typing import NamedTuple, Optional

from fshell_tools.adapt.bind.bindings import Bindings
from fshell_tools.adapt.bind.lvalues import Places
from fshell_tools.adapt.common import tree
from fshell_tools.adapt.common.feedback import CopiedFunction, DirectCall, Learned
from fshell_tools.adapt.common.options import Words
from fshell_tools.adapt.common.output import File
from fshell_tools.adapt.common.refusals import Refusals
from fshell_tools.adapt.common.unit import Unit
from fshell_tools.adapt.effects.side_effects import Effected
from fshell_tools.adapt.expand.clones import Clones
from fshell_tools.adapt.expand.jumps import Jumps
from fshell_tools.adapt.expand.library import OUTPUT, Library
from fshell_tools.adapt.expand.switches import Cases
from fshell_tools.adapt.judge.program_check import check
from fshell_tools.adapt.layout.choosers import Choosers
from fshell_tools.adapt.layout.identifiers import Spelling
from fshell_tools.adapt.layout.image_check import check_images
from fshell_tools.adapt.layout.lifetimes import Lifetimes
from fshell_tools.adapt.layout.regions import Columns
from fshell_tools.adapt.names.scopes import Names
from fshell_tools.adapt.names.sorted_sizes import check_sizes
from fshell_tools.adapt.names.unions import settle
from fshell_tools.adapt.read.preprocessing import read
from fshell_tools.adapt.write.writer import Analysis, Checking, Writer


STAGES = ("common", "read", "expand", "names", "bind", "points_to", "layout", "effects", "write", "judge", "command")


class Adapted(NamedTuple):
    """The text of each file that is written, by its original, and who wrote it."""

    texts: dict[str, str]
    writer: Writer


def adapt(given: Words, refusals: Refusals) -> Optional[Adapted]:
    """What is written of the sources; nothing where one of them is no C. What is refused is gathered in `refusals`.

    Parameters that can't stand for objects in what is written, since these have a second name there, are pointers as any other
    in what is written next. Raises Stop where a source can't be opened, or a program of the machine isn't there."""
    apart: set[Learned] = set()
    while True:
        tried = Refusals()
        made = written(given, tried, apart)
        if not tried.apart - apart:
            copies = {one for one in apart if isinstance(one, (CopiedFunction, DirectCall))}
            if tried.found and copies:  # (told in the words of the sources)
                tried = Refusals()
                written(given, tried, apart - copies)
            refusals.found |= tried.found
            return made
        apart |= tried.apart


def written(given: Words, refusals: Refusals, apart: set[Learned]) -> Optional[Adapted]:
    """One way through all stages, with what was learned before."""
    tried = [read(path, given.flags, refusals) for path in given.sources]
    units = [unit for unit in tried if unit is not None]
    if len(units) < len(tried):
        return None
    taken = {word for unit in units for word in unit.words}
    library = expanded(units, taken, apart, refusals)
    names = named(units, library, given, refusals, taken)
    Bindings(Places(names), apart).bind()
    columns = Columns(names, apart)
    check_images(columns, refusals)
    choosers, places, lifetimes = Choosers(names, columns), Places(names, columns), Lifetimes(names, columns)
    inputs = set(given.inputs) | OUTPUT
    effected = Effected(places, columns, choosers, inputs)
    known = Analysis(names, places, columns, choosers, effected, lifetimes, inputs)
    writer = Writer(known, Spelling(names, taken), Checking(given.check, given.check_overflow, given.check_conversions))
    texts = writer.finished(laid_out(writer.units.write(), units, given.sources))
    if not refusals.found:
        check(texts, refusals)
    return Adapted(texts, writer)


def free_names(taken: set[str]) -> Callable[[str], str]:
    """What gives a name that nothing else has: a stem with a number that no other one has."""
    numbers = iter(range(1, 1000000))
    return lambda stem: next(name for name in (f"{stem}_{n}" for n in numbers) if name not in taken)


def expanded(units: list[Unit], taken: set[str], apart: set[Learned], refusals: Refusals) -> Library:
    """Changes the trees: what is left has no jumps, and switches whose cases stand directly in them; the models in front."""
    fresh = free_names(taken)
    Clones(units, apart, fresh)
    library = Library(units, taken)
    for item in [item for unit in units for item in unit.tree.ext if isinstance(item, tree.FuncDef)]:
        Cases(fresh).function(item.body)
        Jumps(fresh, refusals).function(item)
    return library


def named(units: list[Unit], library: Library, given: Words, refusals: Refusals, taken: set[str]) -> Names:
    """What the names stand for. The names that jumps got become taken."""
    names = Names(refusals, given.pool)
    for unit in units:
        taken.update(node.name for node in tree.walk(unit.tree) if isinstance(node, tree.ID))
        names.unit(unit)
    check_sizes(names, library.sorted)
    settle(names.structs, names.named_members, names.initialised)
    return names


def laid_out(files: dict[str, File], units: list[Unit], sources: list[str]) -> dict[str, str]:
    """The texts of the files, in the order in which the sources include them, each beside the lines of its original."""
    for path in sources:
        files.setdefault(path, File(path))  # (which has no code)
    order = dict.fromkeys(path for unit in units for path in unit.files)
    kept = [path for path in order if path in files and (files[path].pieces or path in sources)]
    return {path: files[path].text(lines_of(path)) for path in kept}


def lines_of(path: str) -> list[str]:
    """A source as it stands, split at line feeds; bytes that aren't UTF-8 are kept. Raises OSError."""
    with open(path, encoding="utf-8", errors="surrogateescape") as file:
        return file.read().split("\n")
