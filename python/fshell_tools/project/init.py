"""Writes a fshell.toml for sources: an entry for each function that can be one, and of the others why they can't."""

import json
import os
import tempfile
from collections.abc import Iterator, Sequence

from fshell_tools.core import environments, named_inputs, program
from fshell_tools.core.declarations import variables
from fshell_tools.core.named_inputs import Signature
from fshell_tools.core.program import Failure
from fshell_tools.core.sources import Source
from fshell_tools.project import unit as units
from fshell_tools.project.settings import Gate, Module, Settings
from fshell_tools.project.unit import Unit

HEAD = """# What is asked of this module; docs/MODULE.md has all keys. Names of files are read from this file's folder.
# fshell run does what isn't done yet, writes the report, and judges the gate.
"""


def _list(values: Sequence[str]) -> str:
    """A list of texts as TOML has it, which is as JSON has it."""
    return json.dumps(list(values), ensure_ascii=False)


def _module(module: Module) -> Iterator[str]:
    yield "[module]"
    yield f"sources = {_list(module.sources)}"
    for name, values in (("drivers", module.drivers), ("include", module.include), ("defines", module.defines)):
        if values:
            yield f"{name} = {_list(values)}"
    if module.answered:
        yield f"answered = {_list(module.answered)}"


class Draft:
    """What is known of a unit's functions: its automaton, its sources, the variables of its files, and the functions
    that drivers have (`drivers` are their sources)."""

    def __init__(self, unit: Unit, drivers: Sequence[str]) -> None:
        self.unit, self.graph = unit, unit.graph()
        self.sources = [Source(name, program.read(unit.at(name))) for name in unit.sources]
        self.state = {name for source in self.sources for name in variables(source)}
        self.functions = environments.functions(unit.sources, unit.place)
        names = {os.path.basename(name) for name in drivers}
        self.of_drivers = {
            one.name for one in self.graph.functions if os.path.basename(self.graph.nodes[one.entry].file) in names
        }

    def signature(self, function: str) -> Signature:
        """The parameters of a function with their types, as its definition has them. Raises Failure where no source
        defines it, as where a macro makes its head."""
        return named_inputs.signature(self.sources, function)

    def own(self, name: str) -> str:
        """The module's own file in which a function is defined."""
        file = self.graph.nodes[self.graph.function(name).entry].file
        return self.unit.own.get(file, file)

    def is_own(self, name: str) -> bool:
        """Whether the user or a driver has written a function; a library's model that fshell adapt put in front isn't one."""
        return self.functions is None or name in self.functions

    def pointers(self, name: str) -> list[str]:
        """The names of a function's parameters that are pointers in the user's own source."""
        return (self.functions or {}).get(name, [])

    def arrays(self, name: str) -> list[str]:
        """The names of a function's parameters that are arrays, so that no input has them."""
        return [word for kind, word in self.signature(name).parameters if "[" in kind]

    def kept(self, name: str) -> list[str]:
        """The variables of the file that runs of a function read and some function writes, so that runs hang on what
        was before; sorted."""
        reached = self.graph.reached(name)
        read = {one for edge in self.graph.edges if self.graph.owner(edge) in reached for one in edge.reads}
        written = {one for edge in self.graph.edges for one in edge.writes}
        return sorted(read & written & self.state)

    def driver_of(self, name: str) -> str:
        """The name of the driver of a function, drive_NAME, or nothing where no driver's source has it."""
        driver = f"drive_{name}"
        return driver if driver in self.of_drivers else ""


def _entry(draft: Draft, name: str, queries: Sequence[str]) -> Iterator[str]:
    kept = draft.kept(name)
    yield ""
    yield "[[entry]]"
    yield f'function = "{name}"  # {draft.signature(name)}, {draft.own(name)}'
    yield f"queries = {_list(queries)}"
    if kept and name not in draft.of_drivers:
        shown = ", ".join(kept[:4]) + (" .." if len(kept) > 4 else "")
        yield f"# its runs begin with the first values of {shown}:"
        yield f"# fshell driver {name} {draft.own(name)} --steps 4 -o drive_{name}.c writes a caller that takes several steps"


def text_of(draft: Draft, module: Module, queries: Sequence[str]) -> str:
    """The text of fshell.toml: an entry with these queries for each function that can be one, a line for each that
    can't be and why, and a gate that asks for 100 percent."""
    lines = [HEAD, *_module(module)]
    left_out = []
    for one in draft.graph.functions:
        if one.name in draft.of_drivers and not one.name.startswith("drive_"):
            continue
        if not draft.is_own(one.name):
            continue
        driver = draft.driver_of(one.name)
        arrays, pointers = draft.arrays(one.name), draft.pointers(one.name)
        if driver:
            left_out.append(f"# {one.name}: {driver} calls it")
        elif arrays:
            left_out.append(
                f"# {one.name}: {', '.join(arrays)} is an array, which no input has; "
                f"fshell driver {one.name} {draft.own(one.name)} -o drive_{one.name}.c writes a caller"
            )
        elif pointers:
            left_out.append(f"# {environments.told(one.name, pointers)}:")
            left_out.append(f"#   fshell driver {one.name} {draft.own(one.name)} -o drive_{one.name}.c")
        else:
            lines += _entry(draft, one.name, queries)
    lines += ["", *(["# left out:"] if left_out else []), *left_out]
    lines += ["" if left_out else "", "[gate]", "at-least = 100", ""]
    return "\n".join(lines).replace("\n\n\n", "\n\n")


def write(path: str, module: Module, queries: Sequence[str]) -> tuple[int, int]:
    """Writes the file; gives the numbers of entries and of the module's functions. Raises Failure where a file stands
    there already, a source or folder isn't there, or the program and fshell adapt refuse the sources."""
    if os.path.lexists(path):
        raise Failure(f"{path} is there already; move it away, or name another one (-o)")
    folder = os.path.dirname(os.path.abspath(path))
    for name in (*module.all_sources, *module.include):
        if not os.path.exists(os.path.join(folder, name)):
            raise Failure(f"{name}: there is no such file in {folder}")
    with tempfile.TemporaryDirectory() as made:
        unit = units.made(Settings(path, folder, module, (), Gate()), os.path.join(made, "unit"))
        draft = Draft(unit, module.drivers)
        text = text_of(draft, module, queries)
        count = len(draft.graph.functions) - len(draft.of_drivers)
    program.write_whole(path, text)
    return text.count("\n[[entry]]\n"), count
