"""The sources that the program reads: a copy of the module's own, or what fshell adapt makes of them, in the work folder."""

import glob
import hashlib
import json
import os
import shutil
import subprocess
import sys
from dataclasses import asdict, dataclass

from fshell_tools.core import graph as graphs
from fshell_tools.core import processes, program, snapshots
from fshell_tools.core.graph import Graph
from fshell_tools.core.program import Failure
from fshell_tools.project.settings import Module, Settings
from fshell_tools.project.toml_tables import Faults


@dataclass(frozen=True)
class Unit:
    """The sources in their order, and the folder in which they stand. `own` has the module's own file for each name,
    from the settings' folder; `read` has the sum of each file that they were made of; `refusal` is why the own ones
    aren't taken, or nothing; `key` is the sum of all else that they were made of."""

    place: str
    sources: tuple[str, ...]
    own: dict[str, str]
    read: dict[str, str]
    refusal: str
    key: str

    @property
    def is_adapted(self) -> bool:
        """Whether fshell adapt wrote the sources."""
        return bool(self.refusal)

    def at(self, name: str) -> str:
        """The path of a file of the unit."""
        return os.path.join(self.place, name)

    def graph(self) -> Graph:
        """The automaton, which is kept beside the sources. Raises Failure where it can't be read."""
        return graphs.of_text(program.read(self.at("graph.txt")).decode())

    def sum(self) -> str:
        """One sum of all sources by their names."""
        return sum_of_text(json.dumps([(name, sum_of_file(self.at(name))) for name in self.sources]))


def sum_of_text(text: str) -> str:
    """The SHA-256 sum of a text as UTF-8, in hexadecimal digits."""
    return hashlib.sha256(text.encode(errors="surrogateescape")).hexdigest()


def sum_of_file(path: str) -> str:
    """The SHA-256 sum of a file's bytes, in hexadecimal digits, or nothing where it can't be read."""
    known = snapshots.held(path)
    if known is not None:
        return hashlib.sha256(known).hexdigest()
    try:
        with open(path, "rb") as file:
            return hashlib.file_digest(file, "sha256").hexdigest()
    except OSError:
        return ""


def _key(module: Module) -> str:
    """What a unit is made from, beside files."""
    adapt = os.path.join(program.PACKAGE, "adapt", "**")
    tools = [sum_of_file(name) for name in sorted(glob.glob(adapt, recursive=True)) if not name.endswith(".pyc")]
    return sum_of_text(json.dumps([asdict(module), sum_of_file(program.program()), tools]))


def kept(settings: Settings, place: str) -> Unit | None:
    """The unit that stands in a folder, where nothing that it was made of has changed; None else."""
    try:
        value = json.loads(program.read(os.path.join(place, "unit.json")))
        found = Unit(place, tuple(value["sources"]), value["own"], value["read"], value["refusal"], value["key"])
    except (Failure, ValueError, KeyError, TypeError):
        return None
    if found.key != _key(settings.module):
        return None
    is_same = all(sum_of_file(settings.at(name)) == known for name, known in found.read.items())
    return found if is_same and os.path.isfile(found.at("graph.txt")) else None


def made(settings: Settings, place: str) -> Unit:
    """The unit of a module: the one that stands in `place`, or a new one, which is put there whole. Files that aren't
    any more what it was made of are told at the end. Raises Failure and Faults as `_made` does."""
    found = kept(settings, place) or _made(settings, place)
    for name, known in found.read.items():
        snapshots.watch(settings.at(name), name, known)
    return found


def _made(settings: Settings, place: str) -> Unit:
    """A new unit, which is put into `place` whole. Raises Failure where the program refuses the sources and they aren't
    to be adapted, or two have one name, and Faults with what fshell adapt refuses."""
    new = place + ".new"
    shutil.rmtree(new, ignore_errors=True)
    os.makedirs(new)
    refusal = _refusal(settings)
    if refusal and settings.module.adapt == "never":
        raise Failure(refusal)
    unit = _adapted(settings, new, refusal) if refusal else _copied(settings, new)
    try:
        program.write_whole(unit.at("graph.txt"), program.answer(["graph", *unit.sources], new))
    except Failure as failure:
        raise Failure(f"{failure}, of what fshell adapt wrote in {new}" if refusal else str(failure)) from None
    value = {**asdict(unit), "place": ""}
    program.write_whole(unit.at("unit.json"), json.dumps(value, indent=1) + "\n")
    shutil.rmtree(place, ignore_errors=True)
    os.rename(new, place)
    return Unit(place, unit.sources, unit.own, unit.read, unit.refusal, unit.key)


def _refusal(settings: Settings) -> str:
    """Why the program doesn't read the sources as they stand, or nothing."""
    if settings.module.adapt == "always":
        return "always"
    words = ["graph", *settings.module.all_sources]
    ended = program.run(words, settings.folder)
    try:
        program.text_of(words, ended)
    except Failure as failure:
        return str(failure)
    return ""


def _copied(settings: Settings, place: str) -> Unit:
    """The sources as they stand."""
    names = tuple(os.path.normpath(name) for name in settings.module.all_sources)
    if any(os.path.isabs(name) or name.startswith("..") for name in names):
        names = tuple(os.path.basename(name) for name in names)
    if len(set(names)) < len(names):
        raise Failure(f"{settings.path}: two sources have one name")
    own, read = {}, {}
    for name, source in zip(names, settings.module.all_sources):
        os.makedirs(os.path.dirname(os.path.join(place, name)), exist_ok=True)
        shutil.copyfile(settings.at(source), os.path.join(place, name))
        own[name], read[source] = source, sum_of_file(os.path.join(place, name))
    return Unit(place, names, own, read, "", _key(settings.module))


def _flags(module: Module) -> list[str]:
    return [f"-I{name}" for name in module.include] + [f"-D{one}" for one in module.defines]


def _adapted(settings: Settings, place: str, refusal: str) -> Unit:
    """What fshell adapt writes of the sources."""
    module = settings.module
    flags = [word for name in module.include for word in ("-I", name)]
    flags += [word for one in module.defines for word in ("-D", one)]
    answered = [word for name in module.answered for word in ("--input", name)]
    words = [sys.executable, program.PYTHON, "adapt", *module.all_sources, *flags, *answered]
    read = _sums(settings)
    ended = processes.run(
        [*words, "-o", os.path.abspath(place)],
        cwd=settings.folder,
        stdin=subprocess.DEVNULL,
        capture_output=True,
        text=True,
        errors="surrogateescape",
        check=False,
    )
    if ended.returncode:
        told = [line for line in ended.stderr.splitlines() if line] or [f"adapt: status {ended.returncode}"]
        raise Faults([f"the program doesn't read the sources ({refusal}), and fshell adapt refuses them:", *told])
    line = next((one for one in ended.stdout.splitlines() if one.startswith("wrote ")), "wrote ")
    paths = line.removeprefix("wrote ").replace(os.path.abspath(place) + os.sep, "\0").split("\0")
    names = tuple(name.strip() for name in paths[1:])
    if read != _sums(settings):
        raise Failure("the sources changed while fshell adapt read them")
    own = {os.path.basename(name): name for name in reversed(list(read)) if os.path.basename(name) in names}
    return Unit(place, names, own, read, refusal, _key(module))


def _sums(settings: Settings) -> dict[str, str]:
    """The SHA-256 sum of each file of the module that fshell adapt reads."""
    return {name: sum_of_file(settings.at(name)) for name in _read_by_compiler(settings)}


def _read_by_compiler(settings: Settings) -> list[str]:
    """The sources and the module's headers that they include, as the preprocessor names them."""
    found = dict.fromkeys(settings.module.all_sources)
    compiler = shutil.which("gcc") or shutil.which("clang")
    for source in settings.module.all_sources if compiler else ():
        words = [str(compiler), "-MM", "-MG", "-MT", "x", *_flags(settings.module), source]
        told = processes.run(words, cwd=settings.folder, capture_output=True, text=True, check=False).stdout
        names = told.replace("\\\n", " ").partition(":")[2].split()
        found |= dict.fromkeys(name for name in names if os.path.isfile(settings.at(name)))
    return list(found)
