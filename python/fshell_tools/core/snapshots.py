"""The versions of files that a tool works on, though the user saves others meanwhile.

A tool takes its sources once. Their bytes are copied into a folder that is called by their sum, the program is run in that folder,
and `program.read` gives those bytes. At the end `changed` says which files aren't any more what was taken. A source whose name
leads out of any copy (an absolute path) is read where it is: after each run of the program its inode, size and times must be what
they were when it was taken.
"""

import contextlib
import hashlib
import os
import shutil
import tempfile
from collections.abc import Iterator, Sequence
from dataclasses import dataclass, field

from fshell_tools.core import processes

Stat = tuple[int, ...]


class Changed(Exception):
    """A file is another one than was taken; the message names it."""


@dataclass
class Taken:
    """A file that was taken: its name as it is shown, its bytes, and what the system said of it then."""

    name: str
    data: bytes
    stat: Stat | None

    @property
    def sum(self) -> str:
        """The SHA-256 sum of its bytes, in hexadecimal digits."""
        return hashlib.sha256(self.data).hexdigest()


@dataclass
class Snapshot:
    """The sources of a folder: where the program runs in place of that folder, and the sources that it reads where they are."""

    folder: str
    sources: tuple[str, ...]
    outside: list[str] = field(default_factory=list)


_taken: dict[str, Taken] = {}  # by the absolute path
_watched: dict[str, tuple[str, str]] = {}  # the name and the sum by the absolute path
_snapshots: dict[str, Snapshot] = {}  # by the absolute path of the user's folder
_folders: list["tempfile.TemporaryDirectory[str]"] = []


def _stat(path: str) -> Stat | None:
    """What tells a version of a regular file from another; None where it is none."""
    with contextlib.suppress(OSError, ValueError):
        found = os.stat(path)
        return (found.st_dev, found.st_ino, found.st_size, found.st_mtime_ns, found.st_ctime_ns)
    return None


def held(path: str) -> bytes | None:
    """The bytes of a file that was taken; None of another one."""
    found = _taken.get(os.path.abspath(path))
    return found.data if found else None


def take_file(path: str, name: str = "") -> Taken | None:
    """Takes a regular file, which `name` shows; None where there is none, or it can't be read. Its stat is from before it was read,
    so a change meanwhile differs from it."""
    place = os.path.abspath(path)
    if place not in _taken:
        try:
            stat = _stat(path) if os.path.isfile(path) else None
            if stat is None:
                return None
            with open(path, "rb") as file:
                _taken[place] = Taken(name or path, file.read(), stat)
        except OSError:
            return None
    _watched.setdefault(place, (name or path, _taken[place].sum))
    return _taken[place]


def watch(path: str, name: str, known: str) -> None:
    """Has `changed` tell a file whose SHA-256 sum isn't the known one at the end."""
    _watched[os.path.abspath(path)] = (name, known)


def sum_of(sources: Sequence[str], place: str = ".") -> str:
    """One SHA-256 sum of sources that were taken, with their names."""
    total = hashlib.sha256()
    for name in sources:
        found = _taken.get(os.path.abspath(os.path.join(place, name)))
        total.update(os.fsencode(name) + b"\0" + (found.sum if found else "-").encode() + b"\n")
    return total.hexdigest()


def is_outside(name: str) -> bool:
    """Whether a name can't lead into a copy."""
    return os.path.isabs(name) or "\0" in name


def _inner(sources: Sequence[str]) -> str:
    """The folder within a copy from which all names lead to files of the copy: as deep as names have `..` in front."""
    depth = max(
        (os.path.normpath(name).split(os.sep).count("..") for name in sources if not is_outside(name)), default=0
    )
    return os.path.join("files", *["up"] * depth)


def _copied(sources: Sequence[str], place: str, root: str) -> Snapshot:
    """Copies sources that were taken into a folder. Raises Changed where two names lead to one place and not to one file."""
    made = Snapshot(os.path.join(root, _inner(sources)), tuple(sources))
    os.makedirs(made.folder, exist_ok=True)
    for name in sources:
        path, into = os.path.join(place, name), os.path.join(made.folder, name)
        found = _taken.get(os.path.abspath(path))
        if is_outside(name):
            made.outside += [name] if found else []
        elif found:
            os.makedirs(os.path.dirname(into), exist_ok=True)
            if os.path.isfile(into) and _bytes_of(into) != found.data:
                raise Changed(f"{name}: another source has its place")
            with open(into, "wb") as file:
                file.write(found.data)
        elif name and os.path.isdir(path):
            os.makedirs(into, exist_ok=True)
    return made


def _bytes_of(path: str) -> bytes:
    with open(path, "rb") as file:
        return file.read()


def take(sources: Sequence[str], place: str = ".") -> None:
    """Takes sources, whose names lead from the folder `place`; from here on the program that is run there reads what was taken. A
    source that isn't there is left to the program, which refuses it. Raises OSError where nothing can be copied."""
    known = _snapshots.get(os.path.abspath(place))
    if known:
        sources = list(dict.fromkeys((*known.sources, *sources)))
    if known and known.sources == tuple(sources):
        return
    for name in sources:
        take_file(os.path.join(place, name), name)
    made = processes.folder_of_its_own()
    _folders.append(made)
    _snapshots[os.path.abspath(place)] = _copied(sources, place, os.path.join(made.name, sum_of(sources, place)))


def keep(sources: Sequence[str], place: str, folder: str) -> None:
    """Copies what was taken into a folder that stays, where other processes find it by its sum (`use`)."""
    root = os.path.join(folder, sum_of(sources, place))
    if os.path.isdir(root):
        return
    os.makedirs(folder, exist_ok=True)
    new = tempfile.mkdtemp(prefix=".new.", dir=folder)
    try:
        _copied(sources, place, new)
        os.chmod(new, 0o755)
        os.rename(new, root)
    except OSError:
        shutil.rmtree(new, ignore_errors=True)
        if not os.path.isdir(root):
            raise
    for name in os.listdir(folder):
        if name != os.path.basename(root):
            shutil.rmtree(os.path.join(folder, name), ignore_errors=True)


def use(sources: Sequence[str], sums: Sequence[str], place: str, folder: str) -> bool:
    """Takes the sources of these sums from what another process has kept in a folder; whether all are there. Nobody is told where
    the user's own are others by now."""
    total = hashlib.sha256()
    for name, known in zip(sources, sums):
        total.update(os.fsencode(name) + b"\0" + known.encode() + b"\n")
    inner = os.path.join(folder, total.hexdigest(), _inner(sources))
    for name, known in zip(sources, sums):
        path = os.path.join(place if is_outside(name) else inner, name)
        if is_outside(name):
            take_file(path, name)
        else:
            with contextlib.suppress(OSError):
                _taken[os.path.abspath(os.path.join(place, name))] = Taken(name, _bytes_of(path), None)
        found = _taken.get(os.path.abspath(os.path.join(place, name)))
        if not found or found.sum != known:
            return False
    outside = [name for name in sources if is_outside(name)]
    _snapshots[os.path.abspath(place)] = Snapshot(inner, tuple(sources), outside)
    return True


def folder_of(place: str | None) -> str | None:
    """The folder in which the program is run in place of another one."""
    found = _snapshots.get(os.path.abspath(place or "."))
    return found.folder if found else place


def check(place: str | None) -> None:
    """Raises Changed where a source that the program reads where it is may be another one than was taken."""
    found = _snapshots.get(os.path.abspath(place or "."))
    for name in found.outside if found else ():
        one = _taken[os.path.abspath(os.path.join(place or ".", name))]
        if _stat(name) != one.stat:
            raise Changed(f"{name} changed while it was read, so nothing is reported")


def changed() -> Iterator[str]:
    """The names of the files that aren't what was taken, or what is watched."""
    for path, (name, known) in _watched.items():
        try:
            is_same = hashlib.sha256(_bytes_of(path)).hexdigest() == known
        except OSError:
            is_same = False
        if not is_same:
            yield name


def taken_sum() -> str:
    """One SHA-256 sum of all that was taken or is watched, by the names."""
    rows = sorted(f"{name}\0{known}\n" for name, known in _watched.values())
    return hashlib.sha256("".join(rows).encode("utf-8", "surrogateescape")).hexdigest()
