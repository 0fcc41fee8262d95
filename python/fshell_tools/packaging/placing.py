"""Puts files below a prefix such that nothing that stands there is lost, and takes them back.

`PREFIX/lib/fshell/installed.json` lists what was put there, each with its sum, and the folders that were made. A file that isn't in
that list, or isn't any more as it was put there, is somebody else's: it is replaced only where that is asked for, and stays where
the rest is taken back. All is looked at before the first file is written. A file is written beside its place under a name that
nobody can foresee, and moved there.
"""

import contextlib
import hashlib
import json
import os
import tempfile
from collections.abc import Iterator, Sequence
from dataclasses import dataclass

from fshell_tools.core import program
from fshell_tools.core.program import Failure

LIST = "lib/fshell/installed.json"
FORMAT = "fshell installed 1"


@dataclass(frozen=True)
class Item:
    """A file to be put at a path from the prefix: its bytes, or where it leads to as a link."""

    path: str
    data: bytes = b""
    target: str = ""
    is_program: bool = False

    @property
    def sum(self) -> str:
        """What tells it from other files."""
        return f"link {self.target}" if self.target else hashlib.sha256(self.data).hexdigest()


@dataclass
class Listed:
    """What was put below a prefix: the sum of each path, and the folders that were made for them."""

    sums: dict[str, str]
    folders: list[str]


def listed(prefix: str) -> Listed | None:
    """What was put below a prefix; None where there is no list. Raises Failure where the list isn't one."""
    path = os.path.join(prefix, LIST)
    if not os.path.lexists(path):
        return None
    try:
        value = json.loads(program.read(path))
        found = Listed(dict(value["files"]), list(value["folders"]))
        names = [*found.sums, *found.folders]
        if (
            value["format"] == FORMAT
            and all(_is_inside(name) for name in names)
            and all(map(_is_text, found.sums.values()))
        ):
            return found
    except (ValueError, KeyError, TypeError, RecursionError):
        pass
    raise Failure(f"{path}: it is no list of what was installed")


def _is_text(value: object) -> bool:
    return isinstance(value, str)


def _is_inside(name: object) -> bool:
    """Whether a name is a path from the prefix that leads nowhere else."""
    return (
        isinstance(name, str)
        and name == os.path.normpath(name)
        and not name.startswith(("/", ".."))
        and "\0" not in name
    )


def sum_at(path: str) -> str:
    """The sum of what stands at a path; nothing where that is neither a file nor a link, or can't be read."""
    if os.path.islink(path):
        return f"link {os.readlink(path)}"
    return hashlib.sha256(program.read(path)).hexdigest() if os.path.isfile(path) else ""


def foreign(prefix: str, items: Sequence[Item], known: Listed) -> Iterator[str]:
    """The paths at which something stands that wasn't put there, and isn't what is to be put there."""
    for item in items:
        path = os.path.join(prefix, item.path)
        if os.path.lexists(path) and sum_at(path) not in (item.sum, known.sums.get(item.path, item.sum)):
            yield path


def _made(prefix: str, folder: str) -> list[str]:
    """Makes a folder, given by its path from the prefix; the paths of those that weren't there."""
    names = folder.split("/")
    found = ["/".join(names[: end + 1]) for end in range(len(names))]
    new = [one for one in found if not os.path.isdir(os.path.join(prefix, one))]
    try:
        os.makedirs(os.path.join(prefix, folder), exist_ok=True)
    except OSError as fault:
        raise Failure(f"{os.path.join(prefix, folder)}: {fault.strerror}") from None
    return new


def _place(path: str, item: Item) -> None:
    """Puts an item into its place, whole or not at all. Raises Failure where that can't be."""
    try:
        with tempfile.TemporaryDirectory(prefix=".new.", dir=os.path.dirname(path)) as folder:
            name = os.path.join(folder, "new")
            if item.target:
                os.symlink(item.target, name)
            else:
                with open(name, "wb") as file:
                    file.write(item.data)
                os.chmod(name, 0o755 if item.is_program else 0o644)
            os.replace(name, path)
    except OSError as fault:
        raise Failure(f"{path}: {fault.strerror}") from None


def place(prefix: str, items: Sequence[Item], force: bool, is_listed: bool = True) -> None:
    """Puts items below a prefix; what was put there before and isn't among them is taken back. Raises Failure, and has changed
    nothing, where something stands in the place of one that wasn't put there, but for `force`."""
    known = listed(prefix) or Listed({}, [])
    others = [] if force else list(foreign(prefix, items, known))
    if others:
        more = f", and {len(others) - 1} more" if len(others) > 1 else ""
        raise Failure(
            f"{others[0]}{more}: it wasn't put there by fshell install, or was changed since; --force replaces it"
        )
    made = list(known.folders)
    for folder in dict.fromkeys(os.path.dirname(item.path) for item in items):
        made += _made(prefix, folder)
    for item in items:
        _place(os.path.join(prefix, item.path), item)
    left = {path: one for path, one in known.sums.items() if path not in {item.path for item in items}}
    take_back(prefix, Listed(left, []))
    if is_listed:
        value = {"format": FORMAT, "files": {item.path: item.sum for item in items}, "folders": sorted(set(made))}
        _place(os.path.join(prefix, LIST), Item(LIST, (json.dumps(value, indent=1) + "\n").encode()))


def take_back(prefix: str, known: Listed) -> list[str]:
    """Removes what was put below a prefix and is as it was put there; the paths of the files that stay, as they were changed."""
    left = []
    for name, one in known.sums.items():
        path = os.path.join(prefix, name)
        if not os.path.lexists(path):
            continue
        if sum_at(path) != one:
            left.append(path)
            continue
        with program_faults(path):
            os.remove(path)
        _remove_compiled(path)
    for name in sorted(known.folders, key=len, reverse=True):
        with contextlib.suppress(OSError):  # (one that isn't empty stays)
            os.rmdir(os.path.join(prefix, name))
    return left


@contextlib.contextmanager
def program_faults(path: str) -> Iterator[None]:
    """Has a fault of the system name a path. Raises Failure for one."""
    try:
        yield
    except OSError as fault:
        raise Failure(f"{path}: {fault.strerror}") from None


def _remove_compiled(path: str) -> None:
    """Removes what Python compiled of a module, and the folder of such where it is empty."""
    folder, name = os.path.join(os.path.dirname(path), "__pycache__"), os.path.basename(path)
    if name.endswith(".py") and os.path.isdir(folder) and not os.path.islink(folder):
        for one in os.listdir(folder):
            if one.startswith(name.removesuffix("py")) and one.endswith(".pyc"):
                with program_faults(path):
                    os.remove(os.path.join(folder, one))
        with contextlib.suppress(OSError):
            os.rmdir(folder)


def uninstall(prefix: str) -> list[str]:
    """Takes back all that was put below a prefix; the paths of the files that stay. Raises Failure where there is no list of it."""
    known = listed(prefix)
    if known is None:
        raise Failure(f"{os.path.join(prefix, LIST)}: there is no such file, so nothing is known of what was installed")
    path = os.path.join(prefix, LIST)
    left = take_back(prefix, Listed(known.sums, []))
    with program_faults(path):
        os.remove(path)
    take_back(prefix, Listed({}, known.folders))
    return left
