"""Reads the tables of a TOML file into what a program wants of them, and gathers what is wrong, each with its line."""

import difflib
import os
import tomllib
from collections.abc import Iterable
from typing import Any

from fshell_tools.core import program
from fshell_tools.core.program import Failure
from fshell_tools.project.toml_lines import Path, Places


class Faults(Failure):
    """All that is wrong with a file, a line each, FILE:LINE: what; or several lines of another tool. It is a Failure
    whose text is the first."""

    def __init__(self, lines: Iterable[str]) -> None:
        self.lines = list(lines)
        super().__init__(self.lines[0])


class File:
    """A TOML file, with the faults that were found in it. Raises Failure where it can't be read, isn't UTF-8, isn't
    TOML 1.0 or is nested too deep."""

    def __init__(self, path: str) -> None:
        self.path = path
        self.folder = os.path.dirname(os.path.abspath(path))
        try:
            self.text = program.read(path).decode()
            self.value = tomllib.loads(self.text)
        except UnicodeDecodeError:
            raise Failure(f"{path}: it isn't UTF-8") from None
        except tomllib.TOMLDecodeError as fault:
            raise Failure(f"{path}: it is no TOML: {fault}") from None
        except RecursionError:
            raise Failure(f"{path}: it is nested too deep") from None
        except ValueError:  # (which Python raises for a number of more than 4,300 digits)
            raise Failure(f"{path}: a number in it has too many digits") from None
        self.places = Places(self.text)
        self.faults: dict[str, int] = {}

    def fault(self, path: Path, text: str) -> None:
        """Notes what is wrong at a path of keys and numbers of elements, with its line; the same thing counts once."""
        line = self.places.line(path)
        self.faults.setdefault(f"{self.path}:{line}: {text}", line)

    def end(self) -> None:
        """Raises Faults, in the order of their lines, where something is wrong."""
        if self.faults:
            raise Faults(sorted(self.faults, key=lambda text: self.faults[text]))

    def top(self) -> "Table":
        """The table that the file is, whose keys are to be asked for."""
        return Table(self, (), self.value, "the file")


class Table:
    """A table of a file, whose keys are asked for one by one; a key that nobody asked for is a fault. `name` is how the
    user is told of it."""

    def __init__(self, file: File, path: Path, value: dict[str, Any], name: str) -> None:
        self.file, self.path, self.value, self.name = file, path, value, name
        self.asked: list[str] = []

    @property
    def line(self) -> int:
        """The line, from 1, on which its head stands."""
        return self.file.places.line(self.path)

    def fault(self, key: str, text: str) -> None:
        """Notes what is wrong with a key."""
        self.file.fault((*self.path, key), text)

    def has(self, key: str) -> bool:
        """Whether a key stands in it; that doesn't count as asking for it."""
        return key in self.value

    def take(self, key: str, kinds: tuple[type, ...], wanted: str, need: bool) -> Any:
        """The value of a key where it is of one of the `kinds`, else None and a fault that it is no `wanted`; where it
        isn't there, None, and a fault if it must be (`need`)."""
        self.asked.append(key)
        if key not in self.value:
            if need:
                self.file.fault(self.path, f"{self.name} has no key {key}")
            return None
        value = self.value[key]
        if not isinstance(value, kinds) or (isinstance(value, bool) and bool not in kinds):
            self.fault(key, f"{key} of {self.name} is no {wanted}")
            return None
        if isinstance(value, str) and "\0" in value:
            self.fault(key, f"{key} of {self.name} has the character NUL")
            return None
        return value

    def text(self, key: str, need: bool = False) -> str | None:
        """The text of a key, or None; `need` makes a fault of a key that isn't there."""
        found = self.take(key, (str,), "text", need)
        return found if isinstance(found, str) else None

    def choice(self, key: str, words: tuple[str, ...]) -> str:
        """One of some words, the first where the key isn't there or is none of them, which is a fault."""
        found = self.text(key)
        if found is not None and found not in words:
            self.fault(key, f"{key} of {self.name} is none of {', '.join(words)}")
        return found if found in words else words[0]

    def texts(self, key: str, need: bool = False) -> tuple[str, ...]:
        """A list of texts, empty where the key isn't there; an element that is no text is a fault, and left out."""
        found = self.take(key, (list,), "list of texts", need)
        kept = []
        for number, one in enumerate(found or ()):
            if isinstance(one, str) and "\0" in one:
                self.file.fault((*self.path, key, number), f"an element of {key} of {self.name} has the character NUL")
            elif isinstance(one, str):
                kept.append(one)
            else:
                self.file.fault((*self.path, key, number), f"an element of {key} of {self.name} is no text")
        return tuple(kept)

    def files(self, key: str, need: bool = False, is_folder: bool = False) -> tuple[str, ...]:
        """A list of files, or of folders, their names from the file's folder; each that isn't there, or has a line feed
        in its name, is a fault."""
        found = self.texts(key, need)
        for number, name in enumerate(found):
            path = os.path.join(self.file.folder, name)
            if "\n" in name or not (os.path.isdir(path) if is_folder else os.path.isfile(path)):
                what = "folder" if is_folder else "file"
                shown = " ".join(name.split("\n"))
                self.file.fault((*self.path, key, number), f"{shown}: there is no such {what}")
        return found

    def whole(self, key: str, least: int, greatest: int) -> int | None:
        """A whole number from `least` to `greatest`, or None where the key isn't there; another number is a fault."""
        found = self.take(key, (int,), "whole number", False)
        if found is not None and not least <= found <= greatest:
            self.fault(key, f"{key} of {self.name} isn't from {least} to {greatest}")
            return None
        return found if isinstance(found, int) else None

    def percent(self, key: str) -> float | None:
        """A number of percent, from 0 to 100, or None where the key isn't there; another number is a fault."""
        found = self.take(key, (int, float), "number", False)
        if found is not None and not 0 <= found <= 100:
            self.fault(key, f"{key} of {self.name} isn't from 0 to 100")
            return None
        return None if found is None else float(found)

    def flag(self, key: str) -> bool:
        """Whether a key is true; false where it isn't there, and where it is no truth value, which is a fault."""
        return bool(self.take(key, (bool,), "true or false", False))

    def table(self, key: str) -> "Table | None":
        """The table of a key, whose keys are then to be asked for, or None where there is none."""
        found = self.take(key, (dict,), "table", False)
        return None if found is None else Table(self.file, (*self.path, key), found, f"[{key}]")

    def tables(self, key: str) -> "list[Table]":
        """A list of tables, empty where the key isn't there; an element that is no table is a fault, and left out."""
        found = self.take(key, (list,), f"list of tables [[{key}]]", False)
        kept = []
        for number, one in enumerate(found or ()):
            path = (*self.path, key, number)
            if isinstance(one, dict):
                kept.append(Table(self.file, path, one, f"[[{key}]]"))
            else:
                self.file.fault(path, f"an element of {key} is no table [[{key}]]")
        return kept

    def end(self) -> None:
        """Notes a fault for each key that nobody asked for, with the nearest one that is known."""
        for key in self.value:
            if key not in self.asked:
                near = difflib.get_close_matches(key, self.asked, 1)
                hint = f"; is {near[0]} meant?" if near else f"; it has {', '.join(self.asked)}"
                self.fault(key, f"{self.name} knows no key {key}{hint}")
