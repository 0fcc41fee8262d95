"""The work folder: the sources that are read, a folder for each task, and the report.

  unit/            the sources that the program reads
  tasks/ENTRY/TASK what a task found, with done.json once it is whole
  report/          the pages and files for people and for other tools

Each file is moved into its place whole, so that a run that was stopped at any moment goes on from what stands there.
"""

import fcntl
import json
import os
from typing import IO, Any

from fshell_tools.core import program
from fshell_tools.core.program import Failure
from fshell_tools.project.unit import sum_of_file

NAME = "fshell.out"


class Work:
    """A work folder, by its path; nothing of it need be there."""

    def __init__(self, path: str) -> None:
        self.path = os.path.abspath(path)

    def at(self, *names: str) -> str:
        """The path of a file of the folder, by the names that lead to it."""
        return os.path.join(self.path, *names)

    def task(self, entry: str, name: str) -> "Place":
        """The folder of a task of an entry."""
        return Place(self.at("tasks", entry, name))

    def lock(self, waits: bool = False) -> IO[str]:
        """The folder's lock, which is held as long as this file is open; the folder is made. Where another process has
        it, that is waited for (`waits`), or it raises Failure; also where the folder can't be made."""
        try:
            os.makedirs(self.path, exist_ok=True)
        except OSError as fault:
            raise Failure(f"{self.path}: {fault.strerror}") from None
        file = open(self.at("lock"), "w", encoding="ascii")
        try:
            fcntl.flock(file, fcntl.LOCK_EX if waits else fcntl.LOCK_EX | fcntl.LOCK_NB)
        except OSError:
            file.close()
            raise Failure(f"{self.path}: another process works in it") from None
        return file


class Place:
    """The folder of a task, or of the report; done.json in it says for which key it is whole."""

    def __init__(self, path: str) -> None:
        self.path = path

    def at(self, *names: str) -> str:
        """The path of a file of the folder, by the names that lead to it."""
        return os.path.join(self.path, *names)

    def value(self, name: str) -> Any:
        """What a file of JSON says, or None where there is none, or it isn't whole."""
        try:
            return json.loads(program.read(self.at(name)))
        except (Failure, ValueError, RecursionError):
            return None

    def keep(self, name: str, value: object) -> None:
        """Writes a value as JSON into a file of the folder, which is made. Raises Failure where it can't be written."""
        os.makedirs(self.path, exist_ok=True)
        program.write_whole(self.at(name), json.dumps(value, indent=1) + "\n")

    def files(self) -> dict[str, str]:
        """The SHA-256 sum of each file that a task's answer is made of, by its path from the folder; what one machine
        keeps for itself, locks and unfinished files aren't among them."""
        found = {}
        for folder, folders, names in os.walk(self.path):
            folders[:] = [name for name in folders if name != "machine"]
            for name in names:
                path = os.path.relpath(os.path.join(folder, name), self.path)
                if not name.startswith(".new.") and path not in ("done.json", "lock", "joblog"):
                    found[path] = sum_of_file(self.at(path))
        return dict(sorted(found.items()))

    def is_done(self, key: str) -> bool:
        """Whether its task was done for this key, and what it found stands there unchanged."""
        done = self.value("done.json")
        return isinstance(done, dict) and done.get("key") == key and done.get("files") == self.files()

    def finish(self, key: str) -> None:
        """Notes that its task is done for this key. Raises Failure where that can't be written."""
        self.keep("done.json", {"key": key, "files": self.files()})
