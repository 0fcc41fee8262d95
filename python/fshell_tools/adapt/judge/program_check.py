"""Nothing is written that the program refuses: its command `graph` reads what would be written first."""

import os
import re
import tempfile

from fshell_tools.core import program

from fshell_tools.adapt.common import tree
from fshell_tools.adapt.common.output import FELL
from fshell_tools.adapt.common.refusals import Refusals, Stop


def placed(texts: dict[str, str], folder: str) -> dict[str, str]:
    """Puts the texts into a folder, in order; the originals by the names there."""
    names = {}
    for number, (original, text) in enumerate(texts.items()):
        name = f"{number}.c"
        with open(os.path.join(folder, name), "w", encoding="utf-8", errors="surrogateescape") as file:
            file.write(text.replace(FELL, ""))
        names[name] = original
    return names


def check(texts: dict[str, str], refusals: Refusals) -> None:
    """Adds the program's refusal of the texts, if it refuses them. Raises Stop where the program can't be run, or
    answers what isn't known."""
    with tempfile.TemporaryDirectory(prefix="adapt-") as folder:
        try:
            names = placed(texts, folder)
            ended = program.run(["graph", *names], folder)
        except OSError as fault:
            raise Stop(f"a copy for the program: {fault.strerror}") from None
        except program.Failure as failure:
            raise Stop(str(failure)) from None
    if ended.status == 0:
        return
    told = ended.stderr.strip()
    found = re.match(r"error (\d+) (\w+)(?: (\d+\.c):(\d+):\d+)?(.*)", told)
    if not found:
        raise Stop(f"the program ended with status {ended.status}: {(told or '?').splitlines()[0]}")
    code, word, name, line, more = found.groups()
    at = tree.Coord(names[name], int(line)) if name else tree.Coord(next(iter(names.values())), 1)
    cause = f"the profile doesn't take what this would become: code {code} {word}{more}"
    refusals.add(at, cause, f"split it, or see bin/fshell --explain {code}")
