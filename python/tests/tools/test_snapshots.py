"""Sources that are saved while a tool works: what is reported is of the version that the tool began with, and the status is 2.

The program that a tool runs is a script in these cases, which saves the other version before its Nth run and then is the program: so
each moment of a tool's work is tried, not those that a clock happens to hit. By the two versions, whose verdicts are by hand, z is 0
or what f is handed.
"""

import functools
import hashlib
import os
import shutil
from collections.abc import Iterator, Sequence

from tests import environment
from tests.tools import Tried, put, run

FIRST = """int f(int x) {
  int z = 0;
  if (z > 3) {
    return 10 / (z - 5);
  }
  return 0;
}
"""
SECOND = FIRST.replace("z = 0", "z = x")
# saves the version that is next before the run whose number is in the folder's file `at`
SCRIPT = """#!/bin/sh
here=%s
number=1
while ! mkdir "$here/runs/$number" 2>/dev/null; do number=$((number + 1)); done
if [ "$number" = "$(cat "$here/at")" ]; then cp "$here/next" "$here/new" && mv "$here/new" "$here/a.c"; fi
if [ "$number" = "$(cat "$here/back")" ]; then cp "$here/first" "$here/new" && mv "$here/new" "$here/a.c"; fi
exec %s "$@"
"""
MOMENTS = range(1, 11)
NEVER = 1_000_000
TOML = '[module]\nsources = ["a.c"]\n\n[[entry]]\nfunction = "f"\nqueries = ["decisions", "mcdc"]\n\n[gate]\nno-run-time-errors = true\n'
# the words of each tool, and the files that are its answer beside standard output
TOOLS: dict[str, tuple[list[str], tuple[str, ...]]] = {
    "campaign": (["campaign", "f", "cover @CONDITIONEDGE", "a.c", "-o", "out", "--jobs", "2"], ("out/report.txt", "out/suite.json")),
    "logins": (["campaign", "f", "cover @CONDITIONEDGE", "a.c", "-o", "out", "--jobs", "2", "--sshloginfile", "logins"],
               ("out/report.txt",)),
    "mcdc": (["mcdc", "f", "a.c", "--json", "--certificates", "certificates"], ()),
    "rte": (["rte", "f", "a.c", "-o", "out", "--jobs", "2"], ("out/rte.json", "out/rte.sarif")),
    "lcov": (["lcov", "f", "in", "a.c", "-o", "out"], ("out",)),
    "lcov of a report": (["lcov", "f", "zero", "a.c", "--refuted", "report", "-o", "out"], ("out",)),
    "page": (["page", "report", "--source", "a.c", "--entry", "f", "-o", "out"], ("out",)),
    "harness": (["harness", "f", "in", "a.c", "-o", "out"], ("out",)),
    "project": (["run", "--jobs", "2"], ("fshell.out/report/report.json",)),
}  # fmt: skip


def began(folder: str, text: str) -> None:
    """Puts the first version of a folder, with the files that the tools read, and nothing else."""
    shutil.rmtree(folder, ignore_errors=True)
    os.makedirs(os.path.join(folder, "runs"))
    files = {
        "in": "9\n0\n",
        "zero": "0\n",
        "logins": "2/:\n",
        "fshell.toml": TOML,
        "a.c": text,
        "first": text,
        "back": f"{NEVER}\n",
    }
    program = f"'{environment.program()}'"
    put(folder, {**files, "script": SCRIPT % (f"'{folder}'", program), "next": SECOND if text == FIRST else FIRST})
    os.chmod(os.path.join(folder, "script"), 0o755)
    put(folder, {"report": run(folder, ["generate", "f", "cover ID", "a.c"]).stdout})


def answered(folder: str, tool: str, at: int, back: int = NEVER) -> tuple[int, str, tuple[str, ...]]:
    """How a tool ends where the other version is saved before the Nth run of the program, and the first one `back` before another:
    the status, standard error, and what it reports."""
    put(folder, {"at": f"{at}\n", "back": f"{back}\n"})
    words, names = TOOLS[tool]
    ended = run(folder, words, env={**os.environ, "FSHELL": os.path.join(folder, "script")})
    texts = [ended.stdout]
    for name in names:
        path = os.path.join(folder, name)
        texts.append(open(path, encoding="utf-8").read() if os.path.exists(path) else "")
    return ended.returncode, ended.stderr, tuple(texts)


def runs_of(folder: str) -> int:
    """How many runs of the program a folder has a note of."""
    return len(os.listdir(os.path.join(folder, "runs")))


def a_saved_source_changes_nothing(tool: str, folder: str) -> Iterator[bool]:
    """At each of ten moments: the report is that of the first version, and the status is 2, as a line says."""
    inner = os.path.join(folder, "inner")
    pure = []
    for text in (FIRST, SECOND):
        began(inner, text)
        pure.append(answered(inner, tool, NEVER))
        runs = runs_of(inner)
    # (the versions are told apart)
    yield pure[0][2] != pure[1][2] and all(status < 2 for status, _, _ in pure)
    # (the first run that project makes asks whether the program takes the sources, before they are copied)
    for moment in MOMENTS[1:] if tool == "project" else MOMENTS:
        began(inner, FIRST)
        status, said, texts = answered(inner, tool, moment)
        if moment > runs_of(inner):
            break
        yield status == 2 and "changed meanwhile: a.c; what is reported is of the versions before" in said
        yield texts == pure[0][2]
    yield moment > min(3, runs)


def saved_and_saved_back_is_no_change(folder: str) -> Iterator[bool]:
    """A version that is there for a while alone is never read: the status and the report are those without it."""
    inner = os.path.join(folder, "inner")
    for tool in ("campaign", "mcdc", "rte"):
        began(inner, FIRST)
        pure = answered(inner, tool, NEVER)
        began(inner, FIRST)
        yield answered(inner, tool, 2, 4)[::2] == pure[::2] and runs_of(inner) >= 4


def absolute_names_are_watched(folder: str) -> Iterator[bool]:
    """A source that is named by its absolute path is read where it is: the tool ends at once where it changes, with no report."""
    inner = os.path.join(folder, "inner")
    for tool in ("campaign", "mcdc", "rte"):
        words, _ = TOOLS[tool]
        for moment in MOMENTS[:4]:
            began(inner, FIRST)
            put(inner, {"at": f"{moment}\n"})
            named = [os.path.join(inner, "a.c") if word == "a.c" else word for word in words]
            ended = run(inner, named, env={**os.environ, "FSHELL": os.path.join(inner, "script")})
            yield ended.returncode == 2 and "a.c changed while it was read, so nothing is reported" in ended.stderr
            yield ended.stdout == "" and not os.path.exists(os.path.join(inner, "out", "report.json"))


def copies_have_their_sums(folder: str) -> Iterator[bool]:
    """The copy in a campaign's folder has the bytes whose sum its report names, also where the source is outside of the folder."""
    for at, name in ((folder, "a.c"), (os.path.join(folder, "one", "two"), "../../a.c")):
        os.makedirs(at, exist_ok=True)
        put(folder, {"a.c": FIRST})
        ended = run(at, ["campaign", "f", "cover @CONDITIONEDGE", name, "-o", "out"])
        yield ended.returncode == 0
        with open(os.path.join(at, "out", "report.json"), encoding="utf-8") as file:
            yield hashlib.sha256(FIRST.encode()).hexdigest() in file.read()
        copies = [
            os.path.join(top, one) for top, _, names in os.walk(os.path.join(at, "out", "sources")) for one in names
        ]
        yield len(copies) == 1 and open(copies[0], encoding="utf-8").read() == FIRST
        # a page of the folder is of that copy, whatever the source has become
        put(folder, {"a.c": SECOND})
        ended = run(at, ["page", "out", "-o", "page.html"])
        yield ended.returncode == 2 and f"page: changed meanwhile: {name}" in ended.stderr
        yield "z = 0" in open(os.path.join(at, "page.html"), encoding="utf-8").read()


def _case(tool: str) -> tuple[Sequence[str], functools.partial[Iterator[bool]]]:
    made = functools.partial(a_saved_source_changes_nothing, tool)
    made.__name__ = f"a_saved_source_changes_nothing_of_{tool}"  # type: ignore[attr-defined]
    needs = {"logins": ("parallel",), "page": ("jinja2",), "project": ("jinja2",)}
    return needs.get(tool, ()), made


TRIED: Tried = [*map(_case, TOOLS), ((), saved_and_saved_back_is_no_change), ((), absolute_names_are_watched),
                (("jinja2",), copies_have_their_sums)]  # fmt: skip
