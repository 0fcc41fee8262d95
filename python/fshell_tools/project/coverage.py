"""What the tests of all entries took of the lines, branches and functions of the module's files: as lcov and as Cobertura have it."""

import json
import os
import xml.etree.ElementTree as ET
from collections import Counter
from collections.abc import Iterator
from dataclasses import dataclass, field

from fshell_tools.core import program
from fshell_tools.project.results import Results
from fshell_tools.project.tasks import tool

Branch = tuple[int, int, int]


@dataclass
class File:
    """The counts of a file: how many times each line (from 1) was reached, each branch taken (by line, block and
    branch, as lcov numbers them) and each function called. A branch has no count where its test was never made."""

    lines: Counter[int] = field(default_factory=Counter)
    branches: dict[Branch, int | None] = field(default_factory=dict)
    functions: dict[str, int] = field(default_factory=dict)
    calls: Counter[str] = field(default_factory=Counter)

    def add(self, line: str) -> None:
        """Adds a line of an lcov tracefile (geninfo(1)); lines of other words than DA, FN, FNDA and BRDA change
        nothing. ValueError or IndexError where one isn't whole."""
        word, _, rest = line.partition(":")
        parts = rest.split(",")
        if word == "DA":
            self.lines[int(parts[0])] += int(parts[1])
        elif word == "FN":
            self.functions[parts[1]] = int(parts[0])
        elif word == "FNDA":
            self.calls[parts[1]] += int(parts[0])
        elif word == "BRDA":
            key = (int(parts[0]), int(parts[1]), int(parts[2]))
            before, count = self.branches.get(key), None if parts[3] == "-" else int(parts[3])
            self.branches[key] = before if count is None else count + (before or 0)

    def of_line(self, line: int) -> list[int | None]:
        """How many times each branch on a line was taken, None where its test was never made."""
        return [count for (at, _, _), count in self.branches.items() if at == line]


def read(results: Results) -> dict[str, File]:
    """The counts of the module's own files over all tests of all entries, by the files' names from the settings'
    folder, as fshell lcov tells them. Raises Failure where that fails."""
    found: dict[str, File] = {}
    unit = results.context.unit
    # (the tracefile names the original of a source that fshell adapt wrote)
    own = {os.path.realpath(unit.at(name)): file for name, file in results.own_files.items()}
    own |= {os.path.realpath(results.context.settings.at(file)): file for file in results.own_files.values()}
    for entry in results.entries:
        tests = [one.numbers for one in results.tests(entry.function)]
        text = program_inputs(tests)
        with program.as_file(text) as path:
            ends = ["--ends", entry.ends]
            traced = tool("lcov", [entry.function, path, *unit.sources, *ends], unit.place)
        current: File | None = None
        for line in traced.splitlines():
            if line.startswith("SF:"):
                name = own.get(os.path.realpath(line[3:]))
                current = found.setdefault(name, File()) if name else None
            elif current is not None:
                current.add(line)
    return found


def program_inputs(tests: list[tuple[tuple[int, ...], tuple[int, ...]]]) -> str:
    """Inputs, each arguments and answers, as the JSON text that the program reads (docs/FORMATS.md)."""
    return json.dumps([{"args": args, "answers": answers} for args, answers in tests])


# ---- lcov


def _record(path: str, file: File) -> Iterator[str]:
    yield from ("TN:", f"SF:{path}")
    yield from (f"FN:{line},{name}" for name, line in file.functions.items())
    yield from (f"FNDA:{file.calls[name]},{name}" for name in file.functions)
    yield from (f"FNF:{len(file.functions)}", f"FNH:{sum(file.calls[name] > 0 for name in file.functions)}")
    for (line, number, branch), count in sorted(file.branches.items()):
        yield f"BRDA:{line},{number},{branch},{'-' if count is None else count}"
    yield from (f"BRF:{len(file.branches)}", f"BRH:{sum(bool(count) for count in file.branches.values())}")
    yield from (f"DA:{line},{count}" for line, count in sorted(file.lines.items()))
    yield from (f"LF:{len(file.lines)}", f"LH:{sum(count > 0 for count in file.lines.values())}", "end_of_record")


def lcov(files: dict[str, File], folder: str) -> str:
    """The counts as lcov's tracefile (geninfo(1)); `folder` stands before the files' names."""
    return "".join(line + "\n" for name, file in files.items() for line in _record(os.path.join(folder, name), file))


# ---- Cobertura


def _rate(hit: int, of_all: int) -> str:
    return f"{hit / of_all:.4f}" if of_all else "1.0"


def _counts(files: list[File]) -> dict[str, str]:
    """The attributes that say how much of files was covered."""
    lines = [count for file in files for count in file.lines.values()]
    branches = [count for file in files for count in file.branches.values()]
    hit, taken = sum(count > 0 for count in lines), sum(bool(count) for count in branches)
    rates = {"line-rate": _rate(hit, len(lines)), "branch-rate": _rate(taken, len(branches))}
    counts = {
        "lines-covered": hit,
        "lines-valid": len(lines),
        "branches-covered": taken,
        "branches-valid": len(branches),
    }
    return {**rates, **{name: str(count) for name, count in counts.items()}}


def _rates(files: list[File]) -> dict[str, str]:
    return {name: text for name, text in _counts(files).items() if name.endswith("-rate")} | {"complexity": "0"}


def _class(parent: ET.Element, name: str, file: File) -> None:
    """A file, which Cobertura calls a class."""
    one = ET.SubElement(parent, "class", {"name": name, "filename": name, **_rates([file])})
    ET.SubElement(one, "methods")
    lines = ET.SubElement(one, "lines")
    for line, count in sorted(file.lines.items()):
        branches = file.of_line(line)
        taken = sum(bool(one) for one in branches)
        told = {"branch": "false"}
        if branches:
            share = f"{100 * taken // len(branches)}% ({taken}/{len(branches)})"
            told = {"branch": "true", "condition-coverage": share}
        ET.SubElement(lines, "line", {"number": str(line), "hits": str(count), **told})


def cobertura(files: dict[str, File], folder: str, seconds: int) -> str:
    """The counts as Cobertura's XML, by its coverage-04.dtd; `folder` is the one that holds the files, and `seconds` is
    the time of the report since 1970."""
    head = {"complexity": "0", "version": "fshell", "timestamp": str(1000 * seconds)}
    top = ET.Element("coverage", {**_counts(list(files.values())), **head})
    ET.SubElement(ET.SubElement(top, "sources"), "source").text = folder
    packages = ET.SubElement(top, "packages")
    by_folder: dict[str, dict[str, File]] = {}
    for name, file in files.items():
        by_folder.setdefault(os.path.dirname(name) or ".", {})[name] = file
    for name, inner in by_folder.items():
        one = ET.SubElement(packages, "package", {"name": name, **_rates(list(inner.values()))})
        classes = ET.SubElement(one, "classes")
        for path, file in inner.items():
            _class(classes, path, file)
    ET.indent(top)
    kind = '<!DOCTYPE coverage SYSTEM "http://cobertura.sourceforge.net/xml/coverage-04.dtd">\n'
    return f'<?xml version="1.0" encoding="UTF-8"?>\n{kind}{ET.tostring(top, encoding="unicode")}\n'
