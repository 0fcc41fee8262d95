"""Writes the report of a module: pages for people, and files for other tools."""

import json
import os
from dataclasses import asdict
from typing import Any

from fshell_tools.core import program, templates
from fshell_tools.core.sarif import Finding
from fshell_tools.core.verdicts import Tally, percentage
from fshell_tools.project import coverage, export, gate, report_difference, traceability
from fshell_tools.project.findings import Finder
from fshell_tools.project.records import Row
from fshell_tools.project.report_difference import Difference
from fshell_tools.project.results import Results, bounds_line
from fshell_tools.project.unit import sum_of_file, sum_of_text
from fshell_tools.project.work_folder import Place

FORMAT = "fshell report 1"


def share(found: Tally) -> str:
    """How much of a tally is covered, in percent of the goals that can be; a dash where there are none."""
    covered = sum(count for verdict, count in found.counts.items() if verdict == "covered")
    return percentage(covered, found.reachable) if found.reachable else "-"


def _counts(found: Tally) -> dict[str, Any]:
    told = {str(verdict): count for verdict, count in sorted(found.counts.items())}
    return {"goals": found.goals, "of": found.reachable, "share": share(found), "verdicts": told}


def _row(results: Results, row: Row) -> dict[str, Any]:
    """A goal as JSON."""
    tests = [goal.test.id for goal in row.goals if goal.test]
    certificates = [goal.certificate for goal in row.goals if goal.certificate]
    return {
        "criterion": row.criterion,
        "text": row.text,
        "told": results.told(row.text),
        "function": row.function,
        "file": results.own(row.file),
        "line": row.line,
        "verdict": str(row.verdict),
        "tests": list(dict.fromkeys(tests)),
        "certificates": certificates if not tests else [],
        "entries": [goal.entry for goal in row.goals],
    }


def _function(results: Results, name: str) -> dict[str, Any]:
    """A function as JSON."""
    shown, of_all = results.mcdc(name)
    tallies = {one: results.tally(one, name) for one in results.criteria}
    return {
        "name": name,
        "file": results.own(results.files[name]),
        "criteria": {one: _counts(found) for one, found in tallies.items() if found.goals},
        "mcdc": {"shown": shown, "of": of_all, "share": percentage(shown, of_all) if of_all else "-"},
        "reached": name not in results.unreached,
    }


def value_of(results: Results, findings: list[Finding], lost: Difference | None) -> dict[str, Any]:
    """The whole report as JSON's value, of the form that FORMAT names (docs/MODULE.md)."""
    lines, passes = gate.verdict(results)
    return {
        "format": FORMAT,
        "settings": os.path.basename(results.context.settings.path),
        "adapted": results.context.unit.is_adapted,
        "gate": {"passes": passes, "lines": lines},
        "summary": gate.lines(results),
        "criteria": {one: _counts(results.tally(one)) for one in results.criteria},
        "functions": [_function(results, name) for name in results.functions],
        "entries": [_entry(results, one.function) for one in results.entries],
        "goals": [_row(results, row) for row in results.rows],
        "conditions": [_condition(results, at) for at in range(len(results.conditions))],
        "tests": [_test(results, at) for at in range(len(results.all_tests))],
        "requirements": traceability.rows(results),
        "traps": [asdict(one) for one in results.traps],
        "findings": [one.gcc_line for one in findings],
        "since": lost.lines() if lost else [],
    }


def _entry(results: Results, name: str) -> dict[str, Any]:
    entry = next(one for one in results.entries if one.function == name)
    told = results.errors(name)
    return {
        "function": name,
        "signature": str(results.context.signatures[name]),
        "bounds": entry.bounds,
        "ends": entry.ends,
        "budget": entry.budget,
        "suffice": results.suffice(name),
        "told": bounds_line(results, name),
        "errors": [{"place": place, "verdict": str(verdict), "input": line} for place, verdict, line in told],
    }


def _condition(results: Results, at: int) -> dict[str, Any]:
    one = results.conditions[at]
    file, _, rest = one.place.partition(":")
    return {
        "function": one.function,
        "place": f"{results.own(file)}:{rest}",
        "statement": one.statement,
        "text": one.text,
        "state": one.state,
        "tests": [test.id for test in one.pair],
    }


def _test(results: Results, at: int) -> dict[str, Any]:
    one = results.all_tests[at]
    told = {"id": one.id, "entry": one.entry, "given": one.is_given, "end": one.end}
    return {**told, "requirements": list(one.requirements), "input": one.value}


# ---- the files


def key_of(results: Results, folder: str | None) -> str:
    """The sum of all that a report is made from: the tasks' answers, the settings, the tools, whether jinja2 is there,
    and the earlier report of `folder` where one is named. By the same sum nothing is written anew."""
    done = [task.place(results.context).value("done.json") for task in results.tasks]
    names = [results.context.settings.path]
    names += [results.context.settings.at(one) for one in (results.context.settings.requirements,) if one]
    names += [os.path.join(folder, "report.json")] if folder else []
    here = os.path.dirname(__file__)
    names += [os.path.join(here, name) for name in sorted(os.listdir(here))]
    return sum_of_text(
        json.dumps([done, [sum_of_file(name) for name in names], results.context.given_key(), templates.is_there()])
    )


def write(results: Results, folder: str | None) -> list[str]:
    """Writes the report's files, where they aren't there as they would be; gives the lines that are told. The
    difference to the report in `folder` is among them. Without jinja2 the pages are left out, which is told. Raises
    Failure where a file can't be written or `folder` has no report."""
    place = Place(results.context.work.at("report"))
    lost = report_difference.difference(folder, results) if folder else None
    told = lost.lines() if lost else []
    key = key_of(results, folder)
    if place.is_done(key):
        return told
    results.run()
    findings = Finder(results).all()
    value = value_of(results, findings, lost)
    folder_of_module = os.path.realpath(results.context.settings.folder)
    files = coverage.read(results)
    texts = {
        "coverage.info": coverage.lcov(files, folder_of_module),
        "cobertura.xml": coverage.cobertura(files, folder_of_module, program.seconds_of_report()),
        "junit.xml": export.junit(results, gate.why(results), lost),
        "module.sarif": export.sarif(findings, folder_of_module),
        "warnings.txt": "".join(one.gcc_line + "\n" for one in findings),
        "matrix.json": traceability.as_json(results),
        "matrix.csv": traceability.as_csv(results),
        "tests.json": tests_text(results),
        "graph.txt": program.read(results.context.unit.at("graph.txt")).decode(),
        "report.json": json.dumps(value, indent=1, ensure_ascii=False) + "\n",
    }
    os.makedirs(place.path, exist_ok=True)
    if templates.is_there():
        texts |= pages(value)
    else:
        told.append("skipped: the pages need jinja2, which isn't there (Debian: apt-get install python3-jinja2)")
    for name, text in texts.items():
        program.write_whole(place.at(name), text)
    place.finish(key)
    return [*told, f"the report is {os.path.relpath(place.path)}"]


def tests_text(results: Results) -> str:
    """All tests as JSON: of each entry its inputs with the names of arguments and answers."""
    found = {entry.function: [test.value for test in results.tests(entry.function)] for entry in results.entries}
    return json.dumps(found, indent=1, ensure_ascii=False) + "\n"


def pages(value: dict[str, Any]) -> dict[str, str]:
    """The pages by their files' names, of the report's value. Raises Failure where jinja2 isn't there."""
    folder = os.path.dirname(__file__)
    return {
        name: templates.rendered(os.path.join(folder, name), report=value) + "\n"
        for name in ("index.html", "matrix.html")
    }
