"""The report for other tools: JUnit's XML and SARIF 2.1."""

import re
import xml.etree.ElementTree as ET
from collections.abc import Sequence

from fshell_tools.core.sarif import Finding
from fshell_tools.core.sarif import text_of as sarif_text
from fshell_tools.project.findings import RULES
from fshell_tools.project.records import Test
from fshell_tools.project.report_difference import Difference
from fshell_tools.project.results import Results

_NO_XML = re.compile(r"[^\t\n\r\x20-\ud7ff\ue000-\ufffd\U00010000-\U0010ffff]")


def _plain(text: str) -> str:
    """A text without what XML can't hold."""
    return _NO_XML.sub("?", text)


def _case(suite: ET.Element, group: str, name: str, failure: str = "") -> None:
    """A test case; with a failure where it failed."""
    one = ET.SubElement(suite, "testcase", {"classname": _plain(group), "name": _plain(name), "time": "0"})
    if failure:
        ET.SubElement(one, "failure", {"message": _plain(failure), "type": group.rpartition(".")[2]}).text = _plain(
            failure
        )


def _counted(suite: ET.Element) -> tuple[int, int]:
    """Notes how many cases a suite has, and how many failed."""
    count, failed = len(suite), len(suite.findall("testcase/failure"))
    for name, number in (("tests", count), ("failures", failed), ("errors", 0), ("skipped", 0), ("time", 0)):
        suite.set(name, str(number))
    return count, failed


def _failure_of(test: Test) -> str:
    """Why a test failed: a trap ended its run."""
    return f"its run is {test.end}" if test.end.startswith("trapped") else ""


def junit(results: Results, gate: Sequence[str], lost: Difference | None) -> str:
    """The report as JUnit's XML (the schema that Jenkins' plugin reads): a suite an entry, a test an input, a failure a
    run that a trap ends, a goal that was covered before and isn't now, and each reason for which the gate fails. What
    XML 1.0 can't hold is written as `?`; times are 0."""
    top = ET.Element("testsuites", {"name": "fshell"})
    for entry in results.entries:
        suite = ET.SubElement(top, "testsuite", {"name": entry.function})
        for test in results.tests(entry.function):
            _case(suite, f"fshell.{entry.function}", test.id, _failure_of(test))
    if lost is not None:
        suite = ET.SubElement(top, "testsuite", {"name": "goals that were covered before"})
        for goal in lost.kept:
            _case(suite, "fshell.goals", goal, "")
        for goal in lost.lost:
            _case(suite, "fshell.goals", goal, "it was covered, and isn't any more")
    suite = ET.SubElement(top, "testsuite", {"name": "gate"})
    for line in gate:
        _case(suite, "fshell.gate", line, line)
    if not gate:
        _case(suite, "fshell.gate", "the gate passes")
    pairs = [_counted(suite) for suite in top]
    for name, number in (("tests", sum(one for one, _ in pairs)), ("failures", sum(two for _, two in pairs))):
        top.set(name, str(number))
    ET.indent(top)
    return f'<?xml version="1.0" encoding="UTF-8"?>\n{ET.tostring(top, encoding="unicode")}\n'


def sarif(findings: Sequence[Finding], folder: str) -> str:
    """The findings as SARIF 2.1.0 (OASIS); names of files are those from `folder`."""
    return sarif_text(findings, RULES, folder)
