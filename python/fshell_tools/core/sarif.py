"""Findings at places: as SARIF 2.1, which services that show code beside its review read, and as lines that editors know from gcc."""

import json
import urllib.parse
from collections.abc import Mapping, Sequence
from dataclasses import dataclass
from typing import Any

SCHEMA = "https://json.schemastore.org/sarif-2.1.0.json"


@dataclass(frozen=True)
class Finding:
    """A finding at a place of a file; `rule` is a key of a table of rules, of which `level` is error, warning or note. Lines and
    columns count from 1."""

    rule: str
    level: str
    file: str
    line: int
    column: int
    text: str

    @property
    def gcc_line(self) -> str:
        """The line that gcc would write: FILE:LINE:COLUMN: LEVEL: TEXT [RULE]."""
        return f"{self.file}:{self.line}:{self.column}: {self.level}: {self.text} [{self.rule}]"


def _result(one: Finding, rules: list[str]) -> dict[str, Any]:
    region = {"startLine": one.line, "startColumn": one.column}
    where = {"artifactLocation": {"uri": urllib.parse.quote(one.file), "uriBaseId": "SRCROOT"}, "region": region}
    return {
        "ruleId": one.rule,
        "ruleIndex": rules.index(one.rule),
        "level": one.level,
        "message": {"text": one.text},
        "locations": [{"physicalLocation": where}],
    }


def text_of(
    findings: Sequence[Finding],
    rules: Mapping[str, tuple[str, str]],
    folder: str,
    properties: Mapping[str, Any] | None = None,
) -> str:
    """The findings as SARIF 2.1. `rules` has of each rule its level and what it says; files are named from the folder. The
    run has these properties, if any."""
    told = [
        {"id": name, "shortDescription": {"text": text}, "defaultConfiguration": {"level": level}}
        for name, (level, text) in rules.items()
    ]
    run: dict[str, Any] = {
        "tool": {"driver": {"name": "FShell", "rules": told}},
        "originalUriBaseIds": {"SRCROOT": {"uri": f"file://{urllib.parse.quote(folder)}/"}},
        "columnKind": "utf16CodeUnits",
        "results": [_result(one, list(rules)) for one in findings],
    }
    if properties:
        run["properties"] = dict(properties)
    return json.dumps({"$schema": SCHEMA, "version": "2.1.0", "runs": [run]}, indent=1) + "\n"
