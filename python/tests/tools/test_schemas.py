"""Reports for other tools, checked against the published forms that stand in python/tests/tools/schemas, each with where it is from."""

import json
import os
import subprocess
from collections.abc import Iterator

from tests import environment
from tests.tools import example, put, run
from tests.tools.project_files import DIRECTORY, LAMP, TESTS, TOML

SCHEMAS = os.path.join(environment.HERE, "tools", "schemas")


def is_valid(path: str, schema: str) -> bool:
    """Whether a file of XML meets a schema or a DTD."""
    word = "--dtdvalid" if schema.endswith(".dtd") else "--schema"
    return (
        subprocess.run(
            ["xmllint", "--noout", "--nonet", word, os.path.join(SCHEMAS, schema), path], capture_output=True
        ).returncode
        == 0
    )


def a_module(folder: str) -> Iterator[bool]:
    """The report's folder of a module whose gate fails, with findings and a lost goal; names have marks of XML and bytes above 127."""
    toml = TOML.replace("at-least = 100", "at-least = 100\nno-run-time-errors = true")
    put(folder, {**LAMP, "fshell.toml": toml, "tests.json": TESTS.replace("TC-1", 'ä<&\\"')})
    run(folder, ["run"])
    os.rename(os.path.join(folder, DIRECTORY, "report"), os.path.join(folder, "before"))
    put(folder, {"lamp.c": LAMP["lamp.c"].replace("return 9;", "return 90 / (wanted - 10);")})
    yield run(folder, ["run", "--since", "before"]).returncode == 1


def at(folder: str, name: str) -> str:
    """The path of a file of the report."""
    return os.path.join(folder, DIRECTORY, "report", name)


def junit_and_cobertura(folder: str) -> Iterator[bool]:
    yield from a_module(folder)
    yield is_valid(at(folder, "junit.xml"), "junit-10.xsd") and is_valid(at(folder, "cobertura.xml"), "coverage-04.dtd")
    # (the schema does refuse: a case without a name, a suite without its count)
    with open(at(folder, "junit.xml"), encoding="utf-8") as file:
        text = file.read()
    for old, new in (('" name="', '" nome="'), (' tests="', ' texts="'), ("<failure ", "<lapse ")):
        put(
            folder,
            {"bad.xml": text.replace(old, new).replace("</failure>", "</lapse>" if "lapse" in new else "</failure>")},
        )
        yield old in text and not is_valid(os.path.join(folder, "bad.xml"), "junit-10.xsd")


def a_harness_as_junit(folder: str) -> Iterator[bool]:
    put(folder, {"clamp.c": example("clamp/clamp.c"), "in.txt": example("clamp/in.txt")})
    run(folder, ["harness", "clamp", "in.txt", "clamp.c", "-o", "tests.c"])
    yield subprocess.run(["gcc", "-fwrapv", "-o", "tests", "tests.c"], cwd=folder).returncode == 0
    put(
        folder, {"tests.xml": subprocess.run(["./tests", "--junit"], cwd=folder, capture_output=True, text=True).stdout}
    )
    yield is_valid(os.path.join(folder, "tests.xml"), "junit-10.xsd")


def sarif(folder: str) -> Iterator[bool]:
    import jsonschema

    with open(os.path.join(SCHEMAS, "sarif-2.1.0.json"), encoding="utf-8") as file:
        checker = jsonschema.Draft7Validator(json.load(file))
    yield from a_module(folder)
    with open(at(folder, "module.sarif"), encoding="utf-8") as file:
        text = file.read()
    value = json.loads(text)
    yield len(value["runs"][0]["results"]) >= 1 and not list(checker.iter_errors(value))
    # (the schema does refuse: another version, a result without a message, a line 0, a property that there isn't)
    for old, new in (
        ('"2.1.0"', '"2.0.0"'),
        ('"message": {', '"massage": {'),
        ('"startLine": ', '"startLine": -'),
        ('"ruleId"', '"ruleID"'),
    ):
        yield old in text and bool(list(checker.iter_errors(json.loads(text.replace(old, new)))))


TRIED = [(("xmllint",), junit_and_cobertura), (("xmllint", "gcc"), a_harness_as_junit), (("jsonschema",), sarif)]
