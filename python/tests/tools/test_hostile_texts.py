"""That no text breaks a tool off: letters and names that UTF-8 hasn't, numbers that are too long, control characters, formulas."""

import json
import os
import shutil
import subprocess
from collections.abc import Iterator

from fshell_tools.core import program
from fshell_tools.project import traceability
from tests import environment
from tests.tools import example, put, run

FEE = example("criteria/fee.c")
LINE_FEED, NO_UTF8, ESCAPE = "a\nb.c", os.fsdecode(b"a\xff.c"), "a\x1b[31m.c"
QUERY = "cover @BASICBLOCKENTRY"
# what the tools are called with that take a source
TOOLS_OF_A_SOURCE = (
    ["lcov", "fee", "in.json"],
    ["mcdc", "fee"],
    ["harness", "fee", "in.json"],
    ["driver", "fee"],
    ["adapt", "-o", "adapted"],
    ["init", "-o", "made.toml"],
    ["campaign", "-o", "c", "--jobs", "1", "fee", QUERY],
    ["rte", "-o", "r", "--jobs", "1", "fee"],
    ["order", "fee"],
    ["explain", "fee", QUERY],
)
INPUTS = (
    '[{"args": [1], "id": "\\ud800"}]',
    '[{"\\ud800": 1}]',
    '[{"id": "\\ud800", "arguments": {"\\ud800": 1}}]',
    '{"command": "\\ud800", "bounds": {}}',
    '{"command": "generate", "bounds": "\\ud800"}',
    '[{"args": [' + "9" * 5000 + "]}]",
    "[" * 100_000,
    "\ufeff[]",
)
ENTRY = '[module]\nsources = ["fee.c"]\n[[entry]]\n'
SETTINGS = {
    '[module]\nsources = ["a\\u0000.c"]\n': "fshell.toml:2: an element of sources of [module] has the character NUL",
    ENTRY
    + 'function = "f\\u0000"\nqueries = ["decisions"]\n': "fshell.toml:4: function of [[entry]] has the character NUL",
    "x = " + "9" * 5000 + "\n": "fshell.toml: a number in it has too many digits",
}


def ends_as_a_tool(ended: "subprocess.CompletedProcess[bytes]") -> bool:
    """Whether a tool ended with a status from 0 to 2, with 2 behind a line, and no traceback."""
    told = ended.stderr
    return (
        ended.returncode in (0, 1, 2) and (ended.returncode != 2 or told.endswith(b"\n")) and b"Traceback" not in told
    )


def called(folder: str, words: list[str], **more: str) -> "subprocess.CompletedProcess[bytes]":
    """How a tool ends; its texts are bytes, since they may be no UTF-8."""
    return subprocess.run([environment.LAUNCHER, *words], cwd=folder, env={**os.environ, **more}, stdin=subprocess.DEVNULL,
                          capture_output=True, timeout=environment.SECONDS)  # fmt: skip


def names_break_nothing_off(folder: str) -> Iterator[bool]:
    """A source whose name has a line feed, isn't UTF-8, or has a terminal's ESC, which no line shows as it is."""
    for number, name in enumerate((LINE_FEED, NO_UTF8, ESCAPE)):
        inner = os.path.join(folder, str(number))
        put(inner, {name: FEE, "in.json": "[]"})
        for words in TOOLS_OF_A_SOURCE:
            ended = called(inner, [*words, name])
            yield ends_as_a_tool(ended) and (ended.returncode != 2 or b"\x1b" not in ended.stderr)


def inputs_break_nothing_off(folder: str) -> Iterator[bool]:
    put(folder, {"fee.c": FEE})
    for text in INPUTS:
        put(folder, {"in.json": text})
        for words in (["inputs", "in.json"], ["harness", "fee", "in.json", "fee.c"]):
            yield ends_as_a_tool(called(folder, words))


def settings_break_nothing_off(folder: str) -> Iterator[bool]:
    """Each is refused with its line, and a name with an ESC in a text that is no TOML is shown by its number."""
    put(folder, {"fee.c": FEE})
    for text, line in SETTINGS.items():
        put(folder, {"fshell.toml": text})
        for command in ("run", "report", "gate"):
            ended = run(folder, [command])
            yield ended.returncode == 2 and f"{command}: {line}" in ended.stderr.splitlines()
    put(folder, {"\x1b[31m.toml": 'x = "\x1b'})
    ended = run(folder, ["gate", "\x1b[31m.toml"])
    yield ended.returncode == 2 and ended.stderr.startswith(
        "gate: \\x1b[31m.toml: it is no TOML: "
    ) and "\x1b" not in ended.stderr


def what_is_unforeseen_is_one_line(folder: str) -> Iterator[bool]:
    """A fault that no tool foresees, of texts that standard error can't write as they are."""
    for fault, line in (
        ("ValueError('a\\nb')", "it can't go on (ValueError: a b)"),
        ("KeyError('\\ud800')", "it can't go on (KeyError: '\\ud800')"),
        ("RecursionError('deep')", "it can't go on (RecursionError: deep)"),
        ("UnicodeError('\\x1b\\x9b')", "it can't go on (UnicodeError: \\x1b\\x9b)"),
        ("OSError(28, 'full', '\\ud800')", "\\ud800: full"),
        ("OSError('odd')", "it can't go on (OSError: odd)"),
    ):
        text = f"import sys\nfrom fshell_tools.core import program\ndef main():\n    raise {fault}\nsys.exit(program.ended('tool', main))\n"
        words = ["python3", "-c", text]
        own = {**os.environ, "PYTHONPATH": environment.TOOLS}
        ended = subprocess.run(words, cwd=folder, env=own, capture_output=True, text=True)
        yield (ended.returncode, ended.stdout, ended.stderr) == (2, "", f"tool: {line}\n")
        own["FSHELL_TRACEBACK"] = "1"
        ended = subprocess.run(words, cwd=folder, env=own, capture_output=True, text=True)
        yield ended.returncode == 2 and ended.stderr.endswith(f"tool: {line}\n") and (
            ended.stderr.startswith("Traceback ") or line.startswith("\\")
        )


def cells_are_no_formulas(folder: str) -> Iterator[bool]:
    """What a spreadsheet takes for a formula, by OWASP's list, and what it doesn't."""
    for begin in ("=", "+", "-", "@", "\t", "\r", "\n", "\uff1d", "\uff0b", "\uff0d", "\uff20"):
        yield traceability.cell(begin + 'cmd|"x"') == "'" + begin + 'cmd|"x"'
    yield [traceability.cell(text) for text in ("", "a=1", "'=1", " -")] == ["", "a=1", "'=1", " -"]
    yield traceability.line_of(['=1,"2"', "a"]) == '"\'=1,""2""","a"\r\n'


def reports_are_the_same_again(folder: str) -> Iterator[bool]:
    """All files of two reports of one module, made at times of which each is later than the one before."""
    put(folder, {"fee.c": FEE})
    text = '[module]\nsources = ["fee.c"]\n[[entry]]\nfunction = "fee"\nqueries = ["decisions"]\n'
    put(folder, {"fshell.toml": text})
    found = []
    for _ in range(2):
        yield called(folder, ["run"], SOURCE_DATE_EPOCH="1700000000").returncode in (0, 1)
        at = os.path.join(folder, "fshell.out", "report")
        found.append({name: program.read(os.path.join(at, name)) for name in sorted(os.listdir(at))})
        shutil.rmtree(os.path.join(folder, "fshell.out"))
    yield b'timestamp="1700000000000"' in found[0]["cobertura.xml"]
    yield len(found[0]) >= 10 and [name for name in found[0] if found[0][name] != found[1].get(name)] == []
    ended = called(folder, ["run", "-o", "w3"], SOURCE_DATE_EPOCH="soon")
    yield ended.returncode == 2 and ended.stderr.endswith(
        b"run: SOURCE_DATE_EPOCH is no number of seconds since 1970\n"
    )
    yield json.loads(found[0]["matrix.json"]) == {"requirements": []}


TRIED = [
    (("graph", "pycparser"), names_break_nothing_off),
    ((), inputs_break_nothing_off),
    ((), settings_break_nothing_off),
    ((), what_is_unforeseen_is_one_line),
    ((), cells_are_no_formulas),
    (("graph",), reports_are_the_same_again),
]
