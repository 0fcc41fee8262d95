"""fshell inputs: makes a file of inputs from reports, traces and files of inputs.

Each FILE is a report of `generate` as text or JSON, lines of `prove` or `least` that name an input, a trace file, or a file of
inputs in either form. All their inputs are written as one file that `measure` reads, in order, each once. With `--to traces`
it is a file that `replay` reads, as `traces` writes it of the inputs whose runs are counted. With --entry and --source a FILE may
have names in place of rows of numbers, {"arguments": {"speed": 0}, "answers": {"rx_byte": [1, 2]}}, and `--to named` writes it so.
"""

import argparse
import json
import re
import sys
from collections.abc import Iterator, Sequence

from fshell_tools.core import argument_parsers, input_reader, program, snapshots
from fshell_tools.core import graph as graphs
from fshell_tools.core.program import Failure
from fshell_tools.core.reports import ENDS, Input, Report, Run, input_of, number, report_of_json, report_of_text

FORMS = ("lines", "json", "traces", "named")
_WORD = re.compile(r"-?[0-9]+")
_ONE = re.compile(r"goal \d+ (?:covered|least) (args(?: -?\d+)*(?: answers(?: -?\d+)+)?)")
_TRACE = re.compile(r"(args(?: -?\d+)*(?: answers(?: -?\d+)+)?) edges(?: \d+)*")


def of_object(value: object) -> Input:
    """The input that an object of the JSON form is. Raises ValueError where it is none, with what is wrong of it."""
    if not isinstance(value, dict) or not isinstance(value.get("args"), list):
        raise ValueError("an input has no list args")
    answers = value.get("answers", [])
    if not isinstance(answers, list):
        raise ValueError("answers is no list")
    own = {name: part for name, part in value.items() if name not in ("args", "answers")}
    return Input(tuple(map(number, value["args"])), tuple(map(number, answers)), json.dumps(own) if own else "")


def no_constant(word: str) -> object:
    """What JSON doesn't have, as NaN. Raises ValueError always."""
    raise ValueError(f"{word} is no JSON")


def of_json(text: str, kept: bool) -> list[Input]:
    """The inputs of a JSON file, or of a report of `generate` as JSON. Raises ValueError where it has none."""
    value = json.loads(text, parse_constant=no_constant)
    if isinstance(value, list):
        return [of_object(one) for one in value]
    if not isinstance(value, dict) or "bounds" not in value:
        raise ValueError("it is no report of generate")
    return of_report(report_of_json(value), kept)


def of_report(report: Report, kept: bool) -> list[Input]:
    """The inputs of a report of `generate`, or those of its suite alone. Raises ValueError where the report is of
    another command."""
    if report.command != "generate":
        raise ValueError(f"it is an answer of {report.command}, which has no inputs")
    return [report.inputs[one - 1] for one in report.suite] if kept else report.inputs


def of_lines(lines: list[str]) -> Iterator[Input]:
    """The inputs of a file in lines. Raises ValueError, which names the line, where one has another form."""
    for line in lines:
        words = re.split(r"[ \t\r]+", line.strip(" \t\r"))
        if words != [""]:
            wrong = [word for word in words if not _WORD.fullmatch(word)]
            if wrong:
                raise ValueError(f"{wrong[0]!r} is no number")
            yield Input(tuple(number(int(word)) for word in words))


def matched(form: re.Pattern[str], lines: list[str]) -> Iterator[Input]:
    """The inputs of lines of one form. Raises ValueError at the first line of another form."""
    for line in lines:
        found = form.fullmatch(line)
        if found:
            yield input_of(found[1])
        elif form is _TRACE or not line.startswith("goal "):
            raise ValueError(f"{line[:60]!r} isn't known")


def of_text(text: str, kept: bool) -> list[Input]:
    """The inputs of a file's text, whichever form it has. Raises ValueError where it has none of them."""
    if text.lstrip(" \t\r\n")[:1] in ("[", "{"):
        return of_json(text, kept)
    lines = text.removesuffix("\n").split("\n")
    if lines[0] == "fshell traces 1":
        return list(matched(_TRACE, lines[1:]))
    if re.match(r"(goals|input) \d", lines[0]):
        return of_report(report_of_text(text), kept)
    if re.match(r"goal \d+ (?:covered|least|refuted|undecided|open)", lines[0]):
        return list(matched(_ONE, lines))
    if lines[0].startswith("fshell certificate"):
        raise ValueError("it is a certificate, which has no inputs")
    return list(of_lines(lines))


def of_file(path: str, kept: bool = False) -> list[Input]:
    """The inputs of a file; one that isn't read is a failure."""
    try:
        return of_text(program.read(path).decode(), kept)
    except (ValueError, KeyError, TypeError, IndexError, RecursionError) as fault:
        raise Failure(f"{path}: no inputs are read: {fault}") from None


def of_entry(path: str, entry: str, sources: Sequence[str], place: str = ".", kept: bool = False) -> list[Input]:
    """The inputs of a file in any form, also with the names of an entry's arguments and of the functions that answer."""
    text = program.read(path).decode(errors="surrogateescape")
    if not input_reader.has_names(text):
        return of_file(path, kept)
    reader = input_reader.Reader(place, sources, graphs.of_sources(sources, place), entry)
    found = [(one, one.keys()) for one in reader.of_text(text, path)]
    return [Input(one.args, one.answers, json.dumps(keys) if keys else "") for one, keys in found]


def runs_of(
    entry: str, path: str, sources: Sequence[str], options: Sequence[str] = ()
) -> tuple[list[Input], list[Run]]:
    """The inputs of a file in any of its forms, and their runs."""
    read = of_entry(path, entry, sources)
    with program.as_file(json_text(read)) as made:
        return read, program.report(["runs", entry, made, *sources, *options]).runs


def once(inputs: list[Input]) -> list[Input]:
    """The inputs in order, each once. Two with other keys of the user's own are two, and one without any is none beside them."""
    named = {(one.args, one.answers) for one in inputs if one.own}
    return list(dict.fromkeys(one for one in inputs if one.own or (one.args, one.answers) not in named))


# ---- written files


def is_line(one: Input) -> bool:
    """Whether an input can be written as a line."""
    return bool(one.args) and not one.answers and not one.own


def lines_text(inputs: list[Input]) -> str:
    """A file in lines. Raises Failure where an input has keys of a user's own, which lines can't hold."""
    if not all(map(is_line, inputs)):
        raise Failure("an input with answers, without arguments or with other keys is no line; --to json writes it")
    return "".join(" ".join(map(str, one.args)) + "\n" for one in inputs)


def json_text(inputs: list[Input]) -> str:
    """A file in JSON, a line for each input."""
    objects: list[dict[str, object]] = []
    for one in inputs:
        answers = {"answers": one.answers} if one.answers else {}
        objects.append({"args": one.args, **answers, **(json.loads(one.own) if one.own else {})})
    return "[" + ",\n ".join(map(json.dumps, objects)) + "]\n"


def best_text(inputs: list[Input]) -> str:
    """A file in lines where that is enough, else in JSON."""
    return lines_text(inputs) if all(map(is_line, inputs)) else json_text(inputs)


def traces_text(inputs: list[Input], entry: str, sources: list[str], ends: str) -> str:
    """A trace file of the inputs whose runs are counted."""
    with program.as_file(json_text(inputs)) as path:
        return program.answer(["traces", entry, path, *sources, "--ends", ends])


def named_text(inputs: list[Input], entry: str, sources: list[str]) -> str:
    """A file in JSON with the names of arguments and of the functions that answer, a line for each input."""
    reader = input_reader.Reader(".", sources, graphs.of_sources(sources), entry)
    given = []
    for one in inputs:
        own = json.loads(one.own) if one.own else {}
        given.append(
            input_reader.of_value({"args": list(one.args), "answers": list(one.answers), **own}, reader.signature)
        )
    told = reader.with_names(given, reader.asks([one.numbers for one in given]))
    return "[" + ",\n ".join(json.dumps(one, ensure_ascii=False) for one in told) + "]\n"


def parser_of_words() -> argument_parsers.Parser:
    """What reads the words of fshell inputs; a wrong word ends the tool with status 2."""
    parser = argument_parsers.parser("inputs", __doc__, "the inputs are written")
    parser.add_argument("files", nargs="+", metavar="FILE", help="a report, a trace file, or a file of inputs")
    parser.add_argument("-o", metavar="OUT", dest="out", help="the file that is written; else standard output")
    parser.add_argument("--to", choices=FORMS, help="the form; else lines where they are enough, or JSON")
    parser.add_argument("--suite", action="store_true", help="of a report, the inputs of its suite alone")
    parser.add_argument("--entry", help="for traces and names: the function in which runs begin")
    parser.add_argument("--source", action="append", default=[], help="for traces and names: a source, in their order")
    parser.add_argument("--ends", choices=ENDS, default="returned", help="for traces: the ends of runs that count")
    return parser


def words() -> argparse.Namespace:
    """What the words of fshell inputs say; a form that needs an entry and hasn't one ends it with status 2 and a line."""
    parser = parser_of_words()
    given = parser.parse_intermixed_args()
    if given.to in ("traces", "named") and not (given.entry and given.source):
        parser.error(f"--to {given.to} needs --entry and --source")
    return given


def main() -> int:
    """Writes inputs in the form that is asked for, as the module says; the status is 0."""
    given = words()
    has_entry = given.entry and given.source
    snapshots.take(given.source)
    read = [
        one
        for path in given.files
        for one in (
            of_entry(path, given.entry, given.source, kept=given.suite) if has_entry else of_file(path, given.suite)
        )
    ]
    inputs = once(read)
    if given.to == "traces":
        text = traces_text(inputs, given.entry, given.source, given.ends)
    elif given.to == "named":
        text = named_text(inputs, given.entry, given.source)
    else:
        text = {"lines": lines_text, "json": json_text, None: best_text}[given.to](inputs)
    program.give(text, given.out)
    if given.out:
        print(f"{given.out}: {len(inputs)} inputs of {len(read)} that were read", file=sys.stderr)
    return program.DONE
