"""fshell adapt: C as users write it, brought into the profile."""

import argparse
import os
import sys
from typing import Optional

from fshell_tools.core import argument_parsers, program, source_map
from fshell_tools.core import comparison_report as reports

from fshell_tools.adapt.command import compare_report, harness, needed_bounds, source_map_entries
from fshell_tools.adapt.command.compare import compared
from fshell_tools.adapt.common.options import Words
from fshell_tools.adapt.common.output import FELL
from fshell_tools.adapt.common.refusals import Refusals, Stop
from fshell_tools.adapt.pipeline import adapt
from fshell_tools.adapt.write.writer import Writer

MOST = 1_000_000  # inputs of each kind
FIRST = "adapt is no part of what is proved: read and compare what it writes"


def count(word: str) -> int:
    """How many inputs of each kind are compared. Raises ArgumentTypeError for another word."""
    if not word.isdecimal() or not 1 <= int(word) <= MOST:
        raise argparse.ArgumentTypeError(f"{word} is no number from 1 to {MOST}")
    return int(word)


def parser_of_words() -> argument_parsers.Parser:
    """The options and the statuses of fshell adapt; argparse ends with status 2 where the words are wrong."""
    about = f"Writes C sources again in the profile of C that FShell reads, every statement on its line. {FIRST}."
    done = "the sources are written, and with --compare all runs agree"
    refused = "sources are refused, with a line for each cause"
    parser = argument_parsers.parser("adapt", about, done, "runs of --compare differ", status_3=refused)
    parser.add_argument("sources", nargs="+", metavar="SOURCE", help="C sources, which together are one program")
    parser.add_argument("-I", action="append", default=[], metavar="DIR", dest="folders", help="a folder with headers")
    parser.add_argument("-D", action="append", default=[], metavar="NAME=VALUE", dest="macros", help="a macro")
    parser.add_argument(
        "-o", default="adapted", metavar="DIR", dest="out", help="the folder for what is written (adapted)"
    )
    parser.add_argument(
        "--input",
        action="append",
        default=[],
        metavar="NAME",
        dest="inputs",
        help="a function that no source defines gives an input, or nothing; its arguments don't matter",
    )
    parser.add_argument(
        "--pool",
        type=pool,
        default=(4, 16),
        metavar="SLOTS[,ELEMENTS]",
        help="how often each call of malloc gives memory, and how many elements where their number isn't constant (4,16)",
    )
    parser.add_argument(
        "--check", action="store_true", help="each index of an array in an array is tested by an assert"
    )
    about = "print which turns, frames and answers the entries need by what was written"
    parser.add_argument("--bounds", action="store_true", help=about)
    overflow = "each signed operation that can overflow is a call of a function of DIR/overflow.h, with an assert"
    parser.add_argument("--check-overflow", action="store_true", help=overflow)
    narrowing = "so is each implicit conversion that may lose a value"
    parser.add_argument("--check-conversions", action="store_true", help=narrowing)
    parser.add_argument(
        "--harness",
        nargs=2,
        metavar=("ENTRY", "INPUTS"),
        help="write DIR/tests.c, which runs the original's ENTRY on the inputs (fshell harness)",
    )
    parser.add_argument(
        "--compare",
        type=count,
        default=0,
        metavar="N",
        help="build both by gcc and clang at -O0 and -O2, run both on N random inputs and N at boundaries, and write DIR/compare.json",
    )
    return parser


def words(given: Optional[list[str]]) -> Words:
    """The words of the command line."""
    return parser_of_words().parse_args(given, Words())


def pool(word: str) -> tuple[int, int]:
    """How many slots a call of malloc has, and of how many elements. Raises ArgumentTypeError for other words."""
    slots, _, elements = word.partition(",")
    if not slots.isdecimal() or not (elements or "16").isdecimal() or not 1 <= int(slots) * int(elements or 16) <= 1024:
        raise argparse.ArgumentTypeError(f"{word} is no SLOTS[,ELEMENTS] of 1 to 1024 elements together")
    return int(slots), int(elements or 16)


def put(folder: str, texts: dict[str, str]) -> list[str]:
    """Writes the files into the folder, each whole or not at all; their paths. Raises Stop where a file would be the
    original, two have one name, or it can't be written."""
    paths = []
    os.makedirs(folder, exist_ok=True)
    for original, text in texts.items():
        target = os.path.join(folder, os.path.basename(original))
        if target in paths:
            raise Stop(f"two files are named {os.path.basename(original)}")
        if os.path.exists(target) and os.path.exists(original) and os.path.samefile(target, original):
            raise Stop(f"{target} is the original itself; name another folder (-o)")
        try:
            program.write_whole(target, text.replace(FELL, ""))
        except program.Failure as failure:
            raise Stop(str(failure)) from None
        paths.append(target)
    return paths


def put_map(folder: str, texts: dict[str, str], writer: Writer) -> None:
    """Writes the map beside the files, by which tools show what the user wrote. Raises Stop where it can't be
    written."""
    units = list({unit.path: unit for unit, _ in writer.names.items}.values())
    mapped = {path: text for path, text in texts.items() if path in writer.files}
    try:
        program.write_whole(
            os.path.join(folder, source_map.NAME), source_map_entries.text_of(writer, units, mapped, folder)
        )
    except program.Failure as failure:
        raise Stop(str(failure)) from None


def write_harness(asked: Words, named: list[str], writer: Writer, paths: list[str]) -> None:
    """Writes the tests of the original beside what was written, of an entry on the inputs of a file. Raises Stop where the entry, or
    the inputs, can't be taken."""
    entry, given = named
    try:
        text, home = harness.text_of(writer, paths, entry, given, asked.out)
    except program.Failure as failure:
        raise Stop(str(failure)) from failure
    name = os.path.join(asked.out, "tests.c")
    program.give(text, name)
    print(f"wrote {name}: compile it with {harness.how_to_compile(writer, asked.sources, home, asked.flags)}")


def compare(asked: Words, writer: Writer, texts: dict[str, str], paths: list[str]) -> int:
    """Says how many runs agree, and writes the report beside what was written; the status. Raises Stop where nothing can be
    compared, or the report can't be written."""
    outcome = compared(writer, asked.sources, texts, asked.flags, asked.compare)
    units = list({unit.path: unit for unit, _ in writer.names.items}.values())
    report = os.path.join(asked.out, reports.NAME)
    try:
        program.write_whole(report, compare_report.text_of(outcome, units, paths, asked.flags, asked.out))
    except program.Failure as failure:
        raise Stop(str(failure)) from None
    print(outcome.text(report))
    return 1 if outcome.differences else 0


def main(given: Optional[list[str]] = None) -> int:
    """Runs the command; its status: 0, 1 where runs of --compare differ, 3 where sources are refused, 2 where a Stop
    ended it."""
    asked = words(given)
    sys.setrecursionlimit(20000)
    refusals = Refusals()
    try:
        program.check_names(asked.sources)
        if asked.compare and (asked.check_overflow or asked.check_conversions):
            raise Stop("--compare compares what is written without --check-overflow and --check-conversions")
        print(FIRST, flush=True)
        made = adapt(asked, refusals)
        if made is None or refusals.found:
            lines = refusals.lines()
            print("\n".join([*lines, f"{len(lines)} refused, nothing is written"]), file=sys.stderr)
            return 3
        texts, writer = made
        paths = put(asked.out, texts)
        writer.put_table(asked.out)
        put_map(asked.out, texts, writer)
        print("wrote " + " ".join(paths))
        for function in writer.outside.keeping:
            print(f"{function.name} is taken to keep each pointer in the objects that it is handed, as --input says")
        if asked.bounds:
            print(needed_bounds.text_of(texts, set(asked.sources)))
        if asked.harness:
            write_harness(asked, asked.harness, writer, paths)
        return compare(asked, writer, texts, paths) if asked.compare else 0
    except RecursionError:
        print("adapt: a source is nested too deep", file=sys.stderr)
    except Stop as stop:
        print(f"adapt: {stop}", file=sys.stderr)
    return 2
