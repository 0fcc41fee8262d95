"""fshell driver: writes the caller that a function with arrays, structs, pointers or a state needs, and stubs.

drive_FUNCTION calls FUNCTION. What isn't an integer becomes an object whose integers come from input functions that are named after
them: in_frame_data_3 gives frame->data[3]. With --steps N it is called N times in a row, behind --init; --state sets variables of
the headers before. --stubs writes functions that are called and defined nowhere: each gives a value by call, fills what its
pointers lead to, and notes its arguments (stub_write_arg0), so that a query can ask for them. What is written is C for people to
read and edit; fshell.toml names it under drivers.
"""

import argparse
import os
import re
from typing import Any

from fshell_tools.core import argument_parsers, program
from fshell_tools.core.program import Failure
from fshell_tools.driver import declarations, stubs
from fshell_tools.driver.caller import Caller, Wanted
from fshell_tools.driver.declarations import Read
from fshell_tools.driver.types import Types, Unfit

HEAD = """/* Written by fshell driver {what}. What isn't an integer comes from input functions, which are named after it.
   Edit it as you like; fshell.toml names it under drivers. */"""
HEAD_OF_STUBS = """/* Written by fshell driver: stubs of functions that no source defines. Each gives what an input function says, and notes
   its arguments. Edit it as you like; fshell.toml names it under drivers. */"""


def number(word: str) -> int:
    """The number, from 1 to 999, that a word of digits is: how many calls, or how many elements. Raises
    argparse.ArgumentTypeError for any other word, which ends the tool with status 2."""
    if not re.fullmatch(r"[0-9]{1,3}", word) or int(word) < 1:
        raise argparse.ArgumentTypeError(f"{word} isn't from 1 to 999")
    return int(word)


def length(word: str) -> tuple[str, int]:
    """The name of a parameter and its number of elements, of the word PARAMETER=N (N from 1 to 999). Raises
    argparse.ArgumentTypeError where it isn't one."""
    name, _, count = word.partition("=")
    if not re.fullmatch(r"[A-Za-z_]\w*", name):
        raise argparse.ArgumentTypeError(f"{word} isn't PARAMETER=N")
    return name, number(count)


def parser_of_words() -> argument_parsers.Parser:
    """What reads the words of fshell driver; a wrong word ends the tool with status 2."""
    parser = argument_parsers.parser("driver", __doc__, "the driver and the stubs are written")
    parser.add_argument(
        "function", metavar="FUNCTION", help="the function that is called; - where stubs alone are written"
    )
    parser.add_argument("sources", nargs="+", metavar="SOURCE", help="the sources, in their order")
    parser.add_argument("-o", metavar="FILE", dest="out", help="the file that is written; else standard output")
    parser.add_argument("-I", action="append", default=[], metavar="DIR", dest="folders", help="a folder with headers")
    parser.add_argument("-D", action="append", default=[], metavar="NAME=VALUE", dest="macros", help="a macro")
    parser.add_argument("--steps", type=number, default=1, metavar="N", help="calls it N times in a row (1)")
    parser.add_argument("--init", default="", metavar="FUNCTION", help="is called first")
    parser.add_argument(
        "--state", action="append", default=[], metavar="NAME", help="a variable of a header that is set before"
    )
    parser.add_argument(
        "--length",
        action="append",
        type=length,
        default=[],
        metavar="PARAMETER=N",
        help="the elements of a pointer (4)",
    )
    parser.add_argument("--stubs", metavar="FILE", help="writes stubs to this file")
    return parser


def words() -> argparse.Namespace:
    """The words that the tool was called with; a wrong one ends it with status 2, --help with 0."""
    return parser_of_words().parse_intermixed_args()


def includes(read: Read, out: str | None) -> list[str]:
    """The #include lines for the headers that the sources include in quotation marks, each once. A header that stands
    beside its source is named from the folder of `out`, the file that is written (from this folder where that is None);
    any other as the source names it."""
    found: dict[str, None] = {}
    for path, names in read.includes.items():
        for name in names:
            header = os.path.join(os.path.dirname(path), name)
            folder = os.path.dirname(os.path.abspath(out or "x"))
            known = os.path.relpath(header, folder) if os.path.isfile(header) else name
            found.setdefault(f'#include "{known}"')
    return list(found)


def declaration(read: Read, sources: list[str], name: str) -> Any:
    """The declaration of a function that another file may call, as pycparser's tree. Raises Failure where no source
    declares it, or it is static (C11 6.2.2: no other file sees it)."""
    known = read.defined.get(name)
    if known is None:
        known = read.declared.get(name)
    if known is None:
        raise Failure(f"no source defines the function {name}; they define {', '.join(read.defined)}")
    if "static" in known.storage:
        raise Failure(f"{name} is static, so no other file can call it; a function of its own file may")
    return known


def prototype(read: Read, sources: list[str], name: str) -> list[str]:
    """The line that declares a function which no header declares, as a list of one; an empty list where a header
    declares it. KeyError where nothing does: `declaration` is asked first."""
    from pycparser import c_generator

    known = read.declared.get(name)
    if known is not None and known.coord.file not in sources:
        return []
    return [c_generator.CGenerator().visit(read.defined[name] if name in read.defined else known) + ";"]


def own_types(read: Read, sources: list[str], lines: list[str]) -> None:
    """Raises Failure where `lines`, which are to be written, name a struct or a typedef that stands in a source and in
    no header, so that the driver's file can't have it."""
    text = "\n".join(lines)
    named = [(name, one) for name, one in read.typedefs.items()] + [
        (f"struct {name}", one) for name, one in read.structs.items()
    ]
    for name, one in named:
        if one.coord.file in sources and re.search(rf"\b{re.escape(name)}\b", text):
            raise Failure(
                f"{name} is defined in {one.coord.file} alone; move it to a header, which the driver can include"
            )


def driver(given: argparse.Namespace, read: Read) -> str:
    """The text of the file that calls the function: head, includes, input functions, objects and drive_FUNCTION. Raises
    Failure where the function can't be called from another file, a variable of --state isn't a header's, a parameter of
    --length isn't there, or a type can't be filled."""
    types = Types(read)
    step = declaration(read, given.sources, given.function)
    init = declaration(read, given.sources, given.init) if given.init else None
    for name in given.state:
        if name not in read.variables or read.variables[name].coord.file in given.sources:
            raise Failure(f"{name} is no variable that a header declares")
    wanted = Wanted(given.function, given.steps, given.init, tuple(given.state), dict(given.length))
    try:
        caller = Caller(types, wanted, step, init, read.variables)
        unknown = [name for name in wanted.lengths if name not in [one.name for one in caller.step + caller.init]]
        if unknown:
            raise Failure(f"{given.function} has no parameter {unknown[0]}")
        body = caller.function()
    except Unfit as unfit:
        raise Failure(f"{given.function}: {unfit}") from None
    heads = [line for name in (given.init, given.function) if name for line in prototype(read, given.sources, name)]
    own_types(read, given.sources, heads + body)
    what = f"for {given.function} of {' '.join(map(os.path.basename, given.sources))}"
    lines = [HEAD.format(what=what), *includes(read, given.out), *([""] if heads else []), *heads, *body]
    return "\n".join(lines) + "\n"


def stub_text(given: argparse.Namespace, read: Read) -> str:
    """The text of the file of stubs. Raises Failure where no function wants one, or a type of a parameter or result
    can't be filled."""
    names = stubs.undefined(read)
    if not names:
        raise Failure("each function that is called is defined, or is an input function; no stub is wanted")
    try:
        lines = stubs.lines_of(Types(read), read, names)
    except Unfit as unfit:
        raise Failure(str(unfit)) from None
    own_types(read, given.sources, lines)
    return "\n".join([HEAD_OF_STUBS, *includes(read, given.stubs), *lines]) + "\n"


def main() -> int:
    """Writes what is asked for, the stubs first. The status: 0. Raises Failure, by which the tool ends with status 2."""
    given = words()
    if given.function == "-" and not given.stubs:
        raise Failure("neither a FUNCTION nor --stubs is asked for")
    flags = [f"-I{one}" for one in given.folders] + [f"-D{one}" for one in given.macros]
    read = declarations.of_sources(given.sources, flags)
    made = stub_text(given, read) if given.stubs else ""
    text = driver(given, read) if given.function != "-" else ""
    if given.stubs:
        program.write_whole(given.stubs, made)
    if text:
        program.give(text, given.out)
    return program.DONE
