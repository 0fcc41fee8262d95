"""Writes a C file that runs the original on given inputs and compares what its entry returns with what the program says of what
was written. Each test is a process of its own, so that all objects have their first values, also those within functions.

The file includes the source that has the entry, so that a static one can be called too; the other sources are compiled beside it.
"""

import os
from collections.abc import Sequence

from fshell_tools.core import inputs
from fshell_tools.harness import main as harness
from fshell_tools.harness.c_text import FORK, HEAD, TESTS

from fshell_tools.adapt.command.compare_texts import answering, plain, undefined
from fshell_tools.adapt.common import tree
from fshell_tools.adapt.common.c_types import Array, Int, Pointer, Type, c_words
from fshell_tools.adapt.common.objects import Function
from fshell_tools.adapt.common.refusals import Stop
from fshell_tools.adapt.write.writer import Writer


def words_of(kind: Type) -> str:
    """C's own words for the type of an argument or a result."""
    if isinstance(kind, Int):
        return "_Bool" if kind.boolean else c_words(kind)
    return "const void *" if isinstance(kind, (Pointer, Array)) else "void"


def answered(writer: Writer, function: Function, home: str) -> str:
    """The definition of an input function: as the source of the entry declares it, or else in C's own words, since the types of
    another source aren't known there."""
    if _declares(writer, home, function.name):
        whole = answering(writer, function, "fshell_answer()")
        given_names = [one.name for one in function.written if not isinstance(one, tree.EllipsisParam)]
        unused = "".join(f"(void) {name}; " for name in given_names if name)
        head, _, body = whole.rpartition(" { ")
        return f"{head} {{ {unused}{body}"
    words = [words_of(one.type) for one in function.parameters]
    given = ", ".join(f"{word} fshell_given_{number}" for number, word in enumerate(words))
    unused = "".join(f"(void) fshell_given_{number}; " for number in range(len(words)))
    result = words_of(function.result)
    back = f"return ({result}) fshell_answer(); " if isinstance(function.result, Int) else ""
    return f"{result} {function.name}({given or 'void'}) {{ {unused}{back}}}\n"


def _declares(writer: Writer, path: str, name: str) -> bool:
    """Whether a source, or a header that it includes, declares a function."""
    nodes = [item for unit, item in writer.names.items if unit.path == path]
    decls = [node.decl if isinstance(node, tree.FuncDef) else node for node in nodes]
    return any(isinstance(one, (tree.Decl, tree.Typedef)) and one.name == name for one in decls)


def own_main(writer: Writer, home: str) -> bool:
    """Whether a source that is compiled beside the tests defines a main of its own."""
    found = [one for one in writer.names.functions if one.name == "main" and one.definition is not None]
    return any(writer.names.items[one.number][0].path != home for one in found)


def text_of(writer: Writer, made: list[str], entry: str, given: str, folder: str) -> tuple[str, str]:
    """The file's text, for inputs of a file, and the source that it includes. Raises Stop for an entry that can't be
    called, and for inputs that the original hasn't."""
    function = next((one for one in writer.names.functions if one.name == entry and one.definition is not None), None)
    if function is None or not plain(function):
        raise Stop(f"{entry} is no function of the sources that takes integers alone and gives one or nothing")
    if writer.registers or writer.heap.asked or writer.outer_values:
        what = f"{writer.registers[0].name} is" if writer.registers else "whether malloc fails is"
        what = f"what {next(iter(writer.outer_values))[0].name} writes is" if writer.outer_values else what
        raise Stop(f"{what} an input of what was written alone, so the original can't be tested by its inputs")
    home = writer.names.items[function.number][0].path
    read, runs = inputs.runs_of(entry, given, made)
    kinds = [one.type.text for one in function.parameters if isinstance(one.type, Int)]
    name = "fshell_main" if entry == "main" else entry
    call = f"{name}({', '.join(f'({kind}) given[{number}]' for number, kind in enumerate(kinds))})"
    body = f"  return (unsigned long long) {call};" if isinstance(function.result, Int) else f"  {call};\n  return 0;"
    text = TESTS.format(
        count=len(read), entry=harness.literal(entry), arity=len(kinds), values="", call=body, run="fshell_run_here",
        words="".join(f"{harness.word(number)}, " for one in read for number in (*one.args, *one.answers)),
        tests="".join(harness.tests(entry, read, runs)), runner=FORK.format(),
    )  # fmt: skip
    head = HEAD.format(by="fshell adapt --harness", count=len(read), entry=entry)
    heads = "".join(answered(writer, one, home) for one in undefined(writer))
    named = harness.literal(os.path.relpath(os.path.realpath(home), os.path.realpath(folder)))
    return f"{head}\n#include {named}\n{heads}#undef main\n{text}", home


def how_to_compile(writer: Writer, sources: Sequence[str], home: str, flags: list[str]) -> str:
    """The compiler's words behind the file."""
    others = [source for source in sources if source != home]
    mains = ["-Dmain=fshell_main"] if own_main(writer, home) else []
    return " ".join(["-fwrapv", *mains, *flags, *others])
