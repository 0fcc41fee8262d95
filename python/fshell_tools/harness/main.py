"""fshell harness: writes a C file that runs inputs on another compiler, and compares what the entry returns.

The file has the sources within it, so it is compiled alone, with -fwrapv (overflow wraps) and, where plain char has no sign,
-fsigned-char. Run, it prints TAP, or JUnit's XML with --junit: for each input whether the entry returned what FShell recorded. A test whose run FShell says
to trap, to be blocked by an assumption, to be too deep or to be cut is skipped, with that reason. Before each test the variables
of the file have their first values again; input functions give the input's answers, and then 0.
"""

import argparse
import os
from collections.abc import Iterator

from fshell_tools.core import argument_parsers, declarations, inputs, program, snapshots, source_map
from fshell_tools.core.reports import Input, Run
from fshell_tools.core.sources import Source
from fshell_tools.harness.c_text import HEAD, TESTS


def literal(text: str) -> str:
    """A string of C."""
    return '"' + text.replace("\\", "\\\\").replace('"', '\\"') + '"'


def word(number: int) -> str:
    """A number as a word of 64 bits."""
    return f"{number % 2**64}ULL"


def source_text(source: Source, heads: list[tuple[str, str]], out: str | None) -> str:
    """A source with the input functions that it declares, between lines that keep its places and end its macros. Its name is as
    it was given, or that of the original of which it was written; in place of a whole path that from the file's folder stands.
    """
    text = declarations.without_includes(source).encode("latin-1").decode(errors="surrogateescape")
    macros = list(declarations.replacements(source))
    undefined = "".join(f"#undef {name}\n" for name in macros)
    given = "".join(f"{kind} {name}(void) {{ return fshell_answer(); }}\n" for name, kind in heads)
    mapped = source_map.of_source(source.name)
    name = mapped.original if mapped else source.name
    name = os.path.relpath(name, os.path.dirname(out or "") or ".") if os.path.isabs(name) else name
    return f"{undefined}#line 1 {literal(name)}\n{text}{undefined}{given}"


def tests(entry: str, given: list[Input], runs: list[Run]) -> Iterator[str]:
    """The C text of each input's row in the table of tests: its name, its numbers, and what is due of its run."""
    first = 0
    for one, run in zip(given, runs):
        values = ", ".join(map(str, one.args))
        behind = f" with answers {' '.join(map(str, one.answers))}" if one.answers else ""
        name = f"{entry}({values}){behind}" + (f" returns {run.value}" if run.value is not None else "")
        # (TAP reads a directive behind a #)
        name += f" {one.own}".replace("#", "_") if one.own else ""
        skip = "0" if run.end == "returned" else literal(run.end)
        value = "0" if run.value is None else word(run.value)
        has_value = int(run.value is not None)
        yield f"  {{{literal(name)}, {skip}, {has_value}, {first}, {len(one.answers)}, {value}}},\n"
        first += len(one.args) + len(one.answers)


def call(entry: str, given: list[Input], runs: list[Run]) -> str:
    """The body that calls the entry with the words given."""
    name = "fshell_main" if entry == "main" else entry
    if not any(run.end == "returned" for run in runs):
        return "  return 0;"
    called = f"{name}({', '.join(f'given[{number}]' for number in range(len(given[0].args)))})"
    has_value = any(run.value is not None for run in runs)
    return f"  return (unsigned long long) {called};" if has_value else f"  {called};\n  return 0;"


def values(sources: list[Source]) -> str:
    """The body that keeps variables or gives them back."""
    rows = []
    for name in dict.fromkeys(name for source in sources for name in declarations.variables(source)):
        kept, bytes_ = f"fshell_kept_{name}", f"(unsigned char *) &{name}"
        rows.append(f"  static unsigned char {kept}[sizeof({name})];\n")
        rows.append(f"  fshell_copy(keep ? {kept} : {bytes_}, keep ? {bytes_} : {kept}, sizeof({name}));\n")
    return "".join(sorted(rows, key=lambda row: "static" not in row))


def text_of(entry: str, given: list[Input], runs: list[Run], sources: list[Source], out: str | None) -> str:
    """The whole file."""
    words = "".join(f"{word(number)}, " for one in given for number in (*one.args, *one.answers))
    parts = [HEAD.format(by="fshell harness", count=len(given), entry=entry)]
    heads = declarations.input_heads(sources)
    for number, source in enumerate(sources):
        mine = [(name, kind) for name, (first, kind) in heads.items() if first == number]
        parts.append(source_text(source, mine, out))
    before = "".join(parts)
    tests_of = TESTS.format(
        words=words, tests="".join(tests(entry, given, runs)), values=values(sources), count=len(given), entry=literal(entry),
        call=call(entry, given, runs), arity=len(given[0].args) if given else 0, run="fshell_run", runner="",
    )  # fmt: skip
    # (the lines behind the sources are the file's own again)
    own = f"#undef main\n#line {before.count(chr(10)) + 3} {literal(os.path.basename(out or 'tests.c'))}\n"
    return before + own + tests_of


def parser_of_words() -> argument_parsers.Parser:
    """What reads the words of fshell harness; a wrong word ends the tool with status 2."""
    parser = argument_parsers.parser("harness", __doc__, "the file is written")
    argument_parsers.takes_entry(parser, with_inputs=True)
    parser.add_argument("-o", metavar="OUT", dest="out", help="the C file that is written; else standard output")
    parser.add_argument("--steps", type=program.in_range("steps"), metavar="N", help="as for runs")
    return parser


def words() -> argparse.Namespace:
    """What the words of fshell harness say."""
    return parser_of_words().parse_intermixed_args()


def main() -> int:
    """Writes a harness, as the module says; the status is 0."""
    given = words()
    program.check_names(given.sources)
    snapshots.take(given.sources)
    steps = ["--steps", str(given.steps)] if given.steps else []
    read, runs = inputs.runs_of(given.entry, given.inputs, given.sources, steps)
    sources = [Source(name, program.read(name)) for name in given.sources]
    program.give(text_of(given.entry, read, runs, sources, given.out), given.out)
    if given.out is not None:
        skipped = sum(run.end != "returned" for run in runs)
        print(f"{given.out}: {len(runs)} tests, {skipped} of them skipped")
    return program.DONE
