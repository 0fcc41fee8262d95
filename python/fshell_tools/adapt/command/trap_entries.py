"""The traps that the translation adds, for the map: each line of what is written on which a run may end where C's own abstract machine
has another rule, or none, with the reason and C's clause. They are read off the texts, so that none is missed: each access to a column, and
each assertion that the original hasn't."""

import re

from fshell_tools.adapt.common.c_types import leaves
from fshell_tools.adapt.common.output import unmarked
from fshell_tools.adapt.write.writer import Writer

Row = list[int | str]  # the line, the reason, the clause, and 1 where C gives what ends there no meaning
ACCESS = (
    "an index outside of its object, a null pointer, or one to an object that is gone",
    "6.5.6p8, 6.5.3.2p4, 6.2.4p2",
    1,
)
LEVEL = "more than 64 calls of one function at once", "6.5.2.2p11", 0
FORMS = (
    (
        re.compile(r"default: assert\(0\)"),
        ("a null pointer to a function, or one to no function of the sources", "6.5.2.2p9", 1),
    ),
    (re.compile(r"assert\(\w+\[p\] > 0\)"), ("memory that isn't in use is given back", "7.22.3.3p2", 1)),
    (re.compile(r"assert\(\(i >= 0\) & \(i < \d+\)\)"), ("an index outside of its array", "6.5.6p8", 1)),
    (re.compile(r" % \d+ != 0\)"), ("a number of bytes that is no whole number of elements", "7.24.2.1p2", 0)),
)
DECLARED = re.compile(r"^(static )?(const )?[\w ]+ \w+\[\d+\]( = \{[^{}]*\})?;")


def accessed(writer: Writer) -> list[str]:
    """The names by which what is written reaches into columns, as they stand before a bracket."""
    found = [one.reads for one in writer.large.known.values()] + [one.sets for one in writer.large.known.values()]
    for region in writer.columns.made:
        found += [writer.spelling.leaf(region.laid, leaf.path) for leaf in leaves(region.laid.type)]
    return sorted(set(found))


def rows(writer: Writer, text: str) -> list[Row]:
    """The traps of one file that is written: a row for each line and reason."""
    words, found = accessed(writer), list[Row]()
    access = re.compile(r"\b(" + "|".join(map(re.escape, words)) + r")[\[(]") if words else None
    levels = bool(writer.columns.levelled)
    for number, line in enumerate(unmarked(text).split("\n"), 1):
        rest = line.strip()
        while (declared := DECLARED.match(rest)) is not None:
            rest = rest[declared.end() :].strip()
        if access is not None and access.search(rest):
            found.append([number, *ACCESS])
            found += [[number, *LEVEL]] * levels
        found += [[number, *told] for form, told in FORMS if form.search(rest)]
    return found
