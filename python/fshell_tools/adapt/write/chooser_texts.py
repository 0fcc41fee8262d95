"""Writes the functions that choose among those that a pointer may meet (6.5.2.2)."""

from typing import TYPE_CHECKING

from fshell_tools.adapt.common import c_types
from fshell_tools.adapt.common.c_types import Pointer
from fshell_tools.adapt.common.objects import Function

if TYPE_CHECKING:
    from fshell_tools.adapt.write.writer import Writer


def definition(writer: "Writer", chooser: Function, targets: list[Function]) -> str:
    """The text of a function that chooses. One that is no target, and null, end the run."""
    names = [writer.spelling.leaf(one, leaf.path) for one in chooser.parameters for leaf in c_types.leaves(one.type)]
    given, cases = ", ".join(names), []
    for number, one in enumerate(targets):
        outer = one.definition is None
        if outer:
            writer.outside.check_outer(one, chooser.coord)
        text = f"{one.out}({'' if outer else given})"
        if isinstance(chooser.result, c_types.Int):
            cases.append(f"case {number}: return {text};")
            continue
        copied = [f"{mine} = {theirs};" for mine, theirs in backs(writer, chooser, one)]
        index = "made = " if isinstance(chooser.result, Pointer) else ""
        cases.append(f"case {number}: {index}{text}; {' '.join([*copied, 'break;'])}")
    whole = f"switch (chosen) {{ {' '.join(cases)} default: assert(0); }}"
    if isinstance(chooser.result, c_types.Int):
        whole += " return 0;"
    if isinstance(chooser.result, Pointer):
        whole = f"int made = -1; {whole} return made;"
    return f"{heading(writer, chooser)} {{ {whole} }}"


def heading(writer: "Writer", chooser: Function) -> str:
    """The head of a function that chooses: a function's, with the number in front."""
    before, after = writer.units.heading(chooser).split("(", 1)
    return f"{before}(int chosen{', ' + after if after != 'void)' else ')'}"


def backs(writer: "Writer", chooser: Function, target: Function) -> list[tuple[str, str]]:
    """What else a call hands back, by the objects of the file in which a target and the chooser leave it."""
    own, theirs = [writer.spelling.special(one, "result", one.result, writer.special) for one in (chooser, target)]
    if isinstance(chooser.result, Pointer):
        parts = chooser.result.region.parts()[1:]
        return [(writer.spelling.leaf(own, (part,)), writer.spelling.leaf(theirs, (part,))) for part in parts]
    found = []
    for leaf in c_types.leaves(chooser.result):
        pair = writer.spelling.leaf(own, leaf.path), writer.spelling.leaf(theirs, leaf.path)
        found += [(f"{pair[0]}[{at}]", f"{pair[1]}[{at}]") for at in range(leaf.count)] if leaf.dims else [pair]
    return found


def written(writer: "Writer") -> tuple[list[str], list[str]]:
    """What stands in front of all else, and what stands at the end."""
    front, end = [], []
    for chooser, region in writer.choosers.used.items():
        with writer.names.refusals.gathered():
            if not chooser.out:
                continue
            for leaf in result_leaves(chooser):
                own = writer.spelling.special(chooser, "result", chooser.result, writer.special)
                length = f"[{leaf.count}]" if leaf.dims else ""
                front.append(f"static {leaf.kind.text} {writer.spelling.leaf(own, leaf.path)}{length};")
            front.append(heading(writer, chooser) + ";")
            end.append(definition(writer, chooser, region.root().targets))
    return front, end


def result_leaves(chooser: Function) -> list[c_types.Leaf]:
    """The integers that a call hands back in objects of the file."""
    if isinstance(chooser.result, c_types.Int):
        return []
    return list(c_types.leaves(chooser.result))[1 if isinstance(chooser.result, Pointer) else 0 :]
