"""The stages of fshell adapt, each by itself: on a tree that the parser makes of a few lines, with what is due by hand.

No stage knows a later one: a module imports from its own stage and from those before it alone, by the order of python/fshell_tools/adapt/pipeline.py.
"""

import ast
import dataclasses
import glob
import os
import re
import types
import typing
from collections.abc import Iterable, Iterator
from typing import Any
from unittest import mock

from tests import environment

FOLDER = os.path.join(environment.ROOT, "python", "fshell_tools", "adapt")
NEEDS: tuple[str, ...] = ("pycparser",)


def parsed(text: str) -> Any:
    """The unit of a text, which nothing has preprocessed."""
    from fshell_tools.adapt.common.parsing import parsed as tree_of
    from fshell_tools.adapt.common.unit import Unit

    return Unit("a.c", tree_of(text, "a.c"), ["a.c"])


def named(text: str) -> Any:
    """What the names of a text stand for."""
    from fshell_tools.adapt.common.refusals import Refusals
    from fshell_tools.adapt.names.scopes import Names

    names = Names(Refusals(), (4, 16))
    names.unit(parsed(text))
    return names


def bound(text: str) -> Any:
    """The same with its parameters bound."""
    from fshell_tools.adapt.bind.bindings import Bindings
    from fshell_tools.adapt.bind.lvalues import Places

    names = named(text)
    Bindings(Places(names), set()).bind()
    return names


def of_name(things: Iterable[Any], name: str) -> Any:
    """The variable or the function of the sources that is called so."""
    return next(one for one in things if one.name == name)


def modules() -> dict[str, str]:
    """The path of each module of a stage, with the folder that the stage is."""
    from fshell_tools.adapt.pipeline import STAGES

    return {path: stage for stage in STAGES for path in sorted(glob.glob(os.path.join(FOLDER, stage, "*.py")))}


def no_stage_knows_a_later_one(folder: str) -> Iterator[bool]:
    """By the imports, also those for types alone; and the parser's nodes are known to one module. Beside the stages' folders stand the
    pipeline, which knows all stages but the command's, and main."""
    from fshell_tools.adapt.pipeline import STAGES

    every = glob.glob(os.path.join(FOLDER, "**", "*.py"), recursive=True)
    top = {name: os.path.join(FOLDER, f"{name}.py") for name in ("__init__", "pipeline", "main")}
    yield set(every) == {*top.values(), *modules()}
    ranks = {stage: rank for rank, stage in enumerate(STAGES)}
    for path, stage in {**modules(), top["pipeline"]: STAGES[-2]}.items():
        with open(path, encoding="utf-8") as file:
            found = [one for one in ast.walk(ast.parse(file.read())) if isinstance(one, ast.ImportFrom)]
        home = "fshell_tools.adapt."
        known = {(one.module or "")[len(home) :].split(".")[0] for one in found if (one.module or "").startswith(home)}
        known |= {"an import of another style" for one in found if one.level or one.module == home[:-1]}
        later = [name for name in known if ranks.get(name, len(ranks)) > ranks[stage]]
        print(*(f"{path} knows {name}" for name in later), sep="\n", end="\n" if later else "")
        yield not later
        yield ("pycparser" in {one.module for one in found}) is path.endswith("parsing.py")


def the_tree_is_our_own(folder: str) -> Iterator[bool]:
    """What is read is a tree without nodes of the parser, which prints as it was."""
    from fshell_tools.adapt.common import parsing, tree

    unit = parsed("int f(int x) { return g(2, x + 1); }").tree
    nodes = tree.walk(unit)
    yield all(type(one).__module__ == "fshell_tools.adapt.common.tree" for one in nodes)
    yield [one.name for one in nodes if isinstance(one, tree.ID)] == ["g", "x"]
    yield parsing.printed(unit.ext[0].body.block_items[0]) == "return g(2, x + 1);"
    yield unit.ext[0].coord == tree.Coord("a.c", 1, 5)


EVERY = """
enum e { A = 3, B }; typedef unsigned long word; struct s; union u { int a; char b[4]; };
struct s { int f : 3, : 0; struct s *next; union { int x; word y; }; };
static const int t[] = {1, [3] = 2}, *const p = t; int (*g)(int, ...); extern int h(void), k();
int old(a, b) char *a; { return *a + b; }
int f(int n, struct s v, char c[]) {
  struct s w = {.f = 1, .next = &w}; ; static int i = sizeof(struct s) + sizeof n;
  for (int j = 0, m; j < n; j++) { if (n > j) continue; else break; }
  for (;;) { while (n--) do { n += 2, i = -i; } while (!i); goto end; }
  switch (n) { case 1: case A: return 0; default: n = n ? (char) n : ~i; }
end: w = (struct s) { 1 };
  _Static_assert(1, "so");
  return h() + g(1, 2) + w.f + v.next->f + t[1] + *p + c[0] + "text"[0];
}
"""
GNU = "int f(int x) { switch (x) { case 1 ... 3: return ({ typeof(x) y = x; y + 1; }); } return 0; }"


def fits(value: object, wanted: Any) -> bool:
    """Whether a value is of a type as dataclasses name them: a class, a list, or one of several."""
    origin, given = typing.get_origin(wanted), typing.get_args(wanted)
    if origin in (typing.Union, types.UnionType):
        return any(fits(value, one) for one in given)
    if origin is list:
        return isinstance(value, list) and all(fits(one, given[0]) for one in value)
    return isinstance(value, wanted)


def gnu_tree(text: str) -> Any:
    """The tree of a text with forms of GNU C."""
    from fshell_tools.adapt.common import parsing
    from fshell_tools.adapt.common.refusals import Refusals
    from fshell_tools.adapt.read import gnu

    unit = parsing.parsed(gnu.lifted(text), "a.c")
    gnu.Settled(Refusals()).unit(unit)
    return unit


def the_tree_is_as_its_types_say(folder: str) -> Iterator[bool]:
    """Each field of each node that the parser gives is of the type by which mypy judges the stages."""
    from fshell_tools.adapt.common import tree

    for unit in (parsed(EVERY).tree, gnu_tree(GNU)):
        for node in tree.walk(unit):
            hints = typing.get_type_hints(type(node))
            wrong = [one.name for one in dataclasses.fields(node) if not fits(getattr(node, one.name), hints[one.name])]
            print(*(f"{type(node).__name__}.{name} of {node.coord}" for name in wrong), sep="\n", end="")
            yield not wrong


def gnu_forms_are_printed(folder: str) -> Iterator[bool]:
    """As C has them, which reports of checked operations quote."""
    from fshell_tools.adapt.common import parsing

    text = " ".join(parsing.printed(gnu_tree(GNU).ext[0]).split())
    due = "int f(int x) { switch (x) { case 1 ... 3: return ({ typeof (x) y = x; y + 1; }); } return 0; }"
    yield text == due


def nothing_is_untyped(folder: str) -> Iterator[bool]:
    """Where the parser's own tree is read alone a thing has no type: mypy --strict checks what is left, without an exception. Fields
    are named by what they are called at two places, the parser's tree and the slots of ours."""
    for path in sorted(glob.glob(os.path.join(FOLDER, "**", "*.py"), recursive=True)):
        with open(path, encoding="utf-8") as file:
            text = file.read()
        nodes = list(ast.walk(ast.parse(text)))
        imported = {alias.name for one in nodes if isinstance(one, ast.ImportFrom) for alias in one.names}
        words = {one.id for one in nodes if isinstance(one, ast.Name)}
        name = os.path.basename(path)
        found = imported & {"Any", "cast"} if name != "parsing.py" else set()
        found |= words & {"getattr", "setattr", "hasattr", "vars"} if name not in ("parsing.py", "tree.py") else set()
        found |= {"type: ignore"} if "type: ignore" in text else set()
        print(*(f"{path} has {word}" for word in sorted(found)), sep="\n", end="\n" if found else "")
        yield not found


def jumps_become_breaks(folder: str) -> Iterator[bool]:
    """A goto out of a loop to a label behind it, and a switch with a case within a statement."""
    from fshell_tools.adapt.common import parsing, tree
    from fshell_tools.adapt.common.refusals import Refusals
    from fshell_tools.adapt.expand.jumps import Jumps
    from fshell_tools.adapt.expand.switches import Cases, is_plain
    from fshell_tools.adapt.pipeline import free_names

    item = parsed("void f(int x) { while (x) { if (x == 3) goto out; x--; } out: x = 0; }").tree.ext[0]
    Jumps(free_names(set()), Refusals()).function(item)
    text = " ".join(parsing.printed(item).split())
    yield text == "void f(int x) { while (x) { if (x == 3) break; x--; } out: x = 0; }"
    item = parsed("void f(int x) { switch (x) { case 1: while (x) { case 2: x--; } } }").tree.ext[0]
    Cases(free_names(set())).function(item.body)
    switches = [one for one in tree.walk(item) if isinstance(one, tree.Switch)]
    yield [is_plain(one) for one in switches] == [True]


def names_have_their_scopes(folder: str) -> Iterator[bool]:
    """C11 6.2.1p4: the inner x is another object; 6.5.3.4 and 6.6: sizes and constants."""
    from fshell_tools.adapt.common import tree

    names = named("enum { K = 5 }; int a[3 * K]; int x; int f(void) { char x = 1; { long x = 2; x = K; } return x; }")
    objects = [one for one in names.variables if one.name == "x"]
    yield [one.type.bits for one in objects] == [32, 8, 64]
    used = [
        names.meaning[node]
        for _, item in names.items
        for node in tree.walk(item)
        if isinstance(node, tree.ID) and node.name == "x"
    ]
    yield used == [objects[2], objects[1]]
    yield of_name(names.variables, "a").type.length == 15
    yield names.refusals.found == set()


def parameters_are_bound(folder: str) -> Iterator[bool]:
    """One object of the file, a copy of several, a whole array, and a pointer that moves."""
    names = bound(
        "int a, b, c[4]; void one(int *p) { *p = 1; } void two(int *p) { *p = 1; } int all(int *p) { return p[1]; }\n"
        "void on(int *p) { p++; *p = 2; } void f(void) { one(&a); two(&a); two(&b); all(c); on(c); }"
    )
    way = {function.name: function.parameters[0].binding for function in names.functions if function.parameters}
    yield (way["two"], way["all"], way["on"]) == ("copy", "lent", "pointer")
    yield way["one"].variable is of_name(names.variables, "a")


def pointers_meet_their_objects(folder: str) -> Iterator[bool]:
    """By assignments p meets a and b, q meets c; they come together where p is compared with q."""
    from fshell_tools.adapt.points_to.analysis import PointsTo

    text = "int a, b, c, *p, *q; void f(void) { p = &a; p = &b; q = &c; %s }"
    for more, together in (("", False), ("if (p == q) a = 1;", True)):
        names = bound(text % more)
        points = PointsTo(names, set())
        homes = [points.home(of_name(names.variables, name)) for name in "abc"]
        yield homes[0] is homes[1] and (homes[1] is homes[2]) is together


def objects_lie_behind_each_other(folder: str) -> Iterator[bool]:
    """Each object of a column with one element between it and the next, which no pointer into either may reach."""
    from fshell_tools.adapt.layout.regions import Columns

    names = bound("int a, b[3], c, *p; void f(int x) { p = x ? &a : b; p++; p = &c; *p = x; }")
    columns = Columns(names, set())
    region = columns.home(of_name(names.variables, "a"))
    assert region is not None
    yield [columns.begin(region, of_name(names.variables, name)) for name in "abc"] == [0, 2, 6]
    yield (columns.counts[region], region.parts()) == (7, ["@p", "@e"])


IMAGES = """struct base { int kind; };
struct derived { struct base base; int value; };
static int handle(struct base *p) {
  struct derived *d = (struct derived *) p;
  return d->value;
}
int f(int a) {
  struct derived x = {{1}, a};
  return handle(&x.base);
}
"""


def each_object_has_one_image(folder: str) -> Iterator[bool]:
    """A pointer to a struct that meets a member which lies apart is refused with both places; here the layout is one that nothing made
    whole. The layout as it is has nothing to refuse."""
    from fshell_tools.adapt.layout.image_check import check_images
    from fshell_tools.adapt.layout.regions import Columns
    from fshell_tools.adapt.points_to import byte_objects

    names = bound(IMAGES)
    check_images(Columns(names, set()), names.refusals)
    yield not names.refusals.lines()
    names = bound(IMAGES)
    with mock.patch.object(byte_objects, "made_whole", lambda points: 0):
        columns = Columns(names, set())
    check_images(columns, names.refusals)
    due = "a pointer to struct derived meets the member base of struct derived (a.c:8), which lies apart from the rest"
    yield any(line.startswith(f"a.c:4: {due}; ") for line in names.refusals.lines())


def effects_are_told(folder: str) -> Iterator[bool]:
    """What a call of f reads and writes, through g."""
    from fshell_tools.adapt.bind.lvalues import Places
    from fshell_tools.adapt.effects.side_effects import Effected
    from fshell_tools.adapt.layout.choosers import Choosers
    from fshell_tools.adapt.layout.regions import Columns

    names = bound("int a, b, c; int g(void) { return a; } void f(int x) { b = g() + x; }")
    columns = Columns(names, set())
    effected = Effected(Places(names, columns), columns, Choosers(names, columns), set())
    found = effected.of_function[of_name(names.functions, "f")]
    read, written = ({one[0].name for one in places if one[0]} for places in (found.reads, found.writes))
    yield (read, written) == ({"a"}, {"b"})


def a_function_is_written(folder: str) -> Iterator[bool]:
    """The pieces of a function, each with its line."""
    from fshell_tools.adapt.bind.lvalues import Places
    from fshell_tools.adapt.common.output import FELL, unmarked
    from fshell_tools.adapt.effects.side_effects import Effected
    from fshell_tools.adapt.layout.choosers import Choosers
    from fshell_tools.adapt.layout.identifiers import Spelling
    from fshell_tools.adapt.layout.lifetimes import Lifetimes
    from fshell_tools.adapt.layout.regions import Columns
    from fshell_tools.adapt.write.writer import Analysis, Checking, Writer

    names = bound("static int n;\nint f(int x)\n{\n  n += x++;\n  return n;\n}\n")
    columns = Columns(names, set())
    places, choosers = Places(names, columns), Choosers(names, columns)
    effected = Effected(places, columns, choosers, set())
    known = Analysis(names, places, columns, choosers, effected, Lifetimes(names, columns), set())
    files = Writer(known, Spelling(names, {"n", "f", "x"}), Checking()).units.write()
    pieces = [(line, unmarked(text)) for line, text in files["a.c"].pieces]
    due = [(1, "static int n;"), (2, "int f(int x) {"), (4, "n += x;"), (4, "x++;"), (5, "return n;"), (5, FELL + "}")]
    yield pieces == due


def what_the_program_refuses_is_told(folder: str) -> Iterator[bool]:
    from fshell_tools.adapt.common.refusals import Refusals
    from fshell_tools.adapt.judge.program_check import check

    for text, count in (("int f(int x) { return x; }\n", 0), ("int f(int x) { return y; }\n", 1)):
        refusals = Refusals()
        check({"a.c": text}, refusals)
        yield len(refusals.found) == count


def each_rule_names_its_clause(folder: str) -> Iterator[bool]:
    """In docs/ADAPT.md each row of translation has the clause on which it rests, and each module of the stages those of its rules;
    none is named that isn't there."""
    with open(os.path.join(environment.ROOT, "docs", "ADAPT.md"), encoding="utf-8") as file:
        text = file.read()
    tables = re.findall(r"^\| C \| becomes \| rests on \|\n\|[-|]*\n((?:\|.*\n)+)", text, re.MULTILINE)
    rows = [line.replace("\\|", "").split("|")[1:-1] for table in tables for line in table.splitlines()]
    yield len(tables) == 2 and len(rows) > 35 and all(len(row) == 3 and is_clause(row[2]) for row in rows)
    stages = text.partition("## Stages")[2].partition("\n## ")[0]
    named = dict(re.findall(r"`(\w+)`(?:, `tree`)? \(([^()]*)\)", stages)) | {"tree": "6.5 to 6.9"}
    names = {os.path.basename(path)[:-3]: stage for path, stage in modules().items()}
    due = {name for name, stage in names.items() if name != "__init__" and stage not in ("common", "command")}
    yield set(named) == due | {"parsing", "tree"}
    without = {one for one, clauses in named.items() if clauses == "none"}
    yield without == {"component", "operator_locations", "writer", "program_check"}
    yield not any(is_clause(text) for text in ("", " ", "none", "6", "C11", "the next section"))
    yield all(is_clause(clauses) for one, clauses in named.items() if one not in without)


def is_clause(text: str) -> bool:
    """Whether a text names clauses of C11, or of gcc's manual."""
    names = [one.strip() for one in re.split(r",|;| to ", text.replace("gcc's manual, ", "gcc's manual: "))]
    return all(re.fullmatch(r"[567](\.\d+)+(p\d+)?|7\.\d+|gcc's manual: [\w ]+", one) for one in names)


STAGES = (each_rule_names_its_clause, no_stage_knows_a_later_one, nothing_is_untyped, the_tree_is_our_own, the_tree_is_as_its_types_say, gnu_forms_are_printed, jumps_become_breaks, names_have_their_scopes, parameters_are_bound, pointers_meet_their_objects,
          objects_lie_behind_each_other, each_object_has_one_image, effects_are_told, a_function_is_written, what_the_program_refuses_is_told)  # fmt: skip
TRIED = [(NEEDS, one) for one in STAGES]
