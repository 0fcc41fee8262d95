"""The library's functions that have a model in C (models/): a model is put in front of the sources that call it, and is adapted as
they are. One with pointers is put there anew for each call."""

import copy
import os
from functools import cache
from itertools import count
from typing import Optional

from fshell_tools.adapt.common import tree
from fshell_tools.adapt.common.parsing import parsed
from fshell_tools.adapt.common.paths import MODELS
from fshell_tools.adapt.common.tree import walk
from fshell_tools.adapt.common.unit import Unit
from fshell_tools.adapt.expand import formats
from fshell_tools.adapt.expand.sorting import SORTING, Sorted, written_for

FILES = ("ctype.c", "stdlib.c", "builtin.c", "sort.c")
OUTPUT = set(
    "printf fprintf vprintf vfprintf puts fputs putchar putc fputc fflush perror setbuf setvbuf syslog".split()
)
# what models use, and what the compiler's builtin functions are written as
KNOWN = """void *malloc(unsigned long); void *calloc(unsigned long, unsigned long); void *realloc(void *, unsigned long); void free(void *);
void assert(int); int errno; int printf(const char *, ...); int puts(const char *); int putchar(int);
void *memcpy(void *, const void *, unsigned long); void *memmove(void *, const void *, unsigned long);
void *memset(void *, int, unsigned long); int memcmp(const void *, const void *, unsigned long);
void *memchr(const void *, int, unsigned long); unsigned long strlen(const char *); char *strcpy(char *, const char *);
char *strncpy(char *, const char *, unsigned long); char *strcat(char *, const char *); int strcmp(const char *, const char *);
int strncmp(const char *, const char *, unsigned long); char *strchr(const char *, int); char *strrchr(const char *, int);"""


class Spot(tree.Coord):
    """The place of what stands in a model."""


def without_comments(text: str) -> str:
    """What is left of C text (6.4.9); a comment that isn't closed goes to the end."""
    while "/*" in text:
        begin, _, rest = text.partition("/*")
        text = begin + rest.partition("*/")[2]
    return text


@cache
def models() -> dict[str, tree.FuncDef]:
    """The trees of the models by their names."""
    found = {}
    for name in FILES:
        with open(os.path.join(MODELS, name), encoding="utf-8") as file:
            unit = parsed(without_comments(file.read()), name)
        found.update({item.decl.name or "": item for item in unit.ext if isinstance(item, tree.FuncDef)})
    return found


@cache
def known() -> dict[str, tree.Decl]:
    """The declarations of the functions that models use, by name."""
    return {item.name or "": item for item in parsed(KNOWN).ext if isinstance(item, tree.Decl)}


def has_pointers(model: tree.FuncDef) -> bool:
    """Whether a model takes or gives pointers, so that each call gets one of its own."""
    return any(isinstance(one, tree.PtrDecl) for one in walk(model.decl.type))


class Library:
    """Puts models in front of the first source. `taken` has the words that are names there."""

    def __init__(self, units: list[Unit], taken: set[str]) -> None:
        self.units, self.taken, self.count = units, taken, 0
        trees = [unit.tree for unit in units]
        self.declared = {item.name for one in trees for item in one.ext if isinstance(item, tree.Decl) and item.name}
        nodes = [node for one in trees for node in walk(one)]
        own = {node.decl.name for node in nodes if isinstance(node, tree.FuncDef)}
        own |= {node.name for node in nodes if isinstance(node, tree.Decl) and not self.is_function(node)}
        self.missing, self.names = (set(models()) | set(formats.BEFORE)) - own, own | self.declared
        self.added: list[tree.Decl | tree.FuncDef] = []
        self.wanted: dict[str, Optional[tree.FuncDef]] = {}
        self.sorted: list[Sorted] = []
        for unit in units:
            self.unit = unit
            self.expand(walk(unit.tree))
        if "errno" in self.declared and not self.is_defined("errno"):
            self.add("errno", known()["errno"])
        front = units[0].files[0] if units else ""
        self.line = min((one.where.line for one in trees[0].ext if one.where.file == front), default=1)
        for item in self.added:
            self.stand(item, front, self.line)
        if self.added:
            trees[0].ext[0:0] = self.added

    def stand(self, item: tree.Node, path: str, line: int) -> None:
        """Gives the nodes of what is added places of their own on a line of a file."""
        for node in walk(item):
            self.count += 1
            node.coord = Spot(path, line, self.count)

    @staticmethod
    def is_function(node: tree.Decl) -> bool:
        """Whether a declaration is one of a function."""
        return isinstance(node.type, tree.FuncDecl)

    def is_defined(self, name: str) -> bool:
        """Whether a source defines an object of a name."""
        items = [
            item for unit in self.units for item in unit.tree.ext if isinstance(item, tree.Decl) and item.name == name
        ]
        return any("extern" not in item.storage for item in items)

    def expand(self, nodes: list[tree.Node]) -> None:
        """Finds the uses of models in a tree's nodes, and adds these."""
        called = {node.name: node for node in nodes if isinstance(node, tree.FuncCall)}
        for node in nodes:
            if isinstance(node, tree.ID) and node.name in SORTING:
                if node in called and node.name in self.missing:
                    self.sort(called[node], node)
            elif isinstance(node, tree.ID) and node.name in formats.BEFORE:
                if node in called and node.name in self.missing:
                    self.format(called[node], node)
            elif (
                isinstance(node, tree.ID)
                and node.name in self.missing
                and (node.name in self.declared or node in called)
            ):
                model = models()[node.name]
                if node in called and has_pointers(model):
                    self.anew(node, model)
                elif node.name not in self.wanted:
                    self.wanted[node.name] = model
                    self.add(node.name, model)
            elif node in called and isinstance(node, tree.ID) and node.name in known() and node.name not in self.names:
                self.names.add(node.name)
                self.added.insert(0, copy.deepcopy(known()[node.name]))

    def format(self, call: tree.FuncCall, own: tree.ID) -> None:
        """Puts the model of a call of sprintf or snprintf in front, where its format is known."""
        name = self.free(own.name)
        made = formats.written_for(call, own.name, name)
        if made is not None:
            self.taken.add(name)
            own.name = name
            self.added.append(made)

    def free(self, stem: str) -> str:
        """A name for a model that nothing else has."""
        return next(name for name in (f"{stem}_{number}" for number in count(1)) if name not in self.taken)

    def declare(self, nodes: list[tree.Node]) -> None:
        """Declares what a model uses."""
        for one in nodes:
            if isinstance(one, tree.ID) and one.name in known() and one.name not in self.wanted:
                self.wanted[one.name] = None
                self.added.insert(0, copy.deepcopy(known()[one.name]))

    def sort(self, call: tree.FuncCall, own: tree.ID) -> None:
        """Puts the model of a call of qsort or bsearch, by its name there, behind its unit, and declares it in front."""
        name = self.free(own.name)
        self.taken.add(name)
        items, path = self.unit.tree.ext, self.unit.path
        functions = {one.decl.name or "" for one in items if isinstance(one, tree.FuncDef)}
        functions |= {one.name or "" for one in items if isinstance(one, tree.Decl) and self.is_function(one)}
        made = written_for(call, own, models()[own.name], name, functions)
        lines = [one.where.line for one in items if one.where.file == path] or [1]
        self.stand(made.prototype, path, min(lines))
        self.stand(made.definition, path, max(lines))
        self.declare(walk(made.definition))
        items[0:0] = [made.prototype]
        items.append(made.definition)
        self.sorted.append(made)

    def anew(self, node: tree.ID, model: tree.FuncDef) -> None:
        """Adds a model for one call."""
        name, number = node.name, 1
        while name in self.taken and (name in self.wanted or name not in self.declared or number > 1):
            number += 1
            name = f"{node.name}_{number}"
        self.taken.add(name)
        self.wanted[name] = model
        node.name = name
        self.add(name, model)

    def add(self, name: str, model: tree.Decl | tree.FuncDef) -> None:
        """Adds a model by a name, with those that it uses itself."""
        made = copy.deepcopy(model)
        if isinstance(made, tree.FuncDef):
            tree.rename(made.decl, name)
            inner = walk(made)
            self.declare(inner)
            self.expand(inner)
        self.added.append(made)
