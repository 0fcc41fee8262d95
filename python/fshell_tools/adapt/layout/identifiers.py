"""The names in what is written: each is its own, and reads back to what it stands for."""

import os
from typing import Union

from fshell_tools.adapt.common.c_types import INDEX, Path, Type
from fshell_tools.adapt.common.objects import Function, Variable
from fshell_tools.adapt.names.scopes import Names

Special = dict[tuple[Function, str], Variable]  # the variables in which functions hand values back, by what
KEPT = {"assert", "assume"}


class Spelling:
    """The names of all that is written; `taken` are those that nothing else may have."""

    def __init__(self, names: Names, words: set[str]) -> None:
        self.taken = set(words) | KEPT
        self.leaves: dict[tuple[str, Path], str] = {}
        self.owners: dict[tuple[str, Path], Variable] = {}
        owners: dict[str, Union[Function, Variable]] = {}
        files: list[Union[Function, Variable]] = [
            *names.functions,
            *(variable for variable in names.variables if variable.home == "file"),
        ]
        for one in files:
            free = owners.setdefault(one.name, one) is one
            stem = os.path.splitext(os.path.basename(one.where.file))[0]
            one.out = (
                one.name if free else self.fresh(f"{one.name}_{''.join(c if c.isalnum() else '_' for c in stem)}", True)
            )
        for variable in names.variables:
            if variable.home == "static":
                function = variable.function.name + "_" if variable.function else ""
                variable.out = self.fresh(function + variable.name, True)

    def fresh(self, stem: str, plain: bool = False) -> str:
        """A name that nothing else has: the stem with a number, or the stem alone where it is free."""
        number = 1
        name = stem if plain else f"{stem}_1"
        while name in self.taken:
            number += 1
            name = f"{stem}_{number}"
        self.taken.add(name)
        return name

    def leaf(self, variable: Variable, path: Path) -> str:
        """The name of a variable's integer, or of the array of them."""
        base = variable.out or variable.name
        if path in ((), (INDEX,)):
            return base
        key = (base, path)
        self.owners.setdefault(key, variable)
        if key not in self.leaves:
            words = [one.lstrip("@?") for one in path if one != INDEX]
            self.leaves[key] = self.fresh("_".join(words if not base else (base, *words)), True)
        return self.leaves[key]

    def special(self, function: Function, stem: str, of: Type, made: Special) -> Variable:
        """A variable of the file in which a function hands a value back."""
        key = (function, stem)
        if key not in made:
            name = self.fresh(f"{function.out}_{stem}", True)
            made[key] = Variable(stem, of, function.coord, "static", function=function, out=name)
        return made[key]
