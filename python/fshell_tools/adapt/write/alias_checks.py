"""Refuses functions in which two names would be those of one object, or one name of two."""

from fshell_tools.adapt.bind.bindings import key
from fshell_tools.adapt.common.c_types import Array, Int, Pointer, Struct, Type
from fshell_tools.adapt.common.objects import Function, Place
from fshell_tools.adapt.common.refusals import Refused
from fshell_tools.adapt.effects.side_effects import pointee
from fshell_tools.adapt.write.component import Component


def within(of: Type, part: Type) -> bool:
    """Whether an object of the type has a part of another one."""
    if of is part or (isinstance(of, Int) and of == part):
        return True
    if isinstance(of, Array):
        return within(of.of, part)
    return isinstance(of, Struct) and any(within(member, part) for _, member in of.members or [])


class Checks(Component):
    """The checks of names, before a function is written."""

    def check_names(self, function: Function) -> None:
        """Refuses what would make two names of one object, or one name of two. Raises Refused for a parameter whose
        object has the name of another one there."""
        locals_of = {
            variable.name
            for variable in self.writer.names.variables
            if variable.function is function and variable.home == "local"
        }
        for parameter in function.parameters:
            if isinstance(parameter.binding, Place) and parameter.binding.variable.out in locals_of | {
                one.name for one in function.parameters
            }:
                raise Refused(
                    parameter.coord,
                    f"{parameter.name} stands for {parameter.binding.variable.name}, and {function.name} has another of this name",
                    "rename that one",
                )
        if not function.calls:
            self.check_uncalled(function)

    def check_uncalled(self, function: Function) -> None:
        """Refuses a function that nothing calls, where two of its names may be those of one object. Raises Refused
        then, and lets the parameters be pointers in the next reading."""
        summary = self.writer.effected.of_function[function]
        copies = [one for one in function.parameters if one.binding == "copy" and isinstance(one.type, Pointer)]
        for at, one in enumerate(copies):
            written = any(found[0] is one for found in summary.writes)
            shared = [
                (found, found in summary.writes)
                for found in [*summary.reads, *summary.writes]
                if found[0] is not None and found[0].shared
            ]
            if any((written or too) and within(found[0].type, pointee(one)) for found, too in shared if found[0]):
                self.writer.names.refusals.apart.add(key(one))  # (a pointer as any other, which has objects of its own)
                raise Refused(
                    one.coord,
                    f"nothing calls {function.name}, and {one.name} may point to an object that it uses",
                    "call it with a named object",
                )
            for two in copies[at + 1 :]:
                too = any(found[0] is two for found in summary.writes)
                if (written or too) and (within(pointee(one), pointee(two)) or within(pointee(two), pointee(one))):
                    self.writer.names.refusals.apart.add(key(two))
                    raise Refused(
                        two.coord,
                        f"nothing calls {function.name}, and {one.name} and {two.name} may point to one object",
                        "call it with named objects",
                    )
