"""The sizes that calls of qsort and bsearch hand over (7.22.5): each must be that of an element."""

from fshell_tools.adapt.common import c_types
from fshell_tools.adapt.expand.sorting import Sorted
from fshell_tools.adapt.names.scopes import Names


def check_sizes(names: Names, calls: list[Sorted]) -> None:
    """Refuses calls whose elements aren't those to which their pointers lead."""
    for one in calls:
        of, at = names.declarators.type_of(one.element), one.size.coord
        if of == c_types.VOID or c_types.size(of) is None:
            names.refusals.add(at, f"{one.called} of what has no type", "hand over a pointer to the elements")
        elif isinstance(of, c_types.Array):
            names.refusals.add(at, f"{one.called} of arrays", "put each into a struct")
        elif names.constants.value(one.size) != c_types.size(of):
            cause = f"{one.called} with another size than that of what its pointer leads to"
            names.refusals.add(at, cause, "hand over sizeof of an element")
