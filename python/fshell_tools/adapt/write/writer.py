"""The writer: what is known of the sources, where it stands in what it writes, and its parts.

Each part writes one kind of construct. Since these hold each other, each knows the writer and reaches the others by it.
"""

from dataclasses import dataclass
from typing import Optional

from fshell_tools.adapt.bind.lvalues import Places
from fshell_tools.adapt.common import tree
from fshell_tools.adapt.common.c_types import Int
from fshell_tools.adapt.common.objects import Function, Variable
from fshell_tools.adapt.common.output import File, mark, unmarked
from fshell_tools.adapt.effects.side_effects import Effected
from fshell_tools.adapt.layout.choosers import Choosers
from fshell_tools.adapt.layout.identifiers import Special, Spelling
from fshell_tools.adapt.layout.lifetimes import Lifetimes
from fshell_tools.adapt.layout.regions import Columns
from fshell_tools.adapt.names.scopes import Names
from fshell_tools.adapt.names.value_ranges import Ranges
from fshell_tools.adapt.write.alias_checks import Checks
from fshell_tools.adapt.write.assignments import Assignments
from fshell_tools.adapt.write.byte_access import Raw
from fshell_tools.adapt.write.calls import Calls
from fshell_tools.adapt.write.checked_operations import CheckedAssignments, CheckedConversions, CheckedExpressions
from fshell_tools.adapt.write.conversions import Conversions
from fshell_tools.adapt.write.elements import Elements
from fshell_tools.adapt.write.evaluation_order import Order
from fshell_tools.adapt.write.expressions import Expressions
from fshell_tools.adapt.write.external_calls import OutsideCalls
from fshell_tools.adapt.write.heap_calls import Heap
from fshell_tools.adapt.write.large_arrays import LargeArrays
from fshell_tools.adapt.write.lifetime_ends import Endings
from fshell_tools.adapt.write.model_calls import ModelCalls
from fshell_tools.adapt.write.overflow import Overflow
from fshell_tools.adapt.write.pointer_statements import PointerEffects
from fshell_tools.adapt.write.pointers import Pointers
from fshell_tools.adapt.write.recursion_levels import Levels
from fshell_tools.adapt.write.region_arrays import ColumnItems
from fshell_tools.adapt.write.statements import Statements
from fshell_tools.adapt.write.struct_assignments import Wholes
from fshell_tools.adapt.write.units import Units


@dataclass(frozen=True)
class Analysis:
    """What the stages before have found out; `inputs` are the functions that give inputs."""

    names: Names
    places: Places
    columns: Columns
    choosers: Choosers
    effected: Effected
    lifetimes: Lifetimes
    inputs: set[str]


@dataclass(frozen=True)
class Checking:
    """Of what the writer writes asserts: indexes of arrays in arrays, signed operations, and implicit conversions."""

    indexes: bool = False
    overflows: bool = False
    conversions: bool = False


class Writer:
    """Writes all units into files. `registers` are volatile objects that are inputs."""

    def __init__(self, known: Analysis, spelling: Spelling, asked: Checking) -> None:
        self.names, self.places, self.effected = known.names, known.places, known.effected
        self.columns, self.choosers = known.columns, known.choosers
        self.lifetimes, self.inputs = known.lifetimes, known.inputs
        self.constants, self.spelling, self.check = known.names.constants, spelling, asked.indexes
        self.ranges = Ranges(known.names)
        self.files: dict[str, File] = {}
        self.registers: list[Variable] = []
        self.special: Special = {}
        self.outer_values: dict[tuple[Function, str], str] = {}  # what objects get by functions that no source defines
        self.outer_used: set[Function] = set()  # whose values are used
        self.begin = "", 1, 0  # the file, the line and the number of the piece before which all is put in front
        self.stand()
        self.make_parts(spelling, asked)

    def stand(self) -> None:
        """Sets where the writer stands: the file and the line in it, and what is written at the time."""
        self.file, self.original, self.line, self.column = File(""), "", 1, 0
        self.closings: dict[tuple[str, int], list[int]] = {}
        self.function: Optional[Function] = None
        self.asked: list[tree.Expression] = []  # the expressions that are written now, the innermost last
        self.stands_for: dict[str, tree.Expression] = {}  # the expression for which each temporary stands
        self.behind: set[tree.Node] = set()  # steps that are taken behind their statement,
        self.after: list[str] = []  # and their texts
        self.within = 0  # how many expressions are written around this one

    def make_parts(self, spelling: Spelling, asked: Checking) -> None:
        """Makes the parts; those that check operations where that is asked for."""
        self.large, self.heap, self.raw = LargeArrays(spelling.fresh), Heap(self), Raw(self)
        self.order, self.elements = Order(self), Elements(self)
        self.pointers, self.pointer_effects = Pointers(self), PointerEffects(self)
        self.models, self.outside, self.calls, self.wholes = (
            ModelCalls(self),
            OutsideCalls(self),
            Calls(self),
            Wholes(self),
        )
        self.conversions, self.assignments, self.expressions = Conversions(self), Assignments(self), Expressions(self)
        self.levels = Levels(self)
        self.overflow: Optional[Overflow] = None
        if asked.overflows or asked.conversions:
            self.overflow = made = Overflow(self, asked.overflows, asked.conversions)
            self.conversions, self.assignments = CheckedConversions(self, made), CheckedAssignments(self, made)
            self.expressions = CheckedExpressions(self, made)
        self.statements, self.endings, self.column_items = Statements(self), Endings(self), ColumnItems(self)
        self.checks, self.units = Checks(self), Units(self)

    def finished(self, texts: dict[str, str]) -> dict[str, str]:
        """The texts as they are put into files."""
        return self.overflow.finished(texts) if self.overflow else texts

    def put_table(self, folder: str) -> None:
        """Writes what stands beside the files. Raises Failure where it can't be written."""
        if self.overflow:
            self.overflow.put_table(folder)

    # ---- pieces

    def emit(self, text: str) -> None:
        """Writes a piece. What a value needs before stands on the statement's own line."""
        self.file.emit(self.line, mark(self.line, self.column) + (unmarked(text) if self.within else text))

    def declare(self, text: str) -> None:
        """Writes a declaration of a block. A label stands before a statement (6.8.1p1), so one right behind a case gets an empty one."""
        if self.is_behind_case():
            line, label = self.file.pieces[-1]
            self.file.pieces[-1] = line, f"{label} ;"
        self.emit(text)

    def is_behind_case(self) -> bool:
        """Whether the last piece is a case, which has no statement yet."""
        return bool(self.file.pieces) and self.file.pieces[-1][1].endswith(":")

    def go(self, node: tree.Node) -> None:
        """What is written next stands on the line of this statement."""
        if node.coord is not None and node.coord.file == self.original:
            self.line, self.column = node.coord.line, node.coord.column or 0

    def at(self, node: tree.Node) -> str:
        """The mark of an expression's place, where it stands in the original."""
        at = node.coord
        return mark(at.line, at.column or 0) if at is not None and at.file == self.original else ""

    def temporary(self, kind: Int, text: str, stem: str = "value") -> str:
        """Writes a local with a value; its name."""
        name = self.spelling.fresh(stem)
        self.stands_for |= {name: self.asked[-1]} if self.asked else {}
        self.declare(f"{kind.text} {name} = {unmarked(text)};")
        return name
