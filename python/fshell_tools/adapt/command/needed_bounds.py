"""Which bounds a run needs (--bounds): by what was written the turns of the loops whose counts are constant, the frames of calls that stand
one in the other, and the answers that are read one behind the other. Other loops, and functions that call themselves, are told."""

import os
import re
from collections.abc import Sequence
from dataclasses import dataclass, field
from typing import Optional

from fshell_tools.adapt.common import parsing, tree
from fshell_tools.adapt.common.output import FELL

WORDS = "".join(
    f"typedef int {name};"
    for name in "int8_t uint8_t int16_t uint16_t int32_t uint32_t int64_t uint64_t size_t bool".split()
)
HEAP = "malloc_fails"  # is asked once, whatever calls there are
Loop = tree.While | tree.DoWhile | tree.For
Counts = dict[Loop, Optional[int]]  # how often loops go back, where that is known
MOST = {"turns": 1000, "frames": 64, "answers": 256}
STEPS = ("++", "p++", "--", "p--")


def name_of(call: tree.FuncCall) -> str:
    """The name by which a call calls; nothing of one by a pointer."""
    return call.name.name if isinstance(call.name, tree.ID) else ""


@dataclass
class Asked:
    """How many answers are read at most, by their functions, but for loops whose counts aren't known."""

    counts: dict[str, int] = field(default_factory=dict)

    @property
    def total(self) -> int:
        """The number of all answers."""
        return sum(self.counts.values())

    def plus(self, other: "Asked", times: int = 1) -> "Asked":
        """These answers and so many times those of another."""
        names = dict.fromkeys([*self.counts, *other.counts])
        return Asked({one: self.counts.get(one, 0) + times * other.counts.get(one, 0) for one in names})


class Written:
    """What was written, read again: its functions with the files in which they stand."""

    def __init__(self, texts: dict[str, str]) -> None:
        self.functions: dict[str, tree.FuncDef] = {}
        self.files: dict[str, str] = {}
        self.inputs: set[str] = set()
        self.constants: dict[str, int] = {}
        joined = []
        for path, text in texts.items():
            plain = re.sub(
                r"(?m)^[ \t]*#.*$", "", re.sub(r"//.*|/\*(?:[^*]|\*(?!/))*\*/", blank, text.replace(FELL, ""))
            )
            joined.append(f'# 1 "{path}"\n{plain}')
        whole = parsing.parsed(WORDS + "\n" + "\n".join(joined))
        declared = set[str]()
        for item in whole.ext:
            if isinstance(item, tree.FuncDef):
                name = item.decl.name or ""
                self.functions[name], self.files[name] = item, item.decl.where.file
            elif isinstance(item, tree.Decl) and isinstance(item.type, tree.FuncDecl):
                declared.add(item.name or "")
            for one in tree.walk(item) if isinstance(item, tree.Decl) else []:
                self.enumerated(one)
        self.inputs = declared - set(self.functions) - {"assert", "assume"}
        self.handed = self.arguments()

    def enumerated(self, node: tree.Node) -> None:
        """Learns the constants of an enum."""
        last = -1
        for one in node.values.enumerators if isinstance(node, tree.Enum) and node.values is not None else []:
            known = self.value(one.value, {}) if one.value is not None else last + 1
            last = known if known is not None else last + 1
            self.constants[one.name] = last

    def calls(self, function: str) -> list[tree.FuncCall]:
        """Where this function, by what is written, calls another or itself; nothing where its body isn't there."""
        nodes = tree.walk(self.functions[function].body) if function in self.functions else []
        return [one for one in nodes if isinstance(one, tree.FuncCall)]

    def parameters(self, function: str) -> list[str]:
        """The names of a function's parameters."""
        listed = self.functions[function].head.params
        return [one.name or "" for one in listed if not isinstance(one, tree.EllipsisParam)]

    def arguments(self) -> dict[str, dict[str, int]]:
        """The greatest constant that calls hand over for a parameter, where all of them hand over constants."""
        found: dict[str, dict[str, list[Optional[int]]]] = {}
        for function in self.functions:
            for call in self.calls(function):
                own = self.parameters(name_of(call)) if name_of(call) in self.functions else []
                for name, one in zip(own, call.given):
                    found.setdefault(name_of(call), {}).setdefault(name, []).append(self.value(one, {}))
        return {
            function: {
                name: max(v for v in values if v is not None) for name, values in own.items() if None not in values
            }
            for function, own in found.items()
        }

    # ---- constants

    def value(self, node: Optional[tree.Node], known: dict[str, int]) -> Optional[int]:
        """The value of a constant expression of small numbers; None of any other one."""
        if isinstance(node, tree.Constant):
            digits = node.value.rstrip("uUlL")
            return (
                int(digits, 0)
                if re.fullmatch(r"\d+|0[xX][0-9a-fA-F]+", digits) and not re.fullmatch(r"0\d+", digits)
                else None
            )
        if isinstance(node, tree.ID):
            return known.get(node.name, self.constants.get(node.name))
        if isinstance(node, tree.Cast):
            one = self.value(node.expr, known)
            return one if one is not None and 0 <= one < 128 else None
        if isinstance(node, tree.UnaryOp) and node.op == "-":
            one = self.value(node.expr, known)
            return None if one is None else -one
        if isinstance(node, tree.BinaryOp) and node.op in ("+", "-", "*", "/"):
            left, right = self.value(node.left, known), self.value(node.right, known)
            if left is None or right is None or (node.op == "/" and right <= 0):
                return None
            return {"+": left + right, "-": left - right, "*": left * right, "/": left // (right or 1)}[node.op]
        return None


def blank(found: "re.Match[str]") -> str:
    """Blanks in place of a text, on its lines."""
    return re.sub(r"[^\n]", " ", found.group())


def stepped(node: tree.Node, name: str) -> Optional[int]:
    """By how much an expression steps a variable, where that is known and above 0, or below."""
    if (
        isinstance(node, tree.UnaryOp)
        and node.op in STEPS
        and isinstance(node.expr, tree.ID)
        and node.expr.name == name
    ):
        return 1 if "+" in node.op else -1
    if isinstance(node, tree.Assignment) and node.op in ("+=", "-=") and isinstance(node.lvalue, tree.ID):
        if node.lvalue.name == name and isinstance(node.rvalue, tree.Constant) and node.rvalue.value.isdecimal():
            return int(node.rvalue.value) * (1 if node.op == "+=" else -1) or None
    return None


def changes(node: tree.Node, name: str) -> list[tree.Node]:
    """The assignments, `++` and `--` in a tree whose target is the variable of this name."""
    found = []
    for one in tree.walk(node):
        target = (
            one.lvalue
            if isinstance(one, tree.Assignment)
            else one.expr
            if isinstance(one, tree.UnaryOp) and one.op in STEPS
            else None
        )
        declared = isinstance(one, tree.Decl) and one.name == name
        if declared or (isinstance(target, tree.ID) and target.name == name):
            found.append(one)
    return found


def leaves(loop: Loop) -> bool:
    """Whether a loop is there for its `break` alone: it never goes back."""
    items = loop.stmt.block_items or [] if isinstance(loop.stmt, tree.Compound) else [loop.stmt]
    rest, goes_on = list(items), False
    while rest:
        one = rest.pop()
        goes_on = goes_on or isinstance(one, tree.Continue)
        rest += [] if isinstance(one, tree.LOOPS) else [child for _, child in one.children()]
    return bool(items) and isinstance(items[-1], tree.Break) and not goes_on


def first_of(node: Optional[tree.Node], name: str) -> Optional[tree.Expression]:
    """What a variable is given by a statement before a loop, or in its head."""
    for one in [node, *(node.decls if isinstance(node, tree.DeclList) else [])]:
        if isinstance(one, tree.Decl) and one.name == name:
            return one.init
        if (
            isinstance(one, tree.Assignment)
            and one.op == "="
            and isinstance(one.lvalue, tree.ID)
            and one.lvalue.name == name
        ):
            return one.rvalue
    return None


def given_before(items: Sequence[tree.Node], name: str) -> Optional[tree.Expression]:
    """What a variable is given by one of the last statements before a loop, behind which others are given values without calls."""
    for one in items[::-1]:
        if changes(one, name):
            return first_of(one, name)
        calls = any(isinstance(inner, tree.FuncCall) for inner in tree.walk(one))
        if calls or not isinstance(one, (tree.Decl, tree.Assignment)):
            return None
    return None


class Needed:
    """What the entries need."""

    def __init__(self, texts: dict[str, str]) -> None:
        self.written = Written(texts)
        self.asked: dict[str, Asked] = {}

    # ---- loops

    def turns(self, loop: Loop, before: Sequence[tree.Node], known: dict[str, int]) -> Optional[int]:
        """How often a loop goes back at most, where its count is constant."""
        test = loop.cond
        if test is None and leaves(loop):
            return 0
        if not isinstance(test, tree.BinaryOp) or isinstance(loop, tree.DoWhile):
            return None
        tested = test.left.expr if isinstance(test.left, tree.Cast) else test.left
        if not isinstance(tested, tree.ID):
            return None
        name, last = tested.name, self.written.value(test.right, known)
        step: Optional[tree.Node] = loop.next if isinstance(loop, tree.For) else None
        body = loop.stmt
        begun = first_of(loop.init, name) if isinstance(loop, tree.For) and loop.init else given_before(before, name)
        first = self.written.value(begun, known)
        changed = changes(body, name)
        if isinstance(loop, tree.While) or (step is None or not changes(step, name)):
            top = body.block_items or [] if isinstance(body, tree.Compound) else [body]
            goes_on = any(isinstance(one, tree.Continue) for one in tree.walk(body))
            step = changed[0] if len(changed) == 1 and any(one is changed[0] for one in top) and not goes_on else None
            changed = []
        by = stepped(step, name) if step is not None else None
        if first is None or last is None or by is None or changed:
            return None
        return counted(test.op, first, last, by)

    def loops(self, function: str) -> list[tuple[Loop, Optional[int]]]:
        """The loops of a function with their counts."""
        item = self.written.functions[function]
        own = {name: v for name, v in self.written.handed.get(function, {}).items() if not changes(item.body, name)}
        found = []
        for node in tree.walk(item.body):
            items = (
                node.block_items or [] if isinstance(node, tree.Compound) else [child for _, child in node.children()]
            )
            for at, one in enumerate(items):
                if isinstance(one, tree.LOOPS):
                    before = items[:at] if isinstance(node, tree.Compound) else []
                    found.append((one, self.turns(one, before, own)))
        return found

    # ---- answers

    def answers(self, function: str, open_: tuple[str, ...] = ()) -> Asked:
        """The answers that a call of a function reads."""
        if function in open_ or function not in self.written.functions:
            return Asked()
        if function not in self.asked:
            counts = {loop: count for loop, count in self.loops(function)}
            self.asked[function] = self.of(self.written.functions[function].body, counts, (*open_, function))
        return self.asked[function]

    def of(self, node: Optional[tree.Node], counts: Counts, open_: tuple[str, ...]) -> Asked:
        """The answers that a statement or an expression reads."""
        if node is None:
            return Asked()
        if isinstance(node, (tree.If, tree.TernaryOp)):
            ways = [self.of(one, counts, open_) for one in (node.iftrue, node.iffalse)]
            return self.of(node.cond, counts, open_).plus(max(ways, key=lambda one: one.total))
        if isinstance(node, tree.Switch):
            return self.of(node.cond, counts, open_).plus(self.of_cases(node, counts, open_))
        made = Asked()
        for _, child in node.children():
            made = made.plus(
                self.of(child, counts, open_), (counts.get(node) or 1) if isinstance(node, tree.LOOPS) else 1
            )
        if isinstance(node, tree.LOOPS) and counts.get(node):
            made = made.plus(self.of(node.cond, counts, open_))
        if isinstance(node, tree.FuncCall):
            name = name_of(node)
            made = made.plus(Asked({name: 1}) if name in self.written.inputs else self.answers(name, open_))
        return made

    def of_cases(self, node: tree.Switch, counts: Counts, open_: tuple[str, ...]) -> Asked:
        """What the cases of a switch read: the one that reads most, or all of them where one goes on into the next."""
        groups = node.stmt.block_items or [] if isinstance(node.stmt, tree.Compound) else [node.stmt]
        made = [self.of(one, counts, open_) for one in groups]
        ends = (tree.Break, tree.Return, tree.Continue)
        lists = [one.stmts or [] for one in groups[:-1] if isinstance(one, (tree.Case, tree.Default))]
        falls = any(one and not isinstance(one[-1], ends) for one in lists)
        if not falls:
            return max(made, key=lambda one: one.total, default=Asked())
        whole = Asked()
        for one in made:
            whole = whole.plus(one)
        return whole

    # ---- frames

    def reached(self, entry: str) -> list[str]:
        """The functions that an entry reaches, itself among them."""
        found, rest = [entry], [entry]
        while rest:
            for call in self.written.calls(rest.pop()):
                name = name_of(call)
                if name in self.written.functions and name not in found:
                    found.append(name)
                    rest.append(name)
        return found

    def frames(self, function: str, open_: tuple[str, ...] = ()) -> int:
        """The calls that stand one in the other; a function that calls itself counts once."""
        names = {name_of(call) for call in self.written.calls(function)} & set(self.written.functions)
        inner = [self.frames(one, (*open_, function)) for one in names if one not in (*open_, function)]
        return 1 + max(inner, default=0)

    def recursive(self, entry: str) -> list[str]:
        """The functions below an entry that call themselves."""
        found = self.reached(entry)
        return [
            one
            for one in found
            if any(one in self.reached(name_of(call)) for call in self.written.calls(one) if name_of(call) in found)
        ]

    # ---- what is said

    def place(self, node: tree.Node) -> str:
        """The file and the line of a node."""
        return f"{os.path.basename(node.where.file)}:{node.where.line}"

    def entries(self, files: set[str]) -> list[str]:
        """The functions of the sources that nothing calls, which take integers alone."""
        called = {name_of(call) for function in self.written.functions for call in self.written.calls(function)}
        found = []
        for name, item in self.written.functions.items():
            listed = [one for one in item.head.params if isinstance(one, (tree.Decl, tree.Typename))]
            arrays = any(isinstance(one.type, tree.ArrayDecl) for one in listed)
            if name not in called and not arrays and self.written.files[name] in files:
                found.append(name)
        return found

    def lines(self, entry: str) -> list[str]:
        """What an entry needs, for the command line and for fshell.toml, and what isn't known."""
        loops = [one for function in self.reached(entry) for one in self.loops(function)]
        known = [(count, loop) for loop, count in loops if count is not None]
        asked = self.answers(entry)
        asked = Asked({name: 1 if name.startswith(HEAP) else count for name, count in asked.counts.items()})
        bounds = {"frames": self.frames(entry), "answers": asked.total}
        most = max(known, key=lambda one: one[0]) if known else None
        bounds = {"turns": most[0], **bounds} if most else bounds
        words = " ".join(f"--{name} {number}" for name, number in bounds.items())
        table = ", ".join(f"{name} = {number}" for name, number in bounds.items())
        made = [f"bounds of {entry}: {words}", f"  bounds = {{ {table} }}"]
        made += [f"  turns {most[0]}: the loop at {self.place(most[1])}"] if most else []
        told = ", ".join(f"{name} {count}" for name, count in asked.counts.items() if count)
        more = any(self.of(loop, {}, ()).total for loop, count in loops if count is None)
        made += (
            [f"  answers {asked.total}: {told}{', and more by loops without a constant count' * more}"] if told else []
        )
        open_ = dict.fromkeys(self.place(loop) for loop, count in loops if count is None)
        made += [f"  loops without a constant count: {', '.join(open_)}"] if open_ else []
        again = self.recursive(entry)
        made += [f"  functions that call themselves: {', '.join(again)}"] if again else []
        over = [f"{name} up to {MOST[name]}" for name, number in bounds.items() if number > MOST[name]]
        return made + ([f"  the program takes {' and '.join(over)}"] if over else [])


def counted(op: str, first: int, last: int, by: int) -> Optional[int]:
    """How often a loop's body is done that tests a variable before each turn."""
    if op == "!=":
        return (last - first) // by if (last - first) % by == 0 and (last - first) // by >= 0 else None
    if (op in ("<", "<=")) != (by > 0) or op not in ("<", "<=", ">", ">="):
        return None
    room = (last - first) * (1 if by > 0 else -1) + (op in ("<=", ">="))
    return max(-(-room // abs(by)), 0)


def text_of(texts: dict[str, str], files: set[str]) -> str:
    """What the entries need, where what was written stands in files of these names."""
    needed = Needed(texts)
    return "\n".join(line for entry in needed.entries(files) for line in needed.lines(entry))
