"""Statements within expressions, typeof and ranges of cases, which GNU C has and pycparser doesn't read (gcc's manual, Extensions to the
C Language Family). Before a text is parsed each stands for a name with `$`, which no source has, and what it has stands behind its
function in a function of its own, at the lines and columns that it had. In the tree each becomes a node of its own."""

import re
from dataclasses import dataclass, field

from fshell_tools.adapt.common import tree
from fshell_tools.adapt.common.refusals import Refusals

TOKEN = re.compile(
    r'(?m)^#.*$|"(?:\\.|[^"\\\n])*"|\'(?:\\.|[^\'\\\n])*\'|[A-Za-z_]\w*|\s+|[^\sA-Za-z_"\'#]|#',
)
MARKER = re.compile(r'# (\d+) "(.*)"')
RANGE = re.compile(r"\bcase\b(?:'(?:\\.|[^'\\\n])*'|[^:;{}?'\"])*?\.\.\.")
TYPEOF = ("typeof", "__typeof__", "__typeof")
AUTO = "$auto"
RANGED = "$"  # stands between the ends of a range, by `||`


# ---- the text


@dataclass
class Opened:
    """A bracket that is open: which, its place, where it stands in what is made, and the word before it with its place there."""

    bracket: str
    place: tuple[str, int, int]
    begin: int
    word: str
    at: int


@dataclass
class Lifter:
    """Goes through a text once."""

    made: list[str] = field(default_factory=list)
    behind: list[str] = field(default_factory=list)  # functions that wait for the end of the one that has them
    names: int = 0
    types: list[str] = field(default_factory=lambda: [AUTO])
    open: list[Opened] = field(default_factory=list)
    file: str = ""
    line: int = 1
    column: int = 1
    word: str = ""  # the last token, and where it stands in what is made
    at: int = -1
    blocks: int = 0  # how many braces are open, and whether the outermost is a function's
    is_body: bool = False

    def text(self, text: str) -> str:
        """The text with names in place of the forms, and their types in front."""
        for found in TOKEN.finditer(text):
            self.token(found.group())
        heads = [f"typedef int {name};" for name in self.types]
        return "\n".join(['# 1 "<typeof>"', *heads, "".join(self.made)])

    def token(self, token: str) -> None:
        """Takes one token over; a bracket that closes may end a form."""
        marker = MARKER.fullmatch(token) if token.startswith("#") else None
        if marker:
            self.made.append(token)
            self.file, self.line = marker.group(2), int(marker.group(1)) - 1
            return
        if token in ("(", "{"):
            self.open.append(Opened(token, (self.file, self.line, self.column), len(self.made), self.word, self.at))
        if token == "{":
            self.is_body = self.is_body if self.blocks else self.word in (")", ";")
            self.blocks += 1
        self.made.append(AUTO.ljust(len(token)) if token == "__auto_type" else token)
        self.go(token)
        if not token.isspace():
            self.word, self.at = token, len(self.made) - 1
        if token in (")", "}") and self.open:
            opened = self.open.pop()
            self.blocks -= token == "}"
            if token == ")":
                self.closed(opened)
        if self.blocks == 0 and self.behind and (token == ";" or (token == "}" and self.is_body)):
            self.flush()

    def go(self, token: str) -> None:
        """Goes on behind a token."""
        lines = token.split("\n")
        self.line += len(lines) - 1
        self.column = len(lines[-1]) + (self.column if len(lines) == 1 else 1)

    def closed(self, opened: Opened) -> None:
        """What has stood between parentheses: statements, what typeof is of, or anything else."""
        if opened.word in TYPEOF:
            self.lift(opened, opened.at, "{ sizeof (", "); }")
            return
        first = opened.begin + 1
        while self.made[first].isspace() or self.made[first].startswith("#"):
            first += 1
        if self.made[first] == "{":
            self.lift(opened, opened.begin, "", "")

    def lift(self, opened: Opened, begin: int, head: str, end: str) -> None:
        """Puts a name in place of a part, which takes as many columns and lines."""
        name, inner = f"${self.names}", "".join(self.made[opened.begin + 1 : -1])
        self.names += 1
        self.types += [name] if head else []
        rows = "".join(self.made[begin:]).split("\n")
        del self.made[begin:]
        kept = [row if row.startswith("#") else "" for row in rows[1:-1]]
        end_of_rows = [" " * len(rows[-1])] if len(rows) > 1 else []
        self.made.append("\n".join([name.ljust(len(rows[0])), *kept, *end_of_rows]))
        self.word, self.at = name, len(self.made) - 1
        file, line, column = opened.place
        pad = " " * max(column - len(head), 0)
        self.behind.append(f'void {name}f(void)\n# {line} "{file}"\n{pad}{head}{inner}{end}')

    def flush(self) -> None:
        """Puts the functions that wait behind the one that is done."""
        waiting, self.behind = self.behind, []
        self.made.append("\n" + "\n".join(waiting) + f'\n# {self.line} "{self.file}"\n' + " " * (self.column - 1))


def lifted(text: str) -> str:
    """The text without these forms, for the parser."""
    text = RANGE.sub(lambda found: re.sub(r"\s*\.\.\.$", f"||{RANGED}||", found.group()), text)
    wanted = any(re.search(rf"\b{word}\b", text) for word in (*TYPEOF, "__auto_type"))
    if not wanted and not re.search(r"\(\s*\{", text):
        return text
    return Lifter().text(text)


# ---- the tree


class Settled:
    """Puts the nodes into a tree in place of the names."""

    def __init__(self, refusals: Refusals) -> None:
        self.refusals = refusals
        self.bodies: dict[str, tree.Compound] = {}

    def unit(self, unit: tree.FileAST) -> None:
        """Puts the nodes into a unit's tree, and takes the functions out in which their parts stood."""
        names = re.compile(r"\$\d+f")
        for item in unit.ext:
            name = str(item.decl.name) if isinstance(item, tree.FuncDef) else ""
            if isinstance(item, tree.FuncDef) and names.fullmatch(name):
                self.bodies[name[:-1]] = item.body
        own = [item for item in unit.ext if not self.is_lifted(item)]
        unit.ext[:] = own
        for item in own:
            self.inside(item)

    def is_lifted(self, item: tree.Node) -> bool:
        """Whether an item was made for a form."""
        if isinstance(item, tree.FuncDef):
            return str(item.decl.name).startswith("$")
        return isinstance(item, tree.Typedef) and str(item.name).startswith("$")

    def inside(self, node: tree.Node) -> None:
        """Replaces what stands in a node, and in what is put there."""
        rest = [node]
        while rest:
            one = rest.pop()
            for slot, child in list(one.children()):
                made = self.made(child)
                if made is not child:
                    one.put(slot, made)
                if isinstance(made, tree.Typeof):
                    inner = self.made(made.of)
                    assert isinstance(inner, tree.Expression)
                    made.of = inner
                    rest.append(inner)
                rest.append(made)
            if (
                isinstance(one, tree.Decl)
                and one.init is not None
                and isinstance(one.type, tree.TypeDecl)
                and is_auto(one)
            ):
                one.type.type = tree.Typeof(one.init, one.coord)

    def made(self, node: tree.Node) -> tree.Node:
        """The node that stands for another one, or that one itself."""
        if isinstance(node, tree.ID) and node.name in self.bodies:
            body = self.bodies[node.name]
            self.leaves(body)
            return tree.StatementExpr(body, node.coord)
        if isinstance(node, tree.IdentifierType) and node.names[0] in self.bodies:
            size = self.bodies[node.names[0]].block_items[0]  # (as Lifter has put it there)
            assert isinstance(size, tree.UnaryOp)
            return tree.Typeof(size.expr, node.coord)
        if isinstance(node, tree.BinaryOp) and node.op == "||" and isinstance(node.left, tree.BinaryOp):
            if isinstance(node.left.right, tree.ID) and node.left.right.name == RANGED:
                return tree.CaseRange(node.left.left, node.right, node.coord)
        return node

    def leaves(self, node: tree.Node, in_loop: bool = False, in_switch: bool = False) -> None:
        """Refuses what jumps out of statements within an expression, or within them."""
        jumps = isinstance(node, (tree.Goto, tree.Label, tree.Return))
        out = isinstance(node, tree.Break) and not (in_loop or in_switch)
        if jumps or out or (isinstance(node, tree.Continue) and not in_loop):
            cause = "a jump or a label in statements within an expression"
            self.refusals.add(node.coord, cause, "put them before the statement")
            return
        in_loop, in_switch = in_loop or isinstance(node, tree.LOOPS), in_switch or isinstance(node, tree.Switch)
        for _, child in node.children():
            self.leaves(child, in_loop, in_switch)


def is_auto(node: tree.Decl) -> bool:
    """Whether a declaration's type is that of its value (`__auto_type`)."""
    of = node.type.type if isinstance(node.type, tree.TypeDecl) else None
    return isinstance(of, tree.IdentifierType) and AUTO in of.names
