"""Reads a source: the machine's C preprocessor, its compiler as the judge of what is C, and pycparser."""

import os
import re
import shutil
import subprocess
from functools import cache
from typing import Optional

from fshell_tools.adapt.common import parsing, tree
from fshell_tools.adapt.common.paths import HEADERS, MODELS
from fshell_tools.adapt.common.refusals import JUDGED, Refusals, Stop
from fshell_tools.adapt.common.unit import Unit
from fshell_tools.adapt.read import gnu
from fshell_tools.core import processes

ERRORS = (
    "implicit-function-declaration",
    "int-conversion",
    "incompatible-pointer-types",
    "pointer-sign",
    "discarded-qualifiers",
    "return-type",
)
FOREIGN = {
    "asm": "inline assembly; write what it does in C, or hide it by a macro",
    "_Generic": "a generic selection; write the expression that is meant",
    "_Atomic": "an atomic object; use a plain one",
    "_Alignas": "an alignment; leave it out",
    "_Thread_local": "an object of a thread; use a plain one",
    "__int128": "an integer of 128 bits; use two of 64",
}
# words of GNU C that say what C's own ones do, or nothing
PLAIN = {
    "__extension__": "",
    "__inline": "inline",
    "__inline__": "inline",
    "__const": "const",
    "__const__": "const",
    "__volatile": "volatile",
    "__volatile__": "volatile",
    "__restrict": "",
    "__restrict__": "",
    "__signed": "signed",
    "__signed__": "signed",
    "__builtin_offsetof": "offsetof",
    "_Noreturn": "",
    "__alignof__": "_Alignof",
    "__alignof": "_Alignof",
}
# attributes that change what a program means, or how its objects are laid out
TELLING = set(
    """packed aligned vector_size mode transparent_union alias weakref ifunc constructor destructor cleanup scalar_storage_order
    ms_struct gcc_struct warn_if_not_aligned copy symver""".split()
)
# what to do where a header of the library isn't there
HEADERS_LEFT_OUT = {
    "stdarg.h": "give each function a fixed number of parameters",
    "setjmp.h": "hand back a status in place of a jump",
    "math.h": "use integers in fixed point",
    "float.h": "use integers in fixed point",
    "complex.h": "use integers in fixed point",
    "time.h": "declare what is used of it; a function without parameters that gives an integer is an input",
    "unistd.h": "declare what is used of it; a function without parameters that gives an integer is an input",
}
ATTRIBUTE = re.compile(r"\b__attribute(?:__)?\b\s*\(((?:[^()]|\((?:[^()]|\((?:[^()]|\([^()]*\))*\))*\))*)\)")
# builtin functions of the compiler, by what they say in C; the others that have a model stand in models/
BUILTINS = [
    "__builtin_expect(e, c)=((long) (e))",
    "__builtin_constant_p(e)=0",
    "__builtin_unreachable()=abort()",
    "__builtin_trap()=abort()",
]
BUILTINS += [
    "__builtin_prefetch(p, ...)=((void) (p))",
    "__builtin_assume_aligned(p, ...)=(p)",
    "__builtin_LINE()=__LINE__",
]
BUILTINS += [
    f"__builtin_{name}={name}"
    for name in "abort abs labs llabs memcpy memmove memset memcmp memchr strlen strcpy strncpy strcat strncat strcmp strncmp strchr "
    "strrchr strstr strspn strcspn strpbrk malloc calloc realloc free printf puts putchar isdigit isalpha tolower toupper stpcpy".split()
]
SAME_WORD = {"__asm__": "asm", "__asm": "asm"}
WORDS = re.compile(r'"(?:\\.|[^"\\])*"|\'(?:\\.|[^\'\\])*\'|[A-Za-z_]\w*|[{}]|[^\sA-Za-z_"\'{}]+')
QUOTED = re.compile(r'"(?:\\.|[^"\\])*"|\'(?:\\.|[^\'\\])*\'')
STRING = re.compile(r'(?:\b(?:u8|[LuU]))?"(?:\\.|[^"\\])*"|\'(?:\\.|[^\'\\])*\'')
LAST_ESCAPE = re.compile(r'(?<!\\)(?:\\\\)*(\\(?:x([0-9A-Fa-f]+)|([0-7]{1,2})))"$')
MARKER = re.compile(r'#\s*(?:line\s+)?(\d+)\s+"((?:\\.|[^"\\])*)"([ \d]*)')


def compiler() -> str:
    """The path of gcc, or of clang. Raises Stop where neither is there."""
    found = shutil.which("gcc") or shutil.which("clang")
    if not found:
        raise Stop("neither gcc nor clang is there, whose preprocessor reads the sources (Debian's package gcc)")
    return found


def is_system(file: str) -> bool:
    """Whether a file is one of adapt's own headers."""
    return file.startswith((HEADERS, "<"))


def run_compiler(path: str, flags: list[str], more: list[str]) -> subprocess.CompletedProcess[str]:
    """Runs the compiler on a source with our headers alone."""
    words = [compiler(), "-std=gnu11", "-nostdinc", *more, *flags, "-isystem", HEADERS, "-x", "c", path]
    plain = {**os.environ, "LC_ALL": "C"}
    return processes.run(  # (bytes that aren't UTF-8 stay what they are)
        words, capture_output=True, encoding="utf-8", errors="surrogateescape", check=False, env=plain
    )


@cache
def modelled() -> set[str]:
    """The library's functions that have models; compilers know their types where no header declares them."""
    found = set("malloc calloc realloc free printf puts putchar".split())
    for name in os.listdir(MODELS):
        with open(os.path.join(MODELS, name), encoding="utf-8") as file:
            found.update(re.findall(r"(?m)^[a-z][\w ]*[ *](\w+)\(", file.read()))
    return found


def is_known(told: str) -> bool:
    """Whether an error is that a function of the library isn't declared."""
    found = re.match(r"implicit declaration of function '(\w+)'", told)
    return bool(found and found.group(1) in modelled())


def told_errors(path: str, told: str, refusals: Refusals) -> None:
    """The compiler's errors as refusals, but for functions of the library that have models. Raises Stop where it told none."""
    errors = [re.match(r"(.*?):(\d+):(?:\d+:)? (?:fatal )?error: (.*)", line) for line in told.splitlines()]
    if any(errors) and all(is_known(found.group(3)) for found in errors if found):
        return
    for found in errors:
        if found and not is_known(found.group(3)):
            header = "correct it"
            if "No such file" in found.group(3):
                header = HEADERS_LEFT_OUT.get(found.group(3).split(":")[0], "leave it out, or name its folder (-I)")
            refusals.add(tree.Coord(found.group(1), int(found.group(2))), f"{JUDGED}: {found.group(3)}", header)
    if not refusals.found:
        first = told.splitlines()[:1]
        raise Stop(f"{path} can't be read: {first[0] if first else 'the compiler failed'}")


def decoration(inner: str, refusals: Refusals, at: tree.Coord) -> str:
    """An attribute, which is left out; one that changes what the program means is refused."""
    told = [
        word.strip("_") for word in re.findall(r"[A-Za-z_]\w*", QUOTED.sub("", inner)) if word.strip("_") in TELLING
    ]
    if told:
        cause = f"the attribute {told[0]}, which changes a layout or a meaning"
        refusals.add(at, cause, "hide it by a macro, with -D '__attribute__(x)=', where it doesn't matter")
    return " "


def without_foreign(text: str, refusals: Refusals, at: tree.Coord) -> str:
    """A line without assembly and attributes, so that the parser can go on behind them; its strings are what they were."""
    kept: list[str] = QUOTED.findall(text)
    numbers = iter(range(len(kept)))
    text = QUOTED.sub(lambda _: f'"{next(numbers)}"', text) if kept else text
    for word in re.findall(r"[A-Za-z_]\w*", text):
        name = SAME_WORD.get(word, word)
        if name in FOREIGN:
            cause, advice = FOREIGN[name].split("; ", 1)
            refusals.add(at, cause, advice)
    text = re.sub(r"\b(?:__\w+|_Noreturn)\b", lambda found: PLAIN.get(found.group(), found.group()), text)
    text = ATTRIBUTE.sub(lambda found: decoration(found.group(1), refusals, at), text)
    text = re.sub(
        r"\b(__asm__|__asm|asm)\b\s*(volatile|__volatile__|goto)?\s*\((?:[^()]|\((?:[^()]|\([^()]*\))*\))*\)",
        " ",
        text,
    )
    return QUOTED.sub(lambda found: kept[int(found.group()[1:-1])], text) if kept else text


def ended(row: str) -> str:
    """A row whose strings, where others may follow them, end in escapes that don't take the first digits of these (5.1.1.2p1)."""

    def closed(found: "re.Match[str]") -> str:
        escape, behind = LAST_ESCAPE.search(found.group()), row[found.end() :].lstrip()
        if not escape or (behind and not re.match(r'(?:u8|[LuU])?"', behind)):
            return found.group()
        code = int(escape.group(2), 16) if escape.group(2) else int(escape.group(3), 8)
        text = f"\\{code % 256:03o}" if found.group().startswith(('"', "u8")) else f"\\U{code:08x}"
        return f'{found.group()[: escape.start(1)]}{text}"'

    return STRING.sub(closed, row) if "\\" in row else row


class Places:
    """The place of each row of a preprocessed text. `#line` directives are looked through: a place is that of the text itself."""

    def __init__(self, unit: Unit) -> None:
        self.unit, self.file, self.line = unit, unit.path, 1
        self.stack: list[tuple[str, tuple[str, int]]] = []
        self.alias: tuple[str, int] = ("", 0)  # the name that `#line` gives, and what it adds to lines
        self.directives: dict[str, list[tuple[int, int]]] = {}

    def directive(self, number: int) -> Optional[int]:
        """The line behind a `#line` of this number that stands in the file from here on."""
        if self.file not in self.directives:
            self.directives[self.file] = lines_told(self.file)
        return next((at + 1 for at, told in self.directives[self.file] if told == number and at >= self.line - 1), None)

    def go(self, marker: "re.Match[str]") -> None:
        """Goes to where a marker of the preprocessor says."""
        number, name, flags = int(marker.group(1)), marker.group(2), marker.group(3).split()
        # (a header that is named by two ways is one file)
        name = name if name == self.unit.path else os.path.normpath(name)
        if "1" in flags:
            self.stack.append((self.file, self.alias))
            self.file, self.line, self.alias = name, number, ("", 0)
        elif "2" in flags and self.stack:
            if self.file not in self.unit.files and not is_system(self.file):
                self.unit.files.append(self.file)
            self.file, self.alias = self.stack.pop()
            self.line = number - self.alias[1]
        elif is_system(name):
            self.file, self.line = name, number
        else:
            behind = None if is_system(self.file) else self.directive(number)
            if behind is not None:
                self.alias = (name, number - behind)
            self.file = self.file if self.alias[0] or behind is not None else name
            self.line = number - self.alias[1]


def lines_told(path: str) -> list[tuple[int, int]]:
    """The `#line` directives of a file: the line of each, and the number that it gives."""
    try:
        with open(path, encoding="utf-8", errors="surrogateescape") as file:
            found = [re.match(r"\s*#\s*(?:line\s+)?(\d+)", row) for row in file]
    except OSError:
        return []
    return [(at, int(one.group(1))) for at, one in enumerate(found, 1) if one]


def scanned(unit: Unit, text: str, refusals: Refusals) -> str:
    """The preprocessed text that the parser gets; fills in what the unit knows of files, words and braces."""
    opened, made, places = [], [], Places(unit)
    for row in text.split("\n"):
        marker = MARKER.match(row)
        if marker:
            places.go(marker)
            made.append(f'# {places.line} "{places.file}"')
            continue
        file, line = places.file, places.line
        if not is_system(file):
            if "$" in QUOTED.sub("", row):
                refusals.add(tree.Coord(file, line), "a name with $", "write it with letters, digits and _")
            row = ended(without_foreign(row, refusals, tree.Coord(file, line)))
            unit.words.update(re.findall(r"[A-Za-z_]\w*", row))
        for found in WORDS.finditer(row):
            if found.group() == "{":
                opened.append((file, line))
            elif found.group() == "}" and opened:
                unit.closings.setdefault(opened.pop(), []).append(line)
        if re.match(r"\s*#\s*pragma\s+pack", row) and not is_system(file):
            refusals.add(
                tree.Coord(file, line), "structs are packed", "leave the pragma out, and write sizes as numbers"
            )
        made.append("" if row.startswith("#") else row)
        if made[-1].strip():
            unit.rows.setdefault((file, line), []).append(made[-1])
        places.line += 1
    unit.files.append(unit.path)
    return "\n".join(made)


def read(path: str, flags: list[str], refusals: Refusals) -> Optional[Unit]:
    """The unit of a source; nothing of what is no C, and of what pycparser can't read, which are refused. Raises Stop where it can't
    be opened."""
    if not os.path.isfile(path):
        raise Stop(f"{path} can't be read")
    unit = Unit(path)
    judged = run_compiler(path, flags, ["-fsyntax-only", *(f"-Werror={name}" for name in ERRORS)])
    if judged.returncode:
        told_errors(path, judged.stderr, refusals)
    cut = run_compiler(path, flags, ["-E", *(f"-D{one}" for one in BUILTINS)])
    if cut.returncode:
        told_errors(path, cut.stderr, refusals)
        return None
    text = scanned(unit, cut.stdout, refusals)
    told = run_compiler(path, flags, ["-E", "-dM"]).stdout
    unit.macros = {name: bool(mark) for name, mark in re.findall(r"^#define (\w+)(\(?)", told, re.MULTILINE)}
    try:
        unit.tree = parsing.parsed(gnu.lifted(text), path)
        gnu.Settled(refusals).unit(unit.tree)
        return unit
    except parsing.Unread as fault:
        found = re.match(r"(.*):(\d+):\d+: (.*)", str(fault))
        at = tree.Coord(found.group(1), int(found.group(2))) if found else tree.Coord(path, 0)
        refusals.add(at, f"pycparser can't read it ({found.group(3) if found else fault})", "write it in plain C11")
    except RecursionError:
        refusals.add(tree.Coord(path, 0), "it is nested too deep", "split its expressions")
    except AssertionError:  # (by a brace too many, which the compiler tells)
        if not judged.returncode:
            refusals.add(tree.Coord(path, 0), "pycparser can't read it", "write it in plain C11")
    return None
