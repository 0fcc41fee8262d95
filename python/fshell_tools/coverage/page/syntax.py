"""What the parts of a C source are, for colours: comments, directives, words of the language, types, numbers and strings."""

import re
from collections.abc import Iterator

_WORDS = """auto break case const continue default do else enum extern for goto if inline register restrict return sizeof static
struct switch typedef union volatile while _Alignas _Alignof _Atomic _Generic _Noreturn _Static_assert _Thread_local"""
_TYPES = "void char short int long float double signed unsigned bool _Bool"
_PART = re.compile(
    r"(?P<comment>/\*.*?(?:\*/|\Z)|//(?:\\\r?\n|[^\n])*)"
    r"|(?P<directive>^[ \t]*#[ \t]*\w+)"
    r"|(?P<string>\"(?:\\.|[^\"\\\n])*\"?|'(?:\\.|[^'\\\n])*'?)"
    r"|(?P<number>\b\.?[0-9][\w.]*)"
    r"|(?P<name>\b[A-Za-z_]\w*)",
    re.DOTALL | re.MULTILINE,
)
_KINDS = {name: "word" for name in _WORDS.split()} | {name: "type" for name in _TYPES.split()}
KINDS = ("comment", "directive", "string", "number", "word", "type")


def parts_of(text: str) -> Iterator[tuple[int, int, str]]:
    """The begin, the end and the kind of each part that has a colour."""
    for found in _PART.finditer(text):
        kind = str(found.lastgroup)
        if kind == "name":
            name = found[0]
            kind = _KINDS.get(name) or ("type" if re.fullmatch(r"u?int(?:\d+|max|ptr)_t|s?size_t|\w+_t", name) else "")
        if kind:
            yield found.start(), found.end(), kind


class Coloured:
    """The kinds of a text's letters, by lines."""

    def __init__(self, text: str) -> None:
        self.lines: dict[int, list[tuple[int, int, str]]] = {}
        starts = [0] + [found.end() for found in re.finditer("\n", text)]
        line = 0
        for begin, end, kind in parts_of(text):
            while line + 1 < len(starts) and starts[line + 1] <= begin:
                line += 1
            at = line
            while at < len(starts) and starts[at] < end:
                until = starts[at + 1] - 1 if at + 1 < len(starts) else len(text)
                first, last = max(begin, starts[at]) - starts[at], min(end, until) - starts[at]
                if first < last:
                    self.lines.setdefault(at + 1, []).append((first, last, kind))
                at += 1

    def cut(self, line: int, text: str, begin: int, end: int) -> list[tuple[str, str]]:
        """A part of a line as pieces, each with its kind or nothing."""
        found, at = [], begin
        for first, last, kind in self.lines.get(line, ()):
            first, last = max(first, begin), min(last, end)
            if first < last:
                found += [(text[at:first], "")] if at < first else []
                found.append((text[first:last], kind))
                at = last
        return found + ([(text[at:end], "")] if at < end else [])
