"""The lines on which the parts of a TOML text stand: tomllib reads the values, and says nothing of places."""

import re
from dataclasses import dataclass

Path = tuple[str | int, ...]
_PART = re.compile(
    r'"""(?:\\.|[^\\])*?"""(?!")|\'\'\'.*?\'\'\'(?!\')|"(?:\\.|[^"\\\n])*"|\'[^\'\n]*\'|(?P<blank>#[^\n]*|[ \t\r]+)'
    r"|\[\[|\]\]|[\[\]{}=,\n]|[^\s\[\]{}=,\"'#]+|.",
    re.DOTALL,
)


@dataclass(frozen=True)
class _Part:
    text: str
    line: int


class Places:
    """The line, from 1, of each table, key and element of a TOML text that tomllib accepts (TOML 1.0)."""

    def __init__(self, text: str) -> None:
        self.lines: dict[Path, int] = {(): 1}
        self._parts: list[_Part] = []
        line = 1
        for found in _PART.finditer(text):
            if not found["blank"]:
                self._parts.extend(_halves(found[0], line))
            line += found[0].count("\n")
        self._at = 0
        self._counts: dict[Path, int] = {}
        self._whole()

    def line(self, path: Path) -> int:
        """The line, from 1, of what stands at a path of keys and numbers of elements, or of the nearest thing around
        it."""
        while path not in self.lines:
            path = path[:-1]
        return self.lines[path]

    def _next(self) -> str:
        return self._parts[self._at].text if self._at < len(self._parts) else ""

    def _key(self) -> tuple[list[str], int]:
        """The words of a key, and its line."""
        words: list[str] = []
        line = self._parts[self._at].line
        while self._next() not in ("=", "]", ""):
            text = self._next()
            words += [text[1:-1]] if text[:1] in "\"'" else [word for word in text.split(".") if word]
            self._at += 1
        return words, line

    def _whole(self) -> None:
        """Goes over the lines of the text."""
        table: Path = ()
        while self._at < len(self._parts):
            if self._next() == "\n":
                self._at += 1
            elif self._next() == "[":
                table = self._header()
            else:
                self._pair(table)

    def _header(self) -> Path:
        """Goes over the head of a table, and gives its path."""
        is_list = [part.text for part in self._parts[self._at : self._at + 2]] == ["[", "["]
        self._at += 1 + is_list
        words, line = self._key()
        self._at += 1 + is_list
        path: Path = ()
        for word in words[:-1]:
            path = (*path, word)
            path = (*path, self._counts[path] - 1) if path in self._counts else path
        path = (*path, words[-1])
        if is_list:
            self.lines.setdefault(path, line)
            self._counts[path] = self._counts.get(path, 0) + 1
            path = (*path, self._counts[path] - 1)
        self.lines[path] = line
        return path

    def _pair(self, table: Path) -> None:
        """Goes over a key and its value."""
        words, line = self._key()
        for end in range(1, len(words) + 1):
            self.lines.setdefault((*table, *words[:end]), line)
        self._at += 1
        self._value((*table, *words))

    def _value(self, path: Path) -> None:
        """Goes over a value."""
        opening = self._next()
        self._at += 1
        if opening not in ("[", "{"):
            return
        count = 0
        while self._next() not in ("]", "}", ""):
            if self._next() in ("\n", ","):
                self._at += 1
            elif opening == "{":
                self._pair(path)
            else:
                self.lines[(*path, count)] = self._parts[self._at].line
                self._value((*path, count))
                count += 1
        self._at += 1


def _halves(text: str, line: int) -> list[_Part]:
    """A part, or both halves of a double bracket."""
    return [_Part(text[0], line), _Part(text[0], line)] if text in ("[[", "]]") else [_Part(text, line)]
