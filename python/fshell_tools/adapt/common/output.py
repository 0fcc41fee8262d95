"""What is written: pieces of text with the line on which each begins, and their layout as a file."""

import re
from dataclasses import dataclass, field

LINE = re.compile("\x01(\\d+),(\\d+)\x02")
FELL = "\x03"  # where a function that gives something ends without a return


def mark(line: int, column: int = 0) -> str:
    """A mark within a text: what follows belongs on this line, or behind it, and comes from this column there, where one is known."""
    return f"\x01{line},{column}\x02"


def unmarked(text: str) -> str:
    """A text without the marks of places."""
    return LINE.sub("", text)


@dataclass
class File:
    """What goes to one path: pieces, each with the line of the source on which it begins."""

    path: str
    pieces: list[tuple[int, str]] = field(default_factory=list)
    # once the text is made: a line and a column there, and those that they come from
    marks: list[tuple[int, int, int, int]] = field(default_factory=list)

    def emit(self, line: int, text: str) -> None:
        """Adds a piece that begins on a line."""
        self.pieces.append((line, text))

    def text(self, original: list[str]) -> str:
        """The file's text. Each piece stands on its line, or behind the pieces before it where these are further. FELL still
        stands in it."""
        lines: list[list[str]] = []
        for line, piece in self.pieces:
            parts, begun = LINE.split(piece), False
            places = [(line, 0), *((int(one), int(two)) for one, two in zip(parts[1::3], parts[2::3]))]
            for (number, column), part in zip(places, parts[0::3]):
                while len(lines) < max(number, 1):
                    lines.append([])
                if part.strip():
                    part = marked(part, number, column)
                    lines[-1].append(part if begun or not lines[-1] else " " + part)
                    begun = True
        made = [joined(parts, original[at] if at < len(original) else "") for at, parts in enumerate(lines)]
        made = [self.noted(at, text) for at, text in enumerate(made, 1)]
        for at, shown in enumerate(original):
            while len(made) <= at:
                made.append("")
            if not made[at] and copied(shown):
                made[at] = shown
        return "\n".join(made).rstrip("\n") + "\n"

    def noted(self, line: int, text: str) -> str:
        """A line without its marks, which are noted."""
        plain, end = "", 0
        for found in LINE.finditer(text):
            plain += text[end : found.start()]
            end = found.end()
            self.marks.append((line, len(plain.replace(FELL, "")) + 1, int(found[1]), int(found[2])))
        return plain + text[end:]


def marked(part: str, line: int, column: int) -> str:
    """A text with its mark before the first letter, where it has one."""
    blanks = len(part) - len(part.lstrip())
    return part[:blanks] + mark(line, column) + part[blanks:] if column else part


def joined(parts: list[str], original: str) -> str:
    """One line, as far in as the original's."""
    text = "".join(parts).strip()
    blanks = len(original) - len(original.lstrip(" \t"))
    return original[:blanks] + text if text else ""


def copied(line: str) -> bool:
    """Whether a line is a comment of its own, or includes what the profile's types stand in."""
    comment = re.fullmatch(r"\s*(//.*[^\\]|/\*(?:(?!\*/).)*\*/)\s*", line)
    return bool(comment or re.fullmatch(r"\s*#\s*include\s*<(stdint|assert|stddef|stdbool)\.h>\s*", line))
