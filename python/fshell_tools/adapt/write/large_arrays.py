"""Arrays of more elements than the profile takes: their elements stand packed in words of 64 bits, in arrays of 1,024 of these, and
two functions read and set an element. What is written names them as arrays; at last each access becomes a call."""

import re
from collections.abc import Callable
from dataclasses import dataclass
from typing import Optional, Protocol

from fshell_tools.adapt.common import tree
from fshell_tools.adapt.common.c_types import Int
from fshell_tools.adapt.common.output import unmarked
from fshell_tools.adapt.common.refusals import Refused

MOST_ELEMENTS, MOST_CELLS, MOST_TOKENS = 1024, 16384, 256
TOKEN, ROW_END = re.compile(r"\w+|[^\w\s]"), re.compile("[;,{}]")
SETS = re.compile(r"\s*(=(?!=)|\+=|-=|\*=|/=|%=|&=|\|=|\^=|<<=|>>=|\+\+|--)")


@dataclass
class Large:
    """An array by its name: its elements' kind and count, and the names of its functions."""

    name: str
    kind: Int
    count: int
    reads: str
    sets: str
    at: Optional[Callable[[int], str]] = None  # what reads an element whose number is a constant, where that is short


class Fresh(Protocol):
    """What gives a name that nothing else has (Spelling.fresh)."""

    def __call__(self, stem: str, plain: bool = False) -> str:
        """The stem with a number, or the stem alone where it is free."""


class LargeArrays:
    """The arrays so far that are too large, by their names."""

    def __init__(self, fresh: Fresh) -> None:
        self.fresh = fresh
        self.known: dict[str, Large] = {}

    def declared(
        self, name: str, kind: Int, count: int, values: list[str], const: bool, coord: Optional[tree.Coord]
    ) -> str:
        """The arrays and the functions that stand for one array; `values` are the first ones, as numbers. Raises
        Refused where all objects of the profile together have fewer cells."""
        each = 64 // kind.bits
        words = -(-count // each)
        if words > MOST_CELLS:
            raise Refused(
                coord,
                f"{name} has {count} elements",
                f"all objects together take {MOST_CELLS} words of 64 bits at most",
            )
        one = Large(name, kind, count, self.fresh(f"{name}_at"), self.fresh(f"{name}_set"))
        self.known[name] = one
        packed = [0] * words
        for at, text in enumerate(values):
            packed[at // each] |= (int(text) % (1 << kind.bits)) << (at % each * kind.bits)
        texts, reads, sets = [], [], []
        shift, step = each.bit_length() - 1, kind.bits.bit_length() - 1
        for number, begin in enumerate(range(0, words, MOST_ELEMENTS)):
            chunk, own = packed[begin : begin + MOST_ELEMENTS], self.fresh(f"{name}_words")
            listed = list(chunk)
            while len(listed) > 1 and listed[-1] == 0:
                listed.pop()
            first = "" if listed == [0] else f" = {{{', '.join(f'{word}ul' if word else '0' for word in listed)}}}"
            texts.append(f"static {'const ' if const else ''}unsigned long {own}[{len(chunk)}]{first};")
            word_at = f"{own}[(i >> {shift}) - {begin}]" if begin else f"{own}[i >> {shift}]" if shift else f"{own}[i]"
            up = f"((i & {each - 1}) << {step})" if shift else "0"
            mask = hex((1 << kind.bits) - 1) + "ul"
            reads.append(f"return ({kind.text}) ({word_at} >> {up});")
            word = f"unsigned {'char' if kind.bits == 8 else 'short' if kind.bits == 16 else 'int' if kind.bits == 32 else 'long'}"
            sets.append(f"{word_at} = {word_at} & ~({mask} << {up}) | (unsigned long) ({word}) v << {up};")
        chunk_shift = shift + MOST_ELEMENTS.bit_length() - 1
        outside = f"assert((i >= 0) & (i < {count})); "
        texts.append(f"static {kind.text} {one.reads}(long i) {{ {outside}{self.switched(reads, chunk_shift, True)} }}")
        if not const:
            texts.append(
                f"static void {one.sets}(long i, {kind.text} v) {{ {outside}{self.switched(sets, chunk_shift, False)} }}"
            )
        return " ".join(texts)

    @staticmethod
    def switched(parts: list[str], shift: int, reads: bool) -> str:
        """What chooses among the arrays of words by an index."""
        if len(parts) == 1:
            return parts[0]
        listed = [f"case {at}: {one}{'' if reads else ' break;'}" for at, one in enumerate(parts)]
        return f"switch (i >> {shift}) {{ {' '.join(listed)} default: assert(0); }}" + (" return 0;" if reads else "")

    # ---- accesses

    def rewritten(self, text: str) -> str:
        """A text in which each access is a call. A read at a constant may be what the call would give, where that leaves no row of
        tokens too long for the profile."""
        if not self.known:
            return text
        made = self.replaced(text, True)
        fits = all(len(TOKEN.findall(row)) <= MOST_TOKENS for row in ROW_END.split(unmarked(made)))
        return made if fits else self.replaced(text, False)

    def replaced(self, text: str, short: bool) -> str:
        """The text with calls; with `short` reads at constants have none."""
        words = re.compile(r"\b(" + "|".join(map(re.escape, self.known)) + r")\[")
        made: list[str] = []
        at = 0
        while True:
            found = words.search(text, at)
            if not found:
                return "".join(made) + text[at:]
            one = self.known[found.group(1)]
            end = closed(text, found.end(), "]")
            index = self.replaced(text[found.end() : end], short)
            sets = SETS.match(text, end + 1)
            made.append(text[at : found.start()])
            at = end + 1
            if sets is None:
                constant = unmarked(index).strip()
                bytes_of = one.at(int(constant)) if short and one.at and constant.isdecimal() else ""
                in_words = words.search(bytes_of)  # (of which each byte would be a call)
                made.append(bytes_of if bytes_of and not in_words else f"{one.reads}({index})")
                continue
            op = sets.group(1)
            if op in ("++", "--"):
                value, at = f"{one.reads}({index}) {op[0]} 1", sets.end()
            else:
                at = ended(text, sets.end())
                right = self.replaced(text[sets.end() : at], short).strip()
                value = right if op == "=" else f"{one.reads}({index}) {op[:-1]} ({right})"
            made.append(f"{one.sets}({index}, {value})")


def closed(text: str, at: int, close: str) -> int:
    """Where the bracket that was opened before is closed. It is the number of that character."""
    depth = 0
    while depth or text[at] != close:
        depth += (text[at] in "([{") - (text[at] in ")]}")
        at += 1
    return at


def ended(text: str, at: int) -> int:
    """Where the statement ends. It is the number of the character behind."""
    depth = 0
    while text[at] != ";" and (depth or text[at] != ")"):
        depth += (text[at] in "([{") - (text[at] in ")]}")
        at += 1
    return at
