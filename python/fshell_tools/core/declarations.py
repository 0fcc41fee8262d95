"""What stands outside of functions in sources: variables that runs change, input functions, and macros."""

import re
from collections.abc import Iterator, Sequence
from dataclasses import dataclass

from fshell_tools.core.sources import CLOSING, OPENING, Source, Token

_DEFINE = re.compile(r"#(?:\s|/\*.*?\*/)*define(?:\s|/\*.*?\*/)+(\w+)(.*)", re.DOTALL)
_INCLUDE = re.compile(r"#(?:\s|/\*.*?\*/)*include\b", re.DOTALL)


@dataclass(frozen=True)
class Item:
    """The texts of the tokens of a declaration or the head of a function, and whether a body follows."""

    tokens: tuple[str, ...]
    has_body: bool


def replacements(source: Source) -> dict[str, list[str]]:
    """The macros of a source, each with the texts of its tokens."""
    found = {}
    for directive in source.directives:
        macro = _DEFINE.match(directive.text)
        if macro:
            found[macro[1]] = [token.text for token in Source(source.name, macro[2].encode("latin-1")).tokens]
    return found


def replaced(tokens: list[Token], macros: dict[str, list[str]]) -> Iterator[str]:
    """The texts of tokens with their macros replaced; what isn't a profile's source is left as it is."""
    waiting = [token.text for token in reversed(tokens)]
    left = 1_000_000
    while waiting:
        text = waiting.pop()
        if text in macros and left > 0:
            left -= 1
            waiting.extend(reversed(macros[text]))
        else:
            yield text


def items(source: Source) -> Iterator[Item]:
    """The items of a source, in order; a function without its body."""
    kept: list[str] = []
    depth, in_body, in_value = 0, False, False
    for text in replaced(source.tokens, replacements(source)):
        if depth == 0 and text == "{" and not in_value and "enum" not in kept:
            yield Item(tuple(kept), True)
            kept, in_body = [], True
        depth += (text in OPENING) - (text in CLOSING)
        if in_body:
            in_body = depth > 0
        elif text == ";" and depth == 0:
            yield Item(tuple(kept), False)
            kept, in_value = [], False
        else:
            kept.append(text)
            in_value = in_value or text == "="


def outer(tokens: tuple[str, ...]) -> list[str]:
    """The tokens of an item that stand outside of brackets; each opening mark stays."""
    found, depth = [], 0
    for text in tokens:
        if depth == 0:
            found.append(text)
        depth += (text in OPENING) - (text in CLOSING)
    return found


def is_name(text: str) -> bool:
    """Whether a text is a name of C (ISO/IEC 9899:2011, 6.4.2.1)."""
    return re.fullmatch(r"[A-Za-z_]\w*", text) is not None


def variables(source: Source) -> Iterator[str]:
    """The variables of the file that a run may change."""
    for item in items(source):
        tokens = outer(item.tokens)
        head = tokens[: tokens.index("=")] if "=" in tokens else tokens
        if item.has_body or "(" in head or "const" in tokens or "enum" in tokens:
            continue
        in_value = False
        for text, after in zip(tokens, tokens[1:] + [","]):
            if is_name(text) and not in_value and after in ("=", ",", "["):
                yield text
            in_value = text != "," and (in_value or text == "=")


def function_name(item: Item) -> str:
    """The name of the function that an item declares or defines, or nothing."""
    tokens = outer(item.tokens)
    is_function = "(" in tokens and "=" not in tokens and tokens.index("(") > 0
    return tokens[tokens.index("(") - 1] if is_function else ""


def input_heads(sources: Sequence[Source]) -> dict[str, tuple[int, str]]:
    """Each input function, with the number of the source that declares it first and the words of its type."""
    found: dict[str, tuple[int, str]] = {}
    defined = set()
    for number, source in enumerate(sources):
        for item in items(source):
            name = function_name(item)
            before, _, behind = " ".join(item.tokens).partition(f" {name} (")
            words = [word for word in before.split() if word not in ("extern", "inline")]
            if item.has_body:
                defined.add(name)
            elif name and behind.strip() in (")", "void )") and "void" not in words:
                found.setdefault(name, (number, " ".join(words)))
    return {name: head for name, head in found.items() if name not in defined}


def without_includes(source: Source) -> str:
    """The text of a source whose lines of #include are blank."""
    text = source.text
    for directive in reversed(source.directives):
        if _INCLUDE.match(directive.text):
            text = text[: directive.start] + "\n" * directive.text.count("\n") + text[directive.end :]
    return text if text.endswith("\n") else text + "\n"
