"""The form of docs/PROVED.md, and its names.

Each section of a crate has, in this order, what the crate takes, gives and refuses, the definitions that its contracts cite
(where it has some), and what isn't said. No line is longer than 300 characters. Each public call of a crate, that is a function
which its lib.rt hands on or makes public, is named in its section; and each definition of a table's first column is one of the
crate's specs/ or src/, or a file there. A law may be named by its statement (`OneOutcome` for `one_outcome`). No name of a call
or definition, also of other crates, stands there that no crate has; nor in the last column of docs/GLOSSARY.md.
"""

import glob
import os
import re

from tests import environment
from tests.documents import test_crates
from tests.text_files import text_of

MOST = 300
LABELS = ("Takes", "Gives", "Refuses", "Definition", "Not said")
CALL = re.compile(r"\bpub fn (\w+)")
NAME = re.compile(r"`([\w.' /]+)`")


def handed_on(crate: str, module: str = "") -> set[str]:
    """The calls that a crate's lib.rt, or a module of it, hands on or makes public: names of functions, but for those of laws."""
    names = set[str]()
    home = os.path.join(environment.ROOT, "crates", crate, "src")
    path = os.path.join(home, f"{module}.rt") if module else os.path.join(home, "lib.rt")
    if os.path.exists(path):
        text = text_of(path)
        names |= set(CALL.findall(text))
        for inner, one, several in re.findall(r"^pub use (\w+)::(?:(\w+)|\{([^}]*)\});", text, re.MULTILINE):
            if inner != "laws":
                names |= {name.strip() for name in (several or one).split(",")}
    return {name for name in names if re.match(r"[a-z]", name)}


def there(crate: str) -> str:
    """All that a crate's specs/ and src/ hold."""
    home = os.path.join(environment.ROOT, "crates", crate)
    paths = glob.glob(os.path.join(home, "specs", "**", "*.antt"), recursive=True)
    return "\n".join(map(text_of, paths + glob.glob(os.path.join(home, "src", "**", "*.rt"), recursive=True)))


def named_in_tables(section: str) -> set[str]:
    """The names between backquotes in the first column of a section's tables."""
    cells = re.findall(r"^\| (.*?) \| ", section, re.MULTILINE)
    return {name.split(" ")[0] for cell in cells for name in NAME.findall(cell) if not name.endswith(".antt")}


def parts_of(crate: str, section: str) -> list[tuple[str, str]]:
    """The parts of a crate's section, each with its module; a section without parts is one, of the crate's own."""
    parts = re.split(r"^#### (\w+)$", section, flags=re.MULTILINE)
    return [("" if name == crate else name, text) for name, text in zip(parts[1::2], parts[2::2])] or [("", section)]


def faults_of(crate: str, section: str) -> list[str]:
    """A line for each fault of a crate's section."""
    return [fault for module, part in parts_of(crate, section) for fault in faults_of_part(crate, module, part)]


def faults_of_part(crate: str, module: str, section: str) -> list[str]:
    """A line for each fault of the part of a crate's section that has a module of it, or the crate's own."""
    labels = re.findall(r"^\*([A-Z][a-z ]+)\*:", section, re.MULTILINE)
    wrong = []
    if labels not in (list(LABELS), [label for label in LABELS if label != "Definition"]):
        wrong.append(f"{crate} {module}: it has {', '.join(labels)}, in place of {', '.join(LABELS)}")
    for name in sorted(handed_on(crate, module)):
        statement = "".join(part.capitalize() for part in name.split("_"))
        if f"{name}`" not in section and f"`{statement}`" not in section:
            wrong.append(f"{crate}: the call {name} isn't named")
    text = there(crate)
    for name in sorted(named_in_tables(section)):
        if re.search(rf"(?<![\w']){re.escape(name.split('.')[-1])}(?![\w'])", text) is None:
            wrong.append(f"{crate}: there is no {name}")
    return wrong


def known() -> set[str]:
    """All names that stand in some crate that isn't one of tests."""
    own = [crate.name for crate in test_crates.crates() if not crate.is_of_tests]
    return {name for crate in own for name in re.findall(r"\w+", there(crate))}


def unknown(text: str) -> list[str]:
    """A line for each name between backquotes, in the sections, that no crate has."""
    named = set(re.findall(r"`((?:\w+::)*[A-Za-z_]\w+)`", text))
    everywhere = known()
    return [f"no crate has {name}" for name in sorted(named) if not set(name.split("::")) <= everywhere]


def faults(text: str) -> list[str]:
    """A line for each fault of a page."""
    wrong = [
        f"line {number} has {len(line)} characters, more than {MOST}"
        for number, line in enumerate(text.splitlines(), 1)
        if len(line) > MOST
    ]
    for crate, section in test_crates.sections(text):
        wrong += faults_of(crate, re.split(r"^## ", section, flags=re.MULTILINE)[0])
    return wrong + unknown(text[text.find("\n## ") :])


def still_otherwise(text: str) -> str:
    """The last column of the first table of docs/GLOSSARY.md, which names today's code."""
    return "\n".join(re.findall(r"^\|(?:[^|]*\|){3} (.*) \|$", text.split("\n## Terms\n")[0], re.MULTILINE))


def wrong() -> list[str]:
    """A line for each fault of docs/PROVED.md, and for each name of code in docs/GLOSSARY.md that no crate has."""
    words = still_otherwise(text_of(os.path.join(environment.ROOT, "docs", "GLOSSARY.md")))
    return [f"docs/PROVED.md: {fault}" for fault in faults(text_of(test_crates.PROVED))] + [
        f"docs/GLOSSARY.md: {fault}" for fault in unknown(words)
    ]
