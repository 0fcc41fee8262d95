"""Lists that README.md has of what stands elsewhere, and its length; that each tool has cases; and that pages name one kit.

README.md has fewer than 900 words, and names each command that docs/COMMANDS.md has a heading of, each tool of docs/TOOLS.md and each
page of docs/. Each of those tools has a module of its own in tests/tools/, or is tried by the one that `TRIED_BY` names. The kit that pages say
proved all is that of release/KIT.
"""

import os
import re

from tests import environment
from tests.text_files import text_of

FEWER_WORDS = 900
TRIED_BY = {
    "package": "install",
    "init": "project",
    "run": "project",
    "report": "project",
    "gate": "project",
}  # the tools whose cases stand in another one's module


def commands(text: str) -> list[str]:
    """The program's commands that a page has headings of, such as `## prove and check`."""
    found = re.findall(r"^## ([a-z][a-z -]*)$", text, re.MULTILINE)
    return [name for heading in found for name in heading.split(" and ")]


def tools(text: str) -> list[str]:
    """The tools that a page has headings of, such as `## fshell page`."""
    found = re.findall(r"^## fshell ([\w, ]+)$", text, re.MULTILINE)
    return [name for heading in found for name in heading.split(", ")]


def faults(readme: str, of_commands: str, of_tools: str, pages: list[str]) -> list[str]:
    """A line for each thing that README.md doesn't name and should, and one where it is too long. `of_commands` and `of_tools` are
    the texts of docs/COMMANDS.md and docs/TOOLS.md, `pages` the paths of the pages."""
    count = len(readme.split())
    wrong = [] if count < FEWER_WORDS else [f"it has {count} words, and should have fewer than {FEWER_WORDS}"]
    named = [*commands(of_commands), *(f"fshell {tool}" for tool in tools(of_tools)), *pages]
    return wrong + [f"it doesn't name `{name}`" for name in named if f"`{name}`" not in readme]


def without_cases(of_tools: str) -> list[str]:
    """A line for each tool of docs/TOOLS.md, whose text this is, that has no cases."""
    home = os.path.join(environment.HERE, "tools")
    modules = {tool: os.path.join(home, "test_" + TRIED_BY.get(tool, tool) + ".py") for tool in tools(of_tools)}
    return [f"{tool} has no cases" for tool, path in modules.items() if not os.path.exists(path)]


def of_kit(text: str, kit: str) -> list[str]:
    """A line for each kit that a page names, by the line that `rt version` has of it, and that isn't this one."""
    named = re.findall(r"`(rattle-kit-\w+ logic \w+)`", text)
    return [f"it names the kit {one}, and {kit} built the release" for one in named if one != kit]


def wrong() -> list[str]:
    """A line for each fault of README.md, for each tool without cases, and for each page that names another kit."""
    docs = os.path.join(environment.ROOT, "docs")
    pages = [f"docs/{name}" for name in sorted(os.listdir(docs)) if name.endswith(".md")]
    of_commands, of_tools = (text_of(os.path.join(docs, name)) for name in ("COMMANDS.md", "TOOLS.md"))
    found = faults(text_of(os.path.join(environment.ROOT, "README.md")), of_commands, of_tools, pages)
    kit = text_of(os.path.join(environment.ROOT, "release", "KIT")).strip()
    of_kits = [
        f"{page}: {fault}"
        for page in ("README.md", *pages)
        for fault in of_kit(text_of(os.path.join(environment.ROOT, page)), kit)
    ]
    return (
        [f"README.md: {fault}" for fault in found] + [f"fshell {fault}" for fault in without_cases(of_tools)] + of_kits
    )
