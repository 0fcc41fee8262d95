"""What bin/test compares of the pages: each check finds the fault that a page is given here, and none in the page as it is."""

from collections.abc import Iterator

from tests.documents import decisions, figures, proved, readme_lists, releases, test_crates, test_documents
from tests.text_files import text_of

DECISIONS = """# Decisions

## The parts

- [Names](#names)
  - [Newer](#newer)
  - [Older](#older)

## Names

### Newer

- Context (2026-11-28): one.
- Choice: two.
- Reason: three.
- Would change it: four.

### Older

- Context (2026-11-27): one.
- Choice: two.
- Reason: three.
- Would change it: four.
"""
GATE = """## The gate

Minutes.

| Day | How | Crates | Edits | Libraries and programs | Tests | Both | Of edits | In all |
|---|---|---|---|---|---|---|---|---|
| 2026-11-29 | so | 115 | 113 | 195 | 120 | | 125 | 440 |
| 2026-11-27 | so | 11 | | | | | | 149 |

| Another | table |
|---|---|
| a | b |
"""
CHANGES = """# Changelog

## 2026-11-30: second

### For users

- two

### For those who prove

- three

## 2026-11-29: first

### For users

- one

### For those who prove

- none
"""


def of_decisions(folder: str) -> Iterator[bool]:
    yield decisions.faults(DECISIONS) == []
    yield decisions.index(DECISIONS) == "- [Names](#names)\n  - [Newer](#newer)\n  - [Older](#older)\n"
    for before, after in (
        ("- Reason: three.\n", ""),
        ("- Choice: two.", "- Choice:"),
        ("2026-11-27", "2026-11-29"),
        ("### Older", "### Newer"),
        ("- Reason: three.", "- Reason: " + "long words " * 90),
        ("four.\n", "four.\nAnd more.\n"),
    ):
        yield len(decisions.faults(DECISIONS.replace(before, after))) >= 1


def of_the_gate(folder: str) -> Iterator[bool]:
    yield figures.faults(GATE) == []
    yield len(figures.faults(GATE.replace("| 120 |", "| 121 |"))) == 1
    yield len(figures.faults(GATE.replace("| 149 |", "| |"))) == 1
    yield len(figures.faults("## The gate\n\nNo table.\n")) == 1
    yield figures.untold("3 s, 5 MB, 2 to 4 KB", "2, 3 and 4 s in 5 MB, 1 to 4 KB") == []
    yield figures.untold("9 s, 2 to 5 s, 5 MB", "19 s, 2 to 4 s, 5 ms") == ["9 s", "2 to 5 s", "5 MB"]


def of_releases(folder: str) -> Iterator[bool]:
    yield releases.faults(CHANGES) == []
    for before, after in (
        ("2026-11-29", "2026-11-30"),
        ("## 2026-11-29: first", "## first"),
        ("### For users", "### For all"),
        ("- one\n", "- one\nand more\n"),
    ):
        yield len(releases.faults(CHANGES.replace(before, after))) >= 1


def of_headings(folder: str) -> Iterator[bool]:
    """A heading of another page by its name, one of the page's own, and a link."""
    text = '# A\n\n## Own part\n\nSee `CI.md`, "Jenkins", and the part ("Own part"), [here](#own-part).\n'
    yield test_documents.wrong_headings("docs/A.md", text) == []
    for before, after in (
        ("Jenkins", "Nobody"),
        ('("Own part")', '("Other part")'),
        ("#own-part", "#other"),
        ("`CI.md`", "`NONE.md`"),
    ):
        yield len(test_documents.wrong_headings("docs/A.md", text.replace(before, after))) == 1


def of_what_is_proved(folder: str) -> Iterator[bool]:
    """A section of the page, which loses a call, a definition or a part."""
    text = text_of(test_crates.PROVED)
    section = dict(test_crates.sections(text))["sample"]
    yield proved.faults_of("sample", section) == []
    yield "sample_query" in proved.handed_on("sample")
    yield len(proved.faults_of("sample", section.replace("`sample_query`", "it"))) == 1
    yield len(proved.faults_of("sample", section.replace("*Refuses*", "*Denies*"))) == 1
    yield len(proved.faults_of("sample", section + "\n| `NoSuchThing` | nothing | `specs/Sample.antt` |\n")) == 1
    yield proved.unknown("`sample_query` and `no_name_of_a_crate`") == ["no crate has no_name_of_a_crate"]
    yield [
        fault
        for fault in proved.faults("# Page\n\n" + "x" * 301 + "\n\n## Ground\n")
        if fault.startswith("line 3 has 301")
    ] != []


def of_lists(folder: str) -> Iterator[bool]:
    """What a landing page names, and a tool that nobody tries."""
    page, of_commands, of_tools = (
        "`runs`, `prove`, `check`, `fshell page`, `docs/A.md`\n",
        "## runs\n\n## prove and check\n",
        "## fshell page\n",
    )
    given = (of_commands, of_tools, ["docs/A.md"])
    yield readme_lists.faults(page, *given) == [] and readme_lists.without_cases(of_tools + "## fshell package\n") == []
    for name in ("runs", "check", "fshell page", "docs/A.md"):
        yield readme_lists.faults(page.replace(f"`{name}`", name), *given) == [f"it doesn't name `{name}`"]
    yield readme_lists.faults(page + "word " * 893, *given) == []
    yield len(readme_lists.faults(page + "word " * 894, *given)) == 1
    yield readme_lists.without_cases(of_tools + "## fshell nothing\n") == ["nothing has no cases"]
    named = "Kit: `rattle-kit-1 logic a1` (`rt version`).\n"
    yield readme_lists.of_kit(named, "rattle-kit-1 logic a1") == [] and len(
        readme_lists.of_kit(named, "rattle-kit-2 logic a1")
    ) == 1


TRIED = [((), case) for case in (of_decisions, of_the_gate, of_releases, of_headings, of_what_is_proved, of_lists)]
