"""The commands of `fshell`, by what a user wants: those of the proved program, and the tools.

Help, completion, manual pages and near misses are made of this table. `bin/fshell` has the tools' names in a list of its own,
so that the program starts without Python; a test compares the two.
"""

from dataclasses import dataclass


@dataclass(frozen=True)
class Command:
    """A command. A tool has a module with `parser_of_words` and `main`; the proved program's commands have none."""

    name: str
    summary: str
    module: str = ""
    inner: bool = False  # a command of the module's own parser, which finds its name as the first word


PROJECT = "fshell_tools.project.main"

PURPOSES: dict[str, tuple[Command, ...]] = {
    "Test a module": (
        Command("init", "writes a fshell.toml for sources", PROJECT, True),
        Command("run", "does what isn't done yet, writes the report, and judges the gate", PROJECT, True),
        Command("report", "writes the report of what is done", PROJECT, True),
        Command("gate", "judges the gate by what is done", PROJECT, True),
        Command("adapt", "translates C as it is written (structs, pointers, macros)", "fshell_tools.adapt.main"),
        Command("driver", "writes a driver for a function with pointers", "fshell_tools.driver.main"),
    ),
    "Measure a suite": (
        Command("measure", "which goals of a query inputs cover, and a reduced suite"),
        Command("runs", "how each input's run ends, and its edges"),
        Command("trees", "how each input's run ends by the AST interpreter"),
        Command("events", "what happens in each input's run by the AST interpreter"),
        Command("traces", "the inputs with the edges of their runs, as a file"),
        Command("replay", "what measure reports, of such a file"),
        Command("inputs", "files of inputs in other forms", "fshell_tools.core.inputs"),
        Command("lcov", "coverage of runs as an lcov tracefile", "fshell_tools.coverage.lcov"),
        Command("mcdc", "masking MC/DC of an entry", "fshell_tools.coverage.mcdc"),
    ),
    "Generate a suite": (
        Command("generate", "inputs for the goals of a query, and the answer of each goal"),
        Command("least", "the least input that covers a goal"),
        Command("campaign", "all goals of a query on many processors, in a folder", "fshell_tools.campaign.main"),
        Command("harness", "inputs as a C program for your own compiler", "fshell_tools.harness.main"),
    ),
    "Certify": (
        Command("prove", "a certificate that no input covers a goal within the bounds"),
        Command("check", "whether a certificate refutes a goal"),
        Command("bounds", "whether every run stays within the bounds"),
        Command("prove-bounds", "a certificate that every run stays within the bounds"),
        Command("check-bounds", "whether a certificate shows that every run stays within the bounds"),
        Command("rte", "a verdict for each operation that can fail at run time", "fshell_tools.rte.main"),
        Command("order", "expressions whose result depends on the order of evaluation", "fshell_tools.order.main"),
        Command("drat", "a certificate in the form of SAT solvers", "fshell_tools.certificates.drat"),
    ),
    "Look": (
        Command("goals", "the goals of a query"),
        Command("graph", "the control flow automaton of sources"),
        Command("explain", "what goals ask for, and where runs ended", "fshell_tools.coverage.explain"),
        Command("page", "reports as one HTML page", "fshell_tools.coverage.page.main"),
        Command("sample", "analyses a synthetic program of a given size"),
    ),
    "Install": (
        Command("install", "puts all under a prefix", "fshell_tools.packaging.install"),
        Command("package", "makes a Debian package", "fshell_tools.packaging.debian"),
        Command("completion", "completion for bash, zsh or fish", "fshell_tools.user_help.completion"),
    ),
}

ALL: dict[str, Command] = {command.name: command for group in PURPOSES.values() for command in group}
TOOLS: dict[str, Command] = {name: command for name, command in ALL.items() if command.module}
OF_PROGRAM: tuple[str, ...] = tuple(name for name, command in ALL.items() if not command.module)
