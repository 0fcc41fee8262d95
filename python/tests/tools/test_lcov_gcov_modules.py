"""Lines of fshell lcov beside gcov, line by line: examples/module and examples/modules, which fshell adapt brings into the profile.

fshell lcov counts what adapt wrote, every statement of which stands on its line of the original. So each line is compared with
gcc's count of what was written, and with its count of the original itself on the same inputs. The lines of DIFFER are those where adapt
adds something of its own: the others that differ are those that docs/TOOLS.md names (test_lcov_gcov.py).
"""

import os
import re
import shutil
from collections.abc import Callable, Iterator, Sequence

from tests import environment
from tests.tools import captured, put, run, test_adapt, test_lcov_gcov
from tests.tools.test_adapt import Given
from tests.tools.test_lcov_gcov import Counts

MODULE = os.path.join(environment.ROOT, "examples", "module")
PARTS = ("../sensors.c", "../control.c", "../alarm.c", "drive_boiler_step.c", "drive_alarm_of.c", "drive_count_hot.c", "stubs.c")  # fmt: skip
ENTRIES = ("calibrated", "burner_level", "drive_boiler_step", "drive_alarm_of", "drive_count_hot", "may_start")
# a declaration of which nothing has a value
NO_VALUE = re.compile(r"\s*(?:(?:struct |unsigned )?\w+ (?:\w+(?:\[\w+\])?(?:, )?)+;\s*)+")
COPIED, FIXED, LOST = "a struct is copied at the block's end", "a copy of a function for one caller", "a statement without effect"  # fmt: skip
JUMP = "a goto is a break, and a test of a flag behind the block"
CAN_GOTO, MODBUS_GOTO = "      goto out_of_range;", "    REQUIRE(false, EXCEPTION_FUNCTION);"
UART_END = "    return COMMAND_BAD;\n  }\n}"
UART_TEST = "static bool ring_put(struct ring *ring, uint8_t byte)\n{\n  if (ring == NULL)"
# what differs, by the text of the original, whose last line is meant and which the file has once
DIFFER = {("can.c", CAN_GOTO): JUMP, ("can.c", CAN_GOTO + "\n  }"): JUMP,
          ("modbus.c", MODBUS_GOTO): JUMP, ("modbus.c", MODBUS_GOTO + "\n  }"): JUMP,
          ("modbus.c", "    line_write(reply.bytes[i]);"): COPIED, ("uart.c", UART_END): COPIED,
          ("uart.c", UART_TEST): FIXED, ("uart.c", UART_TEST + "\n    return false;"): FIXED,
          ("pid.c", "  actuator_write(number, output);"): LOST}  # fmt: skip

NONE: list[str] = []


def excused(name: str, text: str) -> set[int]:
    """The lines of an original of this name that may differ. Raises ValueError where it hasn't one of the texts once."""
    found = set()
    for (file, part), _ in DIFFER.items():
        if file == name:
            if f"\n{text}".count(f"\n{part}\n") != 1:
                raise ValueError(f"{name} hasn't once: {part}")
            found.add(f"\n{text}".partition(f"\n{part}\n")[0].count("\n") + part.count("\n") + 1)
    return found


def may_differ(known: set[int], line: int, text: str, heads: set[int], one: int | None, other: int | None) -> bool:
    """Whether one of the differences that docs/TOOLS.md names is that of a line."""
    if other is None and NO_VALUE.fullmatch(text):
        return True
    return line in known or test_lcov_gcov.may_differ("", line, text, heads, one, other)


def compared(
    name: str, text: str, known: set[int], heads: set[int], counts: Counts, others: Counts
) -> tuple[int, list[str]]:
    """How many lines of a source have one count in both, and those that differ without a reason; each has its branches too."""
    (lines, branches), (their_lines, their_branches) = counts, others
    rows, same, found = text.split("\n"), 0, []
    for line in sorted(set(lines) | set(their_lines)):
        one, other = lines.get(line), their_lines.get(line)
        same += one == other
        if one != other and not may_differ(known, line, rows[line - 1], heads, one, other):
            found.append(f"{name}:{line}: {one} times, and {other} by gcc: {rows[line - 1]}")
    for line, taken in branches.items():
        if len(taken) == len(their_branches.get(line, [])) and taken != their_branches[line]:
            found.append(f"{name}:{line}: branches {taken}, and {their_branches[line]} by gcc: {rows[line - 1]}")
    return same, found


def beside_gcov(
    folder: str, source: str, words: Sequence[str], entry: str, bounds: Sequence[str], originals: dict[str, str]
) -> tuple[list[int], list[str]]:
    """Compares each file of a source that has lines; how many lines are the same in both, twice, and what differs."""
    made = run(folder, ["adapt", source, *words, "-o", "made"]).stdout.split("\n")[1].split()[1:]
    put(
        folder,
        {"report": run(folder, ["generate", entry, "cover ID", *made, *bounds, "--budget", "300000"]).stdout},
    )
    run(folder, ["inputs", "report", "-o", "in.json", "--to", "json"])
    run(folder, ["lcov", entry, "in.json", *made, "-o", "out"])
    run(folder, ["adapt", source, *words, "-o", "made", "--harness", entry, "in.json"])
    run(folder, ["harness", entry, "in.json", *made, "-o", "tests.c"])
    with open(os.path.join(folder, "out"), encoding="utf-8") as file:
        records = {captured(r"^SF:[^\n]*/([^\n]*)$", part): part for part in file.read().split("end_of_record\n")[:-1]}
    same, found = [0, 0], list[str]()
    for which, (tests, flags) in enumerate((("tests.c", NONE), ("made/tests.c", ["-D_exit=exit"]))):
        counted = test_lcov_gcov.gcov_of_all(folder, tests, flags)
        for name, record in records.items():
            with open(os.path.join(folder, "made", name) if which == 0 else originals[name], encoding="utf-8") as file:
                text = file.read()
            with open(originals[name], encoding="utf-8") as file:
                known = excused(name, file.read())
            heads = {int(line) for line in re.findall(r"^FN:(\d+),", record, re.MULTILINE)}
            count, told = compared(name, text, known, heads, test_lcov_gcov.ours(record), counted[name])
            same[which] += count
            found += told
    return same, found


def module_lines(folder: str, module: str, words: Sequence[str], entry: str, bounds: Sequence[str]) -> Iterator[bool]:
    """A module of examples/modules: at least 75 lines have gcc's counts, and each other one is named."""
    source = os.path.join(test_adapt.MODULES, module)
    same, found = beside_gcov(folder, source, words, entry, bounds, {module: source})
    print("".join(f"lcov: {line}\n" for line in found), end="")
    yield not found and min(same) > 75


def lines_of_the_boiler(folder: str) -> Iterator[bool]:
    """examples/module, by each of its entries: no line differs that isn't named."""
    shutil.copytree(MODULE, os.path.join(folder, "m"))
    put(folder, {"m/drivers/all.c": "".join(f'#include "{part}"\n' for part in PARTS)})
    originals = {os.path.basename(part): os.path.join(MODULE, "drivers", part) for part in PARTS}
    for entry in ENTRIES:
        same, found = beside_gcov(folder, "m/drivers/all.c", [], entry, ["--turns", "5"], originals)
        print("".join(f"lcov: {entry}: {line}\n" for line in found), end="")
        yield not found and min(same) > 75


def of_module(given: Given) -> Callable[[str], Iterator[bool]]:
    """The case of a module: whether its lines are counted as gcov counts them."""
    name, words, entry, bounds = given

    def made(folder: str) -> Iterator[bool]:
        return module_lines(folder, name, words, entry, bounds)

    made.__name__ = f"the lines of {name}"
    return made


NEEDS = ("graph", "gcc", "gcov", "pycparser")
TRIED = [(NEEDS, lines_of_the_boiler), *((NEEDS, of_module(given)) for given in test_adapt.WAYS)]
