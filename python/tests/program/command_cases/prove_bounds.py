"""The cases of `prove-bounds`, but for the certificates that it writes, which test_certificates.py checks."""

from tests.program.command_cases import (
    COUNT,
    NESTED,
    QUOTIENTS,
    A,
    Case,
    Words,
    case,
    of_sources,
    of_streams,
    refused,
    usages,
)
from tests.program.command_cases.bounds import FEW, KINDS, answers


def said(name: str, options: Words, source: str, text: str, status: int = 0) -> Case:
    """A case of bounds with what is said of them."""
    return case(name, ["prove-bounds", *options, "f", "k.c"], {"k.c": source}, f"bounds {text}\n", status)


CASES = [
    said("the only input whose run takes a fourth turn", ["--turns", "3"], FEW, "left args 4"),
    said("arguments are numbers of their kinds", ["--frames", "1"], KINDS, "left args -128 255 -2"),
    said("an answer too many, after one below 0", ["--answers=1"], answers("-5"), "left args 7 answers -5"),
    said("a budget that is spent", ["--budget", "1"], COUNT, "open", 1),
    *usages("prove-bounds", {
        "an entry alone is no command": ["f"],
        "it has no --json": ["f", "a.c", "--json"],
        "it has no --ends": ["--ends", "any", "f", "a.c"],
        "it has no --steps": ["--steps", "5", "f", "a.c"],
        "frames below their range": ["--frames", "0", "f", "a.c"],
        "a budget above its range": ["--budget", "20000001", "f", "a.c"],
        "an option given twice": ["--budget", "3", "--budget", "3", "f", "a.c"],
    }),
    refused("a name that begins like it is no command", ["prove-bound", "f", "a.c"], {"a.c": A}, "error 2 Usage", 2),
    *of_sources("prove-bounds", [], {}),
    refused("an entry that isn't defined goes before too many pairs", ["prove-bounds", "--turns", "1000", "zz", "g.c"], {"g.c": NESTED},
            "error 36 NoSuchEntry", 3),
    refused("too many pairs of node and context", ["prove-bounds", "--turns", "1000", "f", "g.c"], {"g.c": NESTED},
            "error 80 TooManyInstances limit 50000", 6),
    refused("an unwinding that is too large", ["prove-bounds", "f", "k.c"], {"k.c": QUOTIENTS}, "error 81 UnwindingTooLarge limit 4194304", 6),
    *of_streams(["prove-bounds", "--turns", "3", "f", "k.c"], {"k.c": FEW}, "bounds left args 4\n"),
]  # fmt: skip
