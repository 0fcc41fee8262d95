"""The counts of python/fshell_tools/repository/contract_sizes.py, which are made by hand here."""

import os
import subprocess
import sys
from collections.abc import Iterator

from tests import environment
from tests.tools import put

TOOL = os.path.join(environment.ROOT, "python", "fshell_tools", "repository", "contract_sizes.py")
HEAD = """| crate | requires | ensures | facts | lines | widest | over 100 | over 120 | many arguments | said again |
| --- | --- | --- | --- | --- | --- | --- | --- | --- | --- |
"""
# one clause of 101 columns and one of 121, a clause of two lines, one in a comment, and one condition that is said three times
PAIR = f"""use std::alloc::Global;

/// A pair.
pub struct Pair<'a> {{
    pub one: &'a [u8],
    ghost few: {{ length one.now < 3 }},
}}

// requires {{ a < 1 }}
pub fn seven<F: Fn(u8, u8) -> u8, 'a>(a: u8, b: u8, c: u8, d: u8, e: (u8, u8), f: &F, g: [u8; 2]) -> u8
    requires small {{ a < 1 }}
    requires {{ b  <
        2 }}
    ensures wide {{ result ≡ {"a" * 71} }}
{{
    a
}}

fn six(
    a: u8,
    b: u8,
    c: u8,
    d: u8,
    e: u8,
    f: u8,
) -> u8
    requires {{ a < 1 }}
    ensures {{ {{A = Said}} ≡ {"b" * 92} }}
{{
    f
}}

fn none()
    requires other_name {{ a < 1 }}
    requires {{ b < 2 }}
{{
    let requires = 3;
}}
"""
LISTED = """crates/pair/src/lib.rt:14: 101 columns
crates/pair/src/lib.rt:28: 121 columns
crates/pair/src/lib.rt:10: seven has 7 arguments
pair: 3 times: a < 1
"""


def counted(folder: str, *words: str) -> subprocess.CompletedProcess[str]:
    """How python/fshell_tools/repository/contract_sizes.py ends over a small repository."""
    return subprocess.run([sys.executable, TOOL, "--root", folder, *words], capture_output=True, text=True)


def a_crate_is_counted(folder: str) -> Iterator[bool]:
    put(
        folder,
        {
            "crates.txt": "# of two\npair: std\npair_tests: pair\nempty:\n",
            "crates/pair/src/lib.rt": PAIR,
            "crates/empty/src/lib.rt": "fn requires() {}\n",
            "crates/pair_tests/src/lib.rt": PAIR,
        },
    )
    one = "| pair | 5 | 2 | 1 | 9 | 121 | 2 | 1 | 1 | 1 |\n"
    yield counted(folder, "pair").stdout == HEAD + one
    none = "| empty | 0 | 0 | 0 | 0 | 0 | 0 | 0 | 0 | 0 |\n"
    yield counted(folder).stdout == HEAD + one + none + one.replace("pair", "all")
    ended = counted(folder, "--list", "pair")
    yield (ended.stdout, ended.stderr, ended.returncode) == (LISTED, "", 0)
    yield counted(folder, "pair_tests").stdout == HEAD + one.replace("pair", "pair_tests")


def what_cannot_be_counted_is_told(folder: str) -> Iterator[bool]:
    put(folder, {"crates.txt": "open:\n", "crates/open/src/lib.rt": "fn f()\n    ensures { a\n"})
    for words, line in (
        ("gone", "there is no crate gone"),
        ("", "crates/open/src/lib.rt can't be read: a brace is never closed"),
    ):
        ended = counted(folder, *words.split())
        yield (ended.stdout, ended.stderr, ended.returncode) == ("", f"clauses: {line}\n", 2)
    ended = counted(os.path.join(folder, "crates"))
    yield (ended.stdout, ended.stderr, ended.returncode) == ("", f"clauses: {folder}/crates has no crates.txt\n", 2)


TRIED = [((), a_crate_is_counted), ((), what_cannot_be_counted_is_told)]
