"""Random small C functions whose runs may trap, one statement a line, and the lines that gcc's gcov marks over all inputs.

The function has one parameter of 8 bits, so all 256 inputs are run. A division by 0 and a failed assert end a run by a
signal; an index outside of its array doesn't, so what stands behind it is run too.
"""

import os
import random
import re
import subprocess

MAIN = """#include <setjmp.h>
#include <signal.h>
int f(signed char x);
static sigjmp_buf next;
static void ended(int number) { siglongjmp(next, number); }
int main(void) {
  signal(SIGFPE, ended); signal(SIGABRT, ended); signal(SIGSEGV, ended);
  for (volatile int x = -128; x < 128; x++) {
    if (sigsetjmp(next, 1) == 0) f(x);
  }
  return 0;
}
"""


class Writer:
    """Writes a random function; `rows` are its lines."""

    def __init__(self, seed: int) -> None:
        self.random = random.Random(seed)
        self.rows = ["#include <assert.h>", "int table[4] = {1, 2, 3, 4};", "int f(signed char x) {", "  int r = 0;"]
        self.rows.append("  int y = x;")
        self.body(2, 3)
        self.rows += ["  return r;", "}"]

    def condition(self) -> str:
        """A comparison of a variable with a small number."""
        return f"{self.random.choice('xyr')} {self.random.choice(['<', '>', '==', '!='])} {self.random.randint(-9, 12)}"

    def body(self, deep: int, most: int) -> None:
        """Writes up to so many statements, with `if` in each other up to a depth."""
        margin = "  " * (5 - deep) if deep < 4 else "  "
        for _ in range(self.random.randint(1, most)):
            kind = self.random.randrange(7 if deep else 5)
            name, number = self.random.choice("yr"), self.random.randint(-3, 9)
            if kind == 0:
                self.rows.append(f"{margin}r = r + table[{self.random.choice(['y', 'x', 'r & 3', '9', 'x + 140'])}];")
            elif kind == 1:
                self.rows.append(f"{margin}{name} = 100 / (y - {self.random.choice([number, number, 'y'])});")
            elif kind == 2:
                self.rows.append(f"{margin}assert({self.condition()});")
            elif kind in (3, 4):
                self.rows.append(f"{margin}{name} = {self.random.choice('xyr')} % 50 + {number};")
            else:
                self.rows.append(f"{margin}if ({self.condition()}) {{")
                self.body(deep - 1, most)
                if self.random.randrange(2):
                    self.rows.append(f"{margin}}} else {{")
                    self.body(deep - 1, most)
                self.rows.append(f"{margin}}}")

    @property
    def text(self) -> str:
        """The source for gcc."""
        return "\n".join(self.rows) + "\n"

    @property
    def for_fshell(self) -> str:
        """The source for FShell, which knows assert without its header."""
        return "\n".join(["", *self.rows[1:]]) + "\n"


def executed(folder: str, text: str) -> set[int]:
    """The lines of a source that gcov marks as executed, over all inputs of its function. RuntimeError where gcc or gcov fails."""
    for name, content in (("f.c", text), ("main.c", MAIN)):
        with open(os.path.join(folder, name), "w", encoding="ascii") as file:
            file.write(content)
    for words in (
        ["gcc", "-O0", "-w", "--coverage", "-fprofile-update=atomic", "f.c", "main.c", "-o", "all"],
        ["./all"],
        ["gcov", "all-f.gcda"],
    ):
        ended = subprocess.run(words, cwd=folder, capture_output=True, text=True, timeout=60, check=False)
        if ended.returncode:
            raise RuntimeError(f"{words[0]}: {ended.stderr[-200:]}")
    with open(os.path.join(folder, "f.c.gcov"), encoding="ascii") as file:
        found = re.findall(r"^ *(\d+)\*?: *(\d+):", file.read(), re.MULTILINE)
    return {int(line) for count, line in found if int(count)}
