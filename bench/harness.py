"""How a fuzzer calls a program of sources/users: its input is bytes, first the arguments and then the answers, each as many
bytes as its type has, the lowest first, and zeros behind the end. The entry's result is kept in a volatile variable, so that
the compiler doesn't remove what computes it."""

import re

from answers import Input
from users import User

WIDTHS = {"char": 1, "int": 4, "long": 8, "unsigned": 4, "short": 2}
WIDTHS |= {f"{sign}int{width}_t": width // 8 for sign in ("", "u") for width in (8, 16, 32, 64)}
MOST_ANSWERS = 256
TAKEN = """
#include <stddef.h>
#include <string.h>
static const unsigned char *bytes_left;
static size_t many_left;
static unsigned long taken(size_t width) {
  unsigned long value = 0;
  for (size_t i = 0; i < width; i++) {
    value |= (unsigned long) (many_left ? *bytes_left : 0) << (8 * i);
    bytes_left += many_left > 0;
    many_left -= many_left > 0;
  }
  return value;
}
volatile long result_kept;
static void tried(const unsigned char *data, size_t size) {
  bytes_left = data;
  many_left = size;
  %s
}
"""
LIBFUZZER = """
int LLVMFuzzerTestOneInput(const unsigned char *data, size_t size) {
  tried(data, size);
  return 0;
}
"""
AFL = """
#include <unistd.h>
__AFL_FUZZ_INIT();
int main(void) {
  __AFL_INIT();
  unsigned char *data = __AFL_FUZZ_TESTCASE_BUF;
  while (__AFL_LOOP(100000)) {
    tried(data, __AFL_FUZZ_TESTCASE_LEN);
  }
  return 0;
}
"""


class Form:
    """How a program's inputs lie in bytes: the widths of its arguments, and of its answers."""

    def __init__(self, user: User) -> None:
        with open(user.path, encoding="ascii") as file:
            self.source = file.read()
        given = re.search(rf"^int {user.entry}\(([^)]*)\)", self.source, re.MULTILINE)
        if given is None:
            raise ValueError(f"{user.path} has no entry {user.entry}")
        self.types = [] if given[1] == "void" else [one.rsplit(" ", 1)[0].strip() for one in given[1].split(",")]
        self.arguments = [WIDTHS[one] for one in self.types]
        asked = re.search(r"^(\w+) (next_\w+)\(void\);", self.source, re.MULTILINE)
        self.answer = WIDTHS[asked[1]] if asked else 0
        self.asked = f"{asked[1]} {asked[2]}(void)" if asked else ""

    def harness(self, user: User, end: str) -> str:
        """The program with a main of a fuzzer. The arguments are taken one after the other."""
        names = [f"argument{number}" for number in range(len(self.types))]
        body = "".join(f"{kind} {name} = ({kind}) taken(sizeof({kind}));\n  " for kind, name in zip(self.types, names))
        body += f"result_kept = {user.entry}({', '.join(names)});"
        kind = self.asked.split(" ")[0]
        asked = f"{self.asked} {{ return ({kind}) taken({self.answer}); }}\n" if self.asked else ""
        return self.source + TAKEN % body + asked + end

    def given(self, data: bytes) -> Input:
        """The input that bytes are."""

        def number(at: int, width: int) -> int:
            return int.from_bytes(data[at : at + width].ljust(width, b"\0"), "little")

        words, at = [], 0
        for width in self.arguments:
            words.append(number(at, width))
            at += width
        rest = range(at, len(data), self.answer) if self.answer else ()
        return {"args": words, "answers": [number(place, self.answer) for place in rest][:MOST_ANSWERS]}
