"""A C file that repeats the runs of inputs that end wrongly, under the sanitizers of a compiler, and what gcc's say of them.

Sources stand in it as in the file of fshell harness. Of overflow.h, which fshell adapt writes, the asserts are left out there, so that the
operation itself is done and reported.
"""

import os
import re
import shutil
import subprocess
from collections.abc import Iterator, Sequence

from fshell_tools.core import declarations, processes, program
from fshell_tools.core.program import Failure
from fshell_tools.core.reports import Input
from fshell_tools.core.sources import Source
from fshell_tools.harness.c_text import ANSWER
from fshell_tools.harness.main import source_text, word

NAME = "failures"
FLAGS = ("-w", "-fsanitize=undefined", "-fno-sanitize-recover=all")
WRAPS = "-fwrapv"  # where overflows aren't asked about: then gcc reports none
SECONDS = 10
HEAD = (
    """/* Written by FShell's fshell rte: runs of {entry} that end wrongly. Compile it with
   {command}
   and run it with the number of an input of inputs.json, from 1. */
#include <stddef.h>
#include <stdint.h>

extern int printf(const char *, ...);
extern int fflush(void *);
extern void _Exit(int);

static const unsigned long long *fshell_answers;
static int fshell_left;

"""
    + ANSWER
    + """
static void fshell_failed(const char *file, int line, const char *what) {{
  printf("%s:%d: %s\\n", file, line, what);
  fflush(0);
  _Exit(1);
}}

#undef assert
#undef assume
#define assume(holds) ((holds) ? (void) 0 : fshell_failed(__FILE__, __LINE__, "an assume failed"))
#define main fshell_main
"""
)
ASSERTS = '#undef assert\n#define assert(holds) ((holds) ? (void) 0 : fshell_failed(__FILE__, __LINE__, "an assert failed"))\n'
NO_ASSERTS = "#undef assert\n#define assert(holds) ((void) 0)\n"
MAIN = """#undef main
#line 1 "failures"
static const unsigned long long fshell_words[] = {{{words}0}};
static const int fshell_first[] = {{{first}}};

int main(int count, char **words) {{
  int number = 0;
  for (const char *at = count == 2 ? words[1] : ""; *at >= '0' && *at <= '9' && number < 100000; at++) {{
    number = number * 10 + (*at - '0');
  }}
  if (number < 1 || number > {count}) {{
    printf("say which input: 1 to {count}\\n");
    return 2;
  }}
  const unsigned long long *given = fshell_words + fshell_first[number - 1];
  fshell_answers = given + {arity};
  fshell_left = fshell_first[number] - fshell_first[number - 1] - {arity};
  {call};
  printf("input %d returned\\n", number);
  return 0;
}}
"""


def command(folder: str, header: str) -> list[str]:
    """The command that compiles the file in `folder`; `header` is the source of checked operations, if there is one:
    without it overflows wrap, as FShell's do."""
    path = os.path.join(folder, NAME)
    return ["gcc", *FLAGS, *([] if header else [WRAPS]), "-o", path, path + ".c"]


def text_of(entry: str, given: Sequence[Input], names: Sequence[str], header: str, folder: str) -> str:
    """The whole file, which runs the input of a number on the sources of these `names`; `header` is the source of
    checked operations, if there is one. Raises Failure where a source can't be read."""
    sources = [Source(name, program.read(name)) for name in names]
    heads = declarations.input_heads(sources)
    parts = [HEAD.format(entry=entry, command=" ".join(command(folder, header)))]
    out = os.path.join(folder, NAME) + ".c"
    for number, source in enumerate(sources):
        parts.append(NO_ASSERTS if source.name == header else ASSERTS)
        parts.append(
            source_text(source, [(name, kind) for name, (first, kind) in heads.items() if first == number], out)
        )
    words = [word(number) for one in given for number in (*one.args, *one.answers)]
    first = [sum(len(one.args) + len(one.answers) for one in given[:at]) for at in range(len(given) + 1)]
    arity = len(given[0].args)
    name = "fshell_main" if entry == "main" else entry
    call = f"{name}({', '.join(f'given[{number}]' for number in range(arity))})"
    told = {"words": "".join(one + ", " for one in words), "first": ", ".join(map(str, first))}
    return "".join(parts) + MAIN.format(count=len(given), arity=arity, call=call, **told)


def compiled(folder: str, header: str) -> str:
    """The path of the program that gcc makes of the file in `folder`. Raises Failure where gcc isn't there, or with its
    first error."""
    if not shutil.which("gcc"):
        raise Failure("gcc isn't there (Debian: apt-get install gcc)")
    path = os.path.join(folder, NAME)
    ended = processes.run(command(folder, header), capture_output=True, text=True, check=False)
    if ended.returncode:
        wrong = [line for line in ended.stderr.splitlines() if "error" in line] or ended.stderr.splitlines() or ["?"]
        raise Failure(f"gcc doesn't compile {path}.c: {wrong[0][:200]}")
    return os.path.abspath(path)


def confirmed(folder: str, header: str, count: int) -> Iterator[str]:
    """What gcc's sanitizers, or an assert, say of each input from 1 to `count`, within ten seconds each. Raises Failure
    as `compiled` does."""
    path = compiled(folder, header)
    for number in range(1, count + 1):
        try:
            ended = processes.run(
                [path, str(number)], capture_output=True, text=True, errors="replace", timeout=SECONDS, check=False
            )
        except subprocess.TimeoutExpired:
            yield f"no end within {SECONDS} seconds"
            continue
        found = re.search(r"runtime error: (.*)", ended.stderr)
        line = (ended.stdout.splitlines() or ["nothing"])[-1]
        yield found[1] if found else re.sub(r"^.*?:\d+: ", "", line)
