"""The line behind a refusal of the program: on a terminal or not, and none where FSHELL_HINTS is 0."""

import os
import pty
import re
import shlex
import subprocess
from collections.abc import Iterator, Sequence

from tests import environment
from tests.tools import example, put, run

FEE = example("criteria/fee.c")
SUM = "int sum(int v[2], int n) {\n  return v[0] + n;\n}\nint one(int x) {\n  return x;\n}\n"
LOOPS = "int g(int v) {\n  while (v) {\n    v--;\n  }\n  return v;\n}\nint f(int n) {\n  for (; n; ) {\n    n = g(n);\n  }\n  return g(1);\n}\n"
SIGNATURE = "int fee(int grams, int days, int express)"
# the words, the program's own line, and what the line behind it has at its begin and in it
ROWS = [
    (["measure", "fees", "cover ID", "in", "fee.c"], "error 36 NoSuchEntry", "36 NoSuchEntry: ", ["`fees` isn't defined; near: fee", SIGNATURE]),
    (["measure", "sum", "cover ID", "in", "sum.c"], "error 36 NoSuchEntry", "36 NoSuchEntry: ", ["an array parameter: int sum(int v[2], int n)"]),
    (["mesure", "fee"], "error 2 Usage", "2 Usage: ", ["`mesure` is no command; near: measure", "--help"]),
    (["goals", "cover ID", "--turns", "3", "fee.c"], "error 2 Usage", "2 Usage: ", ["`--turns` is no option of goals"]),
    (["generate", "fee", "cover ID", "--frames=65", "fee.c"], "error 2 Usage", "2 Usage: ", ["--frames is from 1 to 64"]),
    (["generate", "fee", "cover ID"], "error 2 Usage", "2 Usage: ", ["SOURCE isn't there: fshell generate ENTRY QUERY SOURCE..."]),
    (["sample", "1", "2"], "error 2 Usage", "2 Usage: ", ["`2` is one word too many: fshell sample N"]),
    (["prove", "fee", "cover ID", "first", "fee.c"], "error 2 Usage", "2 Usage: ", ["`first` is no number that prove takes"]),
    (["goals", "cover @CONDITIONEGDE", "fee.c"], "error 60 Lexical query:7", "60 Lexical: ", ["near: @CONDITIONEDGE", "there stands"]),
    (["goals", "cover @FUNC(fe)", "fee.c"], "error 70 NoSuchName query:7", "70 NoSuchName: ", ["`fe` isn't defined; near: fee"]),
    (["measure", "fee", "cover ID", "in", "fee.c"], "error 51 Shape input 1", "51 Shape: ", ["input 1 has 1 argument;", f"it is {SIGNATURE}"]),
    (["measure", "fee", "cover ID", "in.json", "fee.c"], "error 51 Shape input 2", "51 Shape: ", ["input 2 has 4 arguments", SIGNATURE]),
    (["goals", "cover ID", "float.c"], "error 21 OutOfProfile float.c:2", "21 OutOfProfile: ", ["there stands `float y;`"]),
    (["goals", "cover ID", "no.c"], "error 7 ReadFault no.c", "7 ReadFault: ", ["no.c: No such file or directory"]),
    (["goals", "cover ID", "flaot.c"], "error 7 ReadFault flaot.c", "7 ReadFault: ", ["near: float.c"]),
    (["goals", "cover (@LINE(3)", "fee.c"], "error 61 QuerySyntax query", "61 QuerySyntax: ", ["`(` stands 1 time too often"]),
    (["goals", 'cover "ID*', "fee.c"], "error 61 QuerySyntax query", "61 QuerySyntax: ", ["a quotation mark isn't closed"]),
    (["goals", "@LINE(3)", "fee.c"], "error 61 QuerySyntax query", "61 QuerySyntax: ", ["begins with `cover`"]),
    (["bounds", "f", "w.c", "--turns", "127"], "error 80 TooManyInstances limit 50000", "80 TooManyInstances: ",
     ["`fshell explain 80 w.c --entry f --turns 127` says which loops and calls multiply"]),
    (["measure", "fee", "cover {days ==}", "in", "fee.c"], "error 65 PredicateSyntax query", "65 PredicateSyntax: ", ["the query has `{days ==}`"]),
]  # fmt: skip


WITH_HINTS = {name: value for name, value in os.environ.items() if name != "FSHELL_HINTS"}


def on_a_terminal(folder: str, words: Sequence[str]) -> tuple[str, str, int]:
    """What standard output and a terminal as standard error get, and the status."""
    master, slave = pty.openpty()
    ended = subprocess.run([environment.LAUNCHER, *words], cwd=folder, env=WITH_HINTS, stdin=subprocess.DEVNULL, stdout=subprocess.PIPE,
                           stderr=slave)  # fmt: skip
    os.close(slave)
    said = b""
    try:
        while part := os.read(master, 65536):
            said += part
    except OSError:  # (the other side is closed)
        pass
    os.close(master)
    return ended.stdout.decode(), said.decode().replace("\r\n", "\n"), ended.returncode


def a_refusal_has_a_line_more(folder: str) -> Iterator[bool]:
    put(
        folder,
        {
            "fee.c": FEE,
            "sum.c": SUM,
            "in": "1\n",
            "in.json": '[{"args": [1, 2, 3]}, {"args": [1, 2, 3, 4]}]\n',
            "float.c": "int x;\nfloat y;\n",
            "w.c": LOOPS,
        },
    )
    for words, line, begin, parts in ROWS:
        ended = run(folder, [*words])
        yield (ended.stdout, ended.stderr) == ("", line + "\n")
        piped = run(folder, [*words], env=WITH_HINTS)
        stdout, said, status = on_a_terminal(folder, words)
        yield (piped.stdout, piped.stderr, piped.returncode) == (stdout, said, status)
        lines = said.splitlines()
        yield (stdout, status, len(lines), lines[0]) == ("", ended.returncode, 2, line)
        yield lines[1].startswith("fshell: " + begin) and all(part in lines[1] for part in parts)
    # a source outside of the profile is led on, with commands that can be pasted
    (adapting, starting) = re.findall(
        r"`fshell (\w+ .*?)`", run(folder, ["goals", "cover ID", "float.c"], env=WITH_HINTS).stderr
    )[-2:]
    yield run(folder, shlex.split(adapting)).returncode in (0, 3) and starting == "init float.c"
    # what isn't refused has none
    yield on_a_terminal(folder, ["goals", "cover @LINE(5)", "sum.c"]) == ("goals 1\ngoal 1 e1@sum.c:5\n", "", 0)


def a_trace_file_of_another_system_is_told(folder: str) -> Iterator[bool]:
    put(folder, {"a.c": example("first/a.c"), "in.txt": example("first/in.txt")})
    text = run(folder, ["traces", "f", "in.txt", "a.c"]).stdout
    put(folder, {"own": text, "other": text.replace("\n", "\r\n")})
    yield run(folder, ["replay", "f", "cover ID", "other", "a.c"]).stderr == "error 55 TraceForm line 1\n"
    ended = run(folder, ["explain", "other", "a.c"])
    came = "it is a trace file that came through another system: its lines end with carriage return and line feed"
    yield (ended.returncode, ended.stdout, ended.stderr) == (2, "", f"explain: other: it is no report: {came}\n")
    yield run(
        folder, ["explain", "own", "a.c"]
    ).stderr == "explain: own: it is no report: it is a trace file; replay measures it\n"


TRIED = [(("pycparser", "gcc"), a_refusal_has_a_line_more), (("graph",), a_trace_file_of_another_system_is_told)]
