"""The cases of fshell inputs, by hand from docs/FORMATS.md."""

import json
import os
import subprocess
from collections.abc import Iterator

from tests import environment
from tests.tools import SECONDS, Case, example, is_there, put, run

MADE = """goals 3 turns 4 frames 8 answers 16 budget 5000000
input 1 args 1 answers 5 9
input 2 args -3
input 3 args 7
goal 1 covered 1 e11@both.c:9
goal 2 covered 2 e1@both.c:4
goal 3 refuted e2@both.c:4
suite 1 2
covered 2 refuted 1 undecided 0 of 3
"""
AS_JSON = ('{"bounds":{"answers":16,"budget":5000000,"frames":8,"turns":4},"covered":1,"goals":[{"answer":"covered","input":1,'
           '"text":"e8@count.c:7"}],"inputs":[{"answers":[],"args":[3]}],"refuted":0,"suite":[1],"undecided":0}\n')  # fmt: skip
THREE = '[{"args": [1], "answers": [5, 9]},\n {"args": [-3]},\n {"args": [7]}]\n'
READ = " no inputs are read: "


def wrong(name: str, text: str, why: str) -> Case:
    """A file that isn't read: one line, and nothing is written."""
    return Case(name, ["inputs", "f", "-o", "new"], {"f": text}, 2, "", f"inputs: f:{READ}{why}\n")


CASES = [
    Case("a report becomes JSON", ["inputs", "made"], {"made": MADE}, stdout=THREE),
    Case("a report's suite alone", ["inputs", "--suite", "made"], {"made": MADE},
         stdout='[{"args": [1], "answers": [5, 9]},\n {"args": [-3]}]\n'),
    Case("a report as JSON becomes lines", ["inputs", "made"], {"made": AS_JSON}, stdout="3\n"),
    Case("lines of prove and of least", ["inputs", "a"],
         {"a": "goal 1 covered args 3\ngoal 2 least args 4294967295 0\ngoal 3 undecided\ngoal 4 open\n"}, stdout="3\n4294967295 0\n"),
    Case("traces lose their edges", ["inputs", "a"], {"a": "fshell traces 1\nargs 5 edges 1 3\nargs 1 answers 2 edges\n"},
         stdout='[{"args": [5]},\n {"args": [1], "answers": [2]}]\n'),
    Case("several files become one, each input once", ["inputs", "a", "b", "-o", "new"],
         {"a": "1 2\n\n3\t4\r\n", "b": '[{"args": [3, 4], "note": "x"}, {"args": [5, 6]}]'},
         stderr="new: 3 inputs of 4 that were read\n",
         written={"new": '[{"args": [1, 2]},\n {"args": [3, 4], "note": "x"},\n {"args": [5, 6]}]\n'}),
    Case("two of a user's own names are two inputs", ["inputs", "a"],
         {"a": '[{"args": [1], "req": "TP-1"}, {"args": [1], "req": "TP-2"}, {"args": [1]}, {"args": [1], "req": "TP-1"}]'},
         stdout='[{"args": [1], "req": "TP-1"},\n {"args": [1], "req": "TP-2"}]\n'),
    Case("a user's own names are no line", ["inputs", "a", "--to", "lines"], {"a": '[{"args": [1], "req": "TP-1"}]'}, 2, "",
         "inputs: an input with answers, without arguments or with other keys is no line; --to json writes it\n"),
    Case("the greatest and the least number", ["inputs", "a"], {"a": "18446744073709551615 -9223372036854775808\n"},
         stdout="18446744073709551615 -9223372036854775808\n"),
    Case("an empty file has no inputs", ["inputs", "a", "--to", "json"], {"a": ""}, stdout="[]\n"),
    Case("an input without arguments is JSON", ["inputs", "a"], {"a": '[{"args": []}]'}, stdout='[{"args": []}]\n'),
    Case("answers aren't written as lines", ["inputs", "made", "--to", "lines", "-o", "new"], {"made": MADE}, 2, "",
         "inputs: an input with answers, without arguments or with other keys is no line; --to json writes it\n"),
    Case("traces of counted runs", ["inputs", "in.txt", "--to", "traces", "--entry", "f", "--source", "a.c"],
         {"in.txt": example("first/in.txt"), "a.c": example("first/a.c")},
         stdout="fshell traces 1\nargs 5 edges 1 3\nargs 11 edges 0 2\nargs 12 edges 0 2\n"),
    Case("a run that trapped has a trace where it counts",
         ["inputs", "in", "--to", "traces", "--entry", "f", "--source", "a.c", "--ends", "trapped"],
         {"in": "0\n1\n", "a.c": "int f(int x) { return 1 / x; }\n"}, stdout="fshell traces 1\nargs 0 edges\nargs 1 edges 0\n"),
    Case("a run that trapped has none where it doesn't", ["inputs", "in", "--to", "traces", "--entry", "f", "--source", "a.c"],
         {"in": "0\n1\n", "a.c": "int f(int x) { return 1 / x; }\n"}, stdout="fshell traces 1\nargs 1 edges 0\n"),
    Case("the program's refusal is told", ["inputs", "in", "--to", "traces", "--entry", "g", "--source", "a.c", "-o", "new"],
         {"in": "0\n", "a.c": "int f(int x) { return x; }\n"}, 2, "", "inputs: fshell traces: error 36 NoSuchEntry\n"),
    Case("a file that isn't there", ["inputs", "no"], {}, 2, "", "inputs: no: No such file or directory\n"),
    Case("a folder in which nothing can be written", ["inputs", "a", "-o", "no/new"], {"a": "1\n"}, 2, "",
         "inputs: no/new: No such file or directory\n"),
    wrong("a word that is no number", "1 two\n", "'two' is no number"),
    wrong("a number out of range", "18446744073709551616\n", "18446744073709551616 is no whole number from -2^63 to 2^64 - 1"),
    wrong("a number with a point", '[{"args": [1.0]}]', "1.0 is no whole number from -2^63 to 2^64 - 1"),
    wrong("an object without arguments", '[{"answers": [1]}]', "an input has no list args"),
    wrong("a report of measure", "goals 1 inputs 1\ninput 1 returned 1\ngoal 1 covered 1 e0@a.c:2\nsuite 1\ncovered 1 of 1\n",
          "it is an answer of measure, which has no inputs"),
    wrong("an answer of runs", "input 1 returned 1 edges 0\n", "it is an answer of runs, which has no inputs"),
    wrong("an answer of trees", "input 1 returned 1\n", "it is an answer of trees, which has no inputs"),
    wrong("a certificate", example("certificates/worked.cert"), "it is a certificate, which has no inputs"),
    wrong("a number out of range in a report", MADE.replace("args 7", "args 18446744073709551616"),
          "18446744073709551616 is no whole number from -2^63 to 2^64 - 1"),
    wrong("a report whose goal names an input that isn't there", MADE.replace("covered 2", "covered 4"), "it names input 4 and has 3 inputs"),
    wrong("a report whose suite names an input that isn't there", MADE.replace("suite 1 2", "suite 0"), "it names input 0 and has 3 inputs"),
    wrong("a text in place of arguments, in a report", AS_JSON.replace('"args":[3]', '"args":["3"]'), "3 is no whole number from -2^63 to 2^64 - 1"),
    wrong("a report without a bound", AS_JSON.replace('"turns":4', '"turn":4'), "it has no bound turns"),
    wrong("a trace file that is cut short", "fshell traces 1\nargs 5 ed", "'args 5 ed' isn't known"),
]  # fmt: skip


def least_inputs_are_measured(folder: str) -> Iterator[bool]:
    """The least inputs of two goals become one file, which covers them; and its traces are replayed."""
    put(folder, {"both.c": example("counting/both.c")})
    lines = [run(folder, ["least", "both", "cover EDGES(@STMTTYPE(RETURN))", goal, "both.c"]).stdout for goal in "12"]
    put(folder, {"least": "".join(lines)})
    yield run(folder, ["inputs", "least", "-o", "in"]).returncode == 0
    measured = run(folder, ["measure", "both", "cover EDGES(@STMTTYPE(RETURN))", "in", "both.c"]).stdout
    yield measured.endswith("suite 1 2\ncovered 2 of 2\n")
    yield run(
        folder, ["inputs", "in", "--to", "traces", "--entry", "both", "--source", "both.c", "-o", "t"]
    ).returncode == 0
    yield run(folder, ["replay", "both", "cover EDGES(@STMTTYPE(RETURN))", "t", "both.c"]).stdout == measured


def made_inputs_are_measured(folder: str) -> Iterator[bool]:
    """What generate made, kept as a file, covers what generate says."""
    query = "cover @CONDITIONEDGE"
    put(folder, {"both.c": example("counting/both.c")})
    made = run(folder, ["generate", "both", query, "both.c"]).stdout
    put(folder, {"made": made})
    yield run(folder, ["inputs", "made", "-o", "in"]).returncode == 0
    measured = run(folder, ["measure", "both", query, "in", "both.c"]).stdout
    yield [line for line in measured.splitlines() if line.startswith("goal ")] == [
        line for line in made.splitlines() if line.startswith("goal ")
    ]


def keys_of_a_user_are_kept(folder: str) -> Iterator[bool]:
    """What a user wrote beside the numbers goes through each tool that takes inputs and tells of them."""
    given = [{"args": [11], "req": "TP-1", "by": ["a", 2]}, {"args": [5], "req": "TP-2"}]
    put(folder, {"a.c": example("first/a.c"), "in": json.dumps(given)})
    query = "cover @CONDITIONEDGE"
    ended = run(folder, ["mcdc", "f", "a.c", "--inputs", "in", "--suite", "suite"])
    yield ended.returncode == 0 and 'input 1: args 11 {"req": "TP-1", "by": ["a", 2]}\n' in ended.stdout
    with open(os.path.join(folder, "suite"), encoding="ascii") as file:
        yield json.loads(file.read())[:2] == given
    put(folder, {"out": run(folder, ["measure", "f", query, "in", "a.c"]).stdout})
    yield '  input 2: args 5 {"req": "TP-2"}\n' in run(
        folder, ["explain", "out", "a.c", "--entry", "f", "--inputs", "in"]
    ).stdout
    yield '"f(5) returns 0 {\\"req\\": \\"TP-2\\"}"' in run(folder, ["harness", "f", "in", "a.c"]).stdout
    if is_there("parallel"):
        yield run(folder, ["campaign", "f", query, "a.c", "--inputs", "in", "-o", "new"]).returncode == 0
        for name in ("inputs", "given", "suite"):
            with open(os.path.join(folder, "new", f"{name}.json"), encoding="ascii") as file:
                yield json.loads(file.read()) == given


def a_link_stays_a_link(folder: str) -> Iterator[bool]:
    """What is written goes where a link leads to."""
    put(folder, {"a": "1\n", "to": "old\n"})
    os.symlink("to", os.path.join(folder, "link"))
    yield run(folder, ["inputs", "a", "-o", "link"]).returncode == 0
    yield os.path.islink(os.path.join(folder, "link"))
    with open(os.path.join(folder, "to"), encoding="ascii") as file:
        yield file.read() == "1\n"


def what_is_no_file_is_written_into(folder: str) -> Iterator[bool]:
    """A pipe stays one, and /dev/null with it."""
    put(folder, {"a": "1\n"})
    pipe = os.path.join(folder, "pipe")
    os.mkfifo(pipe)
    with subprocess.Popen(
        [os.path.join(environment.ROOT, "bin", "fshell"), "inputs", "a", "-o", "pipe"],
        cwd=folder,
        stderr=subprocess.DEVNULL,
    ) as tool:
        with open(pipe, encoding="ascii") as file:
            yield file.read() == "1\n"
        yield tool.wait(SECONDS) == 0
    yield sorted(os.listdir(folder)) == ["a", "pipe"] and not os.path.isfile(pipe)


TRIED = [(("graph",), keys_of_a_user_are_kept), ((), a_link_stays_a_link), ((), what_is_no_file_is_written_into), ((), made_inputs_are_measured), ((), least_inputs_are_measured)]  # fmt: skip
