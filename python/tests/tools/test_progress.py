"""The cases of what tools show of long work (python/fshell_tools/core/progress.py), and of `generate` in parts (python/fshell_tools/campaign/split_generate.py)."""

import io
import json
import os
import pty
import re
import subprocess
from collections.abc import Iterator, Sequence
from typing import Any

from tests import environment
from tests.tools import Tried, put, run

from fshell_tools.core import progress

QUERY = "cover @CONDITIONEDGE"


class Terminal(io.StringIO):
    """A terminal that keeps what is written."""

    def isatty(self) -> bool:
        """Always true, so that progress is shown."""
        return True


def shown(stream: io.StringIO, steps: Sequence[tuple[float, int, str]], total: int = 10) -> str:
    """What is written where at each of some seconds so many parts are done."""
    now = [100.0]
    made = progress.Progress("mcdc: decisions", total, stream, lambda: now[0])
    for second, done, told in steps:
        now[0] = 100.0 + second
        made.at(done, told)
    made.end()
    return stream.getvalue()


def a_line_each_ten_seconds(folder: str) -> Iterator[bool]:
    """Where no terminal is: nothing before ten seconds, and no two lines within ten."""
    steps = [(1, 1, "f"), (9.9, 2, "g"), (10, 4, "h"), (12, 5, "h"), (19.9, 6, "i"), (21, 7, "j"), (65, 8, "")]
    yield shown(io.StringIO(), steps) == (
        "mcdc: decisions: 4 of 10 done, 6 left, 10 s, about 15 s to go (h)\n"
        "mcdc: decisions: 7 of 10 done, 3 left, 21 s, about 9 s to go (j)\n"
        "mcdc: decisions: 8 of 10 done, 2 left, 1:05, about 16 s to go\n"
    )
    yield shown(io.StringIO(), [(9, 10, "")]) == ""
    yield progress.clock(3600) == "1:00:00" and progress.clock(7325.9) == "2:02:05"


def one_line_on_a_terminal(folder: str) -> Iterator[bool]:
    """It is written over, ten times a second at most, and gone at the end."""
    text = shown(Terminal(), [(0, 0, "f"), (0.05, 1, "g"), (2, 4, "h")])
    yield text == (
        "\r\033[Kmcdc: decisions: 0 of 10 done, 10 left, 0 s (f)"
        "\r\033[Kmcdc: decisions: 4 of 10 done, 6 left, 2 s, about 3 s to go (h)\r\033[K"
    )
    yield "\n" not in text


def on_terminal(folder: str, *words: str) -> tuple[str, int]:
    """What a tool writes to a terminal as its standard error, and its status."""
    leader, follower = pty.openpty()
    path = os.path.join(environment.ROOT, "bin", "fshell")
    process = subprocess.Popen(
        [path, *words], cwd=folder, stdin=subprocess.DEVNULL, stdout=subprocess.PIPE, stderr=follower
    )
    os.close(follower)
    told = b""
    while True:
        try:
            part = os.read(leader, 4096)
        except OSError:
            break
        if not part:
            break
        told += part
    os.close(leader)
    process.communicate()
    return told.decode(), process.returncode


def tools_tell_on_a_terminal_alone(folder: str) -> Iterator[bool]:
    put(
        folder, {"fee.c": "int fee(int a, int b) {\n  if (a > 3 && b < 9) {\n    return 1;\n  }\n  return b == 4;\n}\n"}
    )
    told, status = on_terminal(folder, "mcdc", "fee", "fee.c")
    yield status == 0 and told.startswith(
        "\r\033[Kmcdc: decisions: 0 of 1 done, 1 left, 0 s (fee, line 2)"
    ) and told.endswith("\r\033[K")
    yield run(folder, ["mcdc", "fee", "fee.c"]).stderr == ""


def rte_tells_on_a_terminal(folder: str) -> Iterator[bool]:
    put(
        folder,
        {
            "f.c": "int f(int a, int b) {\n  int t[4] = {1, 2, 3, 4};\n  if (b > 0 && b < 4) {\n    return a / b + t[b];\n  }\n  return t[a & 3];\n}\n"
        },
    )
    told, status = on_terminal(folder, "rte", "f", "f.c", "-o", "new")
    yield status == 0 and re.search(
        r"\r\033\[Krte: goals: \d+ of \d+ done, \d+ left, ", told
    ) is not None and told.endswith("\r\033[K")


def a_campaign_tells_on_a_terminal(folder: str) -> Iterator[bool]:
    put(
        folder,
        {
            "fee.c": "int fee(int a, int b) {\n  if (a > 3 && b < 9) {\n    return 1;\n  }\n  return b == 4 ? 7 : 8;\n}\n"
        },
    )
    told, status = on_terminal(folder, "campaign", "fee", QUERY, "fee.c", "-o", "new")
    yield status == 0 and "campaign: goals: 6 of 6 done, 0 left, " in told and told.endswith("\r\033[K")


def many(count: int) -> str:
    """A source of so many functions with eight edges of conditions each, one of them never taken; all are called."""
    parts = [
        f"static int part_{at}(int x, int y) {{\n  if (x == {at} && y > {at}) {{\n    return 1;\n  }}\n  if (x > 5 && x < 4) {{\n    return 2;\n  }}\n  return 3;\n}}\n"
        for at in range(count)
    ]
    calls = " ".join(f"s += part_{at}(x, y);" for at in range(count))
    return "".join(parts) + f"int all(int x, int y) {{\n  int s = 0;\n  {calls}\n  return s;\n}}\n"


def generated(folder: str, name: str) -> Any:
    """What the first generate of a campaign answered."""
    with open(os.path.join(folder, name, "generated.json"), encoding="utf-8") as file:
        return json.load(file)


def a_generate_over_many_goals_is_split_and_joined(folder: str) -> Iterator[bool]:
    """52 functions, so 416 goals: the verdicts and the order are those of one generate, with any number of jobs; each input that
    is named hits its goal, as measure says."""
    put(folder, {"many.c": many(52)})
    whole = json.loads(run(folder, ["generate", "all", QUERY, "many.c", "--budget", "50000", "--json"]).stdout)
    yield len(whole["goals"]) == 416
    for name, jobs in (("one", "1"), ("two", "3")):
        yield run(folder, ["campaign", "all", QUERY, "many.c", "-o", name, "--jobs", jobs, "--left"]).stdout.count(
            "\n"
        ) == whole["refuted"] + whole["undecided"]
    made = generated(folder, "one")
    yield made == generated(folder, "two")
    yield [(goal["text"], goal["answer"]) for goal in made["goals"]] == [
        (goal["text"], goal["answer"]) for goal in whole["goals"]
    ]
    yield (made["covered"], made["refuted"], made["undecided"], made["bounds"]) == (364, 52, 0, whole["bounds"])
    put(folder, {"in.json": json.dumps(made["inputs"])})
    measured = json.loads(run(folder, ["measure", "all", QUERY, "in.json", "many.c", "--json"]).stdout)
    yield [goal["answer"] == "covered" for goal in measured["goals"]] == [
        goal["answer"] == "covered" for goal in made["goals"]
    ]
    yield all(len(json.dumps(one)) > 5 for one in made["inputs"]) and len(made["inputs"]) == len(
        {json.dumps(one) for one in made["inputs"]}
    )


def what_cant_be_split_is_asked_whole(folder: str) -> Iterator[bool]:
    """Paths over several functions and queries with a passing clause are one generate."""
    from fshell_tools.campaign import split_generate
    from fshell_tools.campaign.request import Asked

    put(folder, {"many.c": many(52)})
    bounds = {"turns": 4, "frames": 8, "answers": 16}

    def parts(query: str) -> Any:
        return split_generate.parts_of(Asked("all", query, ("many.c",), folder, ("",), bounds, "returned", 50000))

    # (416 goals in parts of 26 at least: four functions of eight each)
    yield len(parts(QUERY)) == 13
    yield parts(QUERY + ' passing "ID*"') == [] and parts("in @FUNC(part_1) cover @CONDITIONEDGE") == []
    yield parts("cover PATHS(@CONDITIONGRAPH,1)") == [] and parts("cover @CONDITIONEDGE . @CONDITIONEDGE") == []
    yield parts("cover NODES(ID)") == [] and parts("cover @LINE(2)") == []


TRIED: Tried = [((), function) for function in (a_line_each_ten_seconds, one_line_on_a_terminal, tools_tell_on_a_terminal_alone, rte_tells_on_a_terminal, what_cant_be_split_is_asked_whole)]  # fmt: skip
TRIED += [((), function) for function in (a_campaign_tells_on_a_terminal, a_generate_over_many_goals_is_split_and_joined)]  # fmt: skip
