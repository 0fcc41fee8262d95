"""The cases of fshell campaign: verdicts by hand, and folders that are killed, cut and changed."""

import json
import os
import random
import signal
import subprocess
import time
from collections.abc import Callable, Iterator
from typing import Any

from tests import environment
from tests.tools import SECONDS, Case, example, put, run, test_campaign_gates

FEE = {"fee.c": example("criteria/fee.c"), "in.txt": example("criteria/in.txt")}
PAIRS = 'cover @DEF(sum) . "NOT(@DEF(sum))*" . @USE(sum)'
# the pairs from line 18 back into the loop, and to itself
REFUTED = [9, 10]
# which a budget of 1 is too small for
SLOW = "int f(int a, int b) {\n  if (a > 1 && b > 1 && a * b == 7919 * 7907) {\n    return 1;\n  }\n  return 0;\n}\n"
NONE = {"covered": 0, "missed": 0, "undecided": 0, "refuted within the bounds": 0, "refuted for runs that return": 0,
        "fails before it returns": 0, "outside of the assumptions": 0, "unreachable": 0}  # fmt: skip
CASES = [
    Case("campaign: a query that is refused", ["campaign", "fee", "cover", "fee.c", "-o", "new"], FEE, 2, "",
         "campaign: fshell measure: error 61 QuerySyntax query\n"),
    Case("campaign: a source that isn't there", ["campaign", "fee", "cover ID", "no.c", "-o", "new"], FEE, 2, "",
         "campaign: no.c: No such file or directory\n"),
    Case("campaign: inputs that aren't read", ["campaign", "fee", "cover ID", "fee.c", "-o", "new", "--inputs", "fee.c"], FEE, 2, "",
         "campaign: fee.c: no inputs are read: '/*' is no number\n"),
    Case("campaign: an entry that isn't there leaves no folder", ["campaign", "fees", "cover ID", "fee.c", "-o", "new"], FEE, 2, "",
         "campaign: fshell measure: error 36 NoSuchEntry\n"),
    Case("campaign: inputs of another function leave no folder", ["campaign", "fee", "cover ID", "fee.c", "-o", "new", "--inputs", "in"],
         {**FEE, "in": "1\n"}, 2, "", "campaign: fshell measure: error 51 Shape input 1\n"),
    Case("campaign: a file in the folder's place", ["campaign", "fee", "cover ID", "fee.c", "-o", "in.txt"], FEE, 2, "",
         "campaign: in.txt/found: Not a directory\n"),
    Case("campaign: logins that aren't there", ["campaign", "fee", "cover ID", "fee.c", "-o", "new", "--sshloginfile", "no"], FEE, 2, "",
         "campaign: no: No such file or directory\n"),
    Case("campaign: a source whose name has a line feed", ["campaign", "f", "cover ID", "a\nb.c", "-o", "new"],
         {"a\nb.c": "int f(int x) { return x; }\n"}, 2, "", "campaign: the name of a source has a line feed\n"),
    *(Case(f"campaign: {' '.join(words)} is out of range", ["campaign", "fee", "cover ID", "fee.c", "-o", "new", *words], FEE, 2, "", None)
      for words in (["--jobs", "0"], ["--jobs", "-1"], ["--turns", "1001"], ["--frames", "0"], ["--answers", "257"], ["--budget", "0"],
                    ["--budget", "20000001"], ["--at-least", "nan"], ["--at-least", "101"])),
    Case("campaign: a folder that is no campaign's", ["campaign", "-o", "new"], FEE, 2, "",
         "campaign: new/campaign.json: No such file or directory\n"),
]  # fmt: skip


def campaign(folder: str, *words: str, **more: Any) -> subprocess.CompletedProcess[str]:
    """How a campaign in a folder ends, with two jobs."""
    return run(folder, ["campaign", "-o", "new", "--jobs", "2", *words], **more)


def report(folder: str) -> Any:
    """The JSON report of the campaign `new`."""
    with open(os.path.join(folder, "new", "report.json"), encoding="utf-8") as file:
        return json.load(file)


def verdicts(folder: str) -> list[str]:
    """The answer of each goal of the campaign `new`."""
    return [goal["answer"] for goal in report(folder)["goals"]]


def due(known: int) -> list[str]:
    """The answers that are due of the first goals, so many."""
    return ["refuted within the bounds" if number in REFUTED else "covered" for number in range(1, known + 1)]


def accepted(folder: str, goal: int) -> bool:
    """Whether check accepts the certificate of a goal."""
    words = ["check", "fee", PAIRS, str(goal), f"new/certificates/{goal}.cert", "fee.c"]
    return run(folder, words).stdout == f"goal {goal} refuted turns 4 frames 8 answers 16\n"


def is_right(folder: str) -> bool:
    """Whether a campaign's files say what is right: verdicts, certificates, and a suite that covers as much as all inputs."""
    rest = ["fee.c", "--ends", "returned"]
    counts = {
        name: run(folder, ["measure", "fee", PAIRS, f"new/{name}.json", *rest]).stdout.splitlines()[-1]
        for name in ("inputs", "suite")
    }
    return (
        verdicts(folder) == due(12)
        and all(accepted(folder, goal) for goal in REFUTED)
        and set(counts.values()) == {"covered 10 of 12"}
    )


def a_campaign_decides_all_goals(folder: str) -> Iterator[bool]:
    put(folder, FEE)
    ended = campaign(folder, "fee", PAIRS, "fee.c")
    yield ended.returncode == 0 and is_right(folder)
    yield "\ncovered 10 of 12 goals that aren't unreachable, 83.33%\n" in ended.stdout
    yield report(folder)["counts"] == {**NONE, "covered": 10, "refuted within the bounds": 2}
    # once more, by its folder alone, and from another folder
    elsewhere = os.path.join(folder, "elsewhere")
    os.mkdir(elsewhere)
    again = run(elsewhere, ["campaign", "-o", "../new"])
    yield (again.returncode, again.stdout) == (0, ended.stdout)


def given_inputs_are_completed(folder: str) -> Iterator[bool]:
    """The given inputs stay the first ones, and only one more is made for the goal that they miss."""
    put(folder, FEE)
    ended = campaign(folder, "fee", "cover @CONDITIONEDGE", "fee.c", "--inputs", "in.txt")
    yield ended.returncode == 0 and "inputs 5, of which 4 were given" in ended.stdout
    yield run(folder, ["inputs", "new/inputs.json"]).stdout.startswith(FEE["in.txt"])
    yield [goal.get("input") for goal in report(folder)["goals"]] == [2, 1, 3, 1, 5, 1, 2, 1, 2, 1]


def it_goes_on_with_inputs_but_not_with_other_bounds(folder: str) -> Iterator[bool]:
    put(folder, FEE)
    campaign(folder, "fee", "cover @CONDITIONEDGE", "fee.c")
    for words in (["--turns", "5"], ["--frames", "3"], ["--answers", "2"], ["--ends", "any"]):
        ended = campaign(folder, *words)
        yield ended.returncode == 2 and f"error: {words[0]} is said where a campaign begins" in ended.stderr
    ended = campaign(folder, "--inputs", "in.txt")
    yield ended.returncode == 0 and "of which 4 were given" in ended.stdout
    put(folder, {"other": "1\n"})
    yield campaign(folder, "--inputs", "other").stderr == "campaign: fshell measure: error 51 Shape input 1\n"
    yield "of which 4 were given" in campaign(folder).stdout


def undecided_goals_and_the_gate(folder: str) -> Iterator[bool]:
    put(folder, {"slow.c": SLOW})
    query = "cover @CONDITIONEDGE"
    ended = campaign(folder, "f", query, "slow.c", "--budget", "1")
    yield ended.returncode == 1 and report(folder)["counts"] == {**NONE, "undecided": 6}
    yield "goal 5: undecided, its budget was spent: e4@slow.c:2\n" in ended.stdout
    # (no gate passes where nothing was run)
    yield campaign(folder, "--at-least", "0").returncode == 1
    put(folder, {"in.txt": "0 0\n"})
    yield campaign(folder, "--at-least", "16.6", "--inputs", "in.txt").returncode == 0
    yield campaign(folder, "--at-least", "16.7").returncode == 1
    # a greater budget tries the open goals again
    ended = campaign(folder, "--budget", "100000", "--at-least", "100")
    yield ended.returncode == 0 and report(folder)["counts"] == {**NONE, "covered": 6}


def another_campaigns_folder_is_left_alone(folder: str) -> Iterator[bool]:
    put(folder, FEE)
    campaign(folder, "fee", "cover @LINE(11)", "fee.c")
    before = report(folder)
    ended = campaign(folder, "fee", "cover @LINE(15)", "fee.c")
    yield (ended.returncode, ended.stderr) == (2, "campaign: new is another campaign's: it has another query\n")
    ended = campaign(folder, "fee", "cover @LINE(11)", "fee.c", "--turns", "5")
    yield (ended.returncode, ended.stderr) == (2, "campaign: new is another campaign's: it has another bound\n")
    put(folder, {"fee.c": FEE["fee.c"] + "int more;\n"})
    ended = campaign(folder)
    yield ended.returncode == 2 and "changed since the campaign began: fee.c" in ended.stderr
    yield report(folder) == before


def files_that_were_removed_or_cut_are_made_anew(folder: str) -> Iterator[bool]:
    put(folder, FEE)
    campaign(folder, "fee", PAIRS, "fee.c")
    path = os.path.join(folder, "new", "certificates")
    harms: list[Callable[[], None]] = [
        lambda: os.remove(f"{path}/9.cert"),
        lambda: os.truncate(f"{path}/9.cert", 20),
        lambda: os.truncate(f"{path}/9.cert", 51),
        lambda: os.remove(f"{path}/10.sum"),
        lambda: put(path, {"9.cert": "fshell certificate 1\n"}),
    ]
    for harm in harms:
        harm()
        yield campaign(folder).returncode == 0 and is_right(folder)
    new = os.path.join(folder, "new")
    harms = [
        lambda: os.remove(f"{new}/generated.json"),
        lambda: os.truncate(f"{new}/generated.json", 0),
        lambda: os.truncate(f"{new}/generated.json", 200),
    ]
    for harm in harms:
        harm()
        yield campaign(folder).returncode == 0 and is_right(folder)


def inputs_that_were_cut_are_found_anew(folder: str) -> Iterator[bool]:
    """Those that `prove` found: a budget of 1 leaves `generate` none."""
    put(folder, {"slow.c": SLOW})
    campaign(folder, "f", "cover @CONDITIONEDGE", "slow.c", "--budget", "1")
    yield campaign(folder, "--budget", "100000").returncode == 0
    found = os.path.join(folder, "new", "found")
    one = sorted(os.listdir(found))[0]
    for text in ("", "goal 1 cov", f"goal {one} covered args 0", f"goal {one} covered args 0 0\n"):
        put(found, {one: text})
        yield campaign(folder).returncode == 0 and report(folder)["counts"] == {**NONE, "covered": 6}


def killed_at_any_moment_it_goes_on(folder: str) -> Iterator[bool]:
    """At twenty moments all processes of a campaign are killed; some of what it has found is taken away before it goes on."""
    put(folder, FEE)
    chance = random.Random(1)
    words = [os.path.join(environment.ROOT, "bin", "fshell"), "campaign", "-o", "new", "--jobs", "2"]
    first = ["fee", PAIRS, "fee.c"]
    for moment in range(20):
        started = subprocess.Popen(
            [*words, *first],
            cwd=folder,
            start_new_session=True,
            stdin=subprocess.DEVNULL,
            stdout=subprocess.DEVNULL,
            stderr=subprocess.DEVNULL,
        )
        time.sleep(0.1 + 0.06 * moment)
        try:
            os.killpg(started.pid, signal.SIGKILL)
        except ProcessLookupError:
            pass
        started.wait()
        kept = [
            os.path.join(at, name)
            for at, _, names in os.walk(os.path.join(folder, "new"))
            for name in names
            if name[0].isdigit()
        ]
        for path in chance.sample(sorted(kept), min(len(kept), 3)):
            os.remove(path) if chance.random() < 0.5 else os.truncate(path, os.path.getsize(path) // 2)
    ended = subprocess.run([*words, *first], cwd=folder, capture_output=True, text=True, timeout=SECONDS)
    yield ended.returncode == 0 and is_right(folder)
    # (what is killed by its guard may be writing still for a moment)
    for _ in range(100):
        half = [
            name for _, _, names in os.walk(os.path.join(folder, "new")) for name in names if name.startswith(".new")
        ]
        if not half:
            break
        time.sleep(0.1)
    yield not half


def two_machines_share_the_work(folder: str) -> Iterator[bool]:
    """Two logins, for which a script stands that runs what ssh would."""
    ssh = '#!/bin/sh\necho "$1" >>"$(dirname "$0")/log"\nshift\n[ "$1" != -- ] || shift\nexec sh -c "$*"\n'
    put(folder, {**FEE, "ssh": ssh, "logins": f"2/{folder}/ssh one\n2/{folder}/ssh two\n"})
    os.chmod(os.path.join(folder, "ssh"), 0o755)
    yield campaign(folder, "fee", PAIRS, "fee.c", "--sshloginfile", "logins").returncode == 0 and is_right(folder)
    with open(os.path.join(folder, "log"), encoding="ascii") as file:
        yield set(file.read().split()) == {"one", "two"}


def bounds_that_suffice_are_told(folder: str) -> Iterator[bool]:
    """Where no run leaves the bounds, a refuted goal is unreachable."""
    put(folder, {"never.c": example("never/never.c")})
    ended = campaign(folder, "f", "cover @CONDITIONEDGE", "never.c")
    yield ended.returncode == 0 and verdicts(folder) == ["covered", "covered", "unreachable", "covered"]
    yield "goals 4: 3 covered, 0 undecided, 1 unreachable\n" in ended.stdout


def goals_are_decided_one_by_one(folder: str) -> Iterator[bool]:
    """As an array job does it: the goals that are left, one by one, and then the campaign alone."""
    put(folder, FEE)
    left = campaign(folder, "fee", PAIRS, "fee.c", "--left").stdout.split()
    yield left == [str(number) for number in REFUTED]
    yield all(campaign(folder, "--one", goal).returncode == 0 for goal in left)
    yield campaign(folder, "--left").stdout == ""
    yield campaign(folder).returncode == 0 and is_right(folder)


TRIED = [(("parallel",) if function is two_machines_share_the_work else (), function) for function in (
    a_campaign_decides_all_goals, given_inputs_are_completed, it_goes_on_with_inputs_but_not_with_other_bounds, undecided_goals_and_the_gate, another_campaigns_folder_is_left_alone,
    files_that_were_removed_or_cut_are_made_anew, inputs_that_were_cut_are_found_anew, killed_at_any_moment_it_goes_on, two_machines_share_the_work,
    bounds_that_suffice_are_told, goals_are_decided_one_by_one)] + test_campaign_gates.TRIED  # fmt: skip
