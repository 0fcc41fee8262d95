"""The cases of fshell run: what is wrong with its files, gates by hand, runs that are killed and go on, and sources that change."""

import json
import os
import re
import resource
import shutil
import signal
import subprocess
import xml.etree.ElementTree as ET
from collections.abc import Iterator
from typing import Any

from tests import environment
from tests.tools import Case, example, put, run
from tests.tools.project_files import DIRECTORY, LAMP, RUN, TESTS, TOML

ADAPTED = ("gcc", "pycparser", "jinja2")


def refused(name: str, text: str, *lines: str, written: tuple[()] | None = ()) -> Case:
    """A case of a fshell.toml with what is told of it."""
    told = "".join(f"run: fshell.toml{line}\n" for line in lines)
    return Case(
        f"project: {name}",
        ["run"],
        {**LAMP, "fshell.toml": text},
        2,
        "",
        told,
        None if written is None else {},
    )


MODULE = '[module]\nsources = ["lamp.c"]\n'
ENTRY = '[[entry]]\nfunction = "level"\nqueries = ["decisions"]\n'
CASES = [
    Case("project: no fshell.toml", ["run"], LAMP, 2, "", "run: fshell.toml: No such file or directory\n"),
    refused("no TOML", "[module\n", ": it is no TOML: Expected ']' at the end of a table declaration (at line 1, column 8)"),
    refused("an unknown key", MODULE + 'source = ["x.c"]\n' + ENTRY, ":3: [module] knows no key source; is sources meant?"),
    refused("an unknown table", MODULE + ENTRY + "[gates]\n", ":6: the file knows no key gates; is gate meant?"),
    refused("a missing file, with its own line", '[module]\nsources = [\n  "lamp.c",\n  "lump.c",\n]\n' + ENTRY, ":4: lump.c: there is no such file"),
    refused("a wrong type in a list", '[module]\nsources = ["lamp.c", 3]\n' + ENTRY, ":2: an element of sources of [module] is no text"),
    refused("a criterion that isn't one", MODULE + '[[entry]]\nfunction = "level"\nqueries = ["decision"]\n',
            ":5: decision is no criterion and no query; is decisions meant?"),
    refused("all that is wrong, by lines", MODULE + "adapt = 1\n" + ENTRY + 'bounds = { turns = 1001, turn = 2 }\nends = "never"\n[gate]\nat-least = true\n',
            ":3: adapt of [module] is no text", ":7: turns of [bounds] isn't from 0 to 1000", ":7: [bounds] knows no key turn; is turns meant?",
            ":8: ends of [[entry]] is none of returned, trapped, any", ":10: at-least of [gate] is no number"),
    refused("no entry, and no module", "[gate]\nmcdc = 50\n", ":1: it has no [module]", ":1: it has no [[entry]]"),
    refused("an entry twice", MODULE + ENTRY + ENTRY, ":7: the entry level stands at line 3 already"),
    refused("an entry that no source defines", MODULE + ENTRY.replace("level", "levels"), ":3: no source defines the function levels", written=None),
    Case("project: a source that is refused and not adapted", ["run"],
         {"fshell.toml": '[module]\nsources = ["a.c"]\nadapt = "never"\n' + ENTRY, "a.c": "float f;\n"}, 2, "",
         "run: fshell graph: error 21 OutOfProfile a.c:1\n", written=None),
    Case("project: a work folder that can't be made", ["run", "-o", "lamp.c/x"], {**LAMP, "fshell.toml": TOML}, 2, "", None),
    Case("project: init doesn't write over a file", ["init", "lamp.c"], {**LAMP, "fshell.toml": "mine\n"}, 2, "",
         "init: fshell.toml is there already; move it away, or name another one (-o)\n"),
    Case("project: init of a source that isn't there", ["init", "no.c"], LAMP, 2, "", None),
    Case("project: init with a criterion that isn't one", ["init", "lamp.c", "--query", "all"], LAMP, 2, "", None),
]  # fmt: skip


def project(folder: str, *words: str, **more: Any) -> subprocess.CompletedProcess[str]:
    """How fshell run ends in a folder."""
    return run(folder, list(words), **more)


def report(folder: str, name: str = "report.json") -> Any:
    """A report of the project: its JSON as a value, or another one's text."""
    with open(os.path.join(folder, DIRECTORY, "report", name), encoding="utf-8") as file:
        return json.load(file) if name.endswith("json") or name.endswith("sarif") else file.read()


def counted(folder: str) -> dict[str, str]:
    """An environment in which each start of the program is noted in the file `starts`."""
    path = os.path.join(folder, "counting")
    with open(path, "w", encoding="ascii") as file:
        file.write(
            f'#!/bin/sh\nprintf "%s %s\\n" "$1" "$2" >> "{folder}/starts"\nexec "{environment.program()}" "$@"\n'
        )
    os.chmod(path, 0o755)
    return {**os.environ, "FSHELL": path}


def starts(folder: str) -> list[str]:
    """The commands and their first words since the last time."""
    path = os.path.join(folder, "starts")
    if not os.path.exists(path):
        return []
    with open(path, encoding="utf-8") as file:
        lines = file.read().splitlines()
    os.remove(path)
    return lines


def a_module_is_judged(folder: str) -> Iterator[bool]:
    """By hand: level has two decisions, so four goals; press has i < times and i < 3 (three decision edges) and the if (two)."""
    put(folder, {**LAMP, "fshell.toml": TOML, "tests.json": TESTS})
    env = counted(folder)
    before = project(folder, "gate", env=env)
    yield before.returncode == 1 and "not done yet: level, bounds\n" in before.stdout
    ended = project(folder, "run", env=env)
    yield (ended.returncode, ended.stdout) == (0, RUN)
    starts(folder)
    # a second run does nothing, and so starts no program
    used = resource.getrusage(resource.RUSAGE_CHILDREN)
    again = project(folder, "run", env=env)
    now = resource.getrusage(resource.RUSAGE_CHILDREN)
    yield (again.returncode, again.stdout, starts(folder)) == (0, RUN, [])
    yield now.ru_utime + now.ru_stime - used.ru_utime - used.ru_stime < 2
    yield project(folder, "gate", env=env).stdout == RUN
    # a file of a task that was changed by hand isn't believed
    path = os.path.join(folder, DIRECTORY, "tasks", "press", "decisions", "report.json")
    with open(path, encoding="utf-8") as file:
        text = file.read()
    with open(path, "w", encoding="utf-8") as file:
        file.write(text.replace('"covered"', '"unreachable"', 1))
    yield project(folder, "gate", env=env).stdout.startswith("not done yet: press, decisions\n")
    yield project(folder, "run", env=env).stdout == RUN


def keys_go_to_every_report(folder: str) -> Iterator[bool]:
    put(folder, {**LAMP, "fshell.toml": TOML, "tests.json": TESTS})
    project(folder, "run")
    tests = {test["id"]: test for test in report(folder)["tests"]}
    yield tests["TC-1"]["requirements"] == ["R-1"] and tests["TC-1"]["given"] and tests["TC-1"]["end"] == "returned 1"
    yield report(folder, "tests.json")["press"][0] == {
        "id": "TC-1",
        "requirements": ["R-1"],
        "arguments": {"times": 2},
        "answers": {"key": [0, 1]},
    }
    cases = [
        (one.get("classname"), one.get("name")) for one in ET.fromstring(report(folder, "junit.xml")).iter("testcase")
    ]
    yield ("fshell.press", "TC-1") in cases and ("fshell.gate", "the gate passes") in cases
    rows = {row["id"]: row for row in report(folder, "matrix.json")["requirements"]}
    yield [rows[name]["state"] for name in ("R-1", "R-2", "R-3")] == ["tested", "shown", "holds"]
    yield rows["R-1"]["tests"] == ["TC-1"] and len(rows["R-3"]["certificates"]) == 1
    certificate = os.path.join(folder, DIRECTORY, rows["R-3"]["certificates"][0])
    words = ["check", "press", "cover {lamp > 1}", "1", certificate, "lamp.c"]
    yield run(folder, words).stdout == "goal 1 refuted turns 4 frames 8 answers 16\n"


def the_gate_fails(folder: str) -> Iterator[bool]:
    """No entry reaches press; a budget of 1 leaves a goal undecided; a trap is a run-time error."""
    put(folder, {**LAMP, "fshell.toml": MODULE + ENTRY + "[gate]\nat-least = 100\n"})
    ended = project(folder, "run")
    yield ended.returncode == 1 and ended.stdout.endswith(
        "the gate fails: no entry reaches the function press, so nothing of it is tested\n"
    )
    put(folder, {"fshell.toml": MODULE + 'left-out = ["press"]\n' + ENTRY + "[gate]\nat-least = 100\n"})
    ended = project(folder, "run")
    yield ended.returncode == 0 and ended.stdout.endswith("the gate passes\n")
    put(folder, {"fshell.toml": MODULE + 'left-out = ["press"]\n' + ENTRY})
    yield project(folder, "run").stdout.endswith("the gate fails: [gate] asks for nothing\n")
    put(
        folder,
        {
            "a.c": "int f(int x) {\n  assert(x != 7);\n  return 10 / x;\n}\n",
            "fshell.toml": '[module]\nsources = ["a.c"]\n[[entry]]\nfunction = "f"\nqueries = ["statements"]\n[gate]\nno-run-time-errors = true\n',
        },
    )
    ended = project(folder, "run")
    lines = [line.partition(", by ")[0] for line in ended.stdout.splitlines() if line.startswith("the gate fails")]
    yield ended.returncode == 1 and lines == [
        "the gate fails: a run of f ends at a.c:2:3, trapped assert",
        "the gate fails: a run of f ends at a.c:3:3, trapped zero-divisor",
    ]
    yield "a.c:2:3: error: a run of f ends here, trapped assert: assert(x != 7), by the input args 7 [run-time-error]\n" in report(
        folder, "warnings.txt"
    )
    # C leaves open whether g is read before the call (6.5p2, 6.5.2.2p10), so that the guard isn't called unreachable
    put(
        folder,
        {
            "o.c": "int g = 1;\nint h(void) { g = 5; return 1; }\nint k(int x) { if (g + h() == 2) { return 1; } return 0; }\n",
            "fshell.toml": '[module]\nsources = ["o.c"]\n[[entry]]\nfunction = "k"\nqueries = ["decisions"]\n[gate]\nat-least = 100\n',
        },
    )
    ended = project(folder, "run")
    yield ended.returncode == 1 and ended.stdout.startswith(
        "decisions: covered 1 of 2 goals that aren't unreachable, 50%\n"
    )
    yield "o.c:3:20: warning: value: one part writes g, and another reads or writes it [order-of-evaluation]\n" in report(
        folder, "warnings.txt"
    )


def names_that_are_wrong_are_told(folder: str) -> Iterator[bool]:
    """The line of each, behind `run: tests.json: `."""
    told = {
        '[{"arguments": {"time": 1}}]': "input 1: time is no parameter of press(int times)",
        '[{"arguments": {}}]': "input 1: the argument times is missing; the entry is press(int times)",
        '[{"args": [1, 2]}]': "input 1: it has 2 arguments; the entry is press(int times)",
        '[{"id": "A", "arguments": {"times": 1}, "answers": {"keys": [1]}}]': "A: keys is no input function; they are key; the entry is press(int times)",
        '[{"id": "A", "arguments": {"times": 1}, "answers": {"key": [0, 1]}}]': "A: key has 2 answers, and its run asks for 1; the entry is press(int times)",
        '[{"id": "A", "arguments": {"times": 1}}, {"id": "A", "args": [2]}]': "the id A stands twice",
        '[{"arguments": {"times": 1.5}}]': "input 1: arguments: 1.5 is no whole number from -2^63 to 2^64 - 1",
    }
    for text, line in told.items():
        put(folder, {**LAMP, "fshell.toml": TOML, "tests.json": text})
        ended = project(folder, "run")
        yield (ended.returncode, ended.stderr) == (2, f"run: tests.json: {line}\n")
    put(folder, {"tests.json": '[{"requirements": ["R-9"], "args": [1]}]'})
    yield project(
        folder, "run"
    ).stderr == "run: fshell.toml: an input of press names the requirement R-9, which isn't there\n"


def what_changed_since(folder: str) -> Iterator[bool]:
    """A branch more in level makes two new goals; without its input one goal of press is lost, as its budget is too small."""
    put(folder, {**LAMP, "fshell.toml": TOML, "tests.json": TESTS})
    project(folder, "run")
    shutil.copytree(os.path.join(folder, DIRECTORY, "report"), os.path.join(folder, "before"))
    ended = project(folder, "run", "--since", "before")
    yield ended.stderr.splitlines()[1] == "since before: 0 new, 0 gone, 0 newly covered, 0 lost"
    put(
        folder,
        {
            "lamp.c": LAMP["lamp.c"].replace(
                "  return wanted;", "  /* odd */\n  if (wanted == 5) {\n    return 4;\n  }\n  return wanted;"
            )
        },
    )
    ended = project(folder, "run", "--since", "before")
    yield ended.returncode == 0 and "since before: 2 new, 0 gone, 0 newly covered, 0 lost" in ended.stderr
    put(folder, {"lamp.c": LAMP["lamp.c"].replace("wanted < 0", "wanted < 0 && wanted > 5")})
    ended = project(folder, "run", "--since", "before")
    # (the one edge of wanted < 0 that decided is another one now: two are new, and one that is the same is covered no more)
    yield ended.returncode == 0 and "lost: decisions: " not in ended.stderr.replace("lost: decisions: e", "", 1)
    yield project(folder, "report", "--since", "nowhere").returncode == 2


def stopped_at_twenty_moments(folder: str) -> Iterator[bool]:
    """Killed with all its processes, it goes on each time, and ends as one that ran undisturbed does."""
    shutil.copytree(
        os.path.join(environment.ROOT, "examples", "module"),
        os.path.join(folder, "one"),
        ignore=shutil.ignore_patterns(DIRECTORY),
    )
    one = os.path.join(folder, "one")
    words = [os.path.join(environment.ROOT, "bin", "fshell"), "run"]
    status = None
    for moment in range(20):
        started = subprocess.Popen(
            words, cwd=one, stdout=subprocess.DEVNULL, stderr=subprocess.DEVNULL, start_new_session=True
        )
        try:
            status = started.wait(timeout=0.3 + 0.25 * moment)
        except subprocess.TimeoutExpired:
            os.killpg(started.pid, signal.SIGKILL)
            started.wait()
    yield status is None or status == 0
    ended = project(one, "run")
    yield ended.returncode == 0
    yield not [
        name
        for _, names, files in os.walk(os.path.join(one, DIRECTORY))
        for name in names + files
        if ".new" in name or ".old" in name
    ]
    shutil.copytree(one, os.path.join(folder, "two"), ignore=shutil.ignore_patterns(DIRECTORY))
    two = os.path.join(folder, "two")
    yield project(two, "run").stdout == ended.stdout
    found = [[(goal["criterion"], goal["text"], goal["verdict"]) for goal in report(at)["goals"]] for at in (one, two)]
    yield found[0] == found[1] and len(found[0]) > 100


def only_what_is_touched_is_done_again(folder: str) -> Iterator[bool]:
    """burner_level is called by itself and by drive_boiler_step alone; a comment above moves all lines."""
    shutil.copytree(
        os.path.join(environment.ROOT, "examples", "module"),
        os.path.join(folder, "module"),
        ignore=shutil.ignore_patterns(DIRECTORY),
    )
    module, env = os.path.join(folder, "module"), counted(folder)
    yield project(module, "run", env=env).returncode == 0
    starts(folder)
    control = example("module/control.c")
    put(module, {"control.c": "/* moved */\n" + control})
    yield project(module, "run", env=env).returncode == 0
    searches = [line for line in starts(folder) if line.split()[0] in ("generate", "prove", "bounds", "least")]
    yield searches == []
    put(module, {"control.c": control.replace("missing > 30", "missing > 40")})
    ended = project(module, "run", env=env)
    yield ended.returncode == 0 and ended.stdout.endswith("the gate passes\n")
    of_entries = dict[str, list[str]]()
    for line in starts(folder):
        word, entry = line.split()[:2]
        of_entries.setdefault(word, []).append(entry)
    touched = {"burner_level", "drive_boiler_step"}
    yield all(set(of_entries.get(word, [])) <= touched for word in ("generate", "prove", "bounds"))
    yield set(of_entries["bounds"]) == touched
    # the inputs that burner_level had still cover its goals, so that it is searched for its errors and its three decisions alone
    yield "burner_level" not in of_entries.get("prove", []) and of_entries["generate"].count("burner_level") == 4


def entries_are_done_apart(folder: str) -> Iterator[bool]:
    """--entry does the tasks of one entry, without a report; two such processes work in one folder, and what is left is little."""
    put(folder, {**LAMP, "fshell.toml": TOML, "tests.json": TESTS})
    env = counted(folder)
    ended = project(folder, "run", "--entry", "lamp", env=env)
    yield (ended.returncode, ended.stderr) == (2, "run: fshell.toml has no entry lamp; it has level, press\n")
    path = os.path.join(environment.ROOT, "bin", "fshell")
    side = [
        subprocess.Popen([path, "run", "--entry", name], cwd=folder, env=env, stdout=subprocess.PIPE, text=True)
        for name in ("level", "press")
    ]
    told = [one.communicate()[0] for one in side]
    yield [one.returncode for one in side] == [0, 0] and re.fullmatch(
        r"\d tasks of level were done\n", told[0]
    ) is not None
    yield not os.path.exists(os.path.join(folder, DIRECTORY, "report"))
    yield {line.split()[1] for line in starts(folder) if line.split()[0] in ("generate", "prove")} == {"level", "press"}
    again = project(folder, "run", "--entry", "press", env=env)
    yield again.stdout == "0 tasks of press were done\n" and starts(folder) == []
    ended = project(folder, "run", env=env)
    yield (ended.returncode, ended.stdout) == (0, RUN) and ended.stderr.startswith("nothing was left to be done\n")
    yield not [line for line in starts(folder) if line.split()[0] in ("generate", "prove", "bounds", "least")]


def other_machines_find_the_same(folder: str) -> Iterator[bool]:
    """With --sshloginfile GNU parallel hands the goals out; `:` is this machine. The verdicts are those of a run without it."""
    hard = "int hard(int x) {\n  if (x * x * x - 3 * x == 5012368 && x > 0) {\n    return 1;\n  }\n  if (x > 5 && x < 4) {\n    return 2;\n  }\n  return 0;\n}\n"
    toml = (
        '[module]\nsources = ["hard.c"]\n[[entry]]\nfunction = "hard"\nqueries = ["conditions"]\n[gate]\nat-least = 1\n'
    )
    put(
        folder,
        {
            "one/hard.c": hard,
            "one/fshell.toml": toml,
            "two/hard.c": hard,
            "two/fshell.toml": toml,
            "two/machines": "2/:\n",
        },
    )
    one, two = os.path.join(folder, "one"), os.path.join(folder, "two")
    ended = project(two, "run", "--sshloginfile", "nowhere")
    yield (ended.returncode, ended.stderr) == (2, "run: nowhere: No such file or directory\n")
    yield project(one, "run").returncode == project(two, "run", "--sshloginfile", "machines").returncode == 0
    found = [[(goal["text"], goal["verdict"]) for goal in report(at)["goals"]] for at in (one, two)]
    yield found[0] == found[1] and len(found[0]) == 8
    # (what other machines did stands in GNU parallel's log: the goals that want their certificates at least)
    logs = [os.path.join(at, DIRECTORY, "tasks", "hard", "conditions", "machine", "joblog") for at in (one, two)]
    yield not os.path.exists(logs[0]) and os.path.getsize(logs[1]) > 100


def the_example_goes_to_its_gate(folder: str) -> Iterator[bool]:
    """From one command to a gate, a page, an lcov file, JUnit, and a matrix."""
    shutil.copytree(
        os.path.join(environment.ROOT, "examples", "module"),
        os.path.join(folder, "module"),
        ignore=shutil.ignore_patterns(DIRECTORY),
    )
    module = os.path.join(folder, "module")
    ended = project(module, "run")
    yield ended.returncode == 0 and ended.stdout.endswith("the gate passes\n")
    names = os.listdir(os.path.join(module, DIRECTORY, "report"))
    yield {
        "index.html",
        "matrix.html",
        "matrix.csv",
        "matrix.json",
        "coverage.info",
        "junit.xml",
        "cobertura.xml",
        "module.sarif",
    } <= set(names)
    yield len(report(module)["functions"]) == 8
    lcov = report(module, "coverage.info").splitlines()
    found = sum(int(line[3:]) for line in lcov if line.startswith("LF:"))
    cobertura = ET.fromstring(report(module, "cobertura.xml"))
    yield cobertura.get("lines-valid") == str(found) == str(len(list(cobertura.iter("line"))))
    page = report(module, "index.html")
    yield page.count("<h2 id=") == 8 and "http" not in page and "TC-1" in page
    # a second run with nothing changed takes less than two seconds of a processor
    used = resource.getrusage(resource.RUSAGE_CHILDREN)
    yield project(module, "run").returncode == 0
    now = resource.getrusage(resource.RUSAGE_CHILDREN)
    yield now.ru_utime + now.ru_stime - used.ru_utime - used.ru_stime < 2
    made = project(
        module, "init", "sensors.c", "control.c", "alarm.c", "--driver", "drivers/stubs.c", "-o", "made.toml"
    )
    yield (made.returncode, made.stdout) == (0, "made.toml: 7 entries for 8 functions\n")
    with open(os.path.join(module, "made.toml"), encoding="utf-8") as file:
        yield "# count_hot: zones is an array, which no input has; fshell driver count_hot alarm.c -o drive_count_hot.c writes a caller\n" in file.read()


def reports_for_other_tools_have_their_forms(folder: str) -> Iterator[bool]:
    """Cobertura by its DTD; of SARIF 2.1 the properties that its specification requires (3.13, 3.14, 3.27, 3.30)."""
    put(
        folder,
        {
            **LAMP,
            "fshell.toml": TOML.replace("at-least = 100", "at-least = 100\nno-run-time-errors = true"),
            "tests.json": TESTS,
        },
    )
    put(folder, {"lamp.c": LAMP["lamp.c"].replace("return 9;", "return 90 / (wanted - 10);")})
    yield project(folder, "run").returncode == 1
    dtd = os.path.join(environment.HERE, "tools", "schemas", "coverage-04.dtd")
    path = os.path.join(folder, DIRECTORY, "report", "cobertura.xml")
    checked = subprocess.run(["xmllint", "--noout", "--nonet", "--dtdvalid", dtd, path], capture_output=True, text=True)
    yield checked.returncode == 0
    log = report(folder, "module.sarif")
    run_of = log["runs"][0]
    rules = [rule["id"] for rule in run_of["tool"]["driver"]["rules"]]
    yield log["version"] == "2.1.0" and run_of["tool"]["driver"]["name"] == "FShell"
    for one in run_of["results"]:
        where = one["locations"][0]["physicalLocation"]
        yield one["message"]["text"] and rules[one["ruleIndex"]] == one["ruleId"] and one["level"] in (
            "note",
            "warning",
            "error",
        )
        yield where["artifactLocation"]["uri"] == "lamp.c" and where["region"]["startLine"] >= 1 and where["region"][
            "startColumn"
        ] >= 1
    yield [one["ruleId"] for one in run_of["results"]].count("run-time-error") == 1
    suites = ET.fromstring(report(folder, "junit.xml"))
    for suite in suites:
        failed = len(suite.findall("testcase/failure"))
        yield (suite.get("tests"), suite.get("failures")) == (str(len(suite)), str(failed))
    yield suites.get("failures") == str(len(suites.findall("testsuite/testcase/failure"))) != "0"


TRIED = [
    ((), a_module_is_judged), ((), keys_go_to_every_report), ((), the_gate_fails), ((), names_that_are_wrong_are_told),
    ((), what_changed_since), (("xmllint",), reports_for_other_tools_have_their_forms), (ADAPTED, the_example_goes_to_its_gate),
    (ADAPTED, only_what_is_touched_is_done_again), (ADAPTED, stopped_at_twenty_moments), ((), entries_are_done_apart), (("parallel",), other_machines_find_the_same)]  # fmt: skip
