"""The recipes of docs/CI.md, run as they stand on examples/module: the commands of each server, and the files that it is then given.

What belongs to the machine is played: `sudo` runs its words, `apt-get` unpacks packages that are files into a folder of the case, and
`sbatch` runs the jobs of an array side by side.
"""

import json
import os
import re
import shutil
import subprocess
import xml.etree.ElementTree as ET
from collections.abc import Iterator

from tests import environment
from tests.tools import captured, put, run

PLAYED = {
    "sudo": '#!/bin/sh\nexec "$@"\n',
    "apt-get": '#!/bin/sh\nfor word in "$@"; do case $word in *.deb) dpkg-deb -x "$word" "$ROOT" || exit 1 ;; *) echo "$word" >> "$ROOT/asked" ;; esac; done\n',
    "sbatch": """#!/usr/bin/env python3
import os, re, subprocess, sys
words = sys.argv[1:]
(first, last), = [map(int, re.fullmatch(r"--array=(\\d+)-(\\d+)", word).groups()) for word in words if word.startswith("--array")]
command = words[words.index("--wrap") + 1]
assert "--wait" in words
jobs = [subprocess.Popen(["sh", "-c", command], env={**os.environ, "SLURM_ARRAY_TASK_ID": str(at)}) for at in range(first, last + 1)]
sys.exit(max(job.wait() for job in jobs))
""",
}


def sections() -> dict[str, str]:
    """The code of docs/CI.md under each heading."""
    with open(os.path.join(environment.ROOT, "docs", "CI.md"), encoding="utf-8") as file:
        parts = re.split(r"^## (.+)$", file.read(), flags=re.MULTILINE)
    return {
        name: "".join(line[4:] + "\n" for line in text.split("\n") if line.startswith("    "))
        for name, text in zip(parts[1::2], parts[2::2])
    }


def machine(folder: str) -> tuple[dict[str, str], str]:
    """The environment of a machine on which the package isn't installed yet, and the module with the package beside it."""
    put(folder, {f"played/{name}": text for name, text in PLAYED.items()})
    for name in PLAYED:
        os.chmod(os.path.join(folder, "played", name), 0o755)
    root, module = os.path.join(folder, "root"), os.path.join(folder, "module")
    os.mkdir(root)
    shutil.copytree(
        os.path.join(environment.ROOT, "examples", "module"), module, ignore=shutil.ignore_patterns("fshell.out")
    )
    made = run(folder, ["package", "--version", "1"]).stdout.strip()
    shutil.copy(os.path.join(folder, made), os.path.join(module, "fshell.deb"))
    own = {name: value for name, value in os.environ.items() if name != "FSHELL"}
    path = ":".join([os.path.join(folder, "played"), os.path.join(root, "usr", "bin"), os.environ["PATH"]])
    return {**own, "PATH": path, "ROOT": root}, module


def ended(command: str, env: dict[str, str], module: str) -> subprocess.CompletedProcess[str]:
    """How a command of a recipe ends in the module's folder."""
    return subprocess.run(
        ["sh", "-e", "-c", command], cwd=module, env=env, stdin=subprocess.DEVNULL, capture_output=True, text=True
    )


def are_files(module: str, *names: str) -> bool:
    """Whether what a server is given is there; lines of warnings may be none."""
    return all(os.path.getsize(os.path.join(module, name)) > 0 or name.endswith("warnings.txt") for name in names)


def servers(folder: str) -> Iterator[bool]:
    """GitHub Actions, GitLab and Jenkins, one after the other in one workspace, as caches keep fshell.out."""
    import yaml

    env, module = machine(folder)
    code = sections()
    steps = yaml.safe_load(code["GitHub Actions"])["jobs"]["fshell"]["steps"]
    commands = [step["run"] for step in steps if "run" in step]
    yield len(commands) == 2 and "fshell-project" not in os.listdir(env["ROOT"])
    for command in commands:
        yield ended(command, env, module).returncode == 0
    given = [step.get("with", {}) for step in steps]
    yield are_files(
        module,
        *(one["sarif_file"] for one in given if "sarif_file" in one),
        *(one["path"] for one in given if "path" in one),
    )
    yield {one["path"] for one in given if "path" in one} == {"fshell.out", "fshell.out/report"}

    job = yaml.safe_load(code["GitLab"])["fshell"]
    told = [ended(command, env, module) for command in [*job["before_script"], *job["script"]]]
    yield [one.returncode for one in told] == [0, 0]
    share = re.search(job["coverage"].strip("/"), told[-1].stdout)
    yield share is not None and share[1] == "100"
    reports = job["artifacts"]["reports"]
    yield are_files(
        module, *job["artifacts"]["paths"], *job["cache"]["paths"], reports["junit"], reports["coverage_report"]["path"]
    )
    yield reports["coverage_report"]["coverage_format"] == "cobertura" and ET.parse(
        os.path.join(module, reports["junit"])
    ).getroot().tag == "testsuites"

    text = code["Jenkins"]
    commands = re.findall(r"sh '([^']*)'", text)
    yield commands == ["fshell run"] and ended(commands[0], env, module).returncode == 0
    patterns = re.findall(r"(?:pattern:|junit) '([^']*)'", text)
    folder_of = captured(r"reportDir: '([^']*)', reportFiles: '[^']*'", text)
    page = captured(r"reportDir: '[^']*', reportFiles: '([^']*)'", text)
    yield len(patterns) == 4 and are_files(module, *patterns, os.path.join(folder_of, page))
    yield text.count("{") == text.count("}") and text.count("[") == text.count("]")

    # what changed since the last release, which was kept then
    shutil.copytree(os.path.join(module, "fshell.out", "report"), os.path.join(module, "released", "report"))
    since = ended(code["What changed since the last release"], env, module)
    yield since.returncode == 0 and "0 new, 0 gone, 0 newly covered, 0 lost" in since.stderr


def slurm(folder: str) -> Iterator[bool]:
    """Each entry by a process of its own in one work folder; the last command does what is left, and writes the report."""
    env, module = machine(folder)
    yield ended("apt-get install -y ./fshell.deb", env, module).returncode == 0
    told = ended(sections()["Slurm"], env, module)
    yield told.returncode == 0 and told.stdout.endswith("the gate passes\n")
    # (nothing was left for the last command to search)
    yield "nothing was left to be done" in told.stderr
    with open(os.path.join(module, "fshell.out", "report", "report.json"), encoding="utf-8") as file:
        yield json.load(file)["gate"]["passes"] is True
    yield ended("wc -l < entries", env, module).stdout.strip() == "6"


NEEDS = (
    "dpkg-deb",
    "gcc",
    "pycparser",
    "python3-pycparser",
    "python3-jinja2",
)  # (what is installed runs by Debian's Python)
TRIED = [((*NEEDS, "yaml"), servers), (NEEDS, slurm)]
