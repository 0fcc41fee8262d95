"""The cases of fshell install and fshell package: what they put under a folder works there, its manual pages are shown without a warning,
and completion and documents know each option that a tool has."""

import hashlib
import json
import os
import re
import resource
import shutil
import subprocess
import sys
import zipfile
from collections.abc import Iterator

from fshell_tools import cli, commands
from tests import environment
from tests.tools import Case, example, put, run

COMMANDS = ["fshell-" + name for name in ("measure", "goals", "runs", "generate", "prove", "check", "bounds", "prove-bounds", "check-bounds", "least", "traces", "replay", "trees", "events", "graph", "sample")]  # fmt: skip
CASES = [
    Case("install: a folder that can't be made", ["install", "a/b"], {"a": "a file\n"}, 2, "", "install: a/b/lib/fshell: Not a directory\n"),
]  # fmt: skip


def installed_tools_work(folder: str) -> Iterator[bool]:
    yield run(folder, ["install", "to"]).returncode == 0
    put(folder, {"both.c": example("counting/both.c")})
    yield sorted(os.listdir(os.path.join(folder, "to", "bin"))) == ["fshell"]
    own = {name: value for name, value in os.environ.items() if name != "FSHELL"}

    def installed(*words: str) -> subprocess.CompletedProcess[str]:
        path = os.path.join(folder, "to", "bin", "fshell")
        return subprocess.run([path, *words], cwd=folder, env=own, capture_output=True, text=True)

    query = "cover @LINE(9)"
    made = installed("generate", "--answers", "2", "both", query, "both.c")
    yield made.stdout.endswith("covered 1 refuted 0 undecided 0 of 1\n")
    put(folder, {"made": made.stdout})
    yield installed("inputs", "made").stdout == '[{"args": [1], "answers": [5, 9]}]\n'
    yield all(installed(name, "--help").stdout.startswith(f"usage: fshell {name} ") for name in commands.TOOLS)
    yield installed("--help").stdout.startswith("FShell tests ")
    yield installed("--version").stdout.startswith("fshell 0.")
    yield installed("--explain", "66").stdout == "66 PredicateNowhere: a predicate is typable in no node's scope\n"
    # (the documents that the help names)
    lib = os.path.join(folder, "to", "lib", "fshell")
    yield all(os.path.exists(os.path.join(lib, name)) for name in ("README.md", "docs/COMMANDS.md", "docs/REFUSALS.md"))
    # once more, over what is there
    yield run(folder, ["install", "to"]).returncode == 0 and installed("inputs", "made").returncode == 0


def installed_adapt_has_its_models(folder: str) -> Iterator[bool]:
    """What adapt writes by the models of string.h, and what it writes of checked operations, which fshell rte reads."""
    prefix = os.path.join(folder, "usr")
    yield run(folder, ["install", prefix]).returncode == 0
    put(
        folder,
        {
            "a.c": "#include <string.h>\nstatic char a[4], b[4];\nint f(int x) {\n  memcpy(a, b, 4);\n  return a[x & 3] - x;\n}\n"
        },
    )
    made = subprocess.run(
        [f"{prefix}/bin/fshell", "adapt", "a.c", "-o", "ad", "--check-overflow"],
        cwd=folder,
        capture_output=True,
        text=True,
    )
    yield (made.returncode, made.stderr) == (0, "") and made.stdout.endswith("wrote ad/overflow.h ad/a.c\n")
    words = ["f", "ad/overflow.h", "ad/a.c", "-o", "d"]
    ended = subprocess.run([f"{prefix}/bin/fshell", "rte", *words], cwd=folder, capture_output=True, text=True)
    yield ended.returncode == 1 and "\na.c:5:19: fails: overflow a[x & 3] - x: " in "\n" + ended.stdout


def a_wheel_has_the_program(folder: str) -> Iterator[bool]:
    """What `pip install ./python` unpacks: the tools, which find the released program beside them, and its sums."""
    building = f"import wheel_backend; print(wheel_backend.build_wheel({folder!r}))"
    made = subprocess.run(
        [sys.executable, "-c", building], cwd=environment.TOOLS, capture_output=True, text=True
    ).stdout
    with zipfile.ZipFile(os.path.join(folder, made.strip())) as wheel:
        wheel.extractall(os.path.join(folder, "site"))
        (program,) = (one for one in wheel.infolist() if one.filename == "fshell_tools/released/fshell")
    yield program.external_attr >> 16 & 0o111 == 0o111
    path = os.path.join(folder, "site", program.filename)
    os.chmod(path, 0o755)  # (as pip does by that mode)
    own = {name: value for name, value in os.environ.items() if name != "FSHELL"} | {
        "PYTHONPATH": os.path.join(folder, "site")
    }
    put(folder, {"both.c": example("counting/both.c")})

    def installed(*words: str) -> str:
        words = (sys.executable, "-c", "import sys; from fshell_tools.cli import main; sys.exit(main())", *words)
        return subprocess.run(words, cwd=folder, env=own, capture_output=True, text=True).stdout

    with open(os.path.join(environment.ROOT, "release", "fshell.sha256"), encoding="ascii") as file:
        yield installed("--version").splitlines()[1] == f"program {file.read().split()[0]} {path}"
    yield installed("goals", "cover @LINE(9)", "both.c").startswith("goals 1\n")
    yield installed("explain", "cover @LINE(9)", "both.c").startswith("goal 1:\n")
    yield installed("help", "goals").startswith("usage: fshell goals QUERY SOURCE...\n")


def nothing_is_left_half_copied(folder: str) -> Iterator[bool]:
    """Where a file may have 1,000 bytes at most, as on a full disk."""
    ended = run(folder, ["install", "to"], preexec_fn=lambda: resource.setrlimit(resource.RLIMIT_FSIZE, (1000, 1000)))
    yield ended.returncode == 2 and ended.stderr == "install: to/lib/fshell/program: File too large\n"
    yield [name for _, _, names in os.walk(os.path.join(folder, "to")) for name in names] == []


def tree_of(folder: str) -> dict[str, str]:
    """What stands in a folder: the bytes of each file as hexadecimal digits, where each link leads, and the folders."""
    found = {}
    for at, folders, names in os.walk(folder):
        for name in [*folders, *names]:
            path = os.path.join(at, name)
            if os.path.islink(path):
                found[os.path.relpath(path, folder)] = "-> " + os.readlink(path)
            elif os.path.isdir(path):
                found[os.path.relpath(path, folder)] = "folder"
            else:
                with open(path, "rb") as file:
                    found[os.path.relpath(path, folder)] = file.read().hex()
    return found


def what_others_put_there_stays(folder: str) -> Iterator[bool]:
    """A file, a link and a folder in the place of one of its files, and a file of its own that was changed: nothing is written, but
    with --force."""
    for number, (name, target) in enumerate(
        (("bin/fshell", ""), ("share/man/man1/fshell.1", "victim"), ("lib/fshell/program", ""))
    ):
        prefix = os.path.join(folder, str(number))
        put(folder, {"victim": "precious\n"})
        os.makedirs(os.path.dirname(os.path.join(prefix, name)))
        if target:
            os.symlink(os.path.join(folder, target), os.path.join(prefix, name))
        else:
            put(prefix, {name: "mine\n"})
        before = tree_of(prefix)
        ended = run(folder, ["install", prefix])
        line = f"install: {prefix}/{name}: it wasn't put there by fshell install, or was changed since; --force replaces it\n"
        yield (ended.returncode, ended.stdout, ended.stderr) == (2, "", line) and tree_of(prefix) == before
        yield run(folder, ["install", prefix, "--force"]).returncode == 0
        put(prefix, {"lib/fshell/docs/TOOLS.md": "changed\n"})
        yield run(folder, ["install", prefix]).returncode == 2
        with open(os.path.join(folder, "victim"), encoding="utf-8") as file:
            yield file.read() == "precious\n"


def what_was_put_there_is_taken_back(folder: str) -> Iterator[bool]:
    """The prefix is afterwards as it was before, but for what was changed since; without a list nothing is taken back."""
    put(folder, {"to/bin/other": "other\n", "to/share/man/man1/other.1": "other\n"})
    before = tree_of(os.path.join(folder, "to"))
    refused = run(folder, ["install", "--uninstall", "to"])
    yield refused.returncode == 2 and refused.stderr.endswith("so nothing is known of what was installed\n")
    for changed in (False, True):
        yield run(folder, ["install", "to"]).returncode == 0
        # (which has Python compile its modules there)
        own = {name: value for name, value in os.environ.items() if name not in ("FSHELL", "PYTHONDONTWRITEBYTECODE")}
        path = os.path.join(folder, "to", "bin", "fshell")
        yield subprocess.run([path, "--help"], env=own, capture_output=True).returncode == 0
        if changed:
            put(folder, {"to/lib/fshell/README.md": "mine\n"})
        ended = run(folder, ["install", "--uninstall", "to"])
        told = "it stays, since it was changed: to/lib/fshell/README.md\n" if changed else ""
        yield (ended.returncode, ended.stdout) == (int(changed), f"{told}to: what was put there is taken back\n")
        mine = {"lib": "folder", "lib/fshell": "folder", "lib/fshell/README.md": b"mine\n".hex()} if changed else {}
        yield tree_of(os.path.join(folder, "to")) == before | mine


def a_list_that_leads_elsewhere_is_refused(folder: str) -> Iterator[bool]:
    """Of what was installed; nothing outside of the prefix is removed."""
    put(folder, {"victim": "precious\n"})
    one = hashlib.sha256(b"precious\n").hexdigest()
    for name in ("../victim", os.path.join(folder, "victim"), "a/../../victim", "victim\0"):
        text = json.dumps({"format": "fshell installed 1", "files": {name: one}, "folders": []})
        for listed in (text, text[:-1], "[]", '{"format": "fshell installed 1", "files": {"a": 1}, "folders": [7]}'):
            put(folder, {"to/lib/fshell/installed.json": listed})
            ended = run(folder, ["install", "--uninstall", "to"])
            line = "install: to/lib/fshell/installed.json: it is no list of what was installed\n"
            yield (ended.returncode, ended.stderr) == (2, line) and os.path.exists(os.path.join(folder, "victim"))


def completed(folder: str, words: str) -> list[str]:
    """What bash completes behind these words; the last one is begun."""
    at = len(words.split()) - 1
    command = f". to/share/bash-completion/completions/fshell; COMP_WORDS=({words}); COMP_CWORD={at}; _fshell; echo ${{COMPREPLY[@]}}"
    return subprocess.run(["bash", "-c", command], cwd=folder, capture_output=True, text=True).stdout.split()


def options_of(text: str) -> set[str]:
    """The options that a help names: those at the begin of a line, with their other names."""
    return {
        name
        for line in text.splitlines()
        if line.startswith("  -")
        for name in re.findall(r"(?:^|, )(--?[A-Za-z][a-z-]*)", line.strip())
    }


def helps(folder: str) -> Iterator[tuple[str, str]]:
    """The help of each tool, by its name."""
    for name in cli.TOOLS:
        yield name, run(folder, [name, "--help"]).stdout


def completion_knows_each_option(folder: str) -> Iterator[bool]:
    """Of each tool it offers what its help names, and no more."""
    run(folder, ["install", "to"])
    for name, text in helps(folder):
        offered = {one for one in completed(folder, f"fshell {name} -") if one.startswith("-")}
        yield len(offered) >= 2 and offered == options_of(text)


def completion_knows_words(folder: str) -> Iterator[bool]:
    run(folder, ["install", "to"])
    put(folder, {"in/a.c": "", "b.txt": ""})
    yield completed(folder, "fshell me") == ["measure"]
    yield completed(folder, "fshell measure --e") == ["--ends"]
    yield completed(folder, "fshell check --") == ["--turns", "--frames", "--answers", "--ends"]
    yield completed(folder, "fshell generate --ends ''") == ["returned", "trapped", "any"]
    yield completed(folder, "fshell generate --turns ''") == []
    yield completed(folder, "fshell --") == ["--help", "--version", "--explain"]
    yield completed(folder, "fshell measure f q b") == ["b.txt"]
    yield completed(folder, "fshell campaign --ssh") == ["--sshloginfile"]
    yield sorted(completed(folder, "fshell campaign -o ''")) == ["in", "to"]
    yield completed(folder, "fshell inputs --to n") == ["named"]
    yield completed(folder, "fshell r") == ["run", "report", "runs", "replay", "rte"]
    yield completed(folder, "fshell run --s") == ["--since", "--sshloginfile"]
    yield completed(folder, "fshell help camp") == ["campaign"]
    for shell, path in (("zsh", "zsh/site-functions/_fshell"), ("fish", "fish/vendor_completions.d/fshell.fish")):
        with open(os.path.join(folder, "to/share", path), encoding="utf-8") as file:
            yield file.read() == run(folder, ["completion", shell]).stdout != ""


def documents_and_pages_name_each_option(folder: str) -> Iterator[bool]:
    """docs/TOOLS.md, and each manual page with the statuses that the help tells."""
    run(folder, ["install", "to"])
    with open(os.path.join(environment.ROOT, "docs", "TOOLS.md"), encoding="utf-8") as file:
        sections = dict(re.findall(r"^## fshell ([\w, ]+)\n(.*?)(?=^## |\Z)", file.read(), re.DOTALL | re.MULTILINE))
    sections = {name: text for heading, text in sections.items() for name in heading.split(", ")}
    for name, text in helps(folder):
        long = {one for one in options_of(text) if one.startswith("--")} - {"--help"}
        yield not [one for one in long if f"{one}" not in re.findall(r"--[a-z-]+", sections[name])]
        with open(os.path.join(folder, "to/share/man/man1", f"fshell-{name}.1"), encoding="utf-8") as file:
            page = file.read().replace("\\-", "-")
        yield not [one for one in options_of(text) if f"\\fB{one}" not in page and f", {one}\\fR" not in page]
        told = text[text.index("exit status:") :]
        statuses = re.findall(r"^  ([0-9])  (.+)$", told, re.MULTILINE)
        yield [number for number, _ in statuses][:: len(statuses) - 1][0] == "0" and "2" in dict(statuses)
        shown = page[page.index(".SH EXIT STATUS") : page.index(".SH ENVIRONMENT")]
        yield re.findall(r"^\.TP\n([0-9])$", shown, re.MULTILINE) == [number for number, _ in statuses]


def packed(folder: str, *words: str) -> tuple[subprocess.CompletedProcess[str], str]:
    """How fshell package ends, and the path of what it wrote."""
    ended = run(folder, ["package", *words])
    return ended, os.path.join(folder, ended.stdout.strip())


def a_package_is_one_file_that_works(folder: str) -> Iterator[bool]:
    """Installed by dpkg under a scratch root, run from there, and removed whole."""
    ended, path = packed(folder, "--version", "1.2")
    yield (ended.returncode, ended.stdout) == (0, "./fshell_1.2_amd64.deb\n")
    with open(path, "rb") as file:
        first = file.read()
    _, path = packed(folder, "--version", "1.2")
    with open(path, "rb") as file:
        yield file.read() == first
    root = os.path.join(folder, "root")
    put(root, {"var/lib/dpkg/status": "", "var/lib/dpkg/available": ""})
    forced = "--force-not-root --force-depends --force-script-chrootless --no-triggers"
    dpkg = ["dpkg", f"--root={root}", *forced.split()]
    yield subprocess.run([*dpkg, "-i", path], capture_output=True, text=True).returncode == 0
    own = {name: value for name, value in os.environ.items() if name != "FSHELL"}

    def installed(*words: str) -> subprocess.CompletedProcess[str]:
        return subprocess.run(
            [os.path.join(root, "usr/bin/fshell"), *words],
            cwd=os.path.join(root, "module"),
            env=own,
            capture_output=True,
            text=True,
        )

    shutil.copytree(
        os.path.join(environment.ROOT, "examples", "module"),
        os.path.join(root, "module"),
        ignore=shutil.ignore_patterns("fshell.out"),
    )
    yield installed("--explain", "66").stdout == "66 PredicateNowhere: a predicate is typable in no node's scope\n"
    yield all(installed(name, "--help").returncode == 0 for name in commands.TOOLS)
    yield installed("run").stdout.endswith("requirement R-5: holds\nthe gate passes\n")
    # (documents and manual pages may be left out of a machine: nothing else needs them)
    shutil.rmtree(os.path.join(root, "usr/share"))
    yield installed("--help").stdout.startswith("FShell tests ")
    yield subprocess.run([*dpkg, "-r", "fshell"], capture_output=True, text=True).returncode == 0
    yield [name for at, _, names in os.walk(os.path.join(root, "usr")) for name in names] == []


def a_package_is_written_through_no_link(folder: str) -> Iterator[bool]:
    """That stands where the package is to be, or where a name beside it could be foreseen."""
    put(folder, {"victim": "precious\n"})
    name = "fshell_1.2_amd64.deb"
    for end in ("", ".new", ".tmp"):
        os.symlink("victim", os.path.join(folder, name + end))
    ended, path = packed(folder, "--version", "1.2")
    yield ended.returncode == 0 and os.path.isfile(path) and not os.path.islink(path)
    with open(os.path.join(folder, "victim"), encoding="utf-8") as file:
        yield file.read() == "precious\n"
    yield sorted(os.listdir(folder)) == [name, name + ".new", name + ".tmp", "victim"]


def a_package_has_no_errors(folder: str) -> Iterator[bool]:
    """By Debian's own checker; what is overridden is told with its reason in the documents."""
    _, path = packed(folder, "--version", "1.2")
    words = ["lintian", *(["--allow-root"] if os.getuid() == 0 else [])]
    told = subprocess.run([*words, "--fail-on", "error,warning", path], capture_output=True, text=True)
    yield (told.returncode, told.stdout) == (0, "")
    lines = subprocess.run([*words, "--show-overrides", path], capture_output=True, text=True).stdout.splitlines()
    yield [line for line in lines if line[:2] != "N:"] == [
        "O: fshell: unstripped-binary-or-object [usr/lib/fshell/program]"
    ]


def a_package_is_refused(folder: str) -> Iterator[bool]:
    for words, line in (
        (["--version", "v1"], "v1 is no version: a digit first, and then letters, digits, points, + and ~"),
        (["--maintainer", "me"], "me isn't of the form NAME <MAIL>"),
    ):
        ended = run(folder, ["package", *words])
        yield ended.returncode == 2 and ended.stderr.endswith(f"fshell package: error: {line}\n")
    ended = run(folder, ["package", "-o", "nowhere"])
    yield (ended.returncode, ended.stderr) == (2, "package: nowhere: there is no such folder\n") and os.listdir(
        folder
    ) == []


def needs_are_told(folder: str) -> Iterator[bool]:
    ended = run(
        folder,
        ["install", "--check"],
        env={
            **os.environ,
            "PATH": os.path.join(folder, "nothing")
            + ":"
            + os.path.dirname(
                subprocess.run(["sh", "-c", "command -v python3"], capture_output=True, text=True).stdout.strip()
            ),
        },
    )
    lines = ended.stdout.splitlines()
    yield len(lines) == 7 and lines[0] == "there    Python 3.11, for all tools"
    yield all(line.startswith(("there    ", "missing  ")) for line in lines)
    yield ended.returncode == any(line.startswith("missing") for line in lines)
    yield all("(Debian: apt-get install " in line for line in lines if line.startswith("missing"))


def manual_pages_are_shown(folder: str) -> Iterator[bool]:
    run(folder, ["install", "to"])
    pages = os.path.join(folder, "to", "share", "man", "man1")
    yield sorted(os.listdir(pages)) == sorted(
        f"{name}.1" for name in ["fshell", *COMMANDS, *(f"fshell-{name}" for name in cli.TOOLS)]
    )
    for name in os.listdir(pages):
        words = ["man", "--warnings", "-l", os.path.join(pages, name)]
        shown = subprocess.run(
            words, capture_output=True, text=True, env={**os.environ, "MANWIDTH": "120", "LC_ALL": "C.UTF-8"}
        )
        yield (shown.returncode, shown.stderr) == (
            0,
            "",
        ) and "DESCRIPTION" in shown.stdout or name == "fshell.1" and "EXIT STATUS" in shown.stdout


MODULE = (
    "dpkg-deb",
    "gcc",
    "pycparser",
    "jinja2",
    "python3-pycparser",
    "python3-jinja2",
)  # (a package runs by Debian's Python)
TRIED = [((), a_wheel_has_the_program), ((), installed_tools_work), (("pycparser", "gcc", "graph"), installed_adapt_has_its_models), ((), nothing_is_left_half_copied),
         ((), what_others_put_there_stays), ((), what_was_put_there_is_taken_back), ((), a_list_that_leads_elsewhere_is_refused),
         (("dpkg-deb",), a_package_is_written_through_no_link),
         (("bash",), completion_knows_words), (("bash",), completion_knows_each_option), ((), documents_and_pages_name_each_option),
         ((), needs_are_told), (("man",), manual_pages_are_shown), (MODULE, a_package_is_one_file_that_works),
         (("dpkg-deb", "lintian"), a_package_has_no_errors), (("dpkg-deb",), a_package_is_refused)]  # fmt: skip
