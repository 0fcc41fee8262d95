"""fshell package: writes a Debian package of the program and the tools, as fshell install puts them under /usr.

A pipeline installs the one file: `apt-get install ./fshell_VERSION_ARCH.deb`. Two packages of one commit are the same, byte for byte.
"""

import gzip
import hashlib
import os
import re
import shutil
import subprocess
import tempfile
import time

from fshell_tools.core import argument_parsers, program
from fshell_tools.core.program import ROOT, Failure
from fshell_tools.packaging import install

MACHINES = {0x3E: "amd64", 0xB7: "arm64"}
CONTROL = """Package: fshell
Version: {version}
Section: devel
Priority: optional
Architecture: {arch}
Maintainer: {maintainer}
Installed-Size: {size}
Depends: libc6 (>= {libc}), python3 (>= 3.11), python3-jinja2, python3-pycparser
Recommends: gcc, parallel
Suggests: graphviz, lcov
Description: query-driven test generator and coverage measurer for C
 FShell measures which goals of a coverage query (FQL) inputs cover, makes
 inputs for the others, and certifies what no input covers. With it come tools
 for modules of many functions, for reports and for pipelines.
"""
COPYRIGHT = """Format: https://www.debian.org/doc/packaging-manuals/copyright-format/1.0/
Upstream-Name: FShell
Source: the repository in which fshell package made this package

Files: *
Copyright: {year} the authors of FShell
License: none-stated
 The repository of FShell states no licence. Ask those who gave it to you.
"""
OVERRIDES = """# the program is the released one, byte for byte: its sum stands in release/fshell.sha256 of the repository
fshell: unstripped-binary-or-object [usr/lib/fshell/program]
"""
CHANGELOG = """fshell ({version}) unstable; urgency=medium

  * Made by fshell package of the repository; its CHANGELOG.md says what changed.

 -- {maintainer}  {date}
"""
COMPILE = """#!/bin/sh
set -e
if [ "$1" = configure ] && [ -z "${DPKG_ROOT:-}" ] && command -v py3compile >/dev/null 2>&1; then
  py3compile -p fshell /usr/lib/fshell
fi
"""
CLEAN = """#!/bin/sh
set -e
find "${DPKG_ROOT:-}/usr/lib/fshell" -depth -type d -name __pycache__ -exec rm -rf {} +
"""


def machine_of(path: str) -> tuple[str, str]:
    """The architecture of a program, as Debian names it, and the version of the C library that it asks for. Raises
    Failure where it is none that Debian has."""
    data = program.read(path)
    arch = MACHINES.get(int.from_bytes(data[18:20], "little")) if data[:4] == b"\x7fELF" else None
    if arch is None:
        raise Failure(f"{path}: it is no program for {' or '.join(MACHINES.values())}")
    asked = [tuple(map(int, one)) for one in re.findall(rb"GLIBC_([0-9]+)\.([0-9]+)", data)]
    return arch, ".".join(map(str, max(asked, default=(2, 36))))


def begun_at() -> int:
    """The seconds of the last commit; where there is none, now."""
    given = os.environ.get("SOURCE_DATE_EPOCH", "")
    if given.isdecimal():
        return int(given)
    told = subprocess.run(["git", "-C", ROOT, "log", "-1", "--format=%ct"], capture_output=True, text=True, check=False)
    return int(told.stdout) if told.stdout.strip().isdecimal() else int(time.time())


def zipped(path: str) -> None:
    """Packs a file without its name and time, so that it is the same each time."""
    with open(path, "rb") as file:
        data = gzip.compress(file.read(), 9, mtime=0)
    os.remove(path)
    with open(path + ".gz", "wb") as file:
        file.write(data)


def fitted(top: str) -> None:
    """Fits what fshell install puts there to Debian's rules: packed manual pages, Python by its path, modes."""
    man = os.path.join(top, "usr/share/man/man1")
    for name in os.listdir(man):
        zipped(os.path.join(man, name))
    scripts = os.path.join(top, "usr/lib/fshell/bin")
    for name in os.listdir(scripts):
        text = program.read(os.path.join(scripts, name)).decode()
        install.put(re.sub(r"\bpython3 (?=\")", "/usr/bin/python3 ", text), os.path.join(scripts, name), True)
    for at, folders, names in os.walk(top):
        for one in folders:
            os.chmod(os.path.join(at, one), 0o755)
        for one in names:
            path = os.path.join(at, one)
            is_program = one == "program" or (at == scripts and not one.endswith(".awk"))
            if not os.path.islink(path):
                os.chmod(path, 0o755 if is_program else 0o644)


def files_of(top: str) -> list[str]:
    """The files that are installed, by their paths from the top."""
    found = [os.path.join(at, name) for at, _, names in os.walk(os.path.join(top, "usr")) for name in names]
    return sorted(os.path.relpath(path, top) for path in found if not os.path.islink(path))


def described(top: str, version: str, maintainer: str, seconds: int) -> str:
    """Writes what Debian wants to know of a package; the architecture."""
    arch, libc = machine_of(os.path.join(top, "usr/lib/fshell/program"))
    doc = os.path.join(top, "usr/share/doc/fshell")
    date = time.strftime("%a, %d %b %Y %H:%M:%S +0000", time.gmtime(seconds))
    program.write_whole(os.path.join(doc, "copyright"), COPYRIGHT.format(year=time.gmtime(seconds).tm_year))
    program.write_whole(
        os.path.join(doc, "changelog"), CHANGELOG.format(version=version, maintainer=maintainer, date=date)
    )
    zipped(os.path.join(doc, "changelog"))
    overrides = os.path.join(top, "usr/share/lintian/overrides")
    os.makedirs(overrides)
    program.write_whole(os.path.join(overrides, "fshell"), OVERRIDES)
    control = os.path.join(top, "DEBIAN")
    os.mkdir(control)
    size = sum(-(-os.path.getsize(os.path.join(top, path)) // 1024) for path in files_of(top))
    told = CONTROL.format(version=version, arch=arch, maintainer=maintainer, size=size, libc=libc)
    program.write_whole(os.path.join(control, "control"), told)
    for name, text in (("postinst", COMPILE), ("prerm", CLEAN)):
        install.put(text, os.path.join(control, name), True)
    sums = [f"{hashlib.md5(program.read(os.path.join(top, path))).hexdigest()}  {path}\n" for path in files_of(top)]
    program.write_whole(os.path.join(control, "md5sums"), "".join(sums))
    return arch


def dated(top: str, seconds: int) -> None:
    """Gives all files one time."""
    for at, folders, names in os.walk(top, topdown=False):
        for name in [*names, *folders]:
            os.utime(os.path.join(at, name), (seconds, seconds), follow_symlinks=False)
    os.utime(top, (seconds, seconds))


def package(folder: str, version: str, maintainer: str) -> str:
    """Makes the package; its path. Raises Failure where it can't be built."""
    if not shutil.which("dpkg-deb"):
        raise Failure("dpkg-deb isn't there (Debian: apt-get install dpkg)")
    seconds = begun_at()
    version = version or time.strftime("0.%Y%m%d.%H%M", time.gmtime(seconds))
    with tempfile.TemporaryDirectory() as top:
        os.chmod(top, 0o755)
        install.install(os.path.join(top, "usr"), is_listed=False)
        fitted(top)
        arch = described(top, version, maintainer, seconds)
        dated(top, seconds)
        made = os.path.join(folder, f"fshell_{version}_{arch}.deb")
        built(top, made, seconds)
    return made


def built(top: str, made: str, seconds: int) -> None:
    """Has Debian's tool make the package, in a folder of its own beside its place, so that no link there is written through. Raises
    Failure where it can't."""
    with tempfile.TemporaryDirectory(prefix=".new.", dir=os.path.dirname(made)) as beside:
        new = os.path.join(beside, "new.deb")
        words = ["dpkg-deb", "--root-owner-group", "-Zxz", "--build", top, new]
        own = {**os.environ, "SOURCE_DATE_EPOCH": str(seconds)}
        ended = subprocess.run(words, env=own, capture_output=True, text=True, check=False)
        if ended.returncode:
            raise Failure((ended.stderr.strip().splitlines() or [f"dpkg-deb ended with {ended.returncode}"])[-1])
        os.replace(new, made)


def parser_of_words() -> argument_parsers.Parser:
    """What reads the words of fshell package; a wrong word ends the tool with status 2."""
    parser = argument_parsers.parser("package", __doc__, "the package is written")
    parser.add_argument("-o", metavar="DIR", dest="folder", default=".", help="the folder of the package (.)")
    parser.add_argument(
        "--version", metavar="V", default="", help="its version; else it is made of the last commit's time"
    )
    name = "FShell maintainers <maintainers@fshell.invalid>"
    parser.add_argument("--maintainer", metavar="NAME", default=name, help="who is named in it, as `NAME <MAIL>`")
    return parser


def main() -> int:
    """Writes a package, as the module says; the status is 0. Raises Failure where its folder isn't there."""
    parser = parser_of_words()
    given = parser.parse_args()
    if given.version and not re.fullmatch(r"[0-9][A-Za-z0-9.+~]*", given.version):
        parser.error(f"{given.version} is no version: a digit first, and then letters, digits, points, + and ~")
    if not re.fullmatch(r"[^<>\n]+ <[^<>\s]+@[^<>\s]+>", given.maintainer):
        parser.error(f"{given.maintainer} isn't of the form NAME <MAIL>")
    if not os.path.isdir(given.folder):
        raise Failure(f"{given.folder}: there is no such folder")
    print(package(given.folder, given.version, given.maintainer))
    return program.DONE
