"""Builds the wheel of this folder by Python alone (PEP 517): `pip install ./python` needs no network and no other package."""

import base64
import hashlib
import os
import tomllib
import zipfile
from typing import Any

HERE = os.path.dirname(os.path.abspath(__file__))
KEPT = (".py", ".html", ".css", ".c", ".h")
RELEASE = os.path.join(HERE, "..", "release")
DOCS = os.path.join(HERE, "..", "docs")
EXECUTABLE = 0o100755 << 16


def _metadata() -> tuple[str, dict[str, str]]:
    """The name of the wheel's files, and the texts of its .dist-info."""
    with open(os.path.join(HERE, "pyproject.toml"), "rb") as file:
        project = tomllib.load(file)["project"]
    lines = [
        "Metadata-Version: 2.1",
        f"Name: {project['name']}",
        f"Version: {project['version']}",
        f"Summary: {project['description']}",
    ]
    lines += [
        f"Requires-Python: {project['requires-python']}",
        *(f"Requires-Dist: {one}" for one in project["dependencies"]),
    ]
    scripts = ["[console_scripts]", *(f"{name} = {call}" for name, call in project["scripts"].items())]
    tag = f"py3-none-{'linux_x86_64' if has_program() else 'any'}"
    pure = "false" if has_program() else "true"
    wheel = ["Wheel-Version: 1.0", "Generator: fshell", f"Root-Is-Purelib: {pure}", f"Tag: {tag}"]
    texts = {"METADATA": lines, "WHEEL": wheel, "entry_points.txt": scripts}
    return f"{project['name'].replace('-', '_')}-{project['version']}", {
        name: "\n".join(text) + "\n" for name, text in texts.items()
    }


def has_program() -> bool:
    """Whether the release is beside this folder, whose program the wheel then has."""
    return os.path.isfile(os.path.join(RELEASE, "fshell"))


def of_release() -> dict[str, bytes]:
    """The released program with its sums, and the documents that help is made of, by their names in the wheel."""
    found = {}
    if has_program():
        for folder, to in ((RELEASE, "released"), (DOCS, "released/docs")):
            for one in sorted(os.listdir(folder)):
                if os.path.isfile(os.path.join(folder, one)):
                    with open(os.path.join(folder, one), "rb") as file:
                        found[f"fshell_tools/{to}/{one}"] = file.read()
    return found


def build_wheel(wheel_directory: str, config_settings: Any = None, metadata_directory: str | None = None) -> str:
    """Writes the wheel into a folder; its name."""
    name, texts = _metadata()
    files = {f"{name}.dist-info/{one}": text.encode() for one, text in texts.items()}
    for at, _, names in os.walk(os.path.join(HERE, "fshell_tools")):
        for one in names:
            if one.endswith(KEPT):
                with open(os.path.join(at, one), "rb") as file:
                    files[os.path.relpath(os.path.join(at, one), HERE)] = file.read()
    files |= of_release()
    rows = []
    wheel = f"{name}-py3-none-{'linux_x86_64' if has_program() else 'any'}.whl"
    with zipfile.ZipFile(os.path.join(wheel_directory, wheel), "w", zipfile.ZIP_DEFLATED) as made:
        for path in sorted(files):
            entry = zipfile.ZipInfo(path)
            if path == "fshell_tools/released/fshell":
                entry.external_attr = EXECUTABLE
            made.writestr(entry, files[path], zipfile.ZIP_DEFLATED)
            digest = base64.urlsafe_b64encode(hashlib.sha256(files[path]).digest()).rstrip(b"=").decode()
            rows.append(f"{path},sha256={digest},{len(files[path])}\n")
        record = f"{name}.dist-info/RECORD"
        made.writestr(zipfile.ZipInfo(record), "".join(rows) + f"{record},,\n")
    return wheel
