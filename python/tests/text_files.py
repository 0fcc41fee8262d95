"""How the scripts here read pages of the repository, and write them: whole or not at all."""

import os
import re


def text_of(path: str) -> str:
    """What a file holds."""
    with open(path, encoding="utf-8") as file:
        return file.read()


def put(path: str, text: str) -> None:
    """Puts a text into a file, by a new file that is then moved there."""
    with open(path + ".new", "w", encoding="utf-8") as file:
        file.write(text)
    os.replace(path + ".new", path)


def anchor(heading: str) -> str:
    """The anchor that a page of headings gives to one."""
    return re.sub(r"[^\w -]", "", heading.lower()).replace(" ", "-")
