"""What the parts of the writer have in common: each knows the writer, and by it the others."""

from typing import TYPE_CHECKING

if TYPE_CHECKING:
    from fshell_tools.adapt.write.writer import Writer


class Component:
    """A part of the writer."""

    def __init__(self, writer: "Writer") -> None:
        self.writer = writer
