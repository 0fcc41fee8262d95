"""Pages by jinja2, from templates that stand beside the code that shows them."""

import importlib.util
import os

from fshell_tools.core.program import Failure

MISSING = "jinja2 isn't there (Debian: apt-get install python3-jinja2)"


def is_there() -> bool:
    """Whether pages can be made: jinja2 is there."""
    return importlib.util.find_spec("jinja2") is not None


def rendered(template: str, **values: object) -> str:
    """The HTML that a template, by its path, makes of these values; what they put into it is escaped. Raises Failure where jinja2
    isn't there."""
    try:
        import jinja2
    except ImportError:
        raise Failure(MISSING) from None
    folder, name = os.path.split(template)
    loader, strict = jinja2.FileSystemLoader(folder), jinja2.StrictUndefined
    made = jinja2.Environment(loader=loader, autoescape=True, undefined=strict, trim_blocks=True, lstrip_blocks=True)
    return made.get_template(name).render(**values)
