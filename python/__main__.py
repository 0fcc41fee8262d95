"""The tools from a clone or an installed folder: `python3 python TOOL WORD..`. Python puts this folder at the head of its path."""

import sys

from fshell_tools.cli import main

if __name__ == "__main__":
    sys.exit(main())
