"""How a script of this folder, whose name has no ending, is read as a module by others."""

import importlib.machinery
import importlib.util
import os
import sys
from types import ModuleType

HERE = os.path.dirname(os.path.abspath(__file__))


def load(name: str) -> ModuleType:
    """The module that a script of this folder is. Nothing compiled is kept of it. Raises FileNotFoundError where there is none."""
    loader = importlib.machinery.SourceFileLoader(name, os.path.join(HERE, name))
    made = ModuleType(name)
    made.__file__ = loader.path
    sys.dont_write_bytecode = True
    loader.exec_module(made)
    return made
