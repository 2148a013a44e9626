"""The functions of a script that has no ending, as a module. Not a test: tests import it."""
import functools
import importlib.machinery
import importlib.util
import os
from types import ModuleType

from gikvand.words import sure

ROOT = os.path.dirname(os.path.dirname(os.path.abspath(__file__)))


@functools.cache
def loaded(name: str) -> ModuleType:
    """A script of the project, by its name from the root."""
    loader = importlib.machinery.SourceFileLoader(os.path.basename(name).replace("-", "_"), os.path.join(ROOT, name))
    module = importlib.util.module_from_spec(sure(importlib.util.spec_from_loader(loader.name, loader)))
    loader.exec_module(module)
    return module
