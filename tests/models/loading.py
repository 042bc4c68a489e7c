"""What tests load: programs of the repository, whose files have no ending, and programs that may not be installed."""

import importlib.util
import shutil
import sys
import unittest
from collections.abc import Callable
from importlib.machinery import SourceFileLoader
from pathlib import Path
from types import ModuleType
from typing import Any


def needs(tool: str) -> Callable[[Any], Any]:
    """Passes a test over where a program is not installed, which is said."""
    if shutil.which(tool):
        return lambda test: test
    print(f"unit: what needs {tool}: skipped, as it is not installed", file=sys.stderr)
    return unittest.skip(f"{tool} is not installed")


def module_of(path: Path) -> ModuleType:
    """A program that is no module by its name."""
    loader = SourceFileLoader(path.name, str(path))
    spec = importlib.util.spec_from_loader(path.name, loader)
    assert spec
    module = sys.modules[path.name] = importlib.util.module_from_spec(spec)
    loader.exec_module(module)
    return module
