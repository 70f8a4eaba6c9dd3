"""Loads scripts whose names don't end with .py as modules, to test their functions."""

from __future__ import annotations

import importlib.machinery
import importlib.util
import sys
from types import ModuleType


def module_of(name: str, path: str) -> ModuleType:
    """Loads the script at this path as a module with this name."""
    loader = importlib.machinery.SourceFileLoader(name, path)
    spec = importlib.util.spec_from_loader(name, loader)
    assert spec is not None
    made = importlib.util.module_from_spec(spec)
    sys.modules[name] = made  # (dataclasses look their module up there)
    loader.exec_module(made)
    return made
