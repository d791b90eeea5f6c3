"""The module that calls the C library: the extension module, or the one over ctypes."""

from __future__ import annotations

import os
import sys
from importlib import import_module
from types import ModuleType

_MODULES = {"extension": "._extension", "ctypes": "._by_ctypes"}


def _load() -> ModuleType:
    """Returns the module that the environment names, or else the extension module, if it can be loaded."""
    # Python without its lock (3.13t) has this function, and then it returns False.
    if not getattr(sys, "_is_gil_enabled", lambda: True)():
        raise ImportError("globset is for Python with its lock: run this interpreter with PYTHON_GIL=1, or another one")
    chosen = os.environ.get("GLOBSET_BINDING", "")
    if chosen:
        if chosen not in _MODULES:
            raise ImportError(f"GLOBSET_BINDING is extension or ctypes, not {chosen!r}")
        return _load_chosen(chosen)
    try:
        return import_module("._extension", __package__)
    except ImportError as error:
        try:
            return import_module("._by_ctypes", __package__)
        except ImportError as other:
            raise ImportError(f"globset: neither its extension module nor ctypes can be used: {error}; {other}") from error


def _load_chosen(chosen: str) -> ModuleType:
    """Returns the module that the environment names."""
    try:
        return import_module(_MODULES[chosen], __package__)
    except ImportError as error:
        raise ImportError(f"GLOBSET_BINDING is {chosen}, which cannot be used: {error}. Without it globset chooses") from error


binding = _load()
