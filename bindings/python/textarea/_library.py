"""The library of the core, loaded once. It is the one that the environment variable TEXTAREA_LIBRARY
names, or else libtextarea.so beside this file, or else, in a checkout, the released one."""

import ctypes
import os
import pathlib

from . import _sys

NAME = "libtextarea.so"
HELP = """Any of these makes it work:
- pip install release/textarea-*.whl, in a checkout with a folder release
- set TEXTAREA_LIBRARY to the path of a libtextarea.so; docs/BINDINGS.md says how one is built"""


def path() -> pathlib.Path:
    """Where the library is."""
    folder = pathlib.Path(__file__).resolve().parent
    named, beside = os.environ.get("TEXTAREA_LIBRARY"), folder / NAME
    if named:
        return pathlib.Path(named)
    is_checkout = (folder.parent / "pyproject.toml").exists()
    return folder.parents[2] / "release" / NAME if is_checkout and not beside.exists() else beside


def load() -> ctypes.CDLL:
    """The library with its calls declared. What is wrong is an ImportError that says what to do."""
    file = path()
    if not file.exists():
        raise ImportError(f"textarea: there is no library {file}.\n{HELP}")
    try:
        found = ctypes.CDLL(str(file))
    except OSError as error:
        needs = "A released library is for Linux on x86-64-v2 with glibc 2.17 or later."
        raise ImportError(f"textarea: the library can't be loaded: {error}. {needs}") from None
    _sys.declare(found)
    return found


lib = load()
