"""Makes the wheel of the package `textarea`, with the library of the core in it. `pip` calls `build_wheel`,
and so does `tools/release`. The same files give the same names and contents in the wheel, and no times.

The library is the one that the environment variable TEXTAREA_LIBRARY names, or else the released one.
"""

import base64
import hashlib
import os
import pathlib
import re
import zipfile

FOLDER = pathlib.Path(__file__).resolve().parent
RELEASED = FOLDER.parents[1] / "release/libtextarea.so"
MANYLINUX = "manylinux_2_17_x86_64"
METADATA = """\
Metadata-Version: 2.1
Name: textarea
Version: {version}
Summary: A multi-line text editor widget for terminals, over a proved core
License: MIT
Requires-Python: >=3.8
Classifier: Operating System :: POSIX :: Linux
Classifier: Typing :: Typed
Description-Content-Type: text/markdown

`textarea.TextArea` is a multi-line text editor widget for terminals: a selection, yank, search, undo,
atomic ranges, wrapping, line numbers, a mask, a block, a placeholder and hit tests. `help(textarea)`
documents it, `textarea.in_curses` shows one in a terminal, and `python -m textarea FILE` is a small editor.
"""
WHEEL = """\
Wheel-Version: 1.0
Generator: make_wheel
Root-Is-Purelib: false
Tag: py3-none-{platform}
"""


def version():
    text = (FOLDER / "textarea/__init__.py").read_text(encoding="utf-8")
    return re.search(r'^__version__ = "(.+)"$', text, re.M)[1]


def files_of(library, platform):
    """The files of the wheel but RECORD, by their names there."""
    info = f"textarea-{version()}.dist-info"
    package = sorted([*(FOLDER / "textarea").glob("*.py"), FOLDER / "textarea/py.typed"])
    found = {f"textarea/{file.name}": file.read_bytes() for file in package}
    found["textarea/libtextarea.so"] = pathlib.Path(library).read_bytes()
    found[f"{info}/LICENSE"] = (FOLDER.parents[1] / "LICENSE").read_bytes()
    found[f"{info}/METADATA"] = METADATA.format(version=version()).encode()
    found[f"{info}/WHEEL"] = WHEEL.format(platform=platform).encode()
    return found


def write(folder, library, platform):
    """Writes the wheel into a folder, and returns its name."""
    files, rows = files_of(library, platform), []
    for name, data in files.items():
        sum_ = base64.urlsafe_b64encode(hashlib.sha256(data).digest()).rstrip(b"=").decode()
        rows.append(f"{name},sha256={sum_},{len(data)}\n")
    record = f"textarea-{version()}.dist-info/RECORD"
    files[record] = "".join([*rows, f"{record},,\n"]).encode()
    wheel = f"textarea-{version()}-py3-none-{platform}.whl"
    with zipfile.ZipFile(pathlib.Path(folder) / wheel, "w", zipfile.ZIP_DEFLATED, compresslevel=9) as out:
        for name, data in files.items():
            entry = zipfile.ZipInfo(name, (1980, 1, 1, 0, 0, 0))
            entry.compress_type, entry.external_attr, entry.create_system = zipfile.ZIP_DEFLATED, 0o644 << 16, 3
            out.writestr(entry, data)
    return wheel


def build_wheel(wheel_directory, config_settings=None, metadata_directory=None):
    """What pip calls."""
    named = os.environ.get("TEXTAREA_LIBRARY")
    library = pathlib.Path(named) if named else RELEASED
    if not library.exists():
        raise SystemExit(
            f"textarea: there is no library {library}. Set TEXTAREA_LIBRARY to the path of a libtextarea.so;"
            " docs/BINDINGS.md says how one is built. (A pip older than 21.3 copies this folder away from the"
            " folder release: update it.)")
    return write(wheel_directory, library, "linux_x86_64" if named else MANYLINUX)
