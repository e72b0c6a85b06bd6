"""The wrappers for Python that only pass their arguments: bindings/python."""
import textwrap

from calls_files.layout import COLUMNS
from calls_files.table import NOTE, TABLE, stop

PYTHON = {"bool": "bool", "u8": "int", "u16": "int", "usize": "int", "Style": "Style"}


def python_wrappers(table):
    calls = {call.name: call for call in table.calls if "Python" in call.languages}
    setters = {name: call for name, call in calls.items() if name.startswith("set_") and not call.result}
    out = [
        f'"""{NOTE}"""',
        "",
        "from __future__ import annotations",
        "",
        "import ctypes",
        "",
        "from ._core import Core",
        "from ._data import Style",
        "from ._library import lib",
        "",
        "",
        "class Calls(Core):",
        '    """The calls of a text area that only pass their arguments and return their result."""',
    ]
    for name, call in calls.items():
        if call.topic == "read":
            out += ["", *python_property(call, setters.pop(f"set_{name}", None))]
        elif name not in setters:
            out += ["", *python_method(call)]
    if setters:
        stop(f"{TABLE}: in Python a setter needs a plain reader: {', '.join(setters)}")
    return out


def python_method(call):
    default = {} if call.name.startswith("set_") else {"bool": " = False"}
    given = "".join(f", {n}: {PYTHON[t]}{default.get(t, '')}" for n, t in call.arguments)
    words = ", ".join([f"lib.ta_{call.name}", *call.names()])
    made = f"self._{'edit' if call.edits else 'call'}({words})"
    return [
        f"    def {call.name}(self{given}) -> {PYTHON[call.result] if call.result else 'None'}:",
        *docstring(call.doc),
        f"        {'return ' if call.result else ''}{made}",
    ]


def python_property(call, setter):
    read = f"lib.ta_{call.name}"
    bits = {"u8": "ctypes.c_uint8", "u16": "ctypes.c_uint16", "usize": "ctypes.c_size_t"}.get(call.result)
    made = f"self._numbers({bits}, 1, {read})[0]" if bits else f"self._call({read})"
    out = [
        "    @property",
        f"    def {call.name}(self) -> {PYTHON[call.result]}:",
        *docstring(property_doc(call, setter)),
        f"        return {f'self._style({read})' if call.result == 'Style' else made}",
    ]
    if not setter:
        return out
    [(name, type)] = setter.arguments
    value = f"{name}._core()" if type == "Style" else name
    return out + [
        "",
        f"    @{call.name}.setter",
        f"    def {call.name}(self, {name}: {PYTHON[type]}) -> None:",
        f"        self._call(lib.ta_{setter.name}, {value})",
    ]


def property_doc(call, setter):
    """What the value is, and what setting it does besides."""
    doc = call.doc.removeprefix("Returns ")
    if setter and setter.doc.startswith("Sets "):
        doc = setter.doc.removeprefix("Sets ")
    elif setter:
        doc += f" Setting it {setter.doc[0].lower()}{setter.doc[1:]}"
    return doc[0].upper() + doc[1:]


def docstring(doc):
    lines = textwrap.wrap(f'"""{doc}"""', COLUMNS - 8)
    return [f"        {line}" for line in lines]


def files(table):
    return {"bindings/python/textarea/_calls.py": python_wrappers(table)}
