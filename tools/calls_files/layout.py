"""Lines of Rust as rt fmt lays them out."""
import re

from calls_files.table import MODULES

COLUMNS = 100


def imports(calls):
    """The lines that name the types of the arguments of calls."""
    types = " ".join(type for call in calls for _, type in call.arguments)
    lines = []
    for module, names in MODULES.items():
        named = [name for name in names.split() if re.search(rf"\b{name}\b", types)]
        if named:
            lines += used(module, named)
    return lines


def used(module, names):
    """The lines of a `use`."""
    line = f"use {module}::{names[0] if len(names) == 1 else '{' + ', '.join(names) + '}'};"
    if len(line) <= COLUMNS:
        return [line]
    out = [f"use {module}::{{", "   "]
    for name in names:
        if len(f"{out[-1]} {name},") > COLUMNS:
            out.append("   ")
        out[-1] += f" {name},"
    return [*out, "};"]


def signature(head, parameters, result):
    """A head with parameters."""
    line = f"{head}({', '.join(parameters)}) -> {result}"
    if len(line) <= COLUMNS:
        return [line]
    return [f"{head}(", *(f"    {parameter}," for parameter in parameters), f") -> {result}"]


def broken(indent, front, middle, inner):
    """`front => middle(inner)`, where inner is a path and its arguments, as rt fmt breaks it."""
    line = f"{indent}{front} => {middle}({inner}),"
    if len(line) <= COLUMNS:
        return [line]
    path, _, arguments = inner.partition("(")
    if arguments and len(f"{indent}{front} => {middle}({path}(") <= COLUMNS:
        return [f"{indent}{front} => {middle}({path}(", f"{indent}    {arguments[:-1]},", f"{indent})),"]
    return [f"{indent}{front} => {middle}(", f"{indent}    {inner},", f"{indent}),"]
