"""The program that makes each plain call with exactly its types: .ci/compiled/surface."""
from calls_files.table import NOTE, TABLE, stop

# A value of each type that an argument of a plain call has.
VALUES = {
    "Style": "Style::new()",
    "bool": "true",
    "u16": "9",
    "u8": "8",
    "usize": "9",
}


def made(call):
    """The statements that make a call, and name the type of its result."""
    missing = [type for _, type in call.arguments if type not in VALUES]
    if missing:
        stop(f"{TABLE}: VALUES of tools/calls_files/surface.py doesn't have {', '.join(missing)}")
    lines = [f"    let {name}: {type} = {VALUES[type]};" for name, type in call.arguments]
    applied = f"area.{call.name}({', '.join(call.names())})"
    if call.memory:
        result = call.result or "()"
        return [*lines, f"    let made: Result<{result}, AllocError> = {applied};", f"    let _: {result} = made?;"]
    return [*lines, f"    let _: {call.result} = {applied};" if call.result else f"    {applied};"]


def plain_calls(table):
    topics = [(topic, [call for call in topic.calls if call.languages]) for topic in table.topics]
    out = [
        f"// {NOTE}",
        "//! The calls that C, Rust and Python only pass on.",
        "",
        "use std::alloc::AllocError;",
        "use tui_textarea::{Style, TextArea};",
    ]
    named = [topic.name for topic, calls in topics if calls]
    for topic, calls in topics:
        if calls:
            out += ["", f"fn {topic.name}(area: &mut TextArea<'_>) -> Result<(), AllocError> {{"]
            out += [line for call in calls for line in made(call)]
            out += ["    Ok(())", "}"]
    out += ["", "pub fn calls(area: &mut TextArea<'_>) -> Result<(), AllocError> {"]
    return [*out, *[f"    {name}(area)?;" for name in named], "    Ok(())", "}"]


def files(table):
    return {".ci/compiled/surface/plain_calls.rt.txt": plain_calls(table)}
