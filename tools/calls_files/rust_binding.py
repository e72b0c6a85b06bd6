"""The wrappers for Rust that only pass their arguments: bindings/rust."""
import textwrap

from calls_files.layout import COLUMNS
from calls_files.rust_examples import example
from calls_files.table import NOTE


def rust_wrappers(table):
    calls = [call for call in table.calls if "Rust" in call.languages]
    out = [
        f"//! {NOTE}",
        "//! The calls that only pass their arguments and return their result.",
        "",
        "use super::TextArea;",
        "use crate::data::OutOfMemory;",
        "use crate::handle::must;",
        "use crate::ratatui::BLANK;",
        "use crate::ratatui::style::Style;",
        "use crate::sys;",
        "",
        "impl TextArea<'_> {",
    ]
    for call in calls:
        shown = example(call)
        doc = textwrap.wrap(call.doc, COLUMNS - 8) + (["", *shown] if shown else [])
        out += [f"    /// {line}".rstrip() for line in doc]
        out += [f"    {line}".rstrip() for line in rust_wrapper(call)] + [""]
    return out[:-1] + ["}"]


def rust_wrapper(call):
    """The wrapper of one call, and its form that returns that memory ran out."""
    given = "".join(f", {name}: {'impl Into<Style>' if type == 'Style' else type}" for name, type in call.arguments)
    if call.memory:
        return rust_wrapper_with_memory(call, given)
    receiver = "&self" if call.topic == "read" else "&mut self"
    head = f"pub fn {call.name}({receiver}{given})" + (f" -> {call.result}" if call.result else "") + " {"
    if given == ", style: impl Into<Style>":
        body = ["    let style = sys::Style::from(style.into());", *on_core(call, "is", ["&style"], ";")]
    elif call.result == "Style":
        body = ["    let mut style = BLANK;", *on_core(call, "is", ["&mut style"], ";"), "    style.into()"]
    elif call.result in ("u8", "u16", "usize"):
        name = call.name
        body = [f"    let mut {name} = 0;", *on_core(call, "is", [f"&mut {name}"], ";"), f"    {name}"]
    else:
        body = on_core(call, "is", call.names(), "" if call.result else ";")
    return [head, *body, "}"]


def rust_wrapper_with_memory(call, given):
    names, result = call.names(), call.result or "()"
    flag = call.result == "bool"
    called = on_core(call, "edit" if call.edits else "on", names, "" if flag else "?;")
    return [
        f"pub fn {call.name}(&mut self{given}){' -> bool' if flag else ''} {{",
        f"    must(self.try_{call.name}({', '.join(names)})){'' if flag else ';'}",
        "}",
        "",
        f"/// As `{call.name}`, but returns that memory ran out.",
        f"pub fn try_{call.name}(&mut self{given}) -> Result<{result}, OutOfMemory> {{",
        *called,
        *([] if flag else ["    Ok(())"]),
        "}",
    ]


def on_core(call, method, words, end):
    """The call of the core, as rustfmt breaks it."""
    closure = f"(|h| unsafe {{ sys::ta_{call.name}({', '.join(['h', *words])}) }})"
    if method == "edit":
        return [f"    self.edit{closure}{end}"]
    chain = f"self.core.{method}{closure}{end}"
    if len(chain.rstrip(";")) < 60:
        return [f"    {chain}"]
    return ["    self.core", f"        .{method}{closure}{end}"]


def files(table):
    return {"bindings/rust/src/textarea/calls.rs": rust_wrappers(table)}
