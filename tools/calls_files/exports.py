"""The exports that only pass their arguments and return their result: crates/textarea_c."""
import dataclasses
import re
import textwrap

from calls_files.layout import COLUMNS, signature, used
from calls_files.table import NOTE, TABLE, stop

FOLDER = "crates/textarea_c/src/calls"
HANDLE = "Calls handle.old.stored.content result handle.new.stored.content"
NUMBERS = ("u8", "u16", "usize")

# What else is known of a number that a call returns: the clause's name, and its lines.
BOUNDS = {
    "min_rows": ("bounds", ["AreBounds min_rows.new a.area.surround.max_rows"]),
    "max_rows": ("bounds", ["AreBounds a.area.surround.min_rows max_rows.new"]),
    "max_histories": ("bound", [
        "length a.area.document.log.done + length a.area.document.log.undone",
        "≤ max_histories.new",
    ]),
}

# The files of exports, which are the headings of include/textarea.h, and what is in them, by the topic
# of a call; a call that reads what another sets is with that one.
EXPORTS = {
    "insert": ("edits", "Insertions that only pass their arguments."),
    "remove": ("removals", "Removals that only pass their arguments."),
    "history": ("history", "Undo, redo, and options of the history."),
    "select": ("selection", "Selections that only pass their arguments."),
    "move": ("moves", "Moves that only pass their arguments."),
    "search": ("search", "Searches that only pass their arguments."),
    "ranges": ("ranges", "Atomic ranges, where only arguments are passed."),
    "options": ("settings", "Options that are numbers or truth values."),
    "appearance": ("appearance", "Looks that only pass their arguments."),
    "style": ("styles", "The styles of a text area."),
}


@dataclasses.dataclass
class Form:
    """An export: its parameters after the allocator, its clauses, its body, and what its status says."""

    parameters: list
    clauses: list
    body: list
    said: str


def form_of(call):
    """The export of a call, by its arguments and its result."""
    words = " ".join([f"call.{call.variant}", *call.names()])
    made = f"editor.area.{call.name}({', '.join(call.names())})"
    types = [type for _, type in call.arguments]
    if call.topic == "read" and not types:
        return reader(call, made)
    if types == ["Style"] and not call.memory and not call.result:
        return style_setter(call)
    parameters = [f"{name}: {type}" for name, type in call.arguments]
    given = f"({words})" if types else words
    if call.memory and call.result == "bool":
        said = "ok (true), false, out of memory, empty handle"
        return Form(parameters, makes(f"MakesAttempt {given}"), [f"flag({made})"], said)
    if call.memory and not call.result:
        return Form(parameters, makes(f"MakesChange {given}"), [f"done({made})"], "ok, out of memory, empty handle")
    if not call.memory and call.result == "bool":
        return Form(parameters, makes(f"MakesAttempt {given}"), [f"truth({made})"], "ok (true), false, empty handle")
    if not call.memory and not call.result:
        return Form(parameters, makes(f"MakesSetting {given}"), ["{", f"    {made};", "    OK", "}"], "ok, empty handle")
    stop(f"{TABLE}: there is no plain export of `{call.name}`")


def makes(clause):
    return [f"ensures {{ {HANDLE}", f"    (λ a b. {clause} result a b) }}"]


def style_setter(call):
    body = [
        "match style.read() {",
        "    Some(style) => {",
        f"        editor.area.{call.name}(style);",
        "        OK",
        "    }",
        "    None => INVALID_ARGUMENT,",
        "}",
    ]
    clauses = makes(f"MakesSettingBy (style_of_numbers style.now) call.{call.variant}")
    return Form(["style: &CStyle"], clauses, body, "ok, invalid argument (a colour's kind does not exist), empty handle")


def reader(call, made):
    """A call that returns a truth value by its status, or writes a number or a style."""
    found = f"(result_of_call a.area call.{call.variant})"
    if call.result == "bool":
        return Form([], makes(f"Answers (flag_of {found})"), [f"truth({made})"], "ok (true), false, empty handle")
    if call.result == "Style":
        out, value, written = "style", f"style_of_numbers style.new ≡ style_in {found}", f"CStyle::of({made})"
    elif call.result in NUMBERS:
        out, value, written = call.name, f"{call.name}.new ≡ number_in {found}", made
    else:
        stop(f"{TABLE}: there is no plain export of `{call.name}`")
    clauses = [
        f"ensures unchanged {{ {HANDLE}",
        "    (λ a b. OnlyReads result a b) }",
        "ensures value { IfSome handle.old.stored.content",
        f"    (λ a. {value}) }}",
        *bound_of(call),
        f"ensures unwritten {{ result ≢ 0 → {out}.new ≡ {out}.old }}",
    ]
    type = "CStyle" if call.result == "Style" else call.result
    return Form([f"{out}: &mut {type}"], clauses, ["{", f"    *{out} = {written};", "    OK", "}"], "ok, empty handle")


def bound_of(call):
    """The clause of the bounds of what a call returns, if it has one."""
    if call.name not in BOUNDS:
        return []
    name, lines = BOUNDS[call.name]
    first, *rest = [*lines[:-1], f"{lines[-1]}) }}"]
    head = f"ensures {name} {{ IfSome handle.old.stored.content"
    return [head, f"    (λ a. {first}", *[f"    {line}" for line in rest]]


def export(call, names):
    form = form_of(call)
    doc = re.sub(r"`(\w+)`", lambda name: f"`ta_{name[1]}`" if name[1] in names else name[0], call.doc)
    first, *rest = form.body
    last = [*rest[:-1], rest[-1] + ")"] if rest else []
    return [
        *[f"/// {line}" for line in textwrap.wrap(doc, COLUMNS - 4)],
        "///",
        f"/// Statuses: {form.said}.",
        "#[unsafe(no_mangle)]",
        *signature(f'pub extern "C" fn ta_{call.name}', ["handle: &mut Handle", "alloc: Global", *form.parameters], "u32"),
        *[f"    {line}" for line in form.clauses],
        "{",
        f"    on!(handle, alloc, editor => {first}{'' if last else ')'}",
        *[f"    {line}" for line in last],
        "}",
    ]


# What a file of exports names, where it does: in clauses, and in code.
GHOSTS = {
    "Rattle.std.specs.Prelude": ["◌≡◌", "◌≢◌", "◌+◌", "◌≤◌", "IfSome", "length"],
    "Rattle.textarea_view.specs.SurroundState": ["AreBounds"],
    "Rattle.tui_textarea.specs.Calls": ["result_of_call"],
    "Rattle.tui_textarea.specs.Input": ["flag_of"],
    "Rattle.textarea_c.specs.Calls": "Answers Calls MakesAttempt MakesChange MakesSetting MakesSettingBy OnlyReads number_in style_in".split(),
    "Rattle.textarea_c_data.specs.Styles": ["style_of_numbers"],
}
STATUSES = ["INVALID_ARGUMENT", "OK", "done", "flag", "truth"]


def named(names, code):
    return [name for name in names if (name.strip("◌") in code if "◌" in name else re.search(rf"(?<![.\w]){name}\b", code))]


def exports_of(topic, calls, table):
    lines = []
    for call in calls:
        lines += ["", *export(call, {call.name for call in table.calls})]
    code = "\n".join(line for line in lines if not line.startswith("///"))
    ghosts = [(module, named(names, code)) for module, names in GHOSTS.items()]
    return [
        f"// {NOTE}",
        f"//! {EXPORTS[topic][1]}",
        *[f"ghost use {module}.{{{', '.join(names)}}};" for module, names in ghosts if names],
        "ghost use Rattle.textarea_calls.specs.declared.call.Call.TheVariants as call;",
        "",
        "use crate::calls::on;",
        "use crate::handle::Handle;",
        "use std::alloc::Global;",
        *used("textarea_c_data::status", named(STATUSES, code)),
        *(["use textarea_c_data::style::CStyle;"] if "CStyle" in re.sub(r"call\.\w+", "", code) else []),
        *lines,
    ]


def topic_of(call, table):
    """The topic of an export: that of the call that sets what this one reads."""
    if call.result == "Style" or [type for _, type in call.arguments] == ["Style"]:
        return "style"
    setters = [other.topic for other in table.calls if other.name == f"set_{call.name}"]
    return setters[0] if call.topic == "read" and setters else call.topic


def files(table):
    topics = {topic: [] for topic in EXPORTS}
    for call in table.calls:
        if "C" in call.languages:
            if topic_of(call, table) not in topics:
                stop(f"{TABLE}: there is no file for the export of `{call.name}`: see EXPORTS of tools/calls_files")
            topics[topic_of(call, table)].append(call)
    written = {EXPORTS[topic][0]: exports_of(topic, calls, table) for topic, calls in topics.items() if calls}
    modules = [
        f"// {NOTE}",
        "//! The exports that only pass their arguments and return their result.",
        "",
        *[f"pub mod {module};" for module in sorted(written)],
    ]
    return {f"{FOLDER}/plain.rt": modules, **{f"{FOLDER}/plain/{name}.rt": lines for name, lines in written.items()}}
