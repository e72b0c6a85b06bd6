"""The enum of calls, their topics, and which of them edit: crates/textarea_calls."""
from calls_files.layout import COLUMNS, broken, imports
from calls_files.table import NOTE


def borrowed(type):
    """A type of the table as it is in an enum, with its lifetime."""
    return type.replace("&", "&'a ", 1) if type.startswith("&") else type


def variants(calls, are_documented):
    """The variants of an enum."""
    out = []
    for call in calls:
        if are_documented:
            out.append(f"    /// `TextArea::{call.name}`" + (call.note and f", {call.note}"))
        if len(call.arguments) > 1:
            out.append(f"    {call.variant} {{")
            for name, type in call.arguments:
                if are_documented:
                    out.append(f"        /// {call.notes[name]}")
                out.append(f"        {name}: {borrowed(type)},")
            out.append("    },")
        else:
            argument = f"({borrowed(call.arguments[0][1])})" if call.arguments else ""
            out.append(f"    {call.variant}{argument},")
    return out


def call_enum(table):
    return [
        f"// {NOTE}",
        "//! The calls of a text area, as data.",
        "",
        *imports(table.calls),
        "",
        "/// One call on a text area, with its arguments.",
        "#[derive(Clone, Copy, Debug)]",
        "pub enum Call<'a> {",
        *variants(table.calls, True),
        "}",
    ]


def arm(call):
    """The arm of `topic_of`."""
    topic = call.topic_enum()
    front, inner = call.applied("Call"), call.applied(f"{topic}Call")
    if len(call.arguments) < 2 or len(f"        {front} => Topic::{topic}({inner}),") <= COLUMNS:
        return broken("        ", front, f"Topic::{topic}", inner)
    fields = [f"            {name}," for name in call.names()]
    head = f"        {front} => Topic::{topic}({topic}Call::{call.variant} {{"
    if len(head) <= COLUMNS:
        return [head, *fields, "        }),"]
    return [
        f"        Call::{call.variant} {{",
        *fields,
        f"        }} => Topic::{topic}({topic}Call::{call.variant} {{",
        *fields,
        "        }),",
    ]


def topics_of_calls(table):
    topics = table.topics_without_drawing()
    out = [
        f"// {NOTE}",
        "//! The topics of calls. For each topic there is one function that makes its calls.",
        "ghost use Rattle.std.specs.Prelude.{◌≡◌, false};",
        "ghost use Rattle.textarea_calls.specs.Topics.{call_of, draws};",
        "",
        "use crate::call::Call;",
        *imports([call for topic in topics for call in topic.calls]),
        "",
        "/// A call that doesn't draw, by its topic, with its arguments.",
        "#[derive(Clone, Copy)]",
        "pub enum Topic<'a> {",
        *[f"    {topic.enum()}({topic.type()})," for topic in topics],
        "}",
    ]
    for topic in topics:
        out += ["", f"/// {topic.doc}", "#[derive(Clone, Copy)]", f"pub enum {topic.type()} {{"]
        out += [*variants(topic.calls, False), "}"]
    out += [
        "",
        "/// Returns the topic of a call that doesn't draw, with the call's arguments.",
        "pub fn topic_of(call: Call<'_>) -> Topic<'_>",
        "    requires undrawn { draws call ≡ false }",
        "    ensures { call_of result ≡ call.entry }",
        "{",
        "    match call {",
    ]
    for topic in topics:
        for call in topic.calls:
            out += arm(call)
    for call in table.drawing_calls():
        out.append(f"        {call.pattern('Call')} => unreachable!(),")
    return out + ["    }", "}"]


DECLARED = "Rattle.textarea_calls.specs.declared"


def definitions_of_topics(table):
    """The definitions of the call of each member of a topic."""
    topics = table.topics_without_drawing()
    out = [
        f"-- {NOTE}",
        "-- The call of each member of a topic, and which calls draw.",
        "use Rattle.std.specs.Prelude.{Bool, true, false}",
    ]
    declared = [("call", "Call", "call"), ("topic", "Topic", "topic")]
    for module, name, variants in declared + [("topic", topic.calls_enum(), topic.name) for topic in topics]:
        out.append(f"use {DECLARED}.{module}.{name}.{{{name}}}")
        out.append(f"use {DECLARED}.{module}.{name}.TheVariants as {variants}")
    for topic in topics:
        out += ["", f"abbrev pub call_of_{topic.name} : {topic.calls_enum()} → Call"]
        for call in topic.calls:
            words = " ".join([call.variant, *call.names()])
            given = f"({topic.name}.{words})" if call.arguments else f"{topic.name}.{words}"
            out.append(f"call_of_{topic.name} {given} = call.{words}")
    out += ["", "-- the call of a topic, with its arguments", "abbrev pub call_of : Topic → Call"]
    out += [f"call_of (topic.{topic.enum()} asked) = call_of_{topic.name} asked" for topic in topics]
    out += ["", "-- whether the call draws", "abbrev pub draws : Call → Bool"]
    for call in table.drawing_calls():
        out.append(f"draws (call.{' '.join([call.variant, *call.names()])}) = true")
    return out + ["draws other = false"]


def definition_of_edits(table):
    out = [
        f"-- {NOTE}",
        "-- Which calls may change the text.",
        "use Rattle.std.specs.Prelude.{Bool, true, false}",
        "use Rattle.textarea_calls.specs.FlagRule.{may_change_text}",
        "use Rattle.textarea_calls.specs.Keys.{keys_with_shortcuts, keys_without_shortcuts}",
        "use Rattle.textarea_calls.specs.Table.{action_by}",
        f"use {DECLARED}.call.Call.{{Call}}",
        f"use {DECLARED}.call.Call.TheVariants as call",
        "",
        "-- whether the call may change the text; of an input, whether its action may",
        "abbrev pub edits : Call → Bool",
        "edits (call.Input input) = may_change_text (action_by keys_with_shortcuts input.now)",
        "edits (call.InputWithoutShortcuts input) = may_change_text (action_by keys_without_shortcuts input.now)",
    ]
    for call in table.calls:
        if call.edits:
            words = " ".join([f"call.{call.variant}", *call.names()])
            out.append(f"edits {f'({words})' if call.arguments else words} = true")
    return out + ["edits other = false"]


def test_of_edits(table):
    patterns = [call.pattern("Call") for call in table.calls if call.edits]
    return [
        f"// {NOTE}",
        "//! Which calls may change the text.",
        "ghost use Rattle.std.specs.Prelude.{◌≡◌};",
        "ghost use Rattle.textarea_calls.specs.Edits.{edits};",
        "",
        "use crate::call::Call;",
        "use crate::keys::{action_of, action_without_shortcuts};",
        "",
        "impl Call<'_> {",
        "    /// Returns whether the call may change the text. Every other call leaves it as it is, and makes",
        "    /// no edit (`tui_textarea::outcomes::laws::others_edit_nothing`).",
        "    pub fn edits(&self) -> bool",
        "        ensures { result ≡ edits self.now }",
        "    {",
        "        match self {",
        "            Call::Input(input) => action_of(input).may_change_text(),",
        "            Call::InputWithoutShortcuts(input) => action_without_shortcuts(input).may_change_text(),",
        f"            {patterns[0]}",
        *[f"            | {pattern}" for pattern in patterns[1:-1]],
        f"            | {patterns[-1]} => true,",
        "            _ => false,",
        "        }",
        "    }",
        "}",
    ]


def files(table):
    return {
        "crates/textarea_calls/src/call.rt": call_enum(table),
        "crates/textarea_calls/src/edits.rt": test_of_edits(table),
        "crates/textarea_calls/src/topic.rt": topics_of_calls(table),
        "crates/textarea_calls/specs/Edits.antt": definition_of_edits(table),
        "crates/textarea_calls/specs/Topics.antt": definitions_of_topics(table),
    }
