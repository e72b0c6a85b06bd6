"""The functions that make the calls of a topic: crates/textarea_run."""
from calls_files.layout import COLUMNS, signature, used
from calls_files.table import NOTE

# The `Answer` of a call's result, by the result's type; a result that is missing here is an answer
# already. Numbers are widened.
ANSWERS = {
    "bool": "Flag",
    "String": "Text",
    "Option<AtomicRange>": "Range",
    "TextAreaMeasure": "Measured",
    "Option<Position>": "Position",
    "Style": "Style",
    "Option<Style>": "StyleIfVisible",
    "Option<char>": "Character",
    "CursorRenderMode": "CursorRenderMode",
    "CursorUnit": "CursorUnit",
    "Alignment": "Alignment",
    "(usize, usize)": "Cursor",
    "Option<(usize, usize)>": "Place",
    "Option<((usize, usize), (usize, usize))>": "Selection",
    "WrapMode": "WrapMode",
    "usize": "Number",
    "Option<usize>": "NumberIfAny",
    "Vec<TextChange>": "Changes",
}


def making(topic, call):
    """The arm that makes a call."""
    front = call.applied(topic.calls_enum())
    passed = [f"copied({name})" if type == "&Input" else name for name, type in call.arguments]
    made = f"special::{call.name}({', '.join(['area', *passed])})" if call.special else f"area.{call.name}({', '.join(passed)})"
    if not call.result and not call.memory:
        return [f"        {front} => {{", f"            {made};", "            Ok(Answer::Done)", "        }"]
    if call.result in ("u8", "u16"):
        return [f"        {front} => Ok(Answer::Number({made} as usize)),"]
    answer = "|()| Answer::Done" if not call.result else f"Answer::{ANSWERS[call.result]}" if call.result in ANSWERS else None
    if call.memory:
        return arm(front, made, f".map({answer})" if answer else "")
    return block(front, f"Ok({answer}({made}))")


def arm(front, made, mapped):
    """An arm whose value is mapped, as rt fmt breaks it."""
    pattern, _, fields = front.partition(" { ")
    if len(fields) > 20:
        names = fields.removesuffix(" }").split(", ")
        if made.startswith("special::"):
            return [f"        {pattern} {{", *[f"            {name}," for name in names], f"        }} => {made}{mapped},"]
        receiver, _, method = made.partition(".")
        return [
            f"        {pattern} {{",
            *[f"            {name}," for name in names],
            f"        }} => {receiver}",
            f"            .{method}",
            f"            {mapped},",
        ]
    line = f"        {front} => {made}{mapped},"
    if len(line) <= COLUMNS or not mapped:
        return block(front, made + mapped)
    receiver, _, method = made.partition(".")
    if made.startswith("special::"):
        return [f"        {front} => {{", f"            {made}{mapped}", "        }"]
    return [f"        {front} => {receiver}", f"            .{method}", f"            {mapped},"]


def block(front, value):
    line = f"        {front} => {value},"
    if len(line) <= COLUMNS:
        return [line]
    return [f"        {front} => {{", f"            {value}", "        }"]


def function(topic):
    borrows = any(call.borrows() for call in topic.calls)
    made = f"call_of_{topic.name} call{'.entry' if borrows else ''}"
    head = signature(
        f"pub(crate) fn {topic.name}_call",
        ["area: &mut TextArea<'_>", f"call: {topic.type('_')}".replace("<_>", "<'_>")],
        "Result<Answer, AllocError>",
    )
    needs = any(call.name == "set_lines" for call in topic.calls)
    return [
        "",
        f"/// {topic.doc}",
        *head,
        *([f"    requires {{ CanBeMade (call_of_{topic.name} call) }}"] if needs else []),
        "    ensures answer { IfOk result",
        f"        (λ answer. IsResultOf area.old ({made}) (call_result answer)) }}",
        "    ensures ok { IfOk result",
        f"        (λ answer. IsAfterCall area.old ({made}) (call_result answer) area.new) }}",
        f"    ensures err {{ OnErr result (RanOutOfMemory area.old ({made}) area.new) }}",
        "{",
        "    match call {",
        *[line for call in topic.calls for line in making(topic, call)],
        "    }",
        "}",
    ]


def topics(table):
    topics = table.topics_without_drawing()
    calls = sorted(f"call_of_{topic.name}" for topic in topics)
    return [
        f"// {NOTE}",
        "// The calls of each topic, made on a text area.",
        "ghost use Rattle.std.specs.Prelude.{◌≡◌, IfOk, OnErr};",
        "ghost use Rattle.textarea_calls.specs.Possible.{CanBeMade};",
        f"ghost use Rattle.textarea_calls.specs.Topics.{{{', '.join(calls)}}};",
        "ghost use Rattle.tui_textarea.specs.CallResults.{call_result};",
        "ghost use Rattle.tui_textarea.specs.Outcomes.{IsAfterCall, IsResultOf, RanOutOfMemory};",
        "",
        "use crate::inputs::copied;",
        "use crate::special;",
        "use std::alloc::AllocError;",
        "use textarea_calls::Answer;",
        *used("textarea_calls::topic", sorted(topic.calls_enum() for topic in topics)),
        "use tui_textarea::TextArea;",
        *[line for topic in topics for line in function(topic)],
    ]


def files(table):
    return {"crates/textarea_run/src/topics.rt": topics(table)}
