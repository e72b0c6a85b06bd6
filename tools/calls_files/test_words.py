"""Which calls the test commands name that scripts have no command for: crates/textarea_test_support."""
from calls_files.table import NOTE


def by_name(calls, argument):
    arms = [f'        "{call.name}" => Some(Call::{call.variant}{argument}),' for call in calls]
    return ["    match name {", *arms, "        _ => None,", "    }", "}"]


def function(head, doc, calls, argument):
    return ["", *doc, f"pub(super) fn {head} -> Option<Call<'a>>", "    ensures { IfSome result CanBeMade }", "{", *by_name(calls, argument)]


def plain_words(table):
    unscripted = [call for call in table.calls if not call.command and not call.by_hand]
    readers = [call for call in unscripted if call.topic == "read" and not call.arguments]
    styles = [call for call in table.calls if call.sets_style()]
    return [
        f"// {NOTE}",
        "//! The calls that are known by their name, or by it and a style.",
        "ghost use Rattle.std.specs.Prelude.{IfSome};",
        "ghost use Rattle.textarea_calls.specs.Possible.{CanBeMade};",
        "",
        "use textarea_calls::Call;",
        "use textarea_screen::screen::Style;",
        *function("reading<'a>(name: &str)", ["/// Returns the call of this name that only returns something."], readers, ""),
        *function("setting_style<'a>(name: &str, style: Style)", ["/// Returns the call of this name that sets this style."], styles, "(style)"),
    ]


def files(table):
    return {"crates/textarea_test_support/src/words/plain.rt": plain_words(table)}
