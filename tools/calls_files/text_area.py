"""The calls that set and read the styles of a text area's look: crates/tui_textarea."""
import textwrap

from calls_files.layout import COLUMNS
from calls_files.table import NOTE, TABLE, stop


def look_setters(table):
    return [call for call in table.calls if call.look and call.arguments]


def look_readers(table):
    return [call for call in table.calls if call.look and not call.arguments]


def reader_of(setter, table):
    for call in look_readers(table):
        if call.name == setter.field():
            return call
    stop(f"{TABLE}: `{setter.name}` has no call `{setter.field()}` that reads what it sets")


def documented(call):
    return [f"    /// {line}" for line in textwrap.wrap(call.doc, COLUMNS - 8)]


def setter(call):
    [name] = call.names()
    field = call.field()
    return [
        *documented(call),
        f"    pub fn {call.name}(&mut self, {name}: {call.arguments[0][1]})",
        "        ensures { self.new ≡ with_look_set self.old",
        f"            (record self.old.drawing.look {{ {field} = {name} }}) }}",
        "    {",
        "        self.drawing.set_look(Look {",
        f"            {name if name == field else f'{field}: {name}'},",
        "            ..self.drawing.look()",
        "        });",
        "    }",
    ]


def reader(call):
    return [
        *documented(call),
        f"    pub fn {call.name}(&self) -> {call.result}",
        f"        ensures {{ result ≡ self.now.drawing.look.{call.field()} }}",
        "    {",
        f"        self.drawing.look().{call.field()}",
        "    }",
    ]


def styles(table):
    out = [
        f"// {NOTE}",
        "//! The styles of a text area's look, each set and read by a call of its own.",
        "ghost use Rattle.std.specs.Prelude.{◌≡◌};",
        "ghost use Rattle.tui_textarea.specs.Drawing.{with_look_set};",
        "",
        "use crate::textarea::TextArea;",
        "use textarea_screen::screen::Style;",
        "use textarea_view::look::Look;",
        "",
        "impl TextArea<'_> {",
    ]
    for call in look_setters(table):
        out += [*setter(call), "", *reader(reader_of(call, table)), ""]
    return [*out[:-1], "}"]


def results(table):
    """What the calls that read a style return."""
    return [f"result_of_call state call.{call.variant} = reported.Style state.drawing.look.{call.field()}" for call in look_readers(table)]


def states(table):
    """The states after the calls that set a style."""
    return [
        f"unguarded_after state (call.{call.variant} style) = with_look_set state (record state.drawing.look {{ {call.field()} = style }})"
        for call in look_setters(table)
    ]


def files(table):
    return {"crates/tui_textarea/src/textarea/styles.rt": styles(table)}
