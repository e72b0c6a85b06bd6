"""The commands of scripts whose arguments are read by their types: crates/textarea_script_syntax."""
from calls_files.layout import used
from calls_files.table import NOTE, TABLE, stop

# How scripts write an argument of a type: its reading in specs/Arguments.antt and specs/Escapes.antt of
# textarea_script_syntax, the function of src/arguments.rt that reads it, and its letters and meaning on the page of tascript.
READINGS = {
    "char": ("character", "one_character", "K", "one character"),
    "usize": ("number", "size", "N", "a decimal number"),
    "Option<usize>": ("number_or_none", "size_or_none", "N", "a decimal number, or `None`"),
    "u16": ("short_number", "short_number", "N", "a decimal number"),
    "u8": ("byte_number", "byte_number", "N", "a decimal number"),
    "bool": ("truth", "truth", "B", "`true` or `false`"),
    "WrapMode": ("mode_named", "mode_named", "M", "`None`, `Word`, `Glyph` or `WordOrGlyph`"),
    "CursorUnit": ("cursor_unit_named", "cursor_unit_named", "U", "`Character` or `Cluster`"),
    "Option<ChangeUnit>": ("change_unit_named", "change_unit_named", "U", "`Characters`, `Bytes`, `Utf16`, or `None`"),
    "CursorMove": ("move_named", "move_named", "M", "the name of a move but `Jump`"),
    "(usize, usize)": ("two_numbers", "two_numbers", "R C", "a row and a column"),
    "Scrolling": ("scroll_amounts", "scroll_amounts", "R C", "rows and columns, which may begin with `-`"),
}


def commands(table):
    """The calls that have a command, without and with an argument."""
    found = [call for call in table.calls if call.command]
    for call in found:
        if len(call.arguments) > 1 or call.arguments and call.arguments[0][1] not in READINGS:
            stop(f"{TABLE}: READINGS of tools/calls_files has no reading for the command of `{call.name}`: read it by hand")
    return [call for call in found if not call.arguments], [call for call in found if call.arguments]


def readings(calls, language):
    return sorted({READINGS[call.arguments[0][1]][language] for call in calls})


def listed(rows):
    """A list of names with meanings."""
    pairs = [f'(codes "{name}", {meaning})' for name, meaning in rows]
    return ["    " + pairs[0], *(f"    ∷ {pair}" for pair in pairs[1:]), "    ∷ []"]


def command_definitions(table):
    bare, others = commands(table)
    kind = "List (List ℕ × (Option (List ℕ) → Option Meaning))"
    escapes, arguments = [], readings(others, 0)
    if "character" in arguments:
        arguments.remove("character")
        escapes = ["use Rattle.textarea_script_syntax.specs.Escapes.{character}"]
    out = [
        f"-- {NOTE}",
        "-- The commands of calls that borrow nothing, and whose arguments are read by their types.",
        "use Rattle.std.specs.Prelude.{ℕ, List, [], ◌∷◌, ◌++◌, codes, Option}",
        "use Rattle.textarea_calls.specs.declared.call.Call.TheVariants as call",
        f"use Rattle.textarea_script_syntax.specs.Arguments.{{{', '.join(arguments)}}}",
        *escapes,
        "use Rattle.textarea_script_syntax.specs.Meaning.{Meaning, meaning_by, plain_command, without_arguments}",
        "",
        "-- the names of those that have arguments, and the meanings of the arguments",
        f"abbrev pub commands_with_arguments : {kind}",
        "commands_with_arguments =",
    ]
    rows = [(c.command, f"plain_command {READINGS[c.arguments[0][1]][0]} call.{c.variant}") for c in others]
    out += listed(rows)
    out += ["", "-- those without arguments", f"abbrev pub bare_commands : {kind}", "bare_commands ="]
    out += listed([(call.command, f"without_arguments call.{call.variant}") for call in bare])
    return out + [
        "",
        "-- all of them",
        f"abbrev pub call_commands : {kind}",
        "call_commands = commands_with_arguments ++ bare_commands",
        "",
        "unfoldable pub call_meaning : List ℕ → Option (List ℕ) → Option Meaning",
        "call_meaning = meaning_by call_commands",
    ]


def command_reading(table):
    bare, others = commands(table)
    out = [
        f"// {NOTE}",
        "// The calls of commands that borrow nothing, and whose arguments are read by their types.",
        "ghost use Rattle.std.specs.Prelude.{◌≡◌, IfSome, option_map};",
        "ghost use Rattle.textarea_calls.specs.Possible.{CanBeMade};",
        "ghost use Rattle.textarea_script_syntax.specs.CallCommands.{call_meaning};",
        "ghost use Rattle.textarea_script_syntax.specs.Commands.{plain_meaning};",
        "ghost use Rattle.textarea_script_syntax.specs.Script.{meaning_of};",
        "ghost use Rattle.textarea_script_syntax.specs.declared.commands.CommandContent.TheVariants.{Plain};",
        "",
        *used("crate::arguments", readings(others, 1)),
        "use textarea_calls::Call;",
        "",
        "// The call of this name without arguments.",
        "#[tactic(auto, unfolding(crate::specs::Commands::plain_meaning))]",
        "pub fn call_without_arguments(name: &str) -> Option<Call<'static>>",
        "    ensures ready { IfSome result CanBeMade }",
        "    ensures means { option_map (λ call. meaning_of (Plain call)) result",
        "        ≡ plain_meaning name.now None }",
        "{",
        "    match name {",
    ]
    out += [f'        "{call.command}" => Some(Call::{call.variant}),' for call in bare]
    out += [
        "        _ => None,",
        "    }",
        "}",
        "",
        "// The call of this name and these arguments, which are read by their types.",
        "#[tactic(auto, unfolding(crate::specs::CallCommands::call_meaning))]",
        "pub fn call_with_arguments(name: &str, arguments: &str) -> Option<Call<'static>>",
        "    ensures ready { IfSome result CanBeMade }",
        "    ensures means { option_map (λ call. meaning_of (Plain call)) result",
        "        ≡ call_meaning name.now (Some arguments.now) }",
        "{",
        "    match name {",
    ]
    for call in others:
        reading = READINGS[call.arguments[0][1]][1]
        out.append(f'        "{call.command}" => Some(Call::{call.variant}({reading}(arguments)?)),')
    return out + ["        _ => None,", "    }", "}"]


def files(table):
    return {
        "crates/textarea_script_syntax/specs/CallCommands.antt": command_definitions(table),
        "crates/textarea_script_syntax/src/call_commands.rt": command_reading(table),
    }
