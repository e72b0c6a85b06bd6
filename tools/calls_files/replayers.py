"""What the tests of the bindings for C, Rust and Python know of calls: the commands of the random scripts, and the styles."""
from calls_files.table import NOTE

# How the replayer in C makes a call, by the type of its argument.
FIELDS = {"bool": "with_bool", "u8": "with_byte", "usize": "with_size"}


def scripted(table):
    """The calls with a command that takes a truth value or a number at most, and returns a flag or nothing."""
    calls = [call for call in table.calls if call.command and call.result in (None, "bool")]
    return [call for call in calls if all(type in FIELDS for _, type in call.arguments)]


def c_commands(table):
    out = [f"/* {NOTE} */", "static const struct script_call script_calls[] = {"]
    for call in scripted(table):
        field = FIELDS[call.arguments[0][1]] if call.arguments else "bare"
        flag = ".has_flag = true, " if call.result else ""
        out.append(f'    {{.name = "{call.command}", {flag}.{field} = ta_{call.name}}},')
    return out + ["};"]


def rust_commands(table):
    out = [
        f"//! {NOTE}",
        "//! The commands of scripts whose calls only pass an argument.",
        "",
        "use tui_textarea::TextArea;",
        "",
        "pub fn done(_made: ()) -> &'static str {",
        '    "ok"',
        "}",
        "",
        "pub fn flag(flag: bool) -> &'static str {",
        '    if flag { "true" } else { "false" }',
        "}",
        "",
        "/// Makes the call of a command, and returns its result in words; `None` for another command.",
        "pub fn call(area: &mut TextArea, name: &str, words: &str) -> Option<&'static str> {",
        "    let result = match name {",
    ]
    for call in scripted(table):
        words = "words.parse().ok()?" if call.arguments else ""
        out.append(f'        "{call.command}" => {"flag" if call.result else "done"}(area.{call.name}({words})),')
    return out + ["        _ => return None,", "    };", "    Some(result)", "}"]


def python_commands(table):
    """The commands whose calls are plain methods and properties; a setter with a result is a method."""
    calls = [call for call in scripted(table) if "Python" in call.languages]
    methods, setters = [], []
    for call in calls:
        kind = f'"{call.arguments[0][1]}"' if call.arguments else "None"
        if call.name.startswith("set_") and not call.result:
            setters.append(f'    "{call.command}": ("{call.name[4:]}", {kind}),')
        else:
            methods.append(f'    "{call.command}": ({kind}, {call.result == "bool"}),')
    return [
        f'"""{NOTE}"""',
        "",
        "# Commands that are methods: the type of the argument, and whether the method returns a bool.",
        "METHODS = {",
        *methods,
        "}",
        "",
        "# Commands that set a property: its name, and its type.",
        "SETTERS = {",
        *setters,
        "}",
    ]


def styles(table):
    """The names of the styles that a call sets and another one reads."""
    return [call.field() for call in table.calls if call.look and call.arguments]


def c_styles(table):
    out = [
        f"/* {NOTE} */",
        "static const struct {",
        "    uint32_t (*set)(ta_handle_t *, const ta_style_t *);",
        "    uint32_t (*get)(ta_handle_t *, ta_style_t *);",
        "} style_calls[] = {",
    ]
    return [*out, *[f"    {{ta_set_{name}, ta_{name}}}," for name in styles(table)], "};"]


def rust_styles(table):
    names = list(enumerate(styles(table)))
    return [
        f"//! {NOTE}",
        "//! Each style is read back as it was set.",
        "",
        "use tui_textarea::TextArea;",
        "use tui_textarea::ratatui::style::{Color, Style};",
        "",
        "#[test]",
        "fn styles_are_kept() {",
        '    let mut area = TextArea::from(["one"]);',
        "    let style = |number| Style::new().fg(Color::Indexed(number));",
        *[f"    area.set_{name}(style({number}));" for number, name in names],
        *[f"    assert_eq!(area.{name}(), style({number}));" for number, name in names],
        "}",
    ]


def python_styles(table):
    return ["", "# The styles of a text area.", "STYLES = [", *[f'    "{name}",' for name in styles(table)], "]"]


def files(table):
    return {
        "bindings/c/script_calls.h": c_commands(table),
        "bindings/c/style_calls.h": c_styles(table),
        "bindings/rust/tests/styles.rs": rust_styles(table),
        "bindings/rust/examples/replay/calls.rs": rust_commands(table),
        "bindings/python/script_calls.py": python_commands(table) + python_styles(table),
    }
