"""The parts of pages in docs, and of definitions, that are written, between two marks."""
from calls_files import text_area
from calls_files.commands_crate import READINGS, commands
from calls_files.table import NOTE, ROOT, stop

END = "End of what tools/calls writes."


def command_rows(table):
    """The table of commands whose arguments are read by their types."""
    bare, others = commands(table)
    rows = {"none": [f"`{call.command}`" for call in bare]}
    for _, _, letters, meaning in READINGS.values():
        rows[meaning] = []
    for call in others:
        _, _, letters, meaning = READINGS[call.arguments[0][1]]
        rows[meaning].append(f"`{call.command} {letters}`")
    given = [(", ".join(names), meaning) for meaning, names in rows.items() if names]
    return ["| Command | Arguments |", "|---|---|", *(f"| {names} | {meaning} |" for names, meaning in given)]


def new_rows(table):
    """The table of calls that the Rust crate doesn't have, a row for each topic."""
    rows = {}
    for call in table.calls:
        if call.is_new:
            types = ", ".join(type for _, type in call.arguments)
            wraps = call.memory and not (call.result or "").startswith("Result<")
            result = f"Result<{call.result or '()'}>" if wraps else call.result
            written = f"`{call.name}({types}){f' -> {result}' if result else ''}`"
            rows.setdefault(call.topic, []).append(written)
    written = [f"| {topic} | {', '.join(calls)} |" for topic, calls in rows.items()]
    return ["| Topic | Calls that are only here |", "|---|---|", *written]


def rule_rows(topic):
    """The rows of the calls of a topic, as the table of calls has them after the call's name."""

    def rows(table):
        heads = {"insert": "What it inserts | Result", "remove": "What it removes | Yanks"}
        calls = [call for call in table.calls if call.topic == topic and call.rule]
        written = [f"| `{call.name}({', '.join(call.names())})` {call.rule}" for call in calls]
        return [f"| Call | {heads[topic]} | Definition |", "|---|---|---|---|", *written]

    return rows


def look_rows(table):
    """The table of the calls that set a style of the look."""
    rows = [f"| `{call.name}` {call.rule}" for call in text_area.look_setters(table)]
    return ["| Call | What is in the style | At first |", "|---|---|---|", *rows]


def mark(file, words):
    """A comment of a page, or of a file of definitions."""
    return f"<!-- {words} -->\n" if file.endswith(".md") else f"-- {words}\n"


def filled(file, text, name, written):
    """The text of a page with the rows of one of its parts."""
    begin, last = mark(file, f"{name}: {NOTE}"), mark(file, END)
    before, found, rest = text.partition(begin)
    _, end, after = rest.partition(last)
    if not found or not end:
        stop(f"{file} doesn't have the two marks of the part `{name}`")
    return before + begin + "\n".join(written) + "\n" + end + after


def texts(table):
    parts = {
        "docs/RULES.md": {
            "Insertions": rule_rows("insert"),
            "Removals": rule_rows("remove"),
            "Looks": look_rows,
        },
        "docs/DIFFERENCES.md": {"Calls": new_rows},
        "crates/tascript/README.md": {"Commands": command_rows},
        "crates/tui_textarea/specs/Calls.antt": {"Styles": text_area.results, "Styles that are set": text_area.states},
    }
    written = {}
    for file, rows_of in parts.items():
        written[file] = (ROOT / file).read_text()
        for name, rows in rows_of.items():
            written[file] = filled(file, written[file], name, rows(table))
    return written
