"""The table of calls, read."""
import pathlib
import re
import sys

ROOT = pathlib.Path(__file__).resolve().parent.parent.parent
TABLE = "crates/textarea_calls/calls.txt"
NOTE = f"Written by tools/calls from {TABLE}."

# The types of arguments that a module has to name, and where they are.
MODULES = {
    "std::time": "Duration",
    "textarea_change": "ChangeUnit",
    "textarea_data::cursor": "CursorMove CursorRenderMode CursorUnit",
    "textarea_data::input": "Input",
    "textarea_data::range": "AtomicCursorBias AtomicDeleteDirection AtomicRange",
    "textarea_data::scroll": "Scrolling",
    "textarea_screen::screen": "Alignment Block Position Rect Style Text",
    "textarea_wrap::wrap": "WrapMode",
}
PLAIN_WORDS = {"char", "str", "bool", "u8", "u16", "usize", "String", "Option", "static"}
LANGUAGES = ["C", "Rust", "Python"]


def stop(message):
    sys.exit(f"calls: {message}")


def camel(name):
    return "".join(word.capitalize() for word in name.split("_"))


class Topic:
    """A heading, and the calls below it."""

    def __init__(self, name):
        self.name, self.doc, self.calls = name, "", []

    def draws(self):
        """Whether its calls need a buffer."""
        return self.name == "draw"

    def enum(self):
        return camel(self.name)

    def calls_enum(self):
        """The enum of its calls."""
        return f"{self.enum()}Call"

    def type(self, lifetime="'a"):
        return self.calls_enum() + (f"<{lifetime}>" if any(call.borrows() for call in self.calls) else "")


class Call:
    def __init__(self, topic, name, arguments, result):
        self.topic, self.name, self.arguments, self.result = topic, name, arguments, result
        self.variant, self.memory, self.edits, self.special = camel(name), False, False, False
        self.look = False
        self.command, self.by_hand = None, []
        self.languages, self.is_new = set(), False
        self.note, self.notes, self.doc, self.rule = "", {}, "", ""

    def borrows(self):
        return any(type.startswith("&") for _, type in self.arguments)

    def names(self):
        return [name for name, _ in self.arguments]

    def field(self):
        """What it sets or reads, by its name."""
        return self.name.removeprefix("set_")

    def sets_style(self):
        return [type for _, type in self.arguments] == ["Style"]

    def applied(self, path):
        """The variant with its arguments, as an expression and as a pattern of Rust."""
        if len(self.arguments) > 1:
            return f"{path}::{self.variant} {{ {', '.join(self.names())} }}"
        return f"{path}::{self.variant}" + (f"({self.names()[0]})" if self.arguments else "")


    def pattern(self, path):
        """The variant as a pattern that names no argument."""
        if len(self.arguments) > 1:
            return f"{path}::{self.variant} {{ .. }}"
        return f"{path}::{self.variant}" + ("(_)" if self.arguments else "")

    def topic_enum(self):
        return camel(self.topic)


class Table:
    def __init__(self):
        self.topics, self.calls = [], []
        self.entry, self.may_say = None, False
        for number, line in enumerate((ROOT / TABLE).read_text().splitlines(), 1):
            try:
                self.read(line)
            except ValueError as error:
                stop(f"{TABLE}:{number}: {error}")
        for call in self.calls:
            if not call.doc:
                stop(f"{TABLE}: `{call.name}` does not say what it does")
            if call.look and not (call.result == "Style" or (call.sets_style() and call.rule)):
                stop(f"{TABLE}: `{call.name}` neither returns a style nor sets one, with a row in docs/RULES.md")
            if len(call.arguments) > 1 and set(call.notes) != set(call.names()):
                stop(f"{TABLE}: `{call.name}` says something of some of its arguments only")

    def topics_without_drawing(self):
        return [topic for topic in self.topics if not topic.draws()]

    def drawing_calls(self):
        return [call for topic in self.topics if topic.draws() for call in topic.calls]

    def read(self, line):
        if not line.strip() or line.startswith("#"):
            return
        heading = re.fullmatch(r"\[(\w+)\]", line)
        if heading:
            self.entry = Topic(heading[1])
            self.topics.append(self.entry)
        elif line.startswith("    "):
            self.read_more(line.strip())
        else:
            self.read_call(line)

    def read_call(self, line):
        front, _, result = line.partition(" -> ")
        head = re.fullmatch(r"(\w+)\((.*)\)", front)
        if not head:
            raise ValueError("expected a call, as `delete_str(count: usize) -> bool`")
        arguments = re.findall(r"(\w+): ((?:[^,()]|\((?:[^()]|\([^()]*\))*\))+)", head[2])
        if ", ".join(f"{name}: {type}" for name, type in arguments) != head[2]:
            raise ValueError("expected arguments as `range: ((usize, usize), (usize, usize)), style: Style`")
        if head[1] in [call.name for call in self.calls]:
            raise ValueError(f"`{head[1]}` is there twice")
        for _, type in arguments:
            unknown = set(re.findall(r"[A-Za-z]\w*", type)) - PLAIN_WORDS - set(" ".join(MODULES.values()).split())
            if unknown:
                raise ValueError(f"MODULES of tools/calls_files/table.py doesn't have {', '.join(sorted(unknown))}")
        self.entry = Call(self.topics[-1].name, head[1], arguments, result or None)
        self.may_say = True
        self.calls.append(self.entry)
        self.topics[-1].calls.append(self.entry)

    def read_more(self, line):
        entry, may_say = self.entry, self.may_say
        self.may_say = False
        if may_say and line[0].islower():
            self.read_facts(entry, line)
        elif line.startswith("- "):
            name, _, words = line[2:].partition(": ")
            if name not in entry.names():
                raise ValueError(f"`{entry.name}` has no argument `{name}`")
            entry.notes[name] = words
        elif line.startswith("+ "):
            entry.note = line[2:]
        elif line.startswith("| "):
            entry.rule = line
        else:
            entry.doc = f"{entry.doc} {line}".strip()

    def read_facts(self, call, line):
        for fact in line.split(", "):
            word, _, rest = fact.partition(" ")
            if fact == "memory":
                call.memory = True
            elif fact == "edits":
                call.edits = True
            elif fact == "special":
                call.special = True
            elif fact == "look":
                call.look = True
            elif fact == "new":
                call.is_new = True
            elif word == "command":
                call.command = rest or call.name
            elif fact.startswith("by hand "):
                call.by_hand.append(fact.removeprefix("by hand "))
            elif word == "variant" and rest:
                call.variant = rest
            elif word == "plain" and set(rest.split()) <= set(LANGUAGES):
                call.languages = set(rest.split() or LANGUAGES)
            else:
                raise ValueError(f"`{fact}` is none of `memory`, `edits`, `command`, `by hand`, `special`, `look`, `variant`, `plain`, `new`")
