"""Makes the calls of a script of `tascript` on a `TextArea`, and prints what `tascript` prints.

    python3 replay.py < script

A script has one command a line (docs/RULES.md); every command here is one that can be read.
"""

import re
import sys

from script_calls import METHODS, SETTERS
from textarea import (
    Area, ChangeUnit, CursorUnit, Input, Key, Move, Page, PatternRejected, Range, RangesRejected, Style, TextArea,
    WrapMode,
)

ESCAPES = {"\\": "\\\\", "\n": "\\n", "\r": "\\r", "\t": "\\t"}


def escaped(text):
    return "".join(ESCAPES.get(c, c) for c in text)


def unescaped(text):
    def character(match):
        letter = match[1]
        return chr(int(match[2], 16)) if match[2] else {"n": "\n", "r": "\r", "t": "\t"}.get(letter, letter)

    return re.sub(r"\\(u\{(\w+)\}|.)", character, text, flags=re.S)


def constant(name):
    """The name of a constant for a name of Rust."""
    return re.sub(r"(?<=[a-z0-9])(?=[A-Z])", "_", name).upper()


def input_of(words):
    modifiers, key, *rest = words.split(" ", 2)
    argument = 0
    if key == "Char":
        argument = unescaped(rest[0])
    elif key == "F":
        argument = int(rest[0])
    return Input(Key[constant(key)], argument, "c" in modifiers, "a" in modifiers, "s" in modifiers)


def truth(value):
    return "true" if value else "false"


def value_of(words, kind):
    """The value of this type of Rust that the words of a command write."""
    return words == "true" if kind == "bool" else int(words)


def change_in_words(change):
    (row, column), (end_row, end_column) = change.start, change.end
    return f"{row}:{column}..{end_row}:{end_column}" + "".join("|" + escaped(line) for line in change.lines)


class Replay:
    def __init__(self):
        self.area = TextArea()
        self.area.set_now(0)
        self.area.reset_screen(Area(0, 0, 80, 24))
        self.drawn = None

    def call(self, line):
        """Makes the call of a command, and returns its result in words."""
        area, (name, _, words) = self.area, line.partition(" ")
        numbers = [int(w) for w in words.split()] if re.fullmatch(r"-?\d+( -?\d+)*", words) else []
        if name in METHODS:
            kind, has_result = METHODS[name]
            result = getattr(area, name)(*[value_of(words, kind)] if kind else [])
            return truth(result) if has_result else "ok"
        if name in SETTERS:
            what, kind = SETTERS[name]
            setattr(area, what, value_of(words, kind))
        elif name == "insert_char":
            area.insert_char(unescaped(words))
        elif name in ("insert_str", "insert_pasted", "replace_match"):
            return truth(getattr(area, name)(unescaped(words)))
        elif name == "input":
            return truth(area.input(input_of(words)))
        elif name == "text":
            return "text " + escaped(area.text)
        elif name == "yank_text":
            return "text " + escaped(area.yank_text)
        elif name == "text_range":
            return "text " + escaped(area.text_range(tuple(numbers[:2]), tuple(numbers[2:])))
        elif name == "replace_range":
            *places, text = (words + " ").split(" ", 4)
            row, column, end_row, end_column = map(int, places)
            return truth(area.replace_range((row, column), (end_row, end_column), unescaped(text.removesuffix(" "))))
        elif name == "set_yank_text":
            area.yank_text = unescaped(words)
        elif name == "set_search_pattern":
            try:
                area.search_pattern = unescaped(words)
            except PatternRejected:
                return "pattern"
        elif name == "set_search_text":
            ignore_case, whole_word, *text = words.split(" ", 2)
            area.set_search_text(unescaped(text[0] if text else ""), ignore_case == "true", whole_word == "true")
        elif name == "replace_all":
            return str(area.replace_all(unescaped(words)))
        elif name == "match_count":
            return str(area.match_count)
        elif name == "match_index":
            return "none" if area.match_index is None else str(area.match_index)
        elif name == "ranges":
            try:
                area.atomic_ranges = [Range(*numbers[i:i + 3]) for i in range(0, len(numbers), 3)]
            except RangesRejected as error:
                names = "Empty RowOutOfBounds ColumnOutOfBounds OverlapsPrevious".split()
                rejected = [f"{r.row}:{r.start}..{r.end} {names[why]}" for r, why in error.rejected]
                return " ".join(["rejected", *rejected])
        elif name == "set_lines":
            row, column, *text = words.split(" ", 2)
            lines = (text[0] if text else "").split("\\n")
            area.set_lines([unescaped(line) for line in lines], (int(row), int(column)))
        elif name == "measure":
            return " ".join(map(str, area.measure(numbers[0])))
        elif name == "render":
            self.drawn = Area(*numbers)
            area.render(self.drawn)
        elif name == "hit":
            place = area.cursor_at_position(*numbers)
            return f"{place[0]} {place[1]}" if place else "none"
        elif name == "move":
            area.move_cursor(Move[constant(words)])
        elif name == "jump":
            area.jump(*numbers)
        elif name == "go_to":
            area.go_to(*numbers)
        elif name == "scroll":
            area.scroll(*numbers)
        elif name == "page":
            area.scroll_page(Page[constant(words)])
        elif name == "set_wrap_mode":
            area.wrap_mode = WrapMode[constant(words)]
        elif name == "set_mask_char":
            area.mask_char = unescaped(words)
        elif name == "set_cursor_unit":
            area.cursor_unit = CursorUnit[constant(words)]
        elif name == "set_max_chars":
            area.max_chars = None if words == "None" else int(words)
        elif name == "clear_mask_char":
            area.mask_char = None
        elif name == "line_numbers":
            area.line_number_style = Style() if words == "true" else None
        elif name == "set_change_log":
            area.set_change_log(None if words == "None" else ChangeUnit[words.upper()])
        elif name == "take_changes":
            return " ".join(["changes", *map(change_in_words, area.take_changes())])
        elif name == "now":
            area.set_now(numbers[0] * 1_000_000)
        else:
            sys.exit(f"no command: {line}")
        return "ok"

    def end(self):
        """What is printed of the text area and its screen."""
        area = self.area
        out = [f"lines {len(area.lines)}", *("|" + escaped(line) for line in area.lines)]
        out.append("cursor {} {}".format(*area.cursor))
        ends = area.selection_range
        out.append("selection {} {} {} {}".format(*ends[0], *ends[1]) if ends else "selection none")
        if self.drawn:
            x, y, width, height = self.drawn
            right, bottom = min(x + width, 65535, 80), min(y + height, 65535, 24)
            rows = area.cells[y:bottom]
            out.append(f"screen {len(rows)}")
            out += ["|" + escaped("".join(cell.symbol for cell in row[x:right])) + "|" for row in rows]
        return out


def main():
    replay, out = Replay(), []
    for line in sys.stdin.buffer.read().decode().split("\n"):
        if line:
            out.append(f"{len(out) + 1} {replay.call(line)}")
    sys.stdout.buffer.write("".join(line + "\n" for line in out + replay.end()).encode())


if __name__ == "__main__":
    main()
