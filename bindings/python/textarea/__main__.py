"""A small editor: python -m textarea [FILE]. Ctrl S saves, Ctrl Q quits; the other keys are those of the
text area. It saves the whole text over the file; `bin/taedit` is the editor whose saves are proved."""

from __future__ import annotations

import os
import sys
from typing import Any, Optional

from . import Area, Color, Input, Modifier, Style, TextArea, WrapMode, in_curses
from .terminal import Event

SAVE, QUIT = Input.char("s", ctrl=True), Input.char("q", ctrl=True)


class Editor:
    """A text area with the file that it edits."""

    def __init__(self, name: Optional[str]) -> None:
        self.name, self.is_changed, self.asks, self.message = name, False, False, "Ctrl S saves, Ctrl Q quits"
        text = ""
        if name and os.path.exists(name):
            with open(name, encoding="utf-8", newline="") as file:
                text = file.read()
        self.line_end = "\r\n" if "\r\n" in text else "\n"
        if text.replace("\r\n", "").find("\n" if self.line_end == "\r\n" else "\r\n") >= 0:
            raise ValueError("it has line ends of two kinds")
        self.ends_line = text == "" or text.endswith("\n")
        self.area = TextArea.from_text(text)
        self.area.wrap_mode = WrapMode.WORD
        self.area.line_number_style = Style(Color.DARK_GRAY)
        self.area.undo_coalescing = True

    def save(self) -> None:
        if not self.name:
            self.message = "There is no name to save to"
            return
        text = self.area.text + ("\n" if self.ends_line and not self.area.is_empty else "")
        try:
            with open(self.name, "w", encoding="utf-8", newline="") as file:
                file.write(text.replace("\n", self.line_end))
        except OSError as error:
            self.message = f"Not saved: {error.strerror}"
        else:
            self.is_changed, self.message = False, "Saved"

    def take(self, event: Optional[Event]) -> bool:
        """Does what the event means, and returns whether the editor goes on."""
        if event is None:
            return True
        if event == QUIT and (self.asks or not self.is_changed):
            return False
        self.asks, self.message = event == QUIT, ""
        if event == QUIT:
            self.message = "The text is not saved: Ctrl Q again quits"
        elif event == SAVE:
            self.save()
        elif in_curses.take(self.area, event):
            self.is_changed = True
        return True

    def draw(self, columns: int, rows: int) -> None:
        """Draws the text, and in the last row the file's name and a message."""
        row, column = self.area.cursor
        mark = "*" if self.is_changed else ""
        status = f" {self.name or 'no name'}{mark}  {row + 1}:{column + 1}  {self.message}"
        self.area.reset_screen(Area(0, 0, columns, rows))
        self.area.render(Area(0, 0, columns, rows - 1))
        for x, character in enumerate(status[:columns].ljust(columns)):
            self.area.put(x, rows - 1, character if character.isprintable() else "?", Style(add=Modifier.REVERSED))


def main() -> int:
    names = sys.argv[1:]
    if len(names) > 1 or names and names[0].startswith("-"):
        print("usage: python -m textarea [FILE]", file=sys.stderr)
        return 0 if names[0] in ("-h", "--help") else 2
    try:
        editor = Editor(names[0] if names else None)
    except (OSError, ValueError) as error:
        print(f"textarea: {names[0]} is not opened: {error}", file=sys.stderr)
        return 1
    if not sys.stdin.isatty() or not sys.stdout.isatty():
        print("textarea: standard input and output have to be a terminal", file=sys.stderr)
        return 1

    def edit(window: Any) -> None:
        events, event = in_curses.Events(window), None
        while editor.take(event):
            rows, columns = window.getmaxyx()
            editor.draw(columns, rows)
            in_curses.show(window, editor.area)
            event = events.read()

    in_curses.run(edit)
    return 0


if __name__ == "__main__":
    sys.exit(main())
