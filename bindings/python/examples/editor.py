"""An editor with line numbers, soft wrap, a lit cursor line, a selection and a status. Esc ends it:
python3 examples/editor.py"""

from textarea import (
    Area, Block, Color, CursorUnit, Input, Key, Line, Modifier, Style, TextArea, WrapMode, in_curses,
)

TEXT = """# Notes

A line that is longer than the screen goes on in the next row, and has one number.

- 漢字 and other wide characters
- a selection from here to there"""


def set_up():
    area = TextArea.from_text(TEXT)
    area.cursor_line_style = Style(bg=Color.DARK_GRAY)
    area.selection_style = Style(Color.BLACK, Color.CYAN)
    area.cursor_unit = CursorUnit.CLUSTER
    area.line_number_style = Style(Color.DARK_GRAY)
    area.wrap_mode = WrapMode.WORD
    return area


def show(window, area, is_changed):
    """Draws the status in the top row, and the text below it."""
    rows, columns = window.getmaxyx()
    screen = Area(0, 0, columns, rows)
    status = f" notes.md{'*' if is_changed else ''}, line {area.cursor[0] + 1}"
    area.block = Block(title=Line.of(status))
    area.reset_screen(screen)
    area.render(screen)
    area.set_screen_style(Area(0, 0, columns, 1), Style(add=Modifier.REVERSED))
    in_curses.show(window, area)


def main(window):
    area, is_changed, events, event = set_up(), False, in_curses.Events(window), None
    while event != Input(Key.ESC):
        is_changed = in_curses.take(area, event) or is_changed
        show(window, area, is_changed)
        event = events.read()


in_curses.run(main)
