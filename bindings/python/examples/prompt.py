"""A prompt that grows with its text, up to five rows, and then scrolls; above it what was sent. Enter sends
the text, Alt with Enter breaks the line, and Esc ends the program: python3 examples/prompt.py"""

from textarea import Area, Block, Borders, Color, Input, Key, Move, Style, TextArea, WrapMode, in_curses
from textarea.terminal import Paste

MOST_ROWS = 5


class Prompt:
    def __init__(self):
        self.area, self.sent = TextArea(), TextArea()
        self.area.block = Block(Borders.ALL, border_style=Style(Color.CYAN))
        self.area.max_rows = MOST_ROWS + 2
        self.area.placeholder_style = Style(Color.DARK_GRAY)
        self.area.set_placeholder_text("Ask anything")
        self.sent.cursor_style = Style()
        for area in (self.area, self.sent):
            area.cursor_line_style = Style()
            area.wrap_mode = WrapMode.WORD

    def send(self):
        """Adds the text below what was sent before, and empties the prompt."""
        if not self.area.is_empty:
            self.sent.move_cursor(Move.BOTTOM)
            self.sent.move_cursor(Move.END)
            self.sent.insert_str("\n" + self.area.text)
        self.area.clear()

    def take(self, event):
        """Does what the event means, and returns whether the program goes on."""
        if isinstance(event, Input) and event.key == Key.ESC:
            return False
        if event == Input(Key.ENTER):
            self.send()
        elif isinstance(event, (Input, Paste)):
            in_curses.take(self.area, event)
        return True

    def show(self, window):
        """Draws the prompt at the bottom of the screen, as high as its text needs."""
        rows, columns = window.getmaxyx()
        height = min(self.area.measure(columns).preferred_rows, rows)
        parts = [(self.sent, Area(0, 0, columns, rows - height)), (self.area, Area(0, rows - height, columns, height))]
        for area, place in parts:
            area.reset_screen(place)
            area.render(place)
        in_curses.show(window, *(area for area, _ in parts))


def main(window):
    prompt, events, event = Prompt(), in_curses.Events(window), None
    while prompt.take(event):
        prompt.show(window)
        event = events.read()


in_curses.run(main)
