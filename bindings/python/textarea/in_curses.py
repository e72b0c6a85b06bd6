"""A text area in a terminal, by Python's own module `curses`.

    from textarea import Area, Input, TextArea, in_curses

    def main(window):
        area, events, event = TextArea("Ctrl Q ends this program."), in_curses.Events(window), None
        while event != Input.char("q", ctrl=True):
            in_curses.take(area, event)
            rows, columns = window.getmaxyx()
            area.reset_screen(Area(0, 0, columns, rows))
            area.render(Area(0, 0, columns, rows))
            in_curses.show(window, area)
            event = events.read()

    in_curses.run(main)

`curses` shows the cells; what the terminal sends is decoded by `textarea.terminal`.
"""

from __future__ import annotations

import contextlib
import curses
import sys
from typing import Any, Callable, Dict, List, Optional, Tuple

from . import _sys
from ._area import TextArea
from ._data import Area, Cell, Color, Input
from ._enums import CursorRenderMode, Modifier
from .terminal import LEFT, Event, Mouse, MouseKind, Paste, Terminal

# Bracketed paste, and reports of the mouse with its buttons down, in SGR's form.
ENTER, LEAVE = "\x1b[?2004h\x1b[?1002h\x1b[?1006h", "\x1b[?1006l\x1b[?1002l\x1b[?2004l"
# Milliseconds within which what follows an escape character belongs to it, and after which nothing is incomplete.
PATIENCE, LONGEST_PAUSE = 25, 5000
ATTRIBUTES = {
    Modifier.BOLD: curses.A_BOLD, Modifier.DIM: curses.A_DIM, Modifier.UNDERLINED: curses.A_UNDERLINE,
    Modifier.ITALIC: getattr(curses, "A_ITALIC", 0), Modifier.SLOW_BLINK: curses.A_BLINK,
    Modifier.RAPID_BLINK: curses.A_BLINK, Modifier.REVERSED: curses.A_REVERSE, Modifier.HIDDEN: curses.A_INVIS,
}


def run(main: Callable[[Any], Any]) -> Any:
    """Calls `main` with the window of the whole terminal, and restores the terminal on every way out.
    No key sends a signal."""

    def in_raw_mode(window: Any) -> Any:
        curses.raw()
        curses.nonl()
        window.keypad(False)
        with contextlib.suppress(curses.error):
            curses.use_default_colors()
        sys.stdout.write(ENTER)
        sys.stdout.flush()
        return main(window)

    try:
        return curses.wrapper(in_raw_mode)
    finally:
        sys.stdout.write(LEAVE)
        sys.stdout.flush()


class Events:
    """The events of the terminal that a window is in."""

    def __init__(self, window: Any) -> None:
        self._window, self._decoder = window, Terminal(Area(0, 0, 1, 1))
        self._ready: List[Optional[Event]] = []
        self._pause = LONGEST_PAUSE

    def read(self) -> Optional[Event]:
        """Waits for the next event, or for a new size of the terminal, which is None."""
        while not self._ready:
            data = self._bytes()
            if data:
                self._pause = 0
                self._ready[:0] = self._decoder.feed(data)
            elif not self._ready:
                self._pause += PATIENCE
                self._ready += self._decoder.idle(PATIENCE)
        return self._ready.pop(0)

    def _bytes(self) -> bytes:
        """The next bytes, as many as are there; none after a pause or at a new size."""
        self._window.timeout(PATIENCE if self._pause < LONGEST_PAUSE else -1)
        found, data = self._window.getch(), bytearray()
        self._window.timeout(0)
        while 0 <= found < 256:
            data.append(found)
            found = self._window.getch() if len(data) < 4096 else -1
        if found == curses.KEY_RESIZE:
            self._ready.append(None)
        return bytes(data)


def take(area: TextArea, event: Optional[Event]) -> bool:
    """Has the text area do what an event means: keys by its table, a click moves the cursor, a drag
    selects. Returns whether the text changed."""
    if isinstance(event, Input):
        return area.input(event)
    if isinstance(event, Paste):
        return area.insert_pasted(event.text)
    if isinstance(event, Mouse) and event.button == LEFT and event.kind in (MouseKind.PRESS, MouseKind.DRAG):
        place = area.cursor_at_position(event.column, event.row)
        if place and event.kind == MouseKind.PRESS:
            area.cancel_selection()
        elif place and not area.is_selecting:
            area.start_selection()
        if place:
            area.go_to(*place)
    return False


def show(window: Any, *areas: TextArea) -> None:
    """Shows the screens of text areas in the window, each at its own place, and the terminal's cursor
    where the last of them does not draw its own."""
    window.erase()
    for area in areas:
        _show_cells(window, area)
    place = areas[-1].rendered_cursor_position
    with contextlib.suppress(curses.error):
        curses.curs_set(1 if place and areas[-1].cursor_render_mode == CursorRenderMode.HIDDEN else 0)
        if place:
            window.move(place[1], place[0])
    window.refresh()


def _show_cells(window: Any, area: TextArea) -> None:
    left, top, _, _ = area.screen_area
    for y, row in enumerate(area.cells, top):
        column = left
        for x, cell in enumerate(row, left):
            # (a wide cell covers those after it)
            if x >= column:
                with contextlib.suppress(curses.error):
                    window.addstr(y, x, cell.symbol, _attributes(cell))
                column = max(x + 1, window.getyx()[1] if window.getyx()[0] == y else 0)


_pairs: Dict[Tuple[int, int], int] = {}


def _attributes(cell: Cell) -> int:
    found = 0
    for modifier, attribute in ATTRIBUTES.items():
        if cell.modifier & modifier:
            found |= attribute
    pair = _color(cell.fg), _color(cell.bg)
    if pair == (-1, -1):
        return found
    if pair not in _pairs and len(_pairs) + 1 < curses.COLOR_PAIRS:
        with contextlib.suppress(curses.error):
            curses.init_pair(len(_pairs) + 1, *pair)
            _pairs[pair] = len(_pairs) + 1
    return found | curses.color_pair(_pairs.get(pair, 0))


def _color(color: Color) -> int:
    """The number of a colour in the terminal, or -1 for its own one."""
    if color.kind == _sys.COLOR_INDEXED:
        number = color.red
    elif color.kind == _sys.COLOR_RGB:
        red, green, blue = (round(part / 51) for part in (color.red, color.green, color.blue))
        number = 16 + 36 * red + 6 * green + blue
    else:
        number = color.kind - _sys.COLOR_BLACK
    colors = curses.COLORS if curses.has_colors() else 0
    if number < colors or number < 0:
        return number
    return number % 8 if number < 16 and colors >= 8 else -1
