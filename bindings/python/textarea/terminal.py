"""A terminal without another library: the bytes that it sends as events, and screens of text areas as
the bytes that show them.

    >>> from textarea import Area, Input, TextArea
    >>> from textarea.terminal import Paste, Terminal
    >>> area, terminal = TextArea(), Terminal(Area(0, 0, 20, 3))
    >>> for event in terminal.feed(b"on\\x1b[200~e\\rtwo\\x1b[201~"):  # as they are read
    ...     if isinstance(event, Input):
    ...         _ = area.input(event)
    ...     elif isinstance(event, Paste):
    ...         _ = area.insert_pasted(event.text)
    >>> area.lines
    ['one', 'two']
    >>> area.reset_screen(Area(0, 0, 20, 3))
    >>> area.render(Area(0, 0, 20, 3))
    >>> b"two" in terminal.paint(area, area.rendered_cursor_position)  # to be written
    True
    >>> terminal.paint(area, area.rendered_cursor_position)
    b''

The program itself reads and writes the bytes, and sets the terminal's modes: raw input, and those of
reports that it wants, such as bracketed paste. A call that runs out of memory raises `MemoryError`, and
then nothing changed.
"""

from __future__ import annotations

import ctypes
import enum
from typing import Callable, Iterator, NamedTuple, Optional, Union

from . import _sys as sys_
from ._area import TextArea
from ._data import Area, Input
from ._enums import Key
from ._library import lib as _lib


class MouseKind(enum.IntEnum):
    """What a mouse did. A drag is a move with a button down; `RELEASE_ANY` doesn't say which."""

    PRESS = sys_.MOUSE_PRESS
    RELEASE = sys_.MOUSE_RELEASE
    DRAG = sys_.MOUSE_DRAG
    MOVE = sys_.MOUSE_MOVE
    RELEASE_ANY = sys_.MOUSE_RELEASE_ANY
    WHEEL_LEFT = sys_.MOUSE_WHEEL_LEFT
    WHEEL_RIGHT = sys_.MOUSE_WHEEL_RIGHT


class Colors(enum.IntEnum):
    """The colours that a terminal has: its own two; those, and the sixteen with names; those, and the
    256 with numbers; or all."""

    NONE = sys_.COLORS_NONE
    SIXTEEN = sys_.COLORS_SIXTEEN
    INDEXED = sys_.COLORS_INDEXED
    TRUE = sys_.COLORS_TRUE


class CursorShape(enum.IntEnum):
    """The shape of a terminal's cursor. `DEFAULT` is the terminal's own."""

    DEFAULT = sys_.SHAPE_DEFAULT
    BLINKING_BLOCK = sys_.SHAPE_BLINKING_BLOCK
    BLOCK = sys_.SHAPE_BLOCK
    BLINKING_UNDERLINE = sys_.SHAPE_BLINKING_UNDERLINE
    UNDERLINE = sys_.SHAPE_UNDERLINE
    BLINKING_BAR = sys_.SHAPE_BLINKING_BAR
    BAR = sys_.SHAPE_BAR


LEFT, MIDDLE, RIGHT = sys_.BUTTON_LEFT, sys_.BUTTON_MIDDLE, sys_.BUTTON_RIGHT


class Paste(NamedTuple):
    """A pasted text. Invalid UTF-8 is U+FFFD."""

    text: str


class Mouse(NamedTuple):
    """A report of a mouse, except of the steps of its wheel up and down, which are inputs. The button is
    LEFT, MIDDLE, RIGHT or the number of a further one, from 8 on; 0 if the kind has none."""

    kind: MouseKind
    button: int
    column: int
    row: int
    ctrl: bool
    alt: bool
    shift: bool


class Size(NamedTuple):
    """The terminal's size in cells, as the reply to a query or by the terminal itself."""

    columns: int
    rows: int


class Cursor(NamedTuple):
    """The position of the terminal's cursor, from 0, as the reply to a query."""

    column: int
    row: int


class Focus(NamedTuple):
    """The terminal's window got the focus, or lost it."""

    is_gained: bool


class Unknown(NamedTuple):
    """A sequence that is none of the others."""


Event = Union[Input, Paste, Mouse, Size, Cursor, Focus, Unknown]


def _is_ok(status: int) -> bool:
    if status == sys_.OUT_OF_MEMORY:
        raise MemoryError
    if status == sys_.INVALID_ARGUMENT:
        raise ValueError("the core does not take this argument")
    return status == sys_.OK


def _all_bytes(call: Callable) -> bytes:
    """The bytes that a call writes, which is asked again where it has more of them than there is room for."""
    room, needed = 1024, ctypes.c_size_t()
    while True:
        out = (ctypes.c_uint8 * room)()
        call(out, room, needed)
        if needed.value <= room:
            return bytes(memoryview(out)[:needed.value])
        room = needed.value


def _passed(data: bytes) -> ctypes.Array:
    """Bytes for a call, which takes no null pointer."""
    return (ctypes.c_uint8 * max(1, len(data))).from_buffer_copy(data or b"\0")


def cursor_shape_bytes(shape: CursorShape) -> bytes:
    """The bytes that give a terminal's cursor a shape.

    >>> cursor_shape_bytes(CursorShape.BAR)
    b'\\x1b[6 q'
    """
    return _all_bytes(lambda *out: _is_ok(_lib.ta_cursor_shape_bytes(shape, *out)))


def title_bytes(title: str) -> bytes:
    """The bytes that give a terminal's window a title, without the title's control characters.

    >>> title_bytes("note.txt\\n")
    b'\\x1b]2;note.txt\\x1b\\\\'
    """
    data = title.encode()
    passed = _passed(data)
    return _all_bytes(lambda *out: _is_ok(_lib.ta_title_bytes(passed, len(data), *out)))


class Terminal:
    """A decoder of the bytes that a terminal sends, and a painter of screens on it. The terminal shows the
    cells of an area, of which the first is in its first column and row; what it shows at first is
    unknown."""

    def __init__(self, area: Area):
        self._handle = sys_.TerminalHandle()
        self._call(_lib.ta_terminal_new, sys_.Area(*area))

    def __del__(self):
        if hasattr(self, "_handle"):
            _lib.ta_terminal_free(self._handle)

    def _call(self, function: Callable, *arguments) -> bool:
        return _is_ok(function(self._handle, *arguments))

    def _bytes(self, function: Callable) -> bytes:
        return _all_bytes(lambda *out: self._call(function, *out))

    # ---- The bytes that the terminal sends

    def feed(self, data: bytes) -> list[Event]:
        """Decodes the next bytes that the terminal sent, however they are split, and returns the events
        that are complete."""
        self._call(_lib.ta_decoder_feed, _passed(data), len(data))
        return list(self._events())

    def idle(self, milliseconds: int) -> list[Event]:
        """Tells that the terminal sent nothing for so many milliseconds, since the last byte or the last
        call of this, and returns the events that this completes: a lone ESC is the key Esc then. After
        5 seconds of such pauses nothing stays incomplete."""
        self._call(_lib.ta_decoder_idle, milliseconds)
        return list(self._events())

    def _events(self) -> Iterator[Event]:
        event = sys_.Event()
        while self._call(_lib.ta_decoder_event, event):
            yield self._event(event)

    def _event(self, event: sys_.Event) -> Event:
        kind, keys = event.kind, event.input
        if kind == sys_.EVENT_INPUT:
            argument = chr(keys.argument) if keys.key == sys_.KEY_CHAR else keys.argument
            return Input(Key(keys.key), argument, keys.ctrl, keys.alt, keys.shift)
        if kind == sys_.EVENT_PASTE:
            return Paste(self._bytes(_lib.ta_decoder_pasted).decode())
        if kind == sys_.EVENT_MOUSE:
            did = MouseKind(event.mouse)
            return Mouse(did, event.button, event.column, event.row, keys.ctrl, keys.alt, keys.shift)
        if kind == sys_.EVENT_SIZE:
            return Size(event.column, event.row)
        if kind == sys_.EVENT_CURSOR:
            return Cursor(event.column, event.row)
        if kind in (sys_.EVENT_FOCUS_GAINED, sys_.EVENT_FOCUS_LOST):
            return Focus(kind == sys_.EVENT_FOCUS_GAINED)
        return Unknown()

    def asked(self) -> None:
        """Tells that a query was sent whose reply is a size (`CSI 18 t`) or the cursor's position
        (`CSI ? 6 n`). Its reply is then no part of a pasted text in which it is sent."""
        self._call(_lib.ta_decoder_asked)

    def set_resizes(self, resizes: bool) -> None:
        """Sets whether the terminal reports a new size by itself (mode 2048)."""
        self._call(_lib.ta_decoder_set_resizes, resizes)

    def set_console(self, console: bool) -> None:
        """Sets whether the terminal is the Linux console, on which ESC and a tab are Tab with Shift."""
        self._call(_lib.ta_decoder_set_console, console)

    # ---- Frames

    def paint(self, area: TextArea, caret: Optional[tuple[int, int]] = None) -> bytes:
        """The bytes that make the terminal show the screen of a text area, and its cursor in this column
        and row, after the frame before; none if it shows them already. A cell that the screen doesn't
        have is a blank, and a caret outside of the terminal's area is hidden."""
        x, y = caret or (0, 0)
        self._call(_lib.ta_painter_paint, area._handle, caret is not None, x, y)
        return self._bytes(_lib.ta_painter_bytes)

    def reset(self) -> None:
        """Forgets what the terminal shows, and its modes, as after another program has written to it. The
        next `paint` erases it."""
        self._call(_lib.ta_painter_reset)

    def resize(self, area: Area) -> None:
        """Changes the area that the terminal shows, and forgets what it shows. Call it at each `Size`,
        also of the same size."""
        self._call(_lib.ta_painter_resize, sys_.Area(*area))

    def set_colors(self, colors: Colors) -> None:
        """Sets the colours that the terminal has, which are all at first, and forgets what it shows. Other
        colours are shown as the nearest that it has."""
        self._call(_lib.ta_painter_set_colors, colors)
