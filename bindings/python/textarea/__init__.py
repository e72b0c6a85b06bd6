"""A text area, a multi-line editor widget for terminals, over a proved core.

`TextArea` holds lines with a cursor, a selection, a yanked text and an undo history; settings; a
search pattern; a block, a placeholder and height limits around it; and its styles and viewport.

    >>> from textarea import Move, TextArea
    >>> area = TextArea("one two\\nthree")
    >>> area.move_cursor(Move.WORD_FORWARD)
    >>> area.delete_next_word()
    True
    >>> area.lines
    ['one ', 'three']
    >>> area.undo()
    True
    >>> area.text
    'one two\\nthree'

Rows and columns count from 0, columns in characters. A call that runs out of memory raises
`MemoryError` and leaves the text area unchanged; only an insertion may have removed the selected
text. An argument that the core doesn't take raises `ValueError`.

A text area stays on the thread that made it. `textarea.in_curses` shows one in a terminal, and
`python -m textarea FILE` is a small editor. The library of the core is loaded at the first import:
the one that the environment variable TEXTAREA_LIBRARY names, or else the one in this package.
"""

from ._area import TextArea
from ._data import (
    Area, Block, Cell, Change, Color, Input, Line, Measure, Padding, PatternRejected, Range,
    RangesRejected, Span, Style, Viewport,
)
from ._enums import (
    Alignment, Borders, ChangeUnit, CursorRenderMode, CursorUnit, Key, Modifier, Move, Page, Reason, Side,
    WrapMode,
)

__version__ = "0.16.0"
__all__ = [
    "TextArea", "Input", "Key", "Move", "Page", "Side", "Range", "Reason", "RangesRejected",
    "PatternRejected", "WrapMode", "Alignment", "Measure", "Viewport", "Area", "Cell",
    "CursorRenderMode", "CursorUnit", "Style", "Color", "Modifier", "Span", "Line", "Block", "Borders", "Padding",
    "Change", "ChangeUnit",
]

# Each is known by the name that it is imported by, also in `help`, in messages and where it is pickled.
for _name in __all__:
    globals()[_name].__module__ = __name__
