"""Written by tools/c-binding from crates/textarea_c and crates/textarea_c_data. Do not edit."""

import enum


class Names(enum.EnumMeta):
    """What is listed of an enum: its members."""

    def __dir__(cls):
        return ["__doc__", "__members__", *cls.__members__]


class Key(enum.IntEnum, metaclass=Names):
    """A key. `CHAR` and `F` take a character or a number beside it."""

    NULL = 0
    CHAR = 1
    F = 2
    BACKSPACE = 3
    ENTER = 4
    LEFT = 5
    RIGHT = 6
    UP = 7
    DOWN = 8
    TAB = 9
    DELETE = 10
    HOME = 11
    END = 12
    PAGE_UP = 13
    PAGE_DOWN = 14
    ESC = 15
    COPY = 16
    CUT = 17
    PASTE = 18
    MOUSE_SCROLL_DOWN = 19
    MOUSE_SCROLL_UP = 20


class Move(enum.IntEnum, metaclass=Names):
    """A way to move the cursor. `TextArea.jump` moves it to a row and a column."""

    FORWARD = 0
    BACK = 1
    UP = 2
    DOWN = 3
    HEAD = 4
    END = 5
    TOP = 6
    BOTTOM = 7
    WORD_FORWARD = 8
    WORD_END = 9
    WORD_BACK = 10
    PARAGRAPH_FORWARD = 11
    PARAGRAPH_BACK = 12
    IN_VIEWPORT = 13


class Page(enum.IntEnum, metaclass=Names):
    """A scroll by the height of the viewport, or by half of it."""

    PAGE_DOWN = 0
    PAGE_UP = 1
    HALF_PAGE_DOWN = 2
    HALF_PAGE_UP = 3


class Side(enum.IntEnum, metaclass=Names):
    """A side of the cursor, or an end of an atomic range."""

    BACKWARD = 0
    FORWARD = 1


class ChangeUnit(enum.IntEnum, metaclass=Names):
    """What the columns of changes count."""

    CHARACTERS = 0
    BYTES = 1
    UTF16 = 2


class WrapMode(enum.IntEnum, metaclass=Names):
    """How lines are wrapped into visual rows."""

    NONE = 0
    WORD = 1
    GLYPH = 2
    WORD_OR_GLYPH = 3


class Alignment(enum.IntEnum, metaclass=Names):
    """How visual rows are aligned in the inner area."""

    LEFT = 0
    CENTER = 1
    RIGHT = 2


class CursorRenderMode(enum.IntEnum, metaclass=Names):
    """How the cell at the cursor is drawn."""

    CELL = 0
    HIDDEN = 1


class CursorUnit(enum.IntEnum, metaclass=Names):
    """What the cursor goes over as a whole, beside atomic ranges."""

    CHARACTER = 0
    CLUSTER = 1


class Reason(enum.IntEnum, metaclass=Names):
    """Why an atomic range is rejected."""

    EMPTY = 0
    ROW_OUT_OF_BOUNDS = 1
    COLUMN_OUT_OF_BOUNDS = 2
    OVERLAPS_PREVIOUS = 3


class Borders(enum.IntFlag, metaclass=Names):
    """The sides of a block that have a border: a set."""

    NONE = 0
    TOP = 1
    RIGHT = 2
    BOTTOM = 4
    LEFT = 8
    ALL = 15


class Modifier(enum.IntFlag, metaclass=Names):
    """Attributes of a text besides its colours: a set."""

    NONE = 0
    BOLD = 1
    DIM = 2
    ITALIC = 4
    UNDERLINED = 8
    SLOW_BLINK = 16
    RAPID_BLINK = 32
    REVERSED = 64
    HIDDEN = 128
    CROSSED_OUT = 256
