"""Plain data of a text area: colours and styles, styled texts, blocks, inputs, ranges and measures."""

from __future__ import annotations

from dataclasses import dataclass
from typing import ClassVar, List, NamedTuple, Optional, Tuple, Union

from . import _sys
from ._enums import Borders, Key, Modifier, Reason


@dataclass(frozen=True)
class Color:
    """A colour: its kind, and for `Color.rgb` its parts, for `Color.indexed` its number in `red`.
    `Color.RED` and the other names are colours of a terminal, `Color.RESET` its own."""

    kind: int
    red: int = 0
    green: int = 0
    blue: int = 0

    RESET: ClassVar[Color]
    BLACK: ClassVar[Color]
    RED: ClassVar[Color]
    GREEN: ClassVar[Color]
    YELLOW: ClassVar[Color]
    BLUE: ClassVar[Color]
    MAGENTA: ClassVar[Color]
    CYAN: ClassVar[Color]
    GRAY: ClassVar[Color]
    DARK_GRAY: ClassVar[Color]
    LIGHT_RED: ClassVar[Color]
    LIGHT_GREEN: ClassVar[Color]
    LIGHT_YELLOW: ClassVar[Color]
    LIGHT_BLUE: ClassVar[Color]
    LIGHT_MAGENTA: ClassVar[Color]
    LIGHT_CYAN: ClassVar[Color]
    WHITE: ClassVar[Color]

    @classmethod
    def rgb(cls, red: int, green: int, blue: int) -> Color:
        """The colour of these parts, each from 0 to 255."""
        return cls(_sys.COLOR_RGB, red, green, blue)

    @classmethod
    def indexed(cls, number: int) -> Color:
        """One of a terminal's 256 colours by its number."""
        return cls(_sys.COLOR_INDEXED, number)

    def _core(self) -> _sys.Color:
        return _sys.Color(self.kind, self.red, self.green, self.blue)

    @classmethod
    def _of(cls, color: _sys.Color) -> Color:
        return cls(color.kind, color.red, color.green, color.blue)


for _name in [name for name in vars(_sys) if name.startswith("COLOR_")]:
    if _name not in ("COLOR_NONE", "COLOR_RGB", "COLOR_INDEXED"):
        setattr(Color, _name[len("COLOR_"):], Color(getattr(_sys, _name)))


@dataclass(frozen=True)
class Style:
    """A change to the colours and modifiers of cells. A colour of None leaves the cell's colour; the
    modifiers of `add` are added, then those of `remove` removed."""

    fg: Optional[Color] = None
    bg: Optional[Color] = None
    add: Modifier = Modifier.NONE
    remove: Modifier = Modifier.NONE

    def _core(self) -> _sys.Style:
        fg, bg = (color._core() if color else _sys.Color(_sys.COLOR_NONE) for color in (self.fg, self.bg))
        return _sys.Style(fg, bg, self.add, self.remove)

    @classmethod
    def _of(cls, style: _sys.Style) -> Style:
        fg, bg = (None if it.kind == _sys.COLOR_NONE else Color._of(it) for it in (style.fg, style.bg))
        return cls(fg, bg, Modifier(style.add_modifier), Modifier(style.sub_modifier))


@dataclass(frozen=True)
class Span:
    """A text in one style."""

    text: str
    style: Style = Style()


@dataclass(frozen=True)
class Line:
    """Spans one after another. The style of the line is under theirs."""

    spans: Tuple[Span, ...] = ()
    style: Style = Style()

    @staticmethod
    def of(text: str, style: Style = Style()) -> Line:
        """A line of one span in the empty style."""
        return Line((Span(text),), style)


class Padding(NamedTuple):
    """Free columns and rows at the four sides of a rectangle."""

    left: int = 0
    right: int = 0
    top: int = 0
    bottom: int = 0


@dataclass(frozen=True)
class Block:
    """A frame around the text: borders, a title in the top row, and free rows and columns inside."""

    borders: Borders = Borders.NONE
    padding: Padding = Padding()
    title: Optional[Line] = None
    style: Style = Style()
    border_style: Style = Style()


class Input(NamedTuple):
    """A key with the modifiers that are pressed. `argument` is the character of `Key.CHAR` or the
    number of `Key.F`."""

    key: Key
    argument: Union[int, str] = 0
    ctrl: bool = False
    alt: bool = False
    shift: bool = False

    @classmethod
    def char(cls, character: str, ctrl: bool = False, alt: bool = False, shift: bool = False) -> Input:
        """The key that types this character."""
        return cls(Key.CHAR, character, ctrl, alt, shift)

    def _core(self) -> _sys.Input:
        argument = ord(self.argument) if isinstance(self.argument, str) else self.argument
        return _sys.Input(self.key, argument, self.ctrl, self.alt, self.shift)


class Range(NamedTuple):
    """An atomic range: characters of a row that are edited as a whole, from `start` up to, but not
    including, `end`."""

    row: int
    start: int
    end: int

    @classmethod
    def _of(cls, range: _sys.Range) -> Range:
        return cls(range.row, range.start_col, range.end_col)


class Change(NamedTuple):
    """A change of a text: its start, and the end of what it removes, both in the text just before it
    as (row, column), and the inserted lines, at least one."""

    start: Tuple[int, int]
    end: Tuple[int, int]
    lines: List[str]


class RangesRejected(ValueError):
    """Atomic ranges are not valid for the text. `rejected` has those that are not, sorted by row and
    start, each with its reason."""

    def __init__(self, rejected: List[Tuple[Range, Reason]]):
        super().__init__("the atomic ranges are not valid for the text")
        self.rejected = rejected


class PatternRejected(ValueError):
    """A search pattern is not one of the Rust crate `regex`; the text says why."""


class Measure(NamedTuple):
    """Measured heights, in screen rows."""

    content_rows: int
    preferred_rows: int
    min_rows: int
    max_rows: int


class Viewport(NamedTuple):
    """The first visible visual row and column, and the size of the area that was drawn last."""

    row: int
    column: int
    width: int
    height: int


class Cell(NamedTuple):
    """A drawn cell."""

    symbol: str
    fg: Color
    bg: Color
    modifier: Modifier


class Area(NamedTuple):
    """A rectangle of cells: its left column, its top row, its width and its height."""

    x: int
    y: int
    width: int
    height: int
