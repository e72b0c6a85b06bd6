"""The text area."""

from __future__ import annotations

import ctypes
import itertools
from typing import Iterable, List, Optional, Tuple

from . import _sys
from ._calls import Calls
from ._core import lines_of, passed_lines, passed_list, passed_text, sizes
from ._data import (
    Area, Block, Cell, Change, Color, Input, Line, Measure, Padding, Range, Span, Style, Viewport,
)
from ._enums import (
    Alignment, Borders, ChangeUnit, CursorRenderMode, CursorUnit, Modifier, Move, Page, Side, WrapMode,
)
from ._library import lib


class TextArea(Calls):
    """A multi-line text editor. `TextArea(text)` begins with the text's lines and the cursor at the
    start; `TextArea.from_lines(lines)` with lines, in which a line feed stays a character."""

    def __init__(self, text: str = "") -> None:
        super().__init__()
        if text:
            self.set_lines(text.split("\n"))

    @classmethod
    def from_lines(cls, lines: Iterable[str]) -> TextArea:
        """A text area with these lines, or with one empty line without any."""
        area, lines = cls(), list(lines)
        if lines:
            area.set_lines(lines)
        return area

    @classmethod
    def from_text(cls, text: str) -> TextArea:
        """A text area with the text of a file: each line feed ends a line, and one at the text's end
        begins no line; a carriage return directly before a line feed is dropped."""
        area = cls()
        area._call(lib.ta_from_text, *passed_text(text))
        return area

    def __repr__(self) -> str:
        return f"<TextArea {self.lines!r} cursor={self.cursor}>"

    def copy_area(self) -> TextArea:
        """A copy of the text area, with its history."""
        area = TextArea()
        area._start = self._start
        self._call(lib.ta_clone, area._handle)
        return area

    # ---- Lines

    @property
    def lines(self) -> List[str]:
        """The lines, at least one."""
        room, many = 256, 16
        needed, count = sizes(2)
        while True:
            out, ends = (ctypes.c_uint8 * room)(), (ctypes.c_size_t * many)()
            self._call(lib.ta_lines, out, room, needed, ends, many, count)
            if needed.value <= room and count.value <= many:
                break
            room, many = max(1, needed.value), count.value
        data, starts = bytes(out), [0, *ends[:count.value]]
        return [data[a:b].decode() for a, b in zip(starts, starts[1:])]

    @property
    def text(self) -> str:
        """The lines, with a line feed between two."""
        return self._text(lib.ta_text)

    def text_range(self, start: Tuple[int, int], end: Tuple[int, int]) -> str:
        """The text between two positions, in either order, with a line feed for each line break.
        Positions beyond the text count as the nearest ones in it."""
        return self._text(lib.ta_text_range, *start, *end)

    def line(self, row: int) -> Optional[str]:
        """The line of this row, or None if there is none."""
        return self._text_if_any(lib.ta_line, row)

    def set_lines(self, lines: Iterable[str], cursor: Tuple[int, int] = (0, 0)) -> None:
        """Replaces all lines, at least one, and moves the cursor to the position in them that is
        nearest to `cursor`. Forgets all edits, the selection, the atomic ranges and the custom
        highlights."""
        lines = list(lines)
        ends = list(itertools.accumulate(len(line.encode()) for line in lines))
        self._call(lib.ta_set_lines, *passed_text("".join(lines)), *passed_list(ctypes.c_size_t, ends), *cursor)

    # ---- Edits

    def insert_char(self, character: str) -> None:
        """Inserts the character at the cursor; a line feed and a carriage return break the line."""
        self._edit(lib.ta_insert_char, ord(character))

    def insert_str(self, text: str) -> bool:
        """Inserts the text at the cursor. Returns whether it inserted something or removed a
        selection."""
        return self._edit(lib.ta_insert_str, *passed_text(text))

    def insert_pasted(self, text: str) -> bool:
        """Inserts a text that was pasted from outside: each line feed, carriage return, or carriage
        return and line feed breaks the line. Returns whether it inserted something or removed a
        selection."""
        return self._edit(lib.ta_insert_pasted, *passed_text(text))

    def replace_range(self, start: Tuple[int, int], end: Tuple[int, int], text: str) -> bool:
        """Replaces the text between two positions, in either order, by this one; one undo takes both
        back. Returns whether it removed or inserted something. Positions beyond the text count as
        the nearest ones in it. Atomic ranges that the replaced text overlaps are removed."""
        return self._edit(lib.ta_replace_range, *start, *end, *passed_text(text))

    def input(self, input: Input) -> bool:
        """Makes the call that the key table with shortcuts has for the input. Returns whether the
        text changed."""
        return self._edit(lib.ta_input, input._core())

    def input_without_shortcuts(self, input: Input) -> bool:
        """As `input`, but by the table without shortcuts."""
        return self._edit(lib.ta_input_without_shortcuts, input._core())

    # ---- History

    def set_now(self, nanoseconds: int) -> None:
        """Sets the time of the edits that follow, from any fixed time, instead of a clock's."""
        self._start = None
        self._call(lib.ta_set_now, nanoseconds)

    # ---- What changed

    def set_change_log(self, unit: Optional[ChangeUnit]) -> None:
        """Begins a log of what changes in the text, with columns in this unit, or ends it for None.
        The changes in the log before are forgotten."""
        if unit is None:
            self._call(lib.ta_remove_change_log)
        else:
            self._call(lib.ta_set_change_log, unit)

    def take_changes(self) -> List[Change]:
        """Returns what changed in the text since this was last called, or since the log began;
        nothing without a log. The changes, one after another, lead from the text then to the text
        now."""
        (count,) = self._numbers(ctypes.c_size_t, 1, lib.ta_take_changes)
        return [self._change(index) for index in range(count)]

    def _change(self, index: int) -> Change:
        found = self._numbers(ctypes.c_size_t, 5, lib.ta_change, index)
        lines = [self._text(lib.ta_change_line, index, row) for row in range(found[4])]
        return Change(found[:2], found[2:4], lines)

    # ---- Moves and selection

    @property
    def cursor(self) -> Tuple[int, int]:
        """The cursor's row and column."""
        return self._numbers(ctypes.c_size_t, 2, lib.ta_cursor)

    def move_cursor(self, move: Move) -> None:
        """Moves the cursor. An open selection follows it."""
        self._call(lib.ta_move_cursor, move)

    def jump(self, row: int, column: int) -> None:
        """Moves the cursor to this row and column, or to the nearest position."""
        self._call(lib.ta_jump, row, column)

    def go_to(self, row: int, column: int) -> None:
        """Moves the cursor as `jump` does, also past row and column 65535."""
        self._call(lib.ta_go_to, row, column)

    def scroll(self, rows: int, columns: int = 0) -> None:
        """Scrolls the viewport, down and to the right if positive, and moves the cursor into it."""
        self._call(lib.ta_scroll, rows, columns)

    def scroll_page(self, page: Page) -> None:
        """Scrolls by a page or half a page."""
        self._call(lib.ta_scroll_page, page)

    @property
    def selection_range(self) -> Optional[Tuple[Tuple[int, int], Tuple[int, int]]]:
        """The two ends of the selection, the first one first."""
        ends = self._numbers(ctypes.c_size_t, 4, lib.ta_selection_range)
        return ends and (ends[:2], ends[2:])

    @property
    def yank_text(self) -> str:
        """The text that was yanked last, which `paste` inserts."""
        return self._text(lib.ta_yank_text)

    @yank_text.setter
    def yank_text(self, text: str) -> None:
        self._call(lib.ta_set_yank_text, *passed_text(text))

    # ---- Search

    @property
    def search_pattern(self) -> Optional[str]:
        """The search pattern, in the syntax of the Rust crate `regex`; None or the empty text for
        none. Setting one that is rejected raises `PatternRejected`."""
        return self._text_if_any(lib.ta_search_pattern)

    @search_pattern.setter
    def search_pattern(self, pattern: Optional[str]) -> None:
        self._call(lib.ta_set_search_pattern, *passed_text(pattern or ""))

    def replace_match(self, text: str) -> bool:
        """Replaces the match of the search pattern that begins at the cursor by this text, and moves
        the cursor to the next match at or after what was inserted; after an empty match at least one
        character later. Returns whether there was such a match; without one it searches forward."""
        return self._edit(lib.ta_replace_match, *passed_text(text))

    def replace_all(self, text: str) -> int:
        """Replaces each match of the search pattern in the text as it is now by this text, and
        returns their number; one undo takes all back, if as many edits are remembered, at most two
        for each match. Matches in what is inserted are left, and so is one of which an end is
        strictly inside an atomic range. An empty match inserts the text."""
        count = ctypes.c_size_t()
        self._edit(lib.ta_replace_all, *passed_text(text), count)
        return count.value

    def set_search_text(self, text: str, ignore_case: bool = False, whole_word: bool = False) -> None:
        """Sets a search pattern that finds the text as it is: each character that has a meaning in
        the syntax of patterns is escaped. The empty text removes the pattern. With `ignore_case`,
        letters of either case match. With `whole_word`, each end of the text that is a word's
        character must be an end of a word."""
        self._call(lib.ta_set_search_text, *passed_text(text), ignore_case, whole_word)

    @property
    def match_count(self) -> int:
        """The number of the search pattern's matches in the whole text; 0 without a pattern."""
        return self._numbers(ctypes.c_size_t, 1, lib.ta_match_count)[0]

    @property
    def match_index(self) -> Optional[int]:
        """The number, counted from 0 in the order of the text, of the match that starts at the
        cursor; None if none does, and without a pattern."""
        found = self._numbers(ctypes.c_size_t, 1, lib.ta_match_index)
        return found and found[0]

    # ---- Atomic ranges

    @property
    def atomic_ranges(self) -> List[Range]:
        """The atomic ranges, sorted by row and start. Setting ranges that are not valid for the text
        raises `RangesRejected`."""
        return [Range._of(r) for r in self._list(_sys.Range, lib.ta_atomic_ranges)]

    @atomic_ranges.setter
    def atomic_ranges(self, ranges: Iterable[Range]) -> None:
        self._call(lib.ta_set_atomic_ranges, *passed_list(_sys.Range, [_sys.Range(*r) for r in ranges]))

    def normalize_cursor_around_atomic_ranges(self, side: Side) -> bool:
        """Moves a cursor strictly inside an atomic range to one of its ends. Returns whether it
        moved."""
        return self._call(lib.ta_normalize_cursor_around_atomic_ranges, side)

    def atomic_range_at_cursor(self, side: Side) -> Optional[Range]:
        """The atomic range at this side of the cursor."""
        found = _sys.Range()
        return Range._of(found) if self._call(lib.ta_atomic_range_at_cursor, side, found) else None

    def delete_atomic_range_at_cursor(self, side: Side) -> Optional[Range]:
        """Removes the atomic range at this side of the cursor, and returns it."""
        found = _sys.Range()
        return Range._of(found) if self._edit(lib.ta_delete_atomic_range_at_cursor, side, found) else None

    # ---- Settings

    @property
    def indent(self) -> str:
        """A tab at a line's start."""
        return self._text(lib.ta_indent)

    @property
    def wrap_mode(self) -> WrapMode:
        """How lines are wrapped."""
        return WrapMode(self._numbers(ctypes.c_uint32, 1, lib.ta_wrap_mode)[0])

    @wrap_mode.setter
    def wrap_mode(self, mode: WrapMode) -> None:
        self._call(lib.ta_set_wrap_mode, mode)

    @property
    def line_number_style(self) -> Optional[Style]:
        """The style of the line numbers; None hides them."""
        return self._style(lib.ta_line_number_style)

    @line_number_style.setter
    def line_number_style(self, style: Optional[Style]) -> None:
        if style is None:
            self._call(lib.ta_remove_line_number)
        else:
            self._call(lib.ta_set_line_number_style, style._core())

    @property
    def alignment(self) -> Alignment:
        """The alignment of visual rows. In the middle and at the right there are no line numbers."""
        return Alignment(self._numbers(ctypes.c_uint32, 1, lib.ta_alignment)[0])

    @alignment.setter
    def alignment(self, alignment: Alignment) -> None:
        self._call(lib.ta_set_alignment, alignment)

    def measure(self, width: int) -> Measure:
        """The height that an area of this width needs."""
        found = _sys.Measure()
        self._call(lib.ta_measure, width, found)
        return Measure(found.content_rows, found.preferred_rows, found.min_rows, found.max_rows)

    @property
    def max_chars(self) -> Optional[int]:
        """The greatest number of characters of the text, a line break counted as one; `None` for
        any number, as at first. Then what is typed does nothing if it doesn't fit, and an inserted
        text is cut at the end of the last of its grapheme clusters that fits. `duplicate_line`,
        `indent_lines` and `replace_all` do nothing unless all that they insert fits. Undo, redo and
        `set_lines` are never cut."""
        found = self._numbers(ctypes.c_size_t, 1, lib.ta_max_chars)
        return found and found[0]

    @max_chars.setter
    def max_chars(self, maximum: Optional[int]) -> None:
        if maximum is None:
            self._call(lib.ta_clear_max_chars)
        else:
            self._call(lib.ta_set_max_chars, maximum)

    @property
    def cursor_unit(self) -> CursorUnit:
        """What the cursor goes over as a whole, beside atomic ranges: `CHARACTER`, as at first, or
        `CLUSTER`, an extended grapheme cluster, such as a letter with its accents. With clusters no
        call leaves the cursor or the selection's beginning inside one, the setting included. What is
        removed is whole clusters of the text before it, but for `delete_str`; what stays may form
        others, as flags do. A match at an end of which no cluster begins or ends isn't found, counted
        or replaced."""
        return CursorUnit(self._numbers(ctypes.c_uint32, 1, lib.ta_cursor_unit)[0])

    @cursor_unit.setter
    def cursor_unit(self, unit: CursorUnit) -> None:
        self._call(lib.ta_set_cursor_unit, unit)

    # ---- Looks

    @property
    def mask_char(self) -> Optional[str]:
        """The character that is shown instead of each character of the text."""
        found = self._numbers(ctypes.c_uint32, 1, lib.ta_mask_char)
        return found and chr(found[0])

    @mask_char.setter
    def mask_char(self, mask: Optional[str]) -> None:
        if mask is None:
            self._call(lib.ta_clear_mask_char)
        else:
            self._call(lib.ta_set_mask_char, ord(mask))

    @property
    def cursor_render_mode(self) -> CursorRenderMode:
        """Whether the cell at the cursor has its own style, or is drawn as any other."""
        return CursorRenderMode(self._numbers(ctypes.c_uint32, 1, lib.ta_cursor_render_mode)[0])

    @cursor_render_mode.setter
    def cursor_render_mode(self, mode: CursorRenderMode) -> None:
        self._call(lib.ta_set_cursor_render_mode, mode)

    def custom_highlight(self, start: Tuple[int, int], end: Tuple[int, int], style: Style, priority: int) -> None:
        """Highlights the text between two positions, each a row and a byte offset in it. The cursor
        has priority 30, a match 20, a selection 10."""
        self._call(lib.ta_custom_highlight, *start, *end, style._core(), priority)

    @property
    def block(self) -> Optional[Block]:
        """The block around the text."""
        block, room, many = _sys.Block(), 64, 4
        needed, count = sizes(2)
        while True:
            out, spans = (ctypes.c_uint8 * room)(), (_sys.Span * many)()
            if not self._call(lib.ta_block, block, out, room, needed, spans, many, count):
                return None
            if needed.value <= room and count.value <= many:
                break
            room, many = max(1, needed.value), max(1, count.value)
        line = _sys.Line(count.value, block.title_style)
        title = lines_of(bytes(out), list(spans[:count.value]), [line])[0] if block.has_title else None
        p = block.padding
        styles = Style._of(block.style), Style._of(block.border_style)
        return Block(Borders(block.borders), Padding(p.left, p.right, p.top, p.bottom), title, *styles)

    @block.setter
    def block(self, block: Optional[Block]) -> None:
        if block is None:
            self._call(lib.ta_remove_block)
            return
        text, spans, _ = passed_lines([block.title] if block.title else [])
        title_style = (block.title.style if block.title else Style())._core()
        padding, style = _sys.Padding(*block.padding), block.style._core()
        plain = _sys.Block(block.borders, block.title is not None, padding, style, block.border_style._core(), title_style)
        self._call(lib.ta_set_block, plain, *text, *spans)

    def set_placeholder_text(self, text: str) -> None:
        """Sets the placeholder, which is shown while the text is empty, to one line of this text."""
        self._call(lib.ta_set_placeholder_text, *passed_text(text))

    def set_placeholder(self, lines: Iterable[Line], style: Style = Style()) -> None:
        """Sets the placeholder to these lines and their style."""
        text, spans, plain = passed_lines(lines)
        self._call(lib.ta_set_styled_placeholder, *text, *spans, *plain, style._core())

    @property
    def placeholder(self) -> Tuple[Tuple[Line, ...], Style]:
        """The lines of the placeholder, and its style."""
        style, room, many = _sys.Style(), 64, 8
        needed, spans_needed, lines_needed = sizes(3)
        while True:
            out, spans, lines = (ctypes.c_uint8 * room)(), (_sys.Span * many)(), (_sys.Line * many)()
            self._call(lib.ta_placeholder, style, out, room, needed, spans, many, spans_needed, lines, many, lines_needed)
            most = max(spans_needed.value, lines_needed.value)
            if needed.value <= room and most <= many:
                break
            room, many = max(1, needed.value), max(1, most)
        found = lines_of(bytes(out), list(spans[:spans_needed.value]), list(lines[:lines_needed.value]))
        return found, Style._of(style)

    @property
    def placeholder_text(self) -> str:
        """The text of the first span of the placeholder's first line; empty if there is none."""
        return self._text(lib.ta_placeholder_text)

    @property
    def placeholder_style(self) -> Optional[Style]:
        """The style of the placeholder, or None if it has no line."""
        return self._style(lib.ta_placeholder_style)

    @placeholder_style.setter
    def placeholder_style(self, style: Style) -> None:
        self._call(lib.ta_set_placeholder_style, style._core())

    # ---- Drawing

    def reset_screen(self, area: Area) -> None:
        """Gives the screen the cells of this rectangle, each a blank."""
        self._call(lib.ta_screen_reset, _sys.Area(*area))

    def clear_screen(self) -> None:
        """Makes each cell of the screen a blank."""
        self._call(lib.ta_screen_clear)

    @property
    def screen_area(self) -> Area:
        """The rectangle whose cells the screen has."""
        area = _sys.Area()
        self._call(lib.ta_screen_area, area)
        return Area(area.x, area.y, area.width, area.height)

    def put(self, x: int, y: int, text: str, style: Style = Style()) -> None:
        """Replaces the text of a cell of the screen, and applies a style to it."""
        self._call(lib.ta_screen_put, x, y, *passed_text(text), style._core())

    def set_screen_style(self, area: Area, style: Style) -> None:
        """Applies a style to cells of the screen."""
        self._call(lib.ta_screen_set_style, _sys.Area(*area), style._core())

    def render(self, area: Area) -> None:
        """Draws the text area into an area of its screen."""
        self._call(lib.ta_render, _sys.Area(*area))

    def cell(self, x: int, y: int) -> Optional[Cell]:
        """The cell at a column and a row of the screen, or None outside of it."""
        cell = _sys.Cell()
        if not self._call(lib.ta_screen_cell, x, y, cell):
            return None
        return self._cell(cell, x, y)

    def _cell(self, cell: _sys.Cell, x: int, y: int) -> Cell:
        whole = cell.bytes <= len(cell.symbol)
        symbol = bytes(cell.symbol[:cell.bytes]).decode() if whole else self._text(lib.ta_screen_symbol, x, y)
        return Cell(symbol, Color._of(cell.fg), Color._of(cell.bg), Modifier(cell.modifier))

    @property
    def cells(self) -> List[List[Cell]]:
        """The rows of the screen's cells."""
        area, needed = self.screen_area, ctypes.c_size_t()
        count = area.width * area.height
        out = (_sys.Cell * max(1, count))()
        self._call(lib.ta_screen_cells, out, count, needed)
        return [
            [self._cell(out[y * area.width + x], area.x + x, area.y + y) for x in range(area.width)]
            for y in range(area.height)
        ]

    @property
    def screen(self) -> List[str]:
        """The text of each row of the screen."""
        return ["".join(cell.symbol for cell in row) for row in self.cells]

    @property
    def rendered_cursor_position(self) -> Optional[Tuple[int, int]]:
        """The column and row of the cursor's cell at the last drawing."""
        return self._numbers(ctypes.c_uint16, 2, lib.ta_rendered_cursor_position)

    def cursor_at_position(self, x: int, y: int) -> Optional[Tuple[int, int]]:
        """The row and column of the text that a cell shows, or None outside of the inner area."""
        return self._numbers(ctypes.c_size_t, 2, lib.ta_cursor_at_position, x, y)

    @property
    def viewport(self) -> Viewport:
        """What is visible of the text."""
        return Viewport(*self._numbers(ctypes.c_size_t, 4, lib.ta_viewport))

