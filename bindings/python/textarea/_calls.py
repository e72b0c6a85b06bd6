"""Written by tools/calls from crates/textarea_calls/calls.txt."""

from __future__ import annotations

import ctypes

from ._core import Core
from ._data import Style
from ._library import lib


class Calls(Core):
    """The calls of a text area that only pass their arguments and return their result."""

    def insert_newline(self) -> None:
        """Breaks the line at the cursor."""
        self._edit(lib.ta_insert_newline)

    def insert_tab(self) -> bool:
        """Inserts a tab at the cursor: with hard tabs a tab character, otherwise spaces up to the
        next tab stop; at tab length 0 nothing. Returns whether it inserted something or removed a
        selection."""
        return self._edit(lib.ta_insert_tab)

    def paste(self) -> bool:
        """Inserts the yanked text where `insert_str` inserts, and returns whether there was any."""
        return self._edit(lib.ta_paste)

    def duplicate_line(self) -> None:
        """Inserts the cursor's line once more below it, or the lines of the selection below the
        last of them, as one edit. The selection's lines are those of which it holds a character or
        the break. Cursor and selection move down into the copy, and keep their columns."""
        self._edit(lib.ta_duplicate_line)

    def indent_lines(self) -> bool:
        """Inserts a tab at the start of the cursor's line, or of each line of the selection. It is
        one group of edits, and the result is whether it inserted one. Empty lines are left, and at
        tab length 0 all lines. Cursor and selection move with the text, but a selection that begins
        at column 0 still does."""
        return self._edit(lib.ta_indent_lines)

    def outdent_lines(self) -> bool:
        """Removes a tab character, or spaces, at most as many as the tab length, from the start of
        each of these lines. It is one group of edits, and the result is whether there were any. It
        removes no character of an atomic range. Cursor and selection move with the text."""
        return self._edit(lib.ta_outdent_lines)

    def move_lines_up(self) -> bool:
        """Moves the cursor's line, or the lines of the selection, up by one row. The line above is
        then below them; the result is whether there was one. It is one group of edits. Cursor,
        selection and the atomic ranges of these lines move along; those of the line above are
        removed with it."""
        return self._edit(lib.ta_move_lines_up)

    def move_lines_down(self) -> bool:
        """Moves these lines down by one row. The line below is then above them; the result is
        whether there was one. All else is as for `move_lines_up`."""
        return self._edit(lib.ta_move_lines_down)

    def delete_char(self) -> bool:
        """Removes the atomic range that ends at the cursor or strictly contains it, or else the
        character before the cursor, or at column 0 the line break. Returns whether it removed
        text."""
        return self._edit(lib.ta_delete_char)

    def delete_next_char(self) -> bool:
        """Removes the atomic range that starts at the cursor or strictly contains it, or else the
        character after the cursor, or at a line's end the line break. Returns whether it removed
        text."""
        return self._edit(lib.ta_delete_next_char)

    def delete_newline(self) -> bool:
        """Removes the line break before the cursor's line. Returns whether it removed text."""
        return self._edit(lib.ta_delete_newline)

    def delete_str(self, count: int) -> bool:
        """Removes and yanks the next characters after the cursor, at most this number; each line
        break counts as one. Returns whether it removed text."""
        return self._edit(lib.ta_delete_str, count)

    def delete_line_by_end(self) -> bool:
        """Removes and yanks the text from the cursor to its line's end; at the line's end it does
        what `delete_next_char` does. Returns whether it removed text."""
        return self._edit(lib.ta_delete_line_by_end)

    def delete_line_by_head(self) -> bool:
        """Removes and yanks the text from the line's start to the cursor; at the line's start it
        does what `delete_newline` does. Returns whether it removed text."""
        return self._edit(lib.ta_delete_line_by_head)

    def delete_word(self) -> bool:
        """Removes the atomic range that ends at the cursor or strictly contains it. Otherwise
        removes and yanks the text from the start of the word before the cursor, or from the line's
        start, to the cursor; at column 0 it does what `delete_newline` does. Returns whether it
        removed text."""
        return self._edit(lib.ta_delete_word)

    def delete_next_word(self) -> bool:
        """Removes the atomic range that starts at the cursor or strictly contains it. Otherwise
        removes and yanks the text from the cursor to the word's end, or to the line's end; at the
        line's end it does what `delete_next_char` does. Returns whether it removed text."""
        return self._edit(lib.ta_delete_next_word)

    def clear(self) -> bool:
        """Removes and yanks the whole text, as one edit, and returns whether there was any."""
        return self._edit(lib.ta_clear)

    def cut(self) -> bool:
        """Yanks and removes the selected text, returns whether there was any, and drops the
        selection."""
        return self._edit(lib.ta_cut)

    def undo(self) -> bool:
        """Undoes the newest edit, with all of its group, and returns whether there was one. The
        cursor is then after the restored text, or where the removed text began, and nothing is
        selected."""
        return self._edit(lib.ta_undo)

    def redo(self) -> bool:
        """Redoes the edit that was undone last, with all of its group, and returns whether there
        was one. The cursor is then where that edit left it, and nothing is selected."""
        return self._edit(lib.ta_redo)

    def begin_undo_group(self) -> None:
        """Begins a group, if none is open, and ends a run of typing. The edits until
        `end_undo_group` are undone and redone together. If they are more than are remembered, all
        edits are forgotten."""
        self._call(lib.ta_begin_undo_group)

    def end_undo_group(self) -> None:
        """Ends the open group, if one is open, and a run of typing. An undo or a redo of something,
        new lines and `set_max_histories` close a group too."""
        self._call(lib.ta_end_undo_group)

    def end_run(self) -> None:
        """Ends a run of typing: the next edit is recorded separately."""
        self._call(lib.ta_end_run)

    def start_selection(self) -> None:
        """Begins an empty selection at the cursor."""
        self._call(lib.ta_start_selection)

    def cancel_selection(self) -> None:
        """Drops the selection, if there is one; the text stays."""
        self._call(lib.ta_cancel_selection)

    def select_all(self) -> None:
        """Selects the whole text, and moves the cursor to its end."""
        self._call(lib.ta_select_all)

    def copy(self) -> None:
        """Yanks the selected text, if there is any, and drops the selection."""
        self._call(lib.ta_copy)

    def search_forward(self, match_cursor: bool = False) -> bool:
        """Moves the cursor to the next start of a match, and returns whether there was one: the
        first after the cursor or, with `match_cursor`, at it, and past the text's end the first of
        all."""
        return self._call(lib.ta_search_forward, match_cursor)

    def search_back(self, match_cursor: bool = False) -> bool:
        """Moves the cursor to the last start of a match before it or, with `match_cursor`, at it,
        and past the text's start to the last of all; returns whether there was one."""
        return self._call(lib.ta_search_back, match_cursor)

    def clear_atomic_ranges(self) -> None:
        """Drops all atomic ranges."""
        self._call(lib.ta_clear_atomic_ranges)

    def set_single_line(self, single_line: bool) -> bool:
        """Sets whether the text is kept in a single line, and returns whether it could be set: a
        text of several lines can't be. Then a line break that is typed, and `duplicate_line`, do
        nothing, breaks of a text that is inserted or pasted become spaces, and `set_lines` of
        several lines does nothing. Setting it forgets all edits. Off at first."""
        return self._call(lib.ta_set_single_line, single_line)

    def clear_custom_highlight(self) -> None:
        """Removes all custom highlights."""
        self._call(lib.ta_clear_custom_highlight)

    @property
    def is_empty(self) -> bool:
        """Whether the text is one empty line."""
        return self._call(lib.ta_is_empty)

    @property
    def is_selecting(self) -> bool:
        """Whether a selection is open, even an empty one."""
        return self._call(lib.ta_is_selecting)

    @property
    def max_histories(self) -> int:
        """The greatest number of edits that are remembered, done and undone together. Setting it
        forgets all edits, and remembers at most this number from now on, done and undone
        together."""
        return self._numbers(ctypes.c_size_t, 1, lib.ta_max_histories)[0]

    @max_histories.setter
    def max_histories(self, maximum: int) -> None:
        self._call(lib.ta_set_max_histories, maximum)

    @property
    def undo_coalescing(self) -> bool:
        """Whether typed edits join into one edit, which is undone at once. A run of typing ends."""
        return self._call(lib.ta_undo_coalescing)

    @undo_coalescing.setter
    def undo_coalescing(self, joins: bool) -> None:
        self._call(lib.ta_set_undo_coalescing, joins)

    @property
    def undo_grouping(self) -> bool:
        """Whether all edits of one call are one group, which is undone and redone at once. So an
        undo of a text that was typed or pasted over a selection brings the selected text back."""
        return self._call(lib.ta_undo_grouping)

    @undo_grouping.setter
    def undo_grouping(self, groups: bool) -> None:
        self._call(lib.ta_set_undo_grouping, groups)

    @property
    def undo_ranges(self) -> bool:
        """Whether atomic ranges are remembered for undo and redo. Then an undo of an edit, or of a
        group of edits, leaves exactly the ranges that were there before it, and a redo those after
        it: a range that was removed is there again. Where ranges were set or cleared since the
        edit, or this was off, they move with the text instead. Each edit takes a copy of the
        ranges. Off at first."""
        return self._call(lib.ta_undo_ranges)

    @undo_ranges.setter
    def undo_ranges(self, on: bool) -> None:
        self._call(lib.ta_set_undo_ranges, on)

    @property
    def read_only(self) -> bool:
        """Whether the text area is read only. Then no call but `set_lines` changes the text: every
        other call that edits, and an undo and a redo, changes nothing, neither what is yanked nor
        the selection, and returns false, 0 or nothing. But `cut` does what `copy` does, and returns
        whether a text was selected. Off at first."""
        return self._call(lib.ta_read_only)

    @read_only.setter
    def read_only(self, read_only: bool) -> None:
        self._call(lib.ta_set_read_only, read_only)

    @property
    def single_line(self) -> bool:
        """Whether the text is kept in a single line."""
        return self._call(lib.ta_single_line)

    @property
    def tab_length(self) -> int:
        """The distance of tab stops, in columns; at 0 a tab inserts nothing."""
        return self._numbers(ctypes.c_uint8, 1, lib.ta_tab_length)[0]

    @tab_length.setter
    def tab_length(self, columns: int) -> None:
        self._call(lib.ta_set_tab_length, columns)

    @property
    def hard_tab_indent(self) -> bool:
        """Whether a tab is inserted as a tab character, and not as spaces."""
        return self._call(lib.ta_hard_tab_indent)

    @hard_tab_indent.setter
    def hard_tab_indent(self, hard: bool) -> None:
        self._call(lib.ta_set_hard_tab_indent, hard)

    @property
    def min_rows(self) -> int:
        """The least height of the whole area, in screen rows; 0 counts as 1. The greatest height is
        raised to it if it is less."""
        return self._numbers(ctypes.c_uint16, 1, lib.ta_min_rows)[0]

    @min_rows.setter
    def min_rows(self, rows: int) -> None:
        self._call(lib.ta_set_min_rows, rows)

    @property
    def max_rows(self) -> int:
        """The greatest height of the whole area, in screen rows; 0 counts as 1, and less than the
        least height as that height."""
        return self._numbers(ctypes.c_uint16, 1, lib.ta_max_rows)[0]

    @max_rows.setter
    def max_rows(self, rows: int) -> None:
        self._call(lib.ta_set_max_rows, rows)

    @property
    def style(self) -> Style:
        """The style of each cell of the inner area, under all others; a placeholder has its own."""
        return self._style(lib.ta_style)

    @style.setter
    def style(self, style: Style) -> None:
        self._call(lib.ta_set_style, style._core())

    @property
    def cursor_style(self) -> Style:
        """The style of the cell at the cursor."""
        return self._style(lib.ta_cursor_style)

    @cursor_style.setter
    def cursor_style(self, style: Style) -> None:
        self._call(lib.ta_set_cursor_style, style._core())

    @property
    def cursor_line_style(self) -> Style:
        """The style of the cursor's line, in all its visual rows, where no highlight is."""
        return self._style(lib.ta_cursor_line_style)

    @cursor_line_style.setter
    def cursor_line_style(self, style: Style) -> None:
        self._call(lib.ta_set_cursor_line_style, style._core())

    @property
    def cursor_line_number_style(self) -> Style:
        """The style of the line number of the cursor's line, over the style of all line numbers.
        The blanks before the line's other visual rows aren't in it."""
        return self._style(lib.ta_cursor_line_number_style)

    @cursor_line_number_style.setter
    def cursor_line_number_style(self, style: Style) -> None:
        self._call(lib.ta_set_cursor_line_number_style, style._core())

    @property
    def selection_style(self) -> Style:
        """The style of selected text."""
        return self._style(lib.ta_selection_style)

    @selection_style.setter
    def selection_style(self, style: Style) -> None:
        self._call(lib.ta_set_selection_style, style._core())

    @property
    def search_style(self) -> Style:
        """The style of the search pattern's matches."""
        return self._style(lib.ta_search_style)

    @search_style.setter
    def search_style(self, style: Style) -> None:
        self._call(lib.ta_set_search_style, style._core())
