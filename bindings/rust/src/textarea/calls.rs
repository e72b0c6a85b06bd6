//! Written by tools/calls from crates/textarea_calls/calls.txt.
//! The calls that only pass their arguments and return their result.

use super::TextArea;
use crate::data::OutOfMemory;
use crate::handle::must;
use crate::ratatui::BLANK;
use crate::ratatui::style::Style;
use crate::sys;

impl TextArea<'_> {
    /// Breaks the line at the cursor.
    ///
    /// ```
    /// use tui_textarea::TextArea;
    ///
    /// let mut area = TextArea::from(["hi"]);
    /// area.insert_newline();
    /// assert_eq!(area.lines(), ["", "hi"]);
    /// ```
    pub fn insert_newline(&mut self) {
        must(self.try_insert_newline());
    }

    /// As `insert_newline`, but returns that memory ran out.
    pub fn try_insert_newline(&mut self) -> Result<(), OutOfMemory> {
        self.edit(|h| unsafe { sys::ta_insert_newline(h) })?;
        Ok(())
    }

    /// Inserts a tab at the cursor: with hard tabs a tab character, otherwise spaces up to the next
    /// tab stop; at tab length 0 nothing. Returns whether it inserted something or removed a
    /// selection.
    ///
    /// ```
    /// use tui_textarea::TextArea;
    ///
    /// let mut area = TextArea::from(["hi"]);
    /// assert!(area.insert_tab());
    /// assert_eq!(area.lines(), ["    hi"]);
    /// area.set_tab_length(0);
    /// assert!(!area.insert_tab());
    /// ```
    pub fn insert_tab(&mut self) -> bool {
        must(self.try_insert_tab())
    }

    /// As `insert_tab`, but returns that memory ran out.
    pub fn try_insert_tab(&mut self) -> Result<bool, OutOfMemory> {
        self.edit(|h| unsafe { sys::ta_insert_tab(h) })
    }

    /// Inserts the yanked text where `insert_str` inserts, and returns whether there was any.
    ///
    /// ```
    /// use tui_textarea::TextArea;
    ///
    /// let mut area = TextArea::from(["one"]);
    /// area.set_yank_text("two\nthree ");
    /// assert!(area.paste());
    /// assert_eq!(area.lines(), ["two", "three one"]);
    /// ```
    pub fn paste(&mut self) -> bool {
        must(self.try_paste())
    }

    /// As `paste`, but returns that memory ran out.
    pub fn try_paste(&mut self) -> Result<bool, OutOfMemory> {
        self.edit(|h| unsafe { sys::ta_paste(h) })
    }

    /// Inserts the cursor's line once more below it, or the lines of the selection below the last
    /// of them, as one edit. The selection's lines are those of which it holds a character or the
    /// break. Cursor and selection move down into the copy, and keep their columns.
    pub fn duplicate_line(&mut self) {
        must(self.try_duplicate_line());
    }

    /// As `duplicate_line`, but returns that memory ran out.
    pub fn try_duplicate_line(&mut self) -> Result<(), OutOfMemory> {
        self.edit(|h| unsafe { sys::ta_duplicate_line(h) })?;
        Ok(())
    }

    /// Inserts a tab at the start of the cursor's line, or of each line of the selection. It is one
    /// group of edits, and the result is whether it inserted one. Empty lines are left, and at tab
    /// length 0 all lines. Cursor and selection move with the text, but a selection that begins at
    /// column 0 still does.
    pub fn indent_lines(&mut self) -> bool {
        must(self.try_indent_lines())
    }

    /// As `indent_lines`, but returns that memory ran out.
    pub fn try_indent_lines(&mut self) -> Result<bool, OutOfMemory> {
        self.edit(|h| unsafe { sys::ta_indent_lines(h) })
    }

    /// Removes a tab character, or spaces, at most as many as the tab length, from the start of
    /// each of these lines. It is one group of edits, and the result is whether there were any. It
    /// removes no character of an atomic range. Cursor and selection move with the text.
    pub fn outdent_lines(&mut self) -> bool {
        must(self.try_outdent_lines())
    }

    /// As `outdent_lines`, but returns that memory ran out.
    pub fn try_outdent_lines(&mut self) -> Result<bool, OutOfMemory> {
        self.edit(|h| unsafe { sys::ta_outdent_lines(h) })
    }

    /// Moves the cursor's line, or the lines of the selection, up by one row. The line above is
    /// then below them; the result is whether there was one. It is one group of edits. Cursor,
    /// selection and the atomic ranges of these lines move along; those of the line above are
    /// removed with it.
    pub fn move_lines_up(&mut self) -> bool {
        must(self.try_move_lines_up())
    }

    /// As `move_lines_up`, but returns that memory ran out.
    pub fn try_move_lines_up(&mut self) -> Result<bool, OutOfMemory> {
        self.edit(|h| unsafe { sys::ta_move_lines_up(h) })
    }

    /// Moves these lines down by one row. The line below is then above them; the result is whether
    /// there was one. All else is as for `move_lines_up`.
    pub fn move_lines_down(&mut self) -> bool {
        must(self.try_move_lines_down())
    }

    /// As `move_lines_down`, but returns that memory ran out.
    pub fn try_move_lines_down(&mut self) -> Result<bool, OutOfMemory> {
        self.edit(|h| unsafe { sys::ta_move_lines_down(h) })
    }

    /// Removes the atomic range that ends at the cursor or strictly contains it, or else the
    /// character before the cursor, or at column 0 the line break. Returns whether it removed text.
    ///
    /// ```
    /// use tui_textarea::{CursorMove, TextArea};
    ///
    /// let mut area = TextArea::from(["ab"]);
    /// assert!(!area.delete_char()); // the cursor is at the text's start
    /// area.move_cursor(CursorMove::Forward);
    /// assert!(area.delete_char());
    /// assert_eq!(area.lines(), ["b"]);
    /// ```
    pub fn delete_char(&mut self) -> bool {
        must(self.try_delete_char())
    }

    /// As `delete_char`, but returns that memory ran out.
    pub fn try_delete_char(&mut self) -> Result<bool, OutOfMemory> {
        self.edit(|h| unsafe { sys::ta_delete_char(h) })
    }

    /// Removes the atomic range that starts at the cursor or strictly contains it, or else the
    /// character after the cursor, or at a line's end the line break. Returns whether it removed
    /// text.
    ///
    /// ```
    /// use tui_textarea::TextArea;
    ///
    /// let mut area = TextArea::from(["ab"]);
    /// assert!(area.delete_next_char());
    /// assert_eq!(area.lines(), ["b"]);
    /// ```
    pub fn delete_next_char(&mut self) -> bool {
        must(self.try_delete_next_char())
    }

    /// As `delete_next_char`, but returns that memory ran out.
    pub fn try_delete_next_char(&mut self) -> Result<bool, OutOfMemory> {
        self.edit(|h| unsafe { sys::ta_delete_next_char(h) })
    }

    /// Removes the line break before the cursor's line. Returns whether it removed text.
    ///
    /// ```
    /// use tui_textarea::{CursorMove, TextArea};
    ///
    /// let mut area = TextArea::from(["one", "two"]);
    /// area.move_cursor(CursorMove::Down);
    /// assert!(area.delete_newline());
    /// assert_eq!(area.lines(), ["onetwo"]);
    /// ```
    pub fn delete_newline(&mut self) -> bool {
        must(self.try_delete_newline())
    }

    /// As `delete_newline`, but returns that memory ran out.
    pub fn try_delete_newline(&mut self) -> Result<bool, OutOfMemory> {
        self.edit(|h| unsafe { sys::ta_delete_newline(h) })
    }

    /// Removes and yanks the next characters after the cursor, at most this number; each line break
    /// counts as one. Returns whether it removed text.
    ///
    /// ```
    /// use tui_textarea::TextArea;
    ///
    /// let mut area = TextArea::from(["one", "two"]);
    /// assert!(area.delete_str(4)); // three letters and a line break
    /// assert_eq!(area.lines(), ["two"]);
    /// assert_eq!(area.yank_text(), "one\n");
    /// ```
    pub fn delete_str(&mut self, count: usize) -> bool {
        must(self.try_delete_str(count))
    }

    /// As `delete_str`, but returns that memory ran out.
    pub fn try_delete_str(&mut self, count: usize) -> Result<bool, OutOfMemory> {
        self.edit(|h| unsafe { sys::ta_delete_str(h, count) })
    }

    /// Removes and yanks the text from the cursor to its line's end; at the line's end it does what
    /// `delete_next_char` does. Returns whether it removed text.
    ///
    /// ```
    /// use tui_textarea::{CursorMove, TextArea};
    ///
    /// let mut area = TextArea::from(["one two"]);
    /// area.move_cursor(CursorMove::WordForward);
    /// assert!(area.delete_line_by_end());
    /// assert_eq!(area.lines(), ["one "]);
    /// ```
    pub fn delete_line_by_end(&mut self) -> bool {
        must(self.try_delete_line_by_end())
    }

    /// As `delete_line_by_end`, but returns that memory ran out.
    pub fn try_delete_line_by_end(&mut self) -> Result<bool, OutOfMemory> {
        self.edit(|h| unsafe { sys::ta_delete_line_by_end(h) })
    }

    /// Removes and yanks the text from the line's start to the cursor; at the line's start it does
    /// what `delete_newline` does. Returns whether it removed text.
    ///
    /// ```
    /// use tui_textarea::{CursorMove, TextArea};
    ///
    /// let mut area = TextArea::from(["one two"]);
    /// area.move_cursor(CursorMove::WordForward);
    /// assert!(area.delete_line_by_head());
    /// assert_eq!(area.lines(), ["two"]);
    /// ```
    pub fn delete_line_by_head(&mut self) -> bool {
        must(self.try_delete_line_by_head())
    }

    /// As `delete_line_by_head`, but returns that memory ran out.
    pub fn try_delete_line_by_head(&mut self) -> Result<bool, OutOfMemory> {
        self.edit(|h| unsafe { sys::ta_delete_line_by_head(h) })
    }

    /// Removes the atomic range that ends at the cursor or strictly contains it. Otherwise removes
    /// and yanks the text from the start of the word before the cursor, or from the line's start,
    /// to the cursor; at column 0 it does what `delete_newline` does. Returns whether it removed
    /// text.
    ///
    /// ```
    /// use tui_textarea::{CursorMove, TextArea};
    ///
    /// let mut area = TextArea::from(["one two"]);
    /// area.move_cursor(CursorMove::End);
    /// assert!(area.delete_word());
    /// assert_eq!(area.lines(), ["one "]);
    /// ```
    pub fn delete_word(&mut self) -> bool {
        must(self.try_delete_word())
    }

    /// As `delete_word`, but returns that memory ran out.
    pub fn try_delete_word(&mut self) -> Result<bool, OutOfMemory> {
        self.edit(|h| unsafe { sys::ta_delete_word(h) })
    }

    /// Removes the atomic range that starts at the cursor or strictly contains it. Otherwise
    /// removes and yanks the text from the cursor to the word's end, or to the line's end; at the
    /// line's end it does what `delete_next_char` does. Returns whether it removed text.
    ///
    /// ```
    /// use tui_textarea::TextArea;
    ///
    /// let mut area = TextArea::from(["one two"]);
    /// assert!(area.delete_next_word());
    /// assert_eq!(area.lines(), [" two"]);
    /// ```
    pub fn delete_next_word(&mut self) -> bool {
        must(self.try_delete_next_word())
    }

    /// As `delete_next_word`, but returns that memory ran out.
    pub fn try_delete_next_word(&mut self) -> Result<bool, OutOfMemory> {
        self.edit(|h| unsafe { sys::ta_delete_next_word(h) })
    }

    /// Removes and yanks the whole text, as one edit, and returns whether there was any.
    ///
    /// ```
    /// use tui_textarea::TextArea;
    ///
    /// let mut area = TextArea::from(["one", "two"]);
    /// assert!(area.clear() && area.is_empty());
    /// assert_eq!(area.yank_text(), "one\ntwo");
    /// assert!(!area.clear());
    /// ```
    pub fn clear(&mut self) -> bool {
        must(self.try_clear())
    }

    /// As `clear`, but returns that memory ran out.
    pub fn try_clear(&mut self) -> Result<bool, OutOfMemory> {
        self.edit(|h| unsafe { sys::ta_clear(h) })
    }

    /// Yanks and removes the selected text, returns whether there was any, and drops the selection.
    ///
    /// ```
    /// use tui_textarea::{CursorMove, TextArea};
    ///
    /// let mut area = TextArea::from(["one two"]);
    /// area.start_selection();
    /// area.move_cursor(CursorMove::WordForward);
    /// assert!(area.cut());
    /// assert_eq!((area.lines(), area.yank_text()), (&["two".to_string()][..], "one ".to_string()));
    /// ```
    pub fn cut(&mut self) -> bool {
        must(self.try_cut())
    }

    /// As `cut`, but returns that memory ran out.
    pub fn try_cut(&mut self) -> Result<bool, OutOfMemory> {
        self.edit(|h| unsafe { sys::ta_cut(h) })
    }

    /// Undoes the newest edit, with all of its group, and returns whether there was one. The cursor
    /// is then after the restored text, or where the removed text began, and nothing is selected.
    ///
    /// ```
    /// use tui_textarea::TextArea;
    ///
    /// let mut area = TextArea::from(["one"]);
    /// area.delete_next_word();
    /// assert!(area.undo());
    /// assert_eq!(area.lines(), ["one"]);
    /// assert!(!area.undo());
    /// ```
    pub fn undo(&mut self) -> bool {
        must(self.try_undo())
    }

    /// As `undo`, but returns that memory ran out.
    pub fn try_undo(&mut self) -> Result<bool, OutOfMemory> {
        self.edit(|h| unsafe { sys::ta_undo(h) })
    }

    /// Redoes the edit that was undone last, with all of its group, and returns whether there was
    /// one. The cursor is then where that edit left it, and nothing is selected.
    ///
    /// ```
    /// use tui_textarea::TextArea;
    ///
    /// let mut area = TextArea::from(["one"]);
    /// area.delete_next_word();
    /// area.undo();
    /// assert!(area.redo() && area.is_empty());
    /// assert!(!area.redo());
    /// ```
    pub fn redo(&mut self) -> bool {
        must(self.try_redo())
    }

    /// As `redo`, but returns that memory ran out.
    pub fn try_redo(&mut self) -> Result<bool, OutOfMemory> {
        self.edit(|h| unsafe { sys::ta_redo(h) })
    }

    /// Forgets all edits, and remembers at most this number from now on, done and undone together.
    ///
    /// ```
    /// use tui_textarea::TextArea;
    ///
    /// let mut area = TextArea::from(["one"]);
    /// area.set_max_histories(1);
    /// area.insert_str("two ");
    /// area.insert_str("three ");
    /// assert!(area.undo() && !area.undo());
    /// assert_eq!(area.lines(), ["two one"]);
    /// ```
    pub fn set_max_histories(&mut self, maximum: usize) {
        self.core
            .is(|h| unsafe { sys::ta_set_max_histories(h, maximum) });
    }

    /// Sets whether all edits of one call are one group, which is undone and redone at once. So an
    /// undo of a text that was typed or pasted over a selection brings the selected text back.
    ///
    /// ```
    /// use tui_textarea::TextArea;
    ///
    /// let mut area = TextArea::from(["one"]);
    /// area.set_undo_grouping(true);
    /// area.select_all();
    /// area.insert_char('x');
    /// assert!(area.undo());
    /// assert_eq!(area.lines(), ["one"]);
    /// ```
    pub fn set_undo_grouping(&mut self, groups: bool) {
        self.core
            .is(|h| unsafe { sys::ta_set_undo_grouping(h, groups) });
    }

    /// Sets whether atomic ranges are remembered for undo and redo. Then an undo of an edit, or of
    /// a group of edits, leaves exactly the ranges that were there before it, and a redo those
    /// after it: a range that was removed is there again. Where ranges were set or cleared since
    /// the edit, or this was off, they move with the text instead. Each edit takes a copy of the
    /// ranges. Off at first.
    ///
    /// ```
    /// use tui_textarea::TextArea;
    ///
    /// let mut area = TextArea::from(["@one two"]);
    /// let range = tui_textarea::AtomicRange { row: 0, start_col: 0, end_col: 4 };
    /// area.set_atomic_ranges([range]);
    /// area.set_undo_ranges(true);
    /// area.delete_next_char(); // removes the whole range
    /// assert!(area.undo());
    /// assert_eq!(area.atomic_ranges(), [range]);
    /// ```
    pub fn set_undo_ranges(&mut self, on: bool) {
        self.core.is(|h| unsafe { sys::ta_set_undo_ranges(h, on) });
    }

    /// Begins a group, if none is open, and ends a run of typing. The edits until `end_undo_group`
    /// are undone and redone together. If they are more than are remembered, all edits are
    /// forgotten.
    ///
    /// ```
    /// use tui_textarea::TextArea;
    ///
    /// let mut area = TextArea::from(["one"]);
    /// area.begin_undo_group();
    /// area.insert_str("a");
    /// area.insert_newline();
    /// area.end_undo_group();
    /// assert!(area.undo());
    /// assert_eq!(area.lines(), ["one"]);
    /// ```
    pub fn begin_undo_group(&mut self) {
        self.core.is(|h| unsafe { sys::ta_begin_undo_group(h) });
    }

    /// Ends the open group, if one is open, and a run of typing. An undo or a redo of something,
    /// new lines and `set_max_histories` close a group too.
    ///
    /// ```
    /// use tui_textarea::TextArea;
    ///
    /// let mut area = TextArea::from(["one"]);
    /// area.begin_undo_group();
    /// area.insert_str("a");
    /// area.end_undo_group();
    /// area.insert_str("b");
    /// assert!(area.undo());
    /// assert_eq!(area.lines(), ["aone"]);
    /// ```
    pub fn end_undo_group(&mut self) {
        self.core.is(|h| unsafe { sys::ta_end_undo_group(h) });
    }

    /// Ends a run of typing: the next edit is recorded separately.
    ///
    /// ```
    /// use tui_textarea::TextArea;
    ///
    /// let mut area = TextArea::from([""]);
    /// area.set_undo_coalescing(true);
    /// area.insert_char('a');
    /// area.end_run(); // the next character is an edit of its own
    /// area.insert_char('b');
    /// assert!(area.undo());
    /// assert_eq!(area.lines(), ["a"]);
    /// ```
    pub fn end_run(&mut self) {
        self.core.is(|h| unsafe { sys::ta_end_run(h) });
    }

    /// Begins an empty selection at the cursor.
    ///
    /// ```
    /// use tui_textarea::{CursorMove, TextArea};
    ///
    /// let mut area = TextArea::from(["one two"]);
    /// area.start_selection();
    /// area.move_cursor(CursorMove::WordForward);
    /// assert_eq!(area.selection_range(), Some(((0, 0), (0, 4))));
    /// ```
    pub fn start_selection(&mut self) {
        self.core.is(|h| unsafe { sys::ta_start_selection(h) });
    }

    /// Drops the selection, if there is one; the text stays.
    ///
    /// ```
    /// use tui_textarea::TextArea;
    ///
    /// let mut area = TextArea::from(["one"]);
    /// area.start_selection();
    /// area.cancel_selection();
    /// assert!(!area.is_selecting());
    /// ```
    pub fn cancel_selection(&mut self) {
        self.core.is(|h| unsafe { sys::ta_cancel_selection(h) });
    }

    /// Selects the whole text, and moves the cursor to its end.
    ///
    /// ```
    /// use tui_textarea::TextArea;
    ///
    /// let mut area = TextArea::from(["one", "two"]);
    /// area.select_all();
    /// assert_eq!(area.selection_range(), Some(((0, 0), (1, 3))));
    /// ```
    pub fn select_all(&mut self) {
        self.core.is(|h| unsafe { sys::ta_select_all(h) });
    }

    /// Yanks the selected text, if there is any, and drops the selection.
    ///
    /// ```
    /// use tui_textarea::TextArea;
    ///
    /// let mut area = TextArea::from(["one", "two"]);
    /// area.select_all();
    /// area.copy();
    /// assert_eq!(area.yank_text(), "one\ntwo");
    /// ```
    pub fn copy(&mut self) {
        must(self.try_copy());
    }

    /// As `copy`, but returns that memory ran out.
    pub fn try_copy(&mut self) -> Result<(), OutOfMemory> {
        self.core.on(|h| unsafe { sys::ta_copy(h) })?;
        Ok(())
    }

    /// Moves the cursor to the next start of a match, and returns whether there was one: the first
    /// after the cursor or, with `match_cursor`, at it, and past the text's end the first of all.
    ///
    /// ```
    /// use tui_textarea::TextArea;
    ///
    /// let mut area = TextArea::from(["one two one"]);
    /// area.set_search_pattern("o.e")?;
    /// assert!(area.search_forward(false));
    /// assert_eq!(area.cursor(), (0, 8));
    /// assert!(area.search_forward(false)); // past the end it begins at the start
    /// assert_eq!(area.cursor(), (0, 0));
    /// # Ok::<(), tui_textarea::SearchError>(())
    /// ```
    pub fn search_forward(&mut self, match_cursor: bool) -> bool {
        must(self.try_search_forward(match_cursor))
    }

    /// As `search_forward`, but returns that memory ran out.
    pub fn try_search_forward(&mut self, match_cursor: bool) -> Result<bool, OutOfMemory> {
        self.core
            .on(|h| unsafe { sys::ta_search_forward(h, match_cursor) })
    }

    /// Moves the cursor to the last start of a match before it or, with `match_cursor`, at it, and
    /// past the text's start to the last of all; returns whether there was one.
    ///
    /// ```
    /// use tui_textarea::TextArea;
    ///
    /// let mut area = TextArea::from(["one two one"]);
    /// area.set_search_pattern("o.e")?;
    /// assert!(area.search_back(false)); // past the start it begins at the end
    /// assert_eq!(area.cursor(), (0, 8));
    /// # Ok::<(), tui_textarea::SearchError>(())
    /// ```
    pub fn search_back(&mut self, match_cursor: bool) -> bool {
        must(self.try_search_back(match_cursor))
    }

    /// As `search_back`, but returns that memory ran out.
    pub fn try_search_back(&mut self, match_cursor: bool) -> Result<bool, OutOfMemory> {
        self.core
            .on(|h| unsafe { sys::ta_search_back(h, match_cursor) })
    }

    /// Sets the distance of tab stops, in columns; at 0 a tab inserts nothing.
    ///
    /// ```
    /// use tui_textarea::TextArea;
    ///
    /// let mut area = TextArea::from([""]);
    /// area.set_tab_length(2);
    /// area.insert_tab();
    /// assert_eq!(area.lines(), ["  "]);
    /// ```
    pub fn set_tab_length(&mut self, columns: u8) {
        must(self.try_set_tab_length(columns));
    }

    /// As `set_tab_length`, but returns that memory ran out.
    pub fn try_set_tab_length(&mut self, columns: u8) -> Result<(), OutOfMemory> {
        self.core
            .on(|h| unsafe { sys::ta_set_tab_length(h, columns) })?;
        Ok(())
    }

    /// Sets whether a tab is inserted as a tab character, and not as spaces.
    ///
    /// ```
    /// use tui_textarea::TextArea;
    ///
    /// let mut area = TextArea::from([""]);
    /// area.set_hard_tab_indent(true);
    /// area.insert_tab();
    /// assert_eq!(area.lines(), ["\t"]);
    /// ```
    pub fn set_hard_tab_indent(&mut self, hard: bool) {
        self.core
            .is(|h| unsafe { sys::ta_set_hard_tab_indent(h, hard) });
    }

    /// Sets whether the text area is read only. Then no call but `set_lines` changes the text:
    /// every other call that edits, and an undo and a redo, changes nothing, neither what is yanked
    /// nor the selection, and returns false, 0 or nothing. But `cut` does what `copy` does, and
    /// returns whether a text was selected. Off at first.
    ///
    /// ```
    /// use tui_textarea::TextArea;
    ///
    /// let mut area = TextArea::from(["one"]);
    /// area.set_read_only(true);
    /// area.insert_char('x'); // inserts nothing
    /// assert!(!area.delete_next_char());
    /// assert_eq!(area.lines(), ["one"]);
    /// ```
    pub fn set_read_only(&mut self, read_only: bool) {
        self.core
            .is(|h| unsafe { sys::ta_set_read_only(h, read_only) });
    }

    /// Sets whether the text is kept in a single line, and returns whether it could be set: a text
    /// of several lines can't be. Then a line break that is typed, and `duplicate_line`, do
    /// nothing, breaks of a text that is inserted or pasted become spaces, and `set_lines` of
    /// several lines does nothing. Setting it forgets all edits. Off at first.
    ///
    /// ```
    /// use tui_textarea::TextArea;
    ///
    /// let mut area = TextArea::from(["one"]);
    /// assert!(area.set_single_line(true));
    /// area.insert_newline(); // breaks no line
    /// area.insert_str("a\nb");
    /// assert_eq!(area.lines(), ["a bone"]);
    /// ```
    pub fn set_single_line(&mut self, single_line: bool) -> bool {
        self.core
            .is(|h| unsafe { sys::ta_set_single_line(h, single_line) })
    }

    /// Hides the line numbers.
    ///
    /// ```
    /// use tui_textarea::ratatui::style::Style;
    /// use tui_textarea::TextArea;
    ///
    /// let mut area = TextArea::from(["one"]);
    /// area.set_line_number_style(Style::new().dark_gray());
    /// area.remove_line_number();
    /// assert_eq!(area.line_number_style(), None);
    /// ```
    pub fn remove_line_number(&mut self) {
        must(self.try_remove_line_number());
    }

    /// As `remove_line_number`, but returns that memory ran out.
    pub fn try_remove_line_number(&mut self) -> Result<(), OutOfMemory> {
        self.core.on(|h| unsafe { sys::ta_remove_line_number(h) })?;
        Ok(())
    }

    /// Sets the least height of the whole area, in screen rows; 0 counts as 1. The greatest height
    /// is raised to it if it is less.
    ///
    /// ```
    /// use tui_textarea::TextArea;
    ///
    /// let mut area = TextArea::from(["one"]);
    /// area.set_min_rows(3);
    /// assert_eq!(area.measure(20).preferred_rows, 3);
    /// ```
    pub fn set_min_rows(&mut self, rows: u16) {
        self.core.is(|h| unsafe { sys::ta_set_min_rows(h, rows) });
    }

    /// Sets the greatest height of the whole area, in screen rows; 0 counts as 1, and less than the
    /// least height as that height.
    ///
    /// ```
    /// use tui_textarea::TextArea;
    ///
    /// let mut area = TextArea::from(["one", "two", "three"]);
    /// area.set_max_rows(2);
    /// assert_eq!(area.measure(20).preferred_rows, 2);
    /// ```
    pub fn set_max_rows(&mut self, rows: u16) {
        self.core.is(|h| unsafe { sys::ta_set_max_rows(h, rows) });
    }

    /// Sets the style of each cell of the inner area, under all others; a placeholder has its own.
    ///
    /// ```
    /// use tui_textarea::ratatui::style::{Color, Style};
    /// use tui_textarea::TextArea;
    ///
    /// let mut area = TextArea::from(["one"]);
    /// area.set_style(Style::new().bg(Color::Yellow));
    /// assert_eq!(area.style().bg, Some(Color::Yellow));
    /// ```
    pub fn set_style(&mut self, style: impl Into<Style>) {
        let style = sys::Style::from(style.into());
        self.core.is(|h| unsafe { sys::ta_set_style(h, &style) });
    }

    /// Sets the style of the cell at the cursor.
    ///
    /// ```
    /// use tui_textarea::ratatui::style::{Color, Style};
    /// use tui_textarea::TextArea;
    ///
    /// let mut area = TextArea::from(["one"]);
    /// area.set_cursor_style(Style::new().bg(Color::Yellow));
    /// assert_eq!(area.cursor_style().bg, Some(Color::Yellow));
    /// ```
    pub fn set_cursor_style(&mut self, style: impl Into<Style>) {
        let style = sys::Style::from(style.into());
        self.core
            .is(|h| unsafe { sys::ta_set_cursor_style(h, &style) });
    }

    /// Sets the style of the cursor's line, in all its visual rows, where no highlight is.
    ///
    /// ```
    /// use tui_textarea::ratatui::style::Style;
    /// use tui_textarea::TextArea;
    ///
    /// let mut area = TextArea::from(["one"]);
    /// area.set_cursor_line_style(Style::new()); // the cursor's line looks as any other
    /// assert_eq!(area.cursor_line_style(), Style::new());
    /// ```
    pub fn set_cursor_line_style(&mut self, style: impl Into<Style>) {
        let style = sys::Style::from(style.into());
        self.core
            .is(|h| unsafe { sys::ta_set_cursor_line_style(h, &style) });
    }

    /// Sets the style of the line number of the cursor's line, over the style of all line numbers.
    /// The blanks before the line's other visual rows aren't in it.
    ///
    /// ```
    /// use tui_textarea::ratatui::style::{Color, Style};
    /// use tui_textarea::TextArea;
    ///
    /// let mut area = TextArea::from(["one"]);
    /// area.set_cursor_line_number_style(Style::new().bg(Color::Yellow));
    /// assert_eq!(area.cursor_line_number_style().bg, Some(Color::Yellow));
    /// ```
    pub fn set_cursor_line_number_style(&mut self, style: impl Into<Style>) {
        let style = sys::Style::from(style.into());
        self.core
            .is(|h| unsafe { sys::ta_set_cursor_line_number_style(h, &style) });
    }

    /// Sets the style of selected text.
    ///
    /// ```
    /// use tui_textarea::ratatui::style::{Color, Style};
    /// use tui_textarea::TextArea;
    ///
    /// let mut area = TextArea::from(["one"]);
    /// area.set_selection_style(Style::new().bg(Color::Yellow));
    /// assert_eq!(area.selection_style().bg, Some(Color::Yellow));
    /// ```
    pub fn set_selection_style(&mut self, style: impl Into<Style>) {
        let style = sys::Style::from(style.into());
        self.core
            .is(|h| unsafe { sys::ta_set_selection_style(h, &style) });
    }

    /// Sets the style of the search pattern's matches.
    ///
    /// ```
    /// use tui_textarea::ratatui::style::{Color, Style};
    /// use tui_textarea::TextArea;
    ///
    /// let mut area = TextArea::from(["one"]);
    /// area.set_search_style(Style::new().bg(Color::Yellow));
    /// assert_eq!(area.search_style().bg, Some(Color::Yellow));
    /// ```
    pub fn set_search_style(&mut self, style: impl Into<Style>) {
        let style = sys::Style::from(style.into());
        self.core
            .is(|h| unsafe { sys::ta_set_search_style(h, &style) });
    }

    /// Shows the text itself again.
    ///
    /// ```
    /// use tui_textarea::TextArea;
    ///
    /// let mut area = TextArea::from(["one"]);
    /// area.set_mask_char('•');
    /// area.clear_mask_char();
    /// assert_eq!(area.mask_char(), None);
    /// ```
    pub fn clear_mask_char(&mut self) {
        self.core.is(|h| unsafe { sys::ta_clear_mask_char(h) });
    }

    /// Removes all custom highlights.
    ///
    /// ```
    /// use tui_textarea::ratatui::style::Style;
    /// use tui_textarea::TextArea;
    ///
    /// let mut area = TextArea::from(["one two"]);
    /// area.custom_highlight(((0, 0), (0, 3)), Style::new().bold(), 15);
    /// area.clear_custom_highlight();
    /// ```
    pub fn clear_custom_highlight(&mut self) {
        self.core
            .is(|h| unsafe { sys::ta_clear_custom_highlight(h) });
    }

    /// Returns whether a selection is open, even an empty one.
    ///
    /// ```
    /// use tui_textarea::TextArea;
    ///
    /// let mut area = TextArea::from(["one"]);
    /// assert!(!area.is_selecting());
    /// area.start_selection();
    /// assert!(area.is_selecting());
    /// ```
    pub fn is_selecting(&self) -> bool {
        self.core.is(|h| unsafe { sys::ta_is_selecting(h) })
    }

    /// Returns the greatest number of edits that are remembered, done and undone together.
    ///
    /// ```
    /// use tui_textarea::TextArea;
    ///
    /// let area = TextArea::from(["one"]);
    /// assert_eq!(area.max_histories(), 50);
    /// ```
    pub fn max_histories(&self) -> usize {
        let mut max_histories = 0;
        self.core
            .is(|h| unsafe { sys::ta_max_histories(h, &mut max_histories) });
        max_histories
    }

    /// Returns whether typed edits join into one.
    ///
    /// ```
    /// use tui_textarea::TextArea;
    ///
    /// let area = TextArea::from(["one"]);
    /// assert!(!area.undo_coalescing());
    /// ```
    pub fn undo_coalescing(&self) -> bool {
        self.core.is(|h| unsafe { sys::ta_undo_coalescing(h) })
    }

    /// Returns whether all edits of one call are one group.
    ///
    /// ```
    /// use tui_textarea::TextArea;
    ///
    /// let area = TextArea::from(["one"]);
    /// assert!(!area.undo_grouping());
    /// ```
    pub fn undo_grouping(&self) -> bool {
        self.core.is(|h| unsafe { sys::ta_undo_grouping(h) })
    }

    /// Returns whether atomic ranges are remembered for undo and redo.
    ///
    /// ```
    /// use tui_textarea::TextArea;
    ///
    /// let area = TextArea::from(["one"]);
    /// assert!(!area.undo_ranges());
    /// ```
    pub fn undo_ranges(&self) -> bool {
        self.core.is(|h| unsafe { sys::ta_undo_ranges(h) })
    }

    /// Returns whether the text area is read only.
    ///
    /// ```
    /// use tui_textarea::TextArea;
    ///
    /// let area = TextArea::from(["one"]);
    /// assert!(!area.read_only());
    /// ```
    pub fn read_only(&self) -> bool {
        self.core.is(|h| unsafe { sys::ta_read_only(h) })
    }

    /// Returns whether the text is kept in a single line.
    ///
    /// ```
    /// use tui_textarea::TextArea;
    ///
    /// let area = TextArea::from(["one"]);
    /// assert!(!area.single_line());
    /// ```
    pub fn single_line(&self) -> bool {
        self.core.is(|h| unsafe { sys::ta_single_line(h) })
    }

    /// Returns the distance of tab stops, in columns.
    ///
    /// ```
    /// use tui_textarea::TextArea;
    ///
    /// let area = TextArea::from(["one"]);
    /// assert_eq!(area.tab_length(), 4);
    /// ```
    pub fn tab_length(&self) -> u8 {
        let mut tab_length = 0;
        self.core
            .is(|h| unsafe { sys::ta_tab_length(h, &mut tab_length) });
        tab_length
    }

    /// Returns whether a tab is inserted as a tab character.
    ///
    /// ```
    /// use tui_textarea::TextArea;
    ///
    /// let area = TextArea::from(["one"]);
    /// assert!(!area.hard_tab_indent());
    /// ```
    pub fn hard_tab_indent(&self) -> bool {
        self.core.is(|h| unsafe { sys::ta_hard_tab_indent(h) })
    }

    /// Returns the least height of the whole area, in screen rows, from 1 to the greatest height.
    ///
    /// ```
    /// use tui_textarea::TextArea;
    ///
    /// let area = TextArea::from(["one"]);
    /// assert_eq!(area.min_rows(), 1);
    /// ```
    pub fn min_rows(&self) -> u16 {
        let mut min_rows = 0;
        self.core
            .is(|h| unsafe { sys::ta_min_rows(h, &mut min_rows) });
        min_rows
    }

    /// Returns the greatest height of the whole area, in screen rows: at least the least height.
    ///
    /// ```
    /// use tui_textarea::TextArea;
    ///
    /// let area = TextArea::from(["one"]);
    /// assert_eq!(area.max_rows(), u16::MAX);
    /// ```
    pub fn max_rows(&self) -> u16 {
        let mut max_rows = 0;
        self.core
            .is(|h| unsafe { sys::ta_max_rows(h, &mut max_rows) });
        max_rows
    }

    /// Returns the style of each cell of the inner area, under all others.
    ///
    /// ```
    /// use tui_textarea::ratatui::style::Style;
    /// use tui_textarea::TextArea;
    ///
    /// let area = TextArea::from(["one"]);
    /// assert_eq!(area.style(), Style::new());
    /// ```
    pub fn style(&self) -> Style {
        let mut style = BLANK;
        self.core.is(|h| unsafe { sys::ta_style(h, &mut style) });
        style.into()
    }

    /// Returns the style of the cell at the cursor.
    ///
    /// ```
    /// use tui_textarea::ratatui::style::Style;
    /// use tui_textarea::TextArea;
    ///
    /// let area = TextArea::from(["one"]);
    /// assert_eq!(area.cursor_style(), Style::new().reversed());
    /// ```
    pub fn cursor_style(&self) -> Style {
        let mut style = BLANK;
        self.core
            .is(|h| unsafe { sys::ta_cursor_style(h, &mut style) });
        style.into()
    }

    /// Returns the style of the cursor's line, where no highlight is.
    ///
    /// ```
    /// use tui_textarea::ratatui::style::Style;
    /// use tui_textarea::TextArea;
    ///
    /// let area = TextArea::from(["one"]);
    /// assert_eq!(area.cursor_line_style(), Style::new().underlined());
    /// ```
    pub fn cursor_line_style(&self) -> Style {
        let mut style = BLANK;
        self.core
            .is(|h| unsafe { sys::ta_cursor_line_style(h, &mut style) });
        style.into()
    }

    /// Returns the style of the line number of the cursor's line, over the style of all line
    /// numbers.
    ///
    /// ```
    /// use tui_textarea::ratatui::style::{Color, Style};
    /// use tui_textarea::TextArea;
    ///
    /// let mut area = TextArea::from(["one"]);
    /// area.set_cursor_line_number_style(Style::new().bg(Color::Yellow));
    /// assert_eq!(area.cursor_line_number_style().bg, Some(Color::Yellow));
    /// ```
    pub fn cursor_line_number_style(&self) -> Style {
        let mut style = BLANK;
        self.core
            .is(|h| unsafe { sys::ta_cursor_line_number_style(h, &mut style) });
        style.into()
    }

    /// Returns the style of selected text.
    ///
    /// ```
    /// use tui_textarea::ratatui::style::{Color, Style};
    /// use tui_textarea::TextArea;
    ///
    /// let area = TextArea::from(["one"]);
    /// assert_eq!(area.selection_style(), Style::new().bg(Color::LightBlue));
    /// ```
    pub fn selection_style(&self) -> Style {
        let mut style = BLANK;
        self.core
            .is(|h| unsafe { sys::ta_selection_style(h, &mut style) });
        style.into()
    }

    /// Returns the style of the search pattern's matches.
    ///
    /// ```
    /// use tui_textarea::ratatui::style::{Color, Style};
    /// use tui_textarea::TextArea;
    ///
    /// let area = TextArea::from(["one"]);
    /// assert_eq!(area.search_style(), Style::new().bg(Color::Blue));
    /// ```
    pub fn search_style(&self) -> Style {
        let mut style = BLANK;
        self.core
            .is(|h| unsafe { sys::ta_search_style(h, &mut style) });
        style.into()
    }
}
