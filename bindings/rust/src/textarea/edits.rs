//! Inputs, insertions of characters and texts, moves, the selection's ends, and coalescing.

use super::TextArea;
use crate::data::{CursorMove, OutOfMemory, Scrolling};
use crate::handle::must;
use crate::input::Input;
use crate::sys;

impl TextArea<'_> {
    /// Makes the call that the key table with shortcuts has for the input, and returns whether the
    /// text changed. With Shift, a move or scroll extends the selection, or begins one; without
    /// Shift it drops the selection.
    ///
    /// ```
    /// use tui_textarea::{Input, Key, TextArea};
    ///
    /// let mut area = TextArea::default();
    /// assert!(area.input(Input::from('a')));
    /// assert!(area.input(Key::Enter));
    /// assert!(!area.input(Key::Null));
    /// assert_eq!(area.lines(), ["a", ""]);
    /// assert!(area.input(Input::from('u').ctrl())); // undo
    /// ```
    pub fn input(&mut self, input: impl Into<Input>) -> bool {
        must(self.try_input(input))
    }

    /// As `input`, but returns that memory ran out.
    pub fn try_input(&mut self, input: impl Into<Input>) -> Result<bool, OutOfMemory> {
        let input = sys::Input::from(&input.into());
        self.edit(|h| unsafe { sys::ta_input(h, &input) })
    }

    /// As `input`, but by the table without shortcuts, for a caller that has its own: only
    /// characters, Tab, Backspace, Delete, Enter and the mouse wheel.
    ///
    /// ```
    /// use tui_textarea::{Input, TextArea};
    ///
    /// let mut area = TextArea::from(["one"]);
    /// assert!(!area.input_without_shortcuts(Input::from('k').ctrl()));
    /// assert!(area.input_without_shortcuts('k'));
    /// assert_eq!(area.lines(), ["kone"]);
    /// ```
    pub fn input_without_shortcuts(&mut self, input: impl Into<Input>) -> bool {
        must(self.try_input_without_shortcuts(input))
    }

    /// As `input_without_shortcuts`, but returns that memory ran out.
    pub fn try_input_without_shortcuts(
        &mut self,
        input: impl Into<Input>,
    ) -> Result<bool, OutOfMemory> {
        let input = sys::Input::from(&input.into());
        self.edit(|h| unsafe { sys::ta_input_without_shortcuts(h, &input) })
    }

    /// Inserts the character at the cursor; `\n` and `\r` break the line.
    ///
    /// ```
    /// use tui_textarea::TextArea;
    ///
    /// let mut area = TextArea::default();
    /// area.insert_char('a');
    /// area.insert_char('\n');
    /// assert_eq!(area.lines(), ["a", ""]);
    /// ```
    #[inline]
    pub fn insert_char(&mut self, c: char) {
        must(self.try_insert_char(c));
    }

    /// As `insert_char`, but returns that memory ran out.
    #[inline]
    pub fn try_insert_char(&mut self, c: char) -> Result<(), OutOfMemory> {
        self.edit(|h| unsafe { sys::ta_insert_char(h, c as u32) })?;
        Ok(())
    }

    /// Inserts the text at the cursor, and returns whether it inserted something or removed a
    /// selection. Each line feed breaks the line; a carriage return directly before it is dropped.
    ///
    /// ```
    /// use tui_textarea::TextArea;
    ///
    /// let mut area = TextArea::default();
    /// assert!(area.insert_str("one\r\ntwo"));
    /// assert!(!area.insert_str(""));
    /// assert_eq!(area.lines(), ["one", "two"]);
    /// ```
    pub fn insert_str<S: AsRef<str>>(&mut self, s: S) -> bool {
        must(self.try_insert_str(s))
    }

    /// As `insert_str`, but returns that memory ran out.
    pub fn try_insert_str<S: AsRef<str>>(&mut self, s: S) -> Result<bool, OutOfMemory> {
        let text = s.as_ref();
        self.edit(|h| unsafe { sys::ta_insert_str(h, text.as_ptr(), text.len()) })
    }

    /// Inserts a text that was pasted from outside, and returns whether it inserted something or
    /// removed a selection. Each line end breaks the line: a line feed, a carriage return, or a
    /// carriage return and a line feed.
    ///
    /// ```
    /// use tui_textarea::TextArea;
    ///
    /// let mut area = TextArea::default();
    /// area.insert_pasted("one\rtwo");
    /// assert_eq!(area.lines(), ["one", "two"]);
    /// ```
    pub fn insert_pasted<S: AsRef<str>>(&mut self, s: S) -> bool {
        must(self.try_insert_pasted(s))
    }

    /// As `insert_pasted`, but returns that memory ran out.
    pub fn try_insert_pasted<S: AsRef<str>>(&mut self, s: S) -> Result<bool, OutOfMemory> {
        let text = s.as_ref();
        self.edit(|h| unsafe { sys::ta_insert_pasted(h, text.as_ptr(), text.len()) })
    }

    /// Replaces the text between two positions, in either order, by this one, and returns whether it
    /// removed or inserted something; one undo takes both back. Positions beyond the text count as
    /// the nearest ones in it. Atomic ranges that the replaced text overlaps are removed.
    ///
    /// ```
    /// use tui_textarea::TextArea;
    ///
    /// let mut area = TextArea::from(["one two"]);
    /// area.replace_range((0, 4), (0, 7), "2\n3");
    /// assert_eq!(area.lines(), ["one 2", "3"]);
    /// area.undo();
    /// assert_eq!(area.lines(), ["one two"]);
    /// ```
    pub fn replace_range<S: AsRef<str>>(
        &mut self,
        from: (usize, usize),
        to: (usize, usize),
        s: S,
    ) -> bool {
        must(self.try_replace_range(from, to, s))
    }

    /// As `replace_range`, but returns that memory ran out.
    pub fn try_replace_range<S: AsRef<str>>(
        &mut self,
        from: (usize, usize),
        to: (usize, usize),
        s: S,
    ) -> Result<bool, OutOfMemory> {
        let text = s.as_ref();
        self.edit(|h| unsafe {
            sys::ta_replace_range(h, from.0, from.1, to.0, to.1, text.as_ptr(), text.len())
        })
    }

    /// Replaces the match of the search pattern that begins at the cursor by this text, and moves the
    /// cursor to the next match at or after what was inserted; after an empty match at least one
    /// character later. Returns whether there was such a match. Without one it searches as
    /// `search_forward` does.
    ///
    /// ```
    /// use tui_textarea::TextArea;
    ///
    /// let mut area = TextArea::from(["one two one"]);
    /// area.set_search_pattern("one")?;
    /// assert!(area.replace_match("1"));
    /// assert_eq!((area.text().as_str(), area.cursor()), ("1 two one", (0, 6)));
    /// # Ok::<(), tui_textarea::SearchError>(())
    /// ```
    pub fn replace_match<S: AsRef<str>>(&mut self, s: S) -> bool {
        must(self.try_replace_match(s))
    }

    /// As `replace_match`, but returns that memory ran out.
    pub fn try_replace_match<S: AsRef<str>>(&mut self, s: S) -> Result<bool, OutOfMemory> {
        let text = s.as_ref();
        self.edit(|h| unsafe { sys::ta_replace_match(h, text.as_ptr(), text.len()) })
    }

    /// Replaces each match of the search pattern in the text as it is now by this text, and returns
    /// their number; one undo takes all back, if as many edits are remembered, at most two for each
    /// match. Matches in what is inserted are left, and so is a match of which an end is strictly
    /// inside an atomic range. An empty match inserts the text. The cursor is then after the last one
    /// that was replaced; without matches nothing changes.
    ///
    /// ```
    /// use tui_textarea::TextArea;
    ///
    /// let mut area = TextArea::from(["one two", "two"]);
    /// area.set_search_pattern("two|x")?;
    /// assert_eq!((area.replace_all("x y"), area.text().as_str()), (2, "one x y\nx y"));
    /// assert!(area.undo());
    /// assert_eq!(area.text(), "one two\ntwo");
    /// # Ok::<(), tui_textarea::SearchError>(())
    /// ```
    pub fn replace_all<S: AsRef<str>>(&mut self, s: S) -> usize {
        must(self.try_replace_all(s))
    }

    /// As `replace_all`, but returns that memory ran out.
    pub fn try_replace_all<S: AsRef<str>>(&mut self, s: S) -> Result<usize, OutOfMemory> {
        let text = s.as_ref();
        let mut count = 0;
        self.edit(|h| unsafe { sys::ta_replace_all(h, text.as_ptr(), text.len(), &mut count) })?;
        Ok(count)
    }

    /// Moves the cursor to the position (row, column), or to the nearest one in the text. An open
    /// selection follows it, and a run of typing ends. Unlike `CursorMove::Jump` it reaches every
    /// row.
    ///
    /// ```
    /// use tui_textarea::TextArea;
    ///
    /// let mut area = TextArea::from(["one", "two"]);
    /// area.go_to((1, 99));
    /// assert_eq!(area.cursor(), (1, 3));
    /// ```
    pub fn go_to(&mut self, (row, column): (usize, usize)) {
        self.core.is(|h| unsafe { sys::ta_go_to(h, row, column) });
    }

    /// Moves the cursor. An open selection follows it, and a run of typing ends.
    ///
    /// ```
    /// use tui_textarea::{CursorMove, TextArea};
    ///
    /// let mut area = TextArea::from(["one two"]);
    /// area.move_cursor(CursorMove::WordForward);
    /// assert_eq!(area.cursor(), (0, 4));
    /// ```
    pub fn move_cursor(&mut self, m: CursorMove) {
        let number = match m {
            CursorMove::Forward => sys::MOVE_FORWARD,
            CursorMove::Back => sys::MOVE_BACK,
            CursorMove::Up => sys::MOVE_UP,
            CursorMove::Down => sys::MOVE_DOWN,
            CursorMove::Head => sys::MOVE_HEAD,
            CursorMove::End => sys::MOVE_END,
            CursorMove::Top => sys::MOVE_TOP,
            CursorMove::Bottom => sys::MOVE_BOTTOM,
            CursorMove::WordForward => sys::MOVE_WORD_FORWARD,
            CursorMove::WordEnd => sys::MOVE_WORD_END,
            CursorMove::WordBack => sys::MOVE_WORD_BACK,
            CursorMove::ParagraphForward => sys::MOVE_PARAGRAPH_FORWARD,
            CursorMove::ParagraphBack => sys::MOVE_PARAGRAPH_BACK,
            CursorMove::InViewport => sys::MOVE_IN_VIEWPORT,
            CursorMove::Jump(row, column) => {
                self.core.is(|h| unsafe { sys::ta_jump(h, row, column) });
                return;
            }
        };
        self.core.is(|h| unsafe { sys::ta_move_cursor(h, number) });
    }

    /// Scrolls the viewport, and moves the cursor into it, to the nearest visible row and column.
    ///
    /// ```
    /// use tui_textarea::ratatui::{buffer::Buffer, layout::Rect, widgets::Widget};
    /// use tui_textarea::TextArea;
    ///
    /// let mut area: TextArea = (0..20).map(|row| row.to_string()).collect();
    /// let place = Rect::new(0, 0, 10, 4);
    /// (&area).render(place, &mut Buffer::empty(place));
    /// area.scroll((7, 0));
    /// assert_eq!(area.cursor(), (7, 0)); // into the rows that are visible now
    /// ```
    pub fn scroll(&mut self, scrolling: impl Into<Scrolling>) {
        let page = match scrolling.into() {
            Scrolling::Delta { rows, cols } => {
                self.core.is(|h| unsafe { sys::ta_scroll(h, rows, cols) });
                return;
            }
            Scrolling::PageDown => sys::SCROLL_PAGE_DOWN,
            Scrolling::PageUp => sys::SCROLL_PAGE_UP,
            Scrolling::HalfPageDown => sys::SCROLL_HALF_PAGE_DOWN,
            Scrolling::HalfPageUp => sys::SCROLL_HALF_PAGE_UP,
        };
        self.core.is(|h| unsafe { sys::ta_scroll_page(h, page) });
    }

    /// Returns the cursor's (row, column), which is always a position of the text.
    ///
    /// ```
    /// use tui_textarea::TextArea;
    ///
    /// let mut area = TextArea::default();
    /// area.insert_str("one\ntwo");
    /// assert_eq!(area.cursor(), (1, 3));
    /// ```
    #[inline]
    pub fn cursor(&self) -> (usize, usize) {
        let (mut row, mut column) = (0, 0);
        self.core
            .is(|h| unsafe { sys::ta_cursor(h, &mut row, &mut column) });
        (row, column)
    }

    /// Returns the two ends of the selection, the first one first, even if it is empty.
    ///
    /// ```
    /// use tui_textarea::{CursorMove, TextArea};
    ///
    /// let mut area = TextArea::from(["one", "two"]);
    /// assert_eq!(area.selection_range(), None);
    /// area.move_cursor(CursorMove::Bottom);
    /// area.start_selection();
    /// area.move_cursor(CursorMove::Top);
    /// assert_eq!(area.selection_range(), Some(((0, 0), (1, 0))));
    /// ```
    pub fn selection_range(&self) -> Option<((usize, usize), (usize, usize))> {
        let mut n = [0; 4];
        let [a, b, c, d] = &mut n;
        let is_open = self
            .core
            .is(|h| unsafe { sys::ta_selection_range(h, a, b, c, d) });
        is_open.then_some(((n[0], n[1]), (n[2], n[3])))
    }

    /// Sets whether typed edits join into one edit, which is undone at once. A run of typing ends.
    ///
    /// ```
    /// use tui_textarea::TextArea;
    ///
    /// let mut area = TextArea::default();
    /// area.set_undo_coalescing(true);
    /// area.insert_char('a');
    /// area.insert_char('b');
    /// area.undo();
    /// assert!(area.is_empty());
    /// ```
    pub fn set_undo_coalescing(&mut self, coalesce: bool) {
        self.coalesces = coalesce;
        self.core
            .is(|h| unsafe { sys::ta_set_undo_coalescing(h, coalesce) });
    }
}
