//! Lines, yanked text, the search pattern, atomic ranges and the placeholder.

use super::TextArea;
use crate::data::{
    AtomicCursorBias, AtomicDeleteDirection, AtomicRange, AtomicRangeError, OutOfMemory, Pattern,
    SearchError,
};
use crate::handle::must;
use crate::ratatui::layout::Position;
use crate::ratatui::style::Style;
use crate::ratatui::text::Text;
use crate::ratatui::{BLANK, Parts};
use crate::sys;

impl<'a> TextArea<'a> {
    /// Replaces all lines, and moves the cursor to the position in them that is nearest to `cursor`.
    /// Forgets all edits, the selection, the atomic ranges and the custom highlights.
    ///
    /// ```
    /// use tui_textarea::TextArea;
    ///
    /// let mut area = TextArea::default();
    /// area.set_lines(vec!["one".into(), "two".into()], (1, 2));
    /// assert_eq!((area.lines().len(), area.cursor()), (2, (1, 2)));
    /// ```
    ///
    /// # Panics
    ///
    /// If there is no line.
    pub fn set_lines(&mut self, lines: Vec<String>, cursor: (usize, usize)) {
        must(self.try_set_lines(lines, cursor));
    }

    /// As `set_lines`, but returns that memory ran out.
    pub fn try_set_lines(
        &mut self,
        lines: Vec<String>,
        (row, column): (usize, usize),
    ) -> Result<(), OutOfMemory> {
        assert!(!lines.is_empty(), "lines must not be empty");
        let text = lines.concat();
        let mut end = 0;
        let ends: Vec<usize> = lines
            .iter()
            .map(|line| {
                end += line.len();
                end
            })
            .collect();
        self.edit(|h| unsafe {
            sys::ta_set_lines(
                h,
                text.as_ptr(),
                text.len(),
                ends.as_ptr(),
                ends.len(),
                row,
                column,
            )
        })?;
        Ok(())
    }

    /// Returns the text: the lines, with a line feed between two.
    ///
    /// ```
    /// use tui_textarea::TextArea;
    ///
    /// assert_eq!(TextArea::from(["one", "two"]).text(), "one\ntwo");
    /// ```
    pub fn text(&self) -> String {
        must(self.try_text())
    }

    /// As `text`, but returns that memory ran out.
    pub fn try_text(&self) -> Result<String, OutOfMemory> {
        let text = self
            .core
            .text(|h, out, room, needed| unsafe { sys::ta_text(h, out, room, needed) })?;
        Ok(text.unwrap_or_default())
    }

    /// Returns the text between two positions, in either order, with a line feed for each line
    /// break. Positions beyond the text count as the nearest ones in it.
    ///
    /// ```
    /// use tui_textarea::TextArea;
    ///
    /// assert_eq!(TextArea::from(["one", "two"]).text_range((0, 2), (1, 1)), "e\nt");
    /// ```
    pub fn text_range(&self, from: (usize, usize), to: (usize, usize)) -> String {
        must(self.try_text_range(from, to))
    }

    /// As `text_range`, but returns that memory ran out.
    pub fn try_text_range(
        &self,
        from: (usize, usize),
        to: (usize, usize),
    ) -> Result<String, OutOfMemory> {
        let text = self.core.text(|h, out, room, needed| unsafe {
            sys::ta_text_range(h, from.0, from.1, to.0, to.1, out, room, needed)
        })?;
        Ok(text.unwrap_or_default())
    }

    /// Returns the lines, at least one.
    ///
    /// ```
    /// use tui_textarea::TextArea;
    ///
    /// let mut area = TextArea::from(["one"]);
    /// area.insert_newline();
    /// assert_eq!(area.lines(), ["", "one"]);
    /// ```
    pub fn lines(&self) -> &[String] {
        self.lines.get_or_init(|| {
            let (mut needed, mut count) = (0, 0);
            let (mut bytes, mut ends) = (Vec::new(), Vec::new());
            loop {
                self.core.is(|h| unsafe {
                    sys::ta_lines(
                        h,
                        bytes.as_mut_ptr(),
                        bytes.len(),
                        &mut needed,
                        ends.as_mut_ptr(),
                        ends.len(),
                        &mut count,
                    )
                });
                if needed == bytes.len() && count == ends.len() {
                    break;
                }
                bytes.resize(needed, 0);
                ends.resize(count, 0);
            }
            let mut start = 0;
            ends.into_iter()
                .map(|end| {
                    let line = &bytes[start..end];
                    start = end;
                    String::from_utf8(line.to_vec()).expect("texts of the core are UTF-8")
                })
                .collect()
        })
    }

    /// Drops everything but the lines, and returns these.
    ///
    /// ```
    /// use tui_textarea::TextArea;
    ///
    /// let lines: Vec<String> = TextArea::from(["one", "two"]).into_lines();
    /// assert_eq!(lines, ["one", "two"]);
    /// ```
    pub fn into_lines(mut self) -> Vec<String> {
        self.lines();
        self.lines.take().unwrap_or_default()
    }

    /// Returns whether the text is one empty line.
    ///
    /// ```
    /// use tui_textarea::TextArea;
    ///
    /// assert!(TextArea::default().is_empty());
    /// assert!(!TextArea::from(["", ""]).is_empty());
    /// ```
    #[inline]
    pub fn is_empty(&self) -> bool {
        self.core.is(|h| unsafe { sys::ta_is_empty(h) })
    }

    /// Returns the text that was yanked last, with a line feed for each line break; empty at first.
    ///
    /// ```
    /// use tui_textarea::TextArea;
    ///
    /// let mut area = TextArea::from(["one two"]);
    /// area.delete_next_word();
    /// assert_eq!(area.yank_text(), "one");
    /// ```
    pub fn yank_text(&self) -> String {
        must(self.try_yank_text())
    }

    /// As `yank_text`, but returns that memory ran out.
    pub fn try_yank_text(&self) -> Result<String, OutOfMemory> {
        let text = self
            .core
            .text(|h, out, room, needed| unsafe { sys::ta_yank_text(h, out, room, needed) })?;
        Ok(text.unwrap_or_default())
    }

    /// Sets the text that `paste` inserts. Each line feed becomes a line break; a carriage return
    /// directly before it is dropped.
    ///
    /// ```
    /// use tui_textarea::TextArea;
    ///
    /// let mut area = TextArea::default();
    /// area.set_yank_text("one\ntwo");
    /// area.paste();
    /// assert_eq!(area.lines(), ["one", "two"]);
    /// ```
    pub fn set_yank_text(&mut self, text: impl Into<String>) {
        must(self.try_set_yank_text(text));
    }

    /// As `set_yank_text`, but returns that memory ran out.
    pub fn try_set_yank_text(&mut self, text: impl Into<String>) -> Result<(), OutOfMemory> {
        let text = text.into();
        self.core
            .on(|h| unsafe { sys::ta_set_yank_text(h, text.as_ptr(), text.len()) })?;
        Ok(())
    }

    /// Sets the search pattern, in the syntax of `regex`; an empty one removes the pattern.
    ///
    /// ```
    /// use tui_textarea::{SearchError, TextArea};
    ///
    /// let mut area = TextArea::from(["one two"]);
    /// area.set_search_pattern("t.o")?;
    /// assert!(area.search_forward(false));
    /// assert!(matches!(area.set_search_pattern("("), Err(SearchError::Pattern(_))));
    /// # Ok::<(), SearchError>(())
    /// ```
    pub fn set_search_pattern(&mut self, query: impl AsRef<str>) -> Result<(), SearchError> {
        let query = query.as_ref();
        let status = self
            .core
            .status(|h| unsafe { sys::ta_set_search_pattern(h, query.as_ptr(), query.len()) });
        self.pattern_set(status)
    }

    /// Sets a search pattern that finds the text as it is: each character that has a meaning in the
    /// syntax of `regex` is escaped. The empty text removes the pattern. With `ignore_case`,
    /// letters of either case match. With `whole_word`, each end of the text that is a word's
    /// character must be an end of a word.
    ///
    /// ```
    /// use tui_textarea::TextArea;
    ///
    /// let mut area = TextArea::from(["a.b axb", "A.B"]);
    /// area.set_search_text("a.b", true, true)?;
    /// assert_eq!(area.match_count(), 2);
    /// assert!(area.search_forward(false));
    /// assert_eq!((area.cursor(), area.match_index()), ((1, 0), Some(1)));
    /// # Ok::<(), tui_textarea::SearchError>(())
    /// ```
    pub fn set_search_text(
        &mut self,
        text: impl AsRef<str>,
        ignore_case: bool,
        whole_word: bool,
    ) -> Result<(), SearchError> {
        let text = text.as_ref();
        let status = self.core.status(|h| unsafe {
            sys::ta_set_search_text(h, text.as_ptr(), text.len(), ignore_case, whole_word)
        });
        self.pattern_set(status)
    }

    /// Returns the number of the search pattern's matches in the whole text; 0 without a pattern.
    pub fn match_count(&self) -> usize {
        must(self.try_match_count())
    }

    /// As `match_count`, but returns that memory ran out.
    pub fn try_match_count(&self) -> Result<usize, OutOfMemory> {
        let mut count = 0;
        self.core
            .on(|h| unsafe { sys::ta_match_count(h, &mut count) })?;
        Ok(count)
    }

    /// Returns the number, counted from 0 in the order of the text, of the match that starts at the
    /// cursor; `None` if none does, and without a pattern.
    pub fn match_index(&self) -> Option<usize> {
        must(self.try_match_index())
    }

    /// As `match_index`, but returns that memory ran out.
    pub fn try_match_index(&self) -> Result<Option<usize>, OutOfMemory> {
        let mut index = 0;
        let is_match = self
            .core
            .on(|h| unsafe { sys::ta_match_index(h, &mut index) })?;
        Ok(is_match.then_some(index))
    }

    // The result of setting a pattern, by its status.
    fn pattern_set(&mut self, status: u32) -> Result<(), SearchError> {
        match status {
            sys::OK => {
                self.pattern.take();
                Ok(())
            }
            sys::PATTERN_REJECTED => {
                let why = self.core.text(|h, out, room, needed| unsafe {
                    sys::ta_pattern_error(h, out, room, needed)
                });
                Err(SearchError::Pattern(must(why).unwrap_or_default()))
            }
            _ => Err(SearchError::Memory(OutOfMemory)),
        }
    }

    /// Returns the search pattern, if one is set.
    ///
    /// ```
    /// use tui_textarea::TextArea;
    ///
    /// let mut area = TextArea::default();
    /// assert_eq!(area.search_pattern(), None);
    /// area.set_search_pattern("t.o")?;
    /// assert_eq!(area.search_pattern().unwrap().as_str(), "t.o");
    /// # Ok::<(), tui_textarea::SearchError>(())
    /// ```
    pub fn search_pattern(&self) -> Option<&Pattern> {
        let pattern = self.pattern.get_or_init(|| {
            let text = self.core.text(|h, out, room, needed| unsafe {
                sys::ta_search_pattern(h, out, room, needed)
            });
            must(text).map(Pattern)
        });
        pattern.as_ref()
    }

    /// Replaces the atomic ranges; they are sorted by row and start.
    ///
    /// ```
    /// use tui_textarea::{AtomicRange, CursorMove, TextArea};
    ///
    /// let mut area = TextArea::from(["@Ada, hello"]);
    /// area.set_atomic_ranges([AtomicRange { row: 0, start_col: 0, end_col: 4 }]);
    /// area.move_cursor(CursorMove::Forward);
    /// assert_eq!(area.cursor(), (0, 4));
    /// assert!(area.delete_char()); // the whole range
    /// assert_eq!(area.lines(), [", hello"]);
    /// ```
    ///
    /// # Panics
    ///
    /// If they are not valid for the text.
    pub fn set_atomic_ranges<I>(&mut self, ranges: I)
    where
        I: IntoIterator<Item = AtomicRange>,
    {
        if let Err(error) = self.try_set_atomic_ranges(ranges) {
            panic!("invalid atomic ranges: {error:?}");
        }
    }

    /// Replaces the atomic ranges as `set_atomic_ranges` does, if they are valid for the text.
    /// Otherwise changes nothing, and returns the rejected ones, sorted by row and start.
    pub fn try_set_atomic_ranges<I>(&mut self, ranges: I) -> Result<(), AtomicRangeError>
    where
        I: IntoIterator<Item = AtomicRange>,
    {
        let ranges: Vec<sys::Range> = ranges.into_iter().map(Into::into).collect();
        self.ranges.take();
        let status = self
            .core
            .status(|h| unsafe { sys::ta_set_atomic_ranges(h, ranges.as_ptr(), ranges.len()) });
        if status == sys::RANGES_REJECTED {
            let blank = sys::Rejected {
                range: NO_RANGE,
                reason: 0,
            };
            let rejected = self.core.list(blank, |h, out, room, needed| unsafe {
                sys::ta_rejected_ranges(h, out, room, needed)
            });
            return Err(AtomicRangeError {
                rejected: rejected.into_iter().map(Into::into).collect(),
            });
        }
        must(self.core.on(|_| status));
        Ok(())
    }

    /// Drops all atomic ranges.
    pub fn clear_atomic_ranges(&mut self) {
        self.ranges.take();
        self.core.is(|h| unsafe { sys::ta_clear_atomic_ranges(h) });
    }

    /// Returns the atomic ranges, sorted by row and start.
    pub fn atomic_ranges(&self) -> &[AtomicRange] {
        self.ranges.get_or_init(|| {
            let ranges = self.core.list(NO_RANGE, |h, out, room, needed| unsafe {
                sys::ta_atomic_ranges(h, out, room, needed)
            });
            ranges.into_iter().map(Into::into).collect()
        })
    }

    /// Moves a cursor strictly inside an atomic range to one of its ends, and returns whether it
    /// moved.
    pub fn normalize_cursor_around_atomic_ranges(&mut self, bias: AtomicCursorBias) -> bool {
        let bias = match bias {
            AtomicCursorBias::Backward => sys::BACKWARD,
            AtomicCursorBias::Forward => sys::FORWARD,
        };
        self.core
            .is(|h| unsafe { sys::ta_normalize_cursor_around_atomic_ranges(h, bias) })
    }

    /// Returns the atomic range at this side of the cursor.
    pub fn atomic_range_at_cursor(&self, direction: AtomicDeleteDirection) -> Option<AtomicRange> {
        let mut range = NO_RANGE;
        let side = side(direction);
        let is_found = self
            .core
            .is(|h| unsafe { sys::ta_atomic_range_at_cursor(h, side, &mut range) });
        is_found.then_some(range.into())
    }

    /// Removes the atomic range at this side of the cursor and returns it; yanks nothing.
    pub fn delete_atomic_range_at_cursor(
        &mut self,
        direction: AtomicDeleteDirection,
    ) -> Option<AtomicRange> {
        must(self.try_delete_atomic_range_at_cursor(direction))
    }

    /// As `delete_atomic_range_at_cursor`, but returns that memory ran out.
    pub fn try_delete_atomic_range_at_cursor(
        &mut self,
        direction: AtomicDeleteDirection,
    ) -> Result<Option<AtomicRange>, OutOfMemory> {
        let mut range = NO_RANGE;
        let side = side(direction);
        let is_found =
            self.edit(|h| unsafe { sys::ta_delete_atomic_range_at_cursor(h, side, &mut range) })?;
        Ok(is_found.then_some(range.into()))
    }

    /// Sets the placeholder, which is shown while the text is empty, to this text; the empty text
    /// removes it. The placeholder's style stays.
    ///
    /// ```
    /// use tui_textarea::TextArea;
    ///
    /// let mut area = TextArea::default();
    /// area.set_placeholder_text("Your name");
    /// assert_eq!(area.placeholder_text(), "Your name");
    /// ```
    pub fn set_placeholder_text(&mut self, placeholder: impl Into<String>) {
        must(self.try_set_placeholder_text(placeholder));
    }

    /// As `set_placeholder_text`, but returns that memory ran out.
    pub fn try_set_placeholder_text(
        &mut self,
        placeholder: impl Into<String>,
    ) -> Result<(), OutOfMemory> {
        let text = placeholder.into();
        self.placeholder.take();
        self.core
            .on(|h| unsafe { sys::ta_set_placeholder_text(h, text.as_ptr(), text.len()) })?;
        Ok(())
    }

    /// Sets the placeholder, which is shown while the text is empty, to these lines and their style;
    /// without lines there is none.
    ///
    /// ```
    /// use tui_textarea::ratatui::style::Stylize;
    /// use tui_textarea::ratatui::text::Line;
    /// use tui_textarea::TextArea;
    ///
    /// let mut area = TextArea::default();
    /// area.set_styled_placeholder(Line::from(vec!["Press ".into(), "Enter".bold()]));
    /// assert_eq!(area.placeholder().lines[0].spans.len(), 2);
    /// ```
    pub fn set_styled_placeholder(&mut self, placeholder: impl Into<Text<'a>>) {
        must(self.try_set_styled_placeholder(placeholder));
    }

    /// As `set_styled_placeholder`, but returns that memory ran out.
    pub fn try_set_styled_placeholder(
        &mut self,
        placeholder: impl Into<Text<'a>>,
    ) -> Result<(), OutOfMemory> {
        let placeholder = placeholder.into();
        let parts = Parts::of(&placeholder.lines);
        let style = placeholder.style.into();
        self.placeholder.take();
        self.core.on(|h| unsafe {
            sys::ta_set_styled_placeholder(
                h,
                parts.text.as_ptr(),
                parts.text.len(),
                parts.spans.as_ptr(),
                parts.spans.len(),
                parts.lines.as_ptr(),
                parts.lines.len(),
                &style,
            )
        })?;
        Ok(())
    }

    /// Sets the style under those of the placeholder's lines, even while it has none.
    ///
    /// ```
    /// use tui_textarea::ratatui::style::{Color, Style};
    /// use tui_textarea::TextArea;
    ///
    /// let mut area = TextArea::default();
    /// area.set_placeholder_style(Style::new().fg(Color::DarkGray));
    /// area.set_placeholder_text("Your name");
    /// assert_eq!(area.placeholder_style().unwrap().fg, Some(Color::DarkGray));
    /// ```
    pub fn set_placeholder_style(&mut self, style: impl Into<Style>) {
        let style = sys::Style::from(style.into());
        self.placeholder.take();
        self.core
            .is(|h| unsafe { sys::ta_set_placeholder_style(h, &style) });
    }

    /// Returns the whole placeholder, lines and style, even if it has no line.
    pub fn placeholder(&self) -> &Text<'a> {
        self.placeholder.get_or_init(|| self.core_placeholder())
    }

    fn core_placeholder(&self) -> Text<'static> {
        let mut style = BLANK;
        let (mut bytes, mut spans, mut lines) = (Vec::new(), Vec::new(), Vec::new());
        let (mut needed, mut span_count, mut line_count) = (0, 0, 0);
        loop {
            self.core.is(|h| unsafe {
                sys::ta_placeholder(
                    h,
                    &mut style,
                    bytes.as_mut_ptr(),
                    bytes.len(),
                    &mut needed,
                    spans.as_mut_ptr(),
                    spans.len(),
                    &mut span_count,
                    lines.as_mut_ptr(),
                    lines.len(),
                    &mut line_count,
                )
            });
            if needed == bytes.len() && span_count == spans.len() && line_count == lines.len() {
                break;
            }
            bytes.resize(needed, 0);
            spans.resize(span_count, NO_SPAN);
            lines.resize(
                line_count,
                sys::Line {
                    spans: 0,
                    style: BLANK,
                },
            );
        }
        let text = String::from_utf8(bytes).expect("texts of the core are UTF-8");
        let parts = Parts { text, spans, lines };
        Text::from(parts.lines()).style(style)
    }

    /// Returns the text of the first span of the placeholder's first line; empty if there is none.
    ///
    /// ```
    /// use tui_textarea::TextArea;
    ///
    /// assert_eq!(TextArea::default().placeholder_text(), "");
    /// ```
    pub fn placeholder_text(&self) -> &str {
        let first = self.placeholder().lines.first();
        first
            .and_then(|line| line.spans.first())
            .map_or("", |span| &span.content)
    }

    /// Returns the style of the placeholder, or `None` if it has no line.
    ///
    /// ```
    /// use tui_textarea::TextArea;
    ///
    /// let mut area = TextArea::default();
    /// assert_eq!(area.placeholder_style(), None);
    /// area.set_placeholder_text("Your name");
    /// assert!(area.placeholder_style().is_some());
    /// ```
    pub fn placeholder_style(&self) -> Option<Style> {
        let mut style = BLANK;
        let is_there = self
            .core
            .is(|h| unsafe { sys::ta_placeholder_style(h, &mut style) });
        is_there.then_some(style.into())
    }

    /// Returns the position of the text that a cell of the screen shows, in the inner area of the
    /// last drawing, for the present text and viewport; `None` for a cell outside of it.
    ///
    /// ```
    /// use tui_textarea::ratatui::buffer::Buffer;
    /// use tui_textarea::ratatui::layout::{Position, Rect};
    /// use tui_textarea::ratatui::widgets::{Block, Widget};
    /// use tui_textarea::{CursorMove, TextArea};
    ///
    /// let mut area = TextArea::from(["one", "two"]);
    /// area.set_block(Block::bordered());
    /// let mut buffer = Buffer::empty(Rect::new(0, 0, 10, 4));
    /// (&area).render(buffer.area, &mut buffer);
    /// let click = Position::new(2, 2); // a cell of the mouse: the "w", inside the border
    /// if let Some((row, column)) = area.cursor_at_position(click) {
    ///     area.move_cursor(CursorMove::Jump(row as u16, column as u16));
    /// }
    /// assert_eq!(area.cursor(), (1, 1));
    /// assert_eq!(area.cursor_at_position(Position::new(0, 0)), None);
    /// ```
    pub fn cursor_at_position(&self, position: Position) -> Option<(usize, usize)> {
        must(self.try_cursor_at_position(position))
    }

    /// As `cursor_at_position`, but returns that memory ran out.
    pub fn try_cursor_at_position(
        &self,
        position: Position,
    ) -> Result<Option<(usize, usize)>, OutOfMemory> {
        let (mut row, mut column) = (0, 0);
        let is_shown = self.core.on(|h| unsafe {
            sys::ta_cursor_at_position(h, position.x, position.y, &mut row, &mut column)
        })?;
        Ok(is_shown.then_some((row, column)))
    }
}

fn side(direction: AtomicDeleteDirection) -> u32 {
    match direction {
        AtomicDeleteDirection::Backward => sys::BACKWARD,
        AtomicDeleteDirection::Forward => sys::FORWARD,
    }
}

const NO_RANGE: sys::Range = sys::Range {
    row: 0,
    start_col: 0,
    end_col: 0,
};

pub(super) const NO_SPAN: sys::Span = sys::Span {
    bytes: 0,
    style: BLANK,
};
