//! Plain data.

use crate::sys;
#[cfg(feature = "serde")]
use serde::{Deserialize, Serialize};
use std::error::Error;
use std::fmt;
use std::ops::Deref;

/// What the columns of changes count.
#[derive(Clone, Copy, Debug, PartialEq, Eq)]
pub enum ChangeUnit {
    /// Characters.
    Characters,
    /// The bytes of the text in UTF-8.
    Bytes,
    /// The units of the text in UTF-16: two for a character past U+FFFF, and else one.
    Utf16,
}

/// A change of a text. Its positions are in the text just before it, as (row, column), and count
/// from 0; what the columns count is the unit of the log.
#[derive(Clone, Debug, PartialEq, Eq)]
pub struct TextChange {
    /// Where the change begins.
    pub start: (usize, usize),
    /// Where the text ends that the change removes; at its start if it removes none.
    pub end: (usize, usize),
    /// The inserted text, one string for each line, at least one.
    pub lines: Vec<String>,
}

/// A way to move the cursor.
#[non_exhaustive]
#[derive(Clone, Copy, Debug, PartialEq, Eq)]
#[cfg_attr(feature = "serde", derive(Serialize, Deserialize))]
pub enum CursorMove {
    /// To the next position; from the end of a line, to the start of the next one.
    ///
    /// ```
    /// use tui_textarea::{CursorMove, TextArea};
    ///
    /// let mut area = TextArea::from(["a", "b"]);
    /// area.go_to((0, 1));
    /// area.move_cursor(CursorMove::Forward);
    /// assert_eq!(area.cursor(), (1, 0));
    /// ```
    Forward,
    /// To the previous position; from the start of a line, to the end of the line above.
    ///
    /// ```
    /// use tui_textarea::{CursorMove, TextArea};
    ///
    /// let mut area = TextArea::from(["a", "b"]);
    /// area.go_to((1, 0));
    /// area.move_cursor(CursorMove::Back);
    /// assert_eq!(area.cursor(), (0, 1));
    /// ```
    Back,
    /// To the visual row above.
    ///
    /// ```
    /// use tui_textarea::{CursorMove, TextArea};
    ///
    /// let mut area = TextArea::from(["one", "two"]);
    /// area.go_to((1, 2));
    /// area.move_cursor(CursorMove::Up);
    /// assert_eq!(area.cursor(), (0, 2));
    /// ```
    Up,
    /// To the visual row below.
    ///
    /// ```
    /// use tui_textarea::{CursorMove, TextArea};
    ///
    /// let mut area = TextArea::from(["one", "two"]);
    /// area.go_to((0, 2));
    /// area.move_cursor(CursorMove::Down);
    /// assert_eq!(area.cursor(), (1, 2));
    /// ```
    Down,
    /// To the start of the cursor's line.
    ///
    /// ```
    /// use tui_textarea::{CursorMove, TextArea};
    ///
    /// let mut area = TextArea::from(["one"]);
    /// area.go_to((0, 2));
    /// area.move_cursor(CursorMove::Head);
    /// assert_eq!(area.cursor(), (0, 0));
    /// ```
    Head,
    /// To the end of the cursor's line.
    ///
    /// ```
    /// use tui_textarea::{CursorMove, TextArea};
    ///
    /// let mut area = TextArea::from(["one"]);
    /// area.move_cursor(CursorMove::End);
    /// assert_eq!(area.cursor(), (0, 3));
    /// ```
    End,
    /// To the first line.
    ///
    /// ```
    /// use tui_textarea::{CursorMove, TextArea};
    ///
    /// let mut area = TextArea::from(["one", "two"]);
    /// area.go_to((1, 0));
    /// area.move_cursor(CursorMove::Top);
    /// assert_eq!(area.cursor(), (0, 0));
    /// ```
    Top,
    /// To the last line.
    ///
    /// ```
    /// use tui_textarea::{CursorMove, TextArea};
    ///
    /// let mut area = TextArea::from(["one", "two"]);
    /// area.move_cursor(CursorMove::Bottom);
    /// assert_eq!(area.cursor(), (1, 0));
    /// ```
    Bottom,
    /// To the start of the next word.
    ///
    /// ```
    /// use tui_textarea::{CursorMove, TextArea};
    ///
    /// let mut area = TextArea::from(["one two"]);
    /// area.move_cursor(CursorMove::WordForward);
    /// assert_eq!(area.cursor(), (0, 4));
    /// ```
    WordForward,
    /// To the last character of a word.
    ///
    /// ```
    /// use tui_textarea::{CursorMove, TextArea};
    ///
    /// let mut area = TextArea::from(["one two"]);
    /// area.move_cursor(CursorMove::WordEnd);
    /// assert_eq!(area.cursor(), (0, 2));
    /// ```
    WordEnd,
    /// To the start of the previous word.
    ///
    /// ```
    /// use tui_textarea::{CursorMove, TextArea};
    ///
    /// let mut area = TextArea::from(["one two"]);
    /// area.go_to((0, 6));
    /// area.move_cursor(CursorMove::WordBack);
    /// assert_eq!(area.cursor(), (0, 4));
    /// ```
    WordBack,
    /// To the start of the next paragraph.
    ///
    /// ```
    /// use tui_textarea::{CursorMove, TextArea};
    ///
    /// let mut area = TextArea::from(["one", "", "two"]);
    /// area.move_cursor(CursorMove::ParagraphForward);
    /// assert_eq!(area.cursor(), (2, 0));
    /// ```
    ParagraphForward,
    /// To the start of the previous paragraph.
    ///
    /// ```
    /// use tui_textarea::{CursorMove, TextArea};
    ///
    /// let mut area = TextArea::from(["one", "", "two"]);
    /// area.go_to((2, 0));
    /// area.move_cursor(CursorMove::ParagraphBack);
    /// assert_eq!(area.cursor(), (0, 0));
    /// ```
    ParagraphBack,
    /// To this row and column, both counted from 0.
    ///
    /// ```
    /// use tui_textarea::{CursorMove, TextArea};
    ///
    /// let mut area = TextArea::from(["one", "two"]);
    /// area.move_cursor(CursorMove::Jump(1, 2));
    /// assert_eq!(area.cursor(), (1, 2));
    /// ```
    Jump(u16, u16),
    /// Into the area that was last drawn, if the cursor is outside of it.
    ///
    /// ```
    /// use tui_textarea::ratatui::{buffer::Buffer, layout::Rect, widgets::Widget};
    /// use tui_textarea::{CursorMove, TextArea};
    ///
    /// let mut area: TextArea = (0..20).map(|row| row.to_string()).collect();
    /// let place = Rect::new(0, 0, 10, 4);
    /// (&area).render(place, &mut Buffer::empty(place));
    /// area.go_to((9, 0));
    /// area.move_cursor(CursorMove::InViewport);
    /// assert_eq!(area.cursor(), (3, 0));
    /// ```
    InViewport,
}

/// How far to scroll, and in which direction.
#[non_exhaustive]
#[derive(Clone, Copy, Debug, PartialEq, Eq)]
#[cfg_attr(feature = "serde", derive(Serialize, Deserialize))]
pub enum Scrolling {
    /// By visual rows, down if positive, and by columns, to the right if positive.
    ///
    /// ```
    /// use tui_textarea::ratatui::{buffer::Buffer, layout::Rect, widgets::Widget};
    /// use tui_textarea::{Scrolling, TextArea};
    ///
    /// let mut area: TextArea = (0..40).map(|row| row.to_string()).collect();
    /// area.go_to((0, 0));
    /// let place = Rect::new(0, 0, 10, 8);
    /// (&area).render(place, &mut Buffer::empty(place));
    /// area.scroll(Scrolling::Delta { rows: 3, cols: 0 });
    /// assert_eq!(area.cursor(), (3, 0));
    /// ```
    Delta {
        /// The rows, negative to scroll up.
        rows: i16,
        /// The columns, negative to scroll to the left.
        cols: i16,
    },
    /// Down by the height of the viewport.
    ///
    /// ```
    /// use tui_textarea::ratatui::{buffer::Buffer, layout::Rect, widgets::Widget};
    /// use tui_textarea::{Scrolling, TextArea};
    ///
    /// let mut area: TextArea = (0..40).map(|row| row.to_string()).collect();
    /// area.go_to((0, 0));
    /// let place = Rect::new(0, 0, 10, 8);
    /// (&area).render(place, &mut Buffer::empty(place));
    /// area.scroll(Scrolling::PageDown);
    /// assert_eq!(area.cursor(), (8, 0));
    /// ```
    PageDown,
    /// Up by the height of the viewport.
    ///
    /// ```
    /// use tui_textarea::ratatui::{buffer::Buffer, layout::Rect, widgets::Widget};
    /// use tui_textarea::{Scrolling, TextArea};
    ///
    /// let mut area: TextArea = (0..40).map(|row| row.to_string()).collect();
    /// area.go_to((20, 0));
    /// let place = Rect::new(0, 0, 10, 8);
    /// (&area).render(place, &mut Buffer::empty(place));
    /// area.scroll(Scrolling::PageUp);
    /// assert_eq!(area.cursor(), (12, 0));
    /// ```
    PageUp,
    /// Down by half the height of the viewport.
    ///
    /// ```
    /// use tui_textarea::ratatui::{buffer::Buffer, layout::Rect, widgets::Widget};
    /// use tui_textarea::{Scrolling, TextArea};
    ///
    /// let mut area: TextArea = (0..40).map(|row| row.to_string()).collect();
    /// area.go_to((0, 0));
    /// let place = Rect::new(0, 0, 10, 8);
    /// (&area).render(place, &mut Buffer::empty(place));
    /// area.scroll(Scrolling::HalfPageDown);
    /// assert_eq!(area.cursor(), (4, 0));
    /// ```
    HalfPageDown,
    /// Up by half the height of the viewport.
    ///
    /// ```
    /// use tui_textarea::ratatui::{buffer::Buffer, layout::Rect, widgets::Widget};
    /// use tui_textarea::{Scrolling, TextArea};
    ///
    /// let mut area: TextArea = (0..40).map(|row| row.to_string()).collect();
    /// area.go_to((20, 0));
    /// let place = Rect::new(0, 0, 10, 8);
    /// (&area).render(place, &mut Buffer::empty(place));
    /// area.scroll(Scrolling::HalfPageUp);
    /// assert_eq!(area.cursor(), (16, 0));
    /// ```
    HalfPageUp,
}

impl From<(i16, i16)> for Scrolling {
    fn from((rows, cols): (i16, i16)) -> Scrolling {
        Scrolling::Delta { rows, cols }
    }
}

/// How lines are wrapped into visual rows.
#[derive(Clone, Copy, Debug, Default, PartialEq, Eq)]
#[cfg_attr(feature = "serde", derive(Serialize, Deserialize))]
pub enum WrapMode {
    /// One row per line.
    #[default]
    None,
    /// At the ends of words.
    Word,
    /// At the ends of grapheme clusters.
    Glyph,
    /// At the ends of words, and inside a word that is too long for a row.
    WordOrGlyph,
}

/// How the cell at the cursor is drawn.
#[non_exhaustive]
#[derive(Clone, Copy, Debug, Default, PartialEq, Eq)]
pub enum CursorRenderMode {
    /// In the cursor's style.
    #[default]
    Cell,
    /// As any other, for the terminal's own cursor.
    Hidden,
}

/// What the cursor goes over as a whole, beside atomic ranges.
#[non_exhaustive]
#[derive(Clone, Copy, Debug, Default, PartialEq, Eq)]
pub enum CursorUnit {
    /// A character, as `char` is one.
    #[default]
    Character,
    /// An extended grapheme cluster, such as a letter with its accents, or a flag.
    Cluster,
}

/// Characters of a line that are edited as a whole: from `start_col` up to, but not including,
/// `end_col`. Row and columns count from 0, columns in characters.
#[derive(Clone, Copy, Debug, PartialEq, Eq)]
#[cfg_attr(feature = "serde", derive(Serialize, Deserialize))]
pub struct AtomicRange {
    /// The line's row.
    pub row: usize,
    /// The column of the first character.
    pub start_col: usize,
    /// The column after the last character.
    pub end_col: usize,
}

/// The end to which a cursor strictly inside an atomic range moves.
#[derive(Clone, Copy, Debug, PartialEq, Eq)]
#[cfg_attr(feature = "serde", derive(Serialize, Deserialize))]
pub enum AtomicCursorBias {
    /// To the range's start.
    Backward,
    /// To the range's end.
    Forward,
}

/// The side of the cursor on which an atomic range is looked for.
#[derive(Clone, Copy, Debug, PartialEq, Eq)]
#[cfg_attr(feature = "serde", derive(Serialize, Deserialize))]
pub enum AtomicDeleteDirection {
    /// A range that starts before the cursor and ends at or after it.
    Backward,
    /// A range that starts at or before the cursor and ends after it.
    Forward,
}

/// Why an atomic range is rejected.
#[derive(Clone, Copy, Debug, PartialEq, Eq)]
#[cfg_attr(feature = "serde", derive(Serialize, Deserialize))]
pub enum AtomicRangeRejectReason {
    /// It ends where it starts.
    Empty,
    /// The text has no such row.
    RowOutOfBounds,
    /// It starts after its end, or ends past its line's end.
    ColumnOutOfBounds,
    /// It starts before the end of the last valid range of its row.
    OverlapsPrevious,
}

impl fmt::Display for AtomicRangeRejectReason {
    fn fmt(&self, f: &mut fmt::Formatter) -> fmt::Result {
        f.write_str(match self {
            AtomicRangeRejectReason::Empty => "it is empty",
            AtomicRangeRejectReason::RowOutOfBounds => "the text has no such row",
            AtomicRangeRejectReason::ColumnOutOfBounds => "the row has no such columns",
            AtomicRangeRejectReason::OverlapsPrevious => "it overlaps the range before it",
        })
    }
}

/// A rejected atomic range, and why it is rejected.
#[derive(Clone, Copy, Debug, PartialEq, Eq)]
#[cfg_attr(feature = "serde", derive(Serialize, Deserialize))]
pub struct RejectedAtomicRange {
    /// The range as it was passed in.
    pub range: AtomicRange,
    /// Why it is rejected.
    pub reason: AtomicRangeRejectReason,
}

/// The rejected ranges of a list, ordered by row and start.
#[derive(Clone, Debug, PartialEq, Eq)]
#[cfg_attr(feature = "serde", derive(Serialize, Deserialize))]
pub struct AtomicRangeError {
    /// The rejected ranges, at least one.
    pub rejected: Vec<RejectedAtomicRange>,
}

impl fmt::Display for AtomicRangeError {
    fn fmt(&self, f: &mut fmt::Formatter) -> fmt::Result {
        f.write_str("rejected atomic ranges")?;
        for (index, RejectedAtomicRange { range, reason }) in self.rejected.iter().enumerate() {
            let separator = if index == 0 { ":" } else { ";" };
            write!(f, "{separator} row {}, columns ", range.row)?;
            write!(f, "{}..{} ({reason})", range.start_col, range.end_col)?;
        }
        Ok(())
    }
}

impl Error for AtomicRangeError {}

/// Measured heights, in screen rows.
#[derive(Clone, Copy, Debug, PartialEq, Eq)]
pub struct TextAreaMeasure {
    /// The rows of the text, or of the placeholder if that is drawn.
    pub content_rows: u16,
    /// The height of the whole area that shows the content, from `min_rows` to `max_rows`.
    pub preferred_rows: u16,
    /// The least height: the one that is set, or the block's rows and one more if that is greater.
    pub min_rows: u16,
    /// The greatest height: the one that is set, or the least if that is greater.
    pub max_rows: u16,
}

/// Memory ran out.
#[derive(Clone, Copy, Debug, PartialEq, Eq)]
pub struct OutOfMemory;

impl fmt::Display for OutOfMemory {
    fn fmt(&self, f: &mut fmt::Formatter) -> fmt::Result {
        f.write_str("out of memory")
    }
}

impl Error for OutOfMemory {}

/// A search pattern: its text, in the syntax of `regex`.
#[derive(Clone, Debug, PartialEq, Eq)]
pub struct Pattern(pub(crate) String);

impl Pattern {
    /// Returns the text of the pattern.
    pub fn as_str(&self) -> &str {
        &self.0
    }
}

impl Deref for Pattern {
    type Target = str;

    fn deref(&self) -> &str {
        &self.0
    }
}

impl PartialEq<str> for Pattern {
    fn eq(&self, text: &str) -> bool {
        self.0 == text
    }
}

impl PartialEq<&str> for Pattern {
    fn eq(&self, text: &&str) -> bool {
        self.0 == *text
    }
}

impl fmt::Display for Pattern {
    fn fmt(&self, f: &mut fmt::Formatter) -> fmt::Result {
        f.write_str(&self.0)
    }
}

/// Why a search pattern was not set.
#[derive(Clone, Debug, PartialEq, Eq)]
pub enum SearchError {
    /// Out of memory for the pattern.
    Memory(OutOfMemory),
    /// The pattern is rejected: why, in the words of `regex`.
    Pattern(String),
}

impl fmt::Display for SearchError {
    fn fmt(&self, f: &mut fmt::Formatter) -> fmt::Result {
        match self {
            SearchError::Memory(error) => error.fmt(f),
            SearchError::Pattern(why) => f.write_str(why),
        }
    }
}

impl Error for SearchError {}

impl From<AtomicRange> for sys::Range {
    fn from(range: AtomicRange) -> sys::Range {
        sys::Range {
            row: range.row,
            start_col: range.start_col,
            end_col: range.end_col,
        }
    }
}

impl From<sys::Range> for AtomicRange {
    fn from(range: sys::Range) -> AtomicRange {
        AtomicRange {
            row: range.row,
            start_col: range.start_col,
            end_col: range.end_col,
        }
    }
}

impl From<sys::Rejected> for RejectedAtomicRange {
    fn from(rejected: sys::Rejected) -> RejectedAtomicRange {
        RejectedAtomicRange {
            range: rejected.range.into(),
            reason: match rejected.reason {
                sys::REASON_EMPTY => AtomicRangeRejectReason::Empty,
                sys::REASON_ROW_OUT_OF_BOUNDS => AtomicRangeRejectReason::RowOutOfBounds,
                sys::REASON_COLUMN_OUT_OF_BOUNDS => AtomicRangeRejectReason::ColumnOutOfBounds,
                _ => AtomicRangeRejectReason::OverlapsPrevious,
            },
        }
    }
}
