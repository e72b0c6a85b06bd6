//! The text area.

mod block;
mod calls;
mod changes;
mod drawing;
mod edits;
mod looks;
mod settings;
mod texts;

use crate::data::{OutOfMemory, Pattern};
use crate::handle::{Handle, must};
use crate::ratatui::layout::Rect;
use crate::ratatui::text::Text;
use crate::ratatui::widgets::Block;
use crate::sys;
use std::cell::{Cell, OnceCell};
use std::fmt;
use std::marker::PhantomData;
use std::time::{Duration, Instant};

/// A multi-line text editor: lines with a cursor, a selection, a yanked text and an undo history;
/// settings; a search pattern; a block, a placeholder and height limits around it; and its styles
/// and viewport.
///
/// Rows and columns count from 0, columns in characters.
///
/// ```
/// use tui_textarea::ratatui::{buffer::Buffer, layout::Rect, widgets::Widget};
/// use tui_textarea::{Input, Key, TextArea};
///
/// let mut area = TextArea::default();
/// area.input(Key::Char('h'));
/// area.insert_str("ello");
/// let mut buffer = Buffer::empty(Rect::new(0, 0, 10, 1));
/// (&area).render(buffer.area, &mut buffer);
/// assert_eq!(buffer[(1, 0)].symbol(), "e");
/// area.input(Input::from('u').ctrl()); // undo
/// assert_eq!(area.into_lines(), ["h"]);
/// ```
///
/// A text area stays on the thread that made it: it is neither `Send` nor `Sync`. The core shares a
/// compiled pattern by an `Rc`, and that threads may share a pattern is not proved.
///
/// ```compile_fail
/// let area = tui_textarea::TextArea::default();
/// std::thread::spawn(move || drop(area));
/// ```
pub struct TextArea<'a> {
    pub(crate) core: Handle,
    /// What is returned by reference is copied from the core when it is first asked for.
    lines: OnceCell<Vec<String>>,
    block: OnceCell<Option<Block<'static>>>,
    /// The block that is set, if another library draws it.
    #[cfg(feature = "tui")]
    foreign: Option<Block<'a>>,
    placeholder: OnceCell<Text<'static>>,
    pattern: OnceCell<Option<Pattern>>,
    ranges: OnceCell<Vec<crate::AtomicRange>>,
    clock: Clock,
    /// Whether typed edits join into one, as in the core.
    coalesces: bool,
    /// The rectangle of the core's screen.
    screen: Cell<Rect>,
    borrows: PhantomData<Block<'a>>,
}

/// The time of edits: since the text area was made, or as it is set.
#[derive(Clone, Copy)]
enum Clock {
    Since(Instant),
    Set,
}

impl<'a> TextArea<'a> {
    /// Returns a text area with these lines and the cursor at the start. An empty list becomes one
    /// empty line. A line feed inside a line stays a character of that line.
    ///
    /// ```
    /// use tui_textarea::TextArea;
    ///
    /// let area = TextArea::new(vec!["one".to_string(), "two".to_string()]);
    /// assert_eq!(area.lines(), ["one", "two"]);
    /// assert_eq!(TextArea::new(vec![]).lines(), [""]);
    /// ```
    pub fn new(lines: Vec<String>) -> TextArea<'a> {
        must(TextArea::try_new(lines))
    }

    /// As [`TextArea::new`], but returns that memory ran out.
    pub fn try_new(lines: Vec<String>) -> Result<TextArea<'a>, OutOfMemory> {
        let mut area = TextArea::of(Handle::new()?, Clock::Since(Instant::now()));
        if !lines.is_empty() {
            area.try_set_lines(lines, (0, 0))?;
        }
        Ok(area)
    }

    /// Returns a text area with the text of a file and the cursor at the start. Each line feed ends a
    /// line, and one at the text's end begins no line; a carriage return directly before a line feed
    /// is dropped.
    ///
    /// ```
    /// use tui_textarea::TextArea;
    ///
    /// let area = TextArea::from_text("one\r\ntwo\n");
    /// assert_eq!(area.lines(), ["one", "two"]);
    /// ```
    pub fn from_text(text: &str) -> TextArea<'a> {
        must(TextArea::try_from_text(text))
    }

    /// As [`TextArea::from_text`], but returns that memory ran out.
    pub fn try_from_text(text: &str) -> Result<TextArea<'a>, OutOfMemory> {
        let core = Handle::with_text(text)?;
        Ok(TextArea::of(core, Clock::Since(Instant::now())))
    }

    fn of(core: Handle, clock: Clock) -> TextArea<'a> {
        TextArea {
            core,
            lines: OnceCell::new(),
            block: OnceCell::new(),
            #[cfg(feature = "tui")]
            foreign: None,
            placeholder: OnceCell::new(),
            pattern: OnceCell::new(),
            ranges: OnceCell::new(),
            clock,
            coalesces: false,
            screen: Cell::new(Rect::ZERO),
            borrows: PhantomData,
        }
    }

    /// As `clone`, but returns that memory ran out.
    pub fn try_clone(&self) -> Result<TextArea<'a>, OutOfMemory> {
        let mut copy = TextArea::of(self.core.copy()?, self.clock);
        copy.coalesces = self.coalesces;
        #[cfg(feature = "tui")]
        copy.foreign.clone_from(&self.foreign);
        Ok(copy)
    }

    /// Sets the time of the edits that follow, from any fixed time, instead of a clock's. The pause
    /// between two typed edits decides whether they are undone together.
    ///
    /// ```
    /// use std::time::Duration;
    /// use tui_textarea::TextArea;
    ///
    /// let mut area = TextArea::default();
    /// area.set_undo_coalescing(true);
    /// area.set_now(Duration::from_secs(1));
    /// area.insert_char('a');
    /// area.set_now(Duration::from_secs(9));
    /// area.insert_char('b');
    /// area.undo();
    /// assert_eq!(area.lines(), ["a"]);
    /// ```
    pub fn set_now(&mut self, now: Duration) {
        self.clock = Clock::Set;
        self.tell(now);
    }

    fn tell(&mut self, now: Duration) {
        let nanoseconds = u64::try_from(now.as_nanos()).unwrap_or(u64::MAX);
        self.core.is(|h| unsafe { sys::ta_set_now(h, nanoseconds) });
    }

    /// Makes a call that changes lines and ranges, and returns whether it did something.
    #[inline]
    fn edit(&mut self, call: impl FnOnce(*mut sys::Handle) -> u32) -> Result<bool, OutOfMemory> {
        if let Clock::Since(start) = self.clock
            && self.coalesces
        {
            self.tell(start.elapsed());
        }
        self.lines.take();
        self.ranges.take();
        self.core.on(call)
    }
}

impl Default for TextArea<'_> {
    /// Returns a text area with one empty line.
    ///
    /// ```
    /// use tui_textarea::TextArea;
    ///
    /// assert_eq!(TextArea::default().lines(), [""]);
    /// ```
    fn default() -> Self {
        TextArea::new(Vec::new())
    }
}

impl<I> From<I> for TextArea<'_>
where
    I: IntoIterator,
    I::Item: Into<String>,
{
    /// Returns a text area with these lines.
    ///
    /// ```
    /// use tui_textarea::TextArea;
    ///
    /// assert_eq!(TextArea::from(["one", "two"]).lines(), ["one", "two"]);
    /// assert_eq!(TextArea::from("one\ntwo".lines()).lines(), ["one", "two"]);
    /// ```
    fn from(lines: I) -> Self {
        TextArea::new(lines.into_iter().map(Into::into).collect())
    }
}

impl<S: Into<String>> FromIterator<S> for TextArea<'_> {
    /// Returns a text area with these lines.
    ///
    /// ```
    /// use tui_textarea::TextArea;
    ///
    /// let area: TextArea = (1..4).map(|number| number.to_string()).collect();
    /// assert_eq!(area.lines(), ["1", "2", "3"]);
    /// ```
    fn from_iter<I: IntoIterator<Item = S>>(lines: I) -> Self {
        lines.into()
    }
}

impl Clone for TextArea<'_> {
    fn clone(&self) -> Self {
        must(self.try_clone())
    }
}

impl fmt::Debug for TextArea<'_> {
    fn fmt(&self, f: &mut fmt::Formatter) -> fmt::Result {
        f.debug_struct("TextArea")
            .field("lines", &self.lines())
            .field("cursor", &self.cursor())
            .field("selection_range", &self.selection_range())
            .finish_non_exhaustive()
    }
}
