//! The mask, the cursor's cell, and custom highlights.

use super::TextArea;
use crate::data::{CursorRenderMode, CursorUnit, OutOfMemory};
use crate::handle::must;
use crate::ratatui::style::Style;
use crate::sys;

impl TextArea<'_> {
    /// Shows this character instead of each character of the text.
    ///
    /// ```
    /// use tui_textarea::TextArea;
    ///
    /// let mut area = TextArea::from(["secret"]);
    /// area.set_mask_char('•'); // all that is visible is ••••••
    /// assert_eq!(area.lines(), ["secret"]);
    /// ```
    pub fn set_mask_char(&mut self, mask: char) {
        self.core
            .is(|h| unsafe { sys::ta_set_mask_char(h, mask as u32) });
    }

    /// Returns the character that is shown instead of each character of the text, if one is set.
    ///
    /// ```
    /// use tui_textarea::TextArea;
    ///
    /// let mut area = TextArea::default();
    /// assert_eq!(area.mask_char(), None);
    /// area.set_mask_char('•');
    /// assert_eq!(area.mask_char(), Some('•'));
    /// ```
    pub fn mask_char(&self) -> Option<char> {
        let mut mask = 0;
        let is_set = self.core.is(|h| unsafe { sys::ta_mask_char(h, &mut mask) });
        if is_set { char::from_u32(mask) } else { None }
    }

    /// Sets the greatest number of characters of the text, a line break counted as one, or none for
    /// `None`, as at first. Then what is typed does nothing if it doesn't fit, and an inserted text
    /// is cut at the end of the last of its grapheme clusters that fits. `duplicate_line`,
    /// `indent_lines` and `replace_all` do nothing unless all that they insert fits. Undo, redo and
    /// `set_lines` are never cut.
    ///
    /// ```
    /// use tui_textarea::TextArea;
    ///
    /// let mut area = TextArea::from(["one"]);
    /// area.set_max_chars(Some(5));
    /// area.insert_str("abc");
    /// assert_eq!(area.lines(), ["abone"]);
    /// assert_eq!(area.max_chars(), Some(5));
    /// ```
    pub fn set_max_chars(&mut self, maximum: Option<usize>) {
        self.core.is(|h| unsafe {
            match maximum {
                Some(maximum) => sys::ta_set_max_chars(h, maximum),
                None => sys::ta_clear_max_chars(h),
            }
        });
    }

    /// Returns the greatest number of characters of the text; `None` for any number.
    pub fn max_chars(&self) -> Option<usize> {
        let mut maximum = 0;
        let is_set = self
            .core
            .is(|h| unsafe { sys::ta_max_chars(h, &mut maximum) });
        is_set.then_some(maximum)
    }

    /// Sets what the cursor goes over as a whole, beside atomic ranges: a character, as at first, or
    /// an extended grapheme cluster, such as a letter with its accents. With clusters no call leaves
    /// the cursor or the selection's beginning inside one, this call included. What is removed is
    /// whole clusters of the text before it, but for `delete_str`; what stays may form others, as
    /// flags do. A match at an end of which no cluster begins or ends isn't found, counted or
    /// replaced.
    ///
    /// ```
    /// use tui_textarea::{CursorMove, CursorUnit, TextArea};
    ///
    /// let mut area = TextArea::from(["e\u{301}x"]); // an e with an accent, which is a character too
    /// area.set_cursor_unit(CursorUnit::Cluster);
    /// area.move_cursor(CursorMove::Forward);
    /// assert_eq!(area.cursor(), (0, 2));
    /// area.delete_char();
    /// assert_eq!(area.lines(), ["x"]);
    /// ```
    pub fn set_cursor_unit(&mut self, unit: CursorUnit) {
        let number = match unit {
            CursorUnit::Character => sys::CURSOR_UNIT_CHARACTER,
            CursorUnit::Cluster => sys::CURSOR_UNIT_CLUSTER,
        };
        self.core
            .is(|h| unsafe { sys::ta_set_cursor_unit(h, number) });
    }

    /// Returns what the cursor goes over as a whole.
    pub fn cursor_unit(&self) -> CursorUnit {
        let mut number = 0;
        self.core
            .is(|h| unsafe { sys::ta_cursor_unit(h, &mut number) });
        match number {
            sys::CURSOR_UNIT_CLUSTER => CursorUnit::Cluster,
            _ => CursorUnit::Character,
        }
    }

    /// Sets whether the cell at the cursor has its own style, or is drawn as any other because the
    /// terminal's own cursor is there.
    pub fn set_cursor_render_mode(&mut self, mode: CursorRenderMode) {
        let number = match mode {
            CursorRenderMode::Cell => sys::CURSOR_CELL,
            CursorRenderMode::Hidden => sys::CURSOR_HIDDEN,
        };
        self.core
            .is(|h| unsafe { sys::ta_set_cursor_render_mode(h, number) });
    }

    /// Returns how the cell at the cursor is drawn.
    pub fn cursor_render_mode(&self) -> CursorRenderMode {
        let mut number = 0;
        self.core
            .is(|h| unsafe { sys::ta_cursor_render_mode(h, &mut number) });
        match number {
            sys::CURSOR_HIDDEN => CursorRenderMode::Hidden,
            _ => CursorRenderMode::Cell,
        }
    }

    /// Highlights the text between two positions, each a row and a byte offset in it. Where several
    /// highlights begin at one position, the one of the highest priority is visible. The cursor has
    /// priority 30, a match 20, a selection 10.
    ///
    /// ```
    /// use tui_textarea::ratatui::style::{Color, Style};
    /// use tui_textarea::TextArea;
    ///
    /// let mut area = TextArea::from(["one two"]);
    /// area.custom_highlight(((0, 0), (0, 3)), Style::new().fg(Color::Green), 15);
    /// ```
    pub fn custom_highlight(
        &mut self,
        range: ((usize, usize), (usize, usize)),
        style: impl Into<Style>,
        priority: u8,
    ) {
        must(self.try_custom_highlight(range, style, priority));
    }

    /// As `custom_highlight`, but returns that memory ran out.
    pub fn try_custom_highlight(
        &mut self,
        (start, end): ((usize, usize), (usize, usize)),
        style: impl Into<Style>,
        priority: u8,
    ) -> Result<(), OutOfMemory> {
        let style = sys::Style::from(style.into());
        self.core.on(|h| unsafe {
            sys::ta_custom_highlight(h, start.0, start.1, end.0, end.1, &style, priority)
        })?;
        Ok(())
    }
}
