//! The indent, wrapping, line numbers, alignment and measuring.

use super::TextArea;
use crate::data::{OutOfMemory, TextAreaMeasure, WrapMode};
use crate::handle::must;
use crate::ratatui::BLANK;
use crate::ratatui::layout::Alignment;
use crate::ratatui::style::Style;
use crate::sys;

impl TextArea<'_> {
    /// Returns a tab at a line's start: a tab character, or a space for each column of its length.
    ///
    /// ```
    /// use tui_textarea::TextArea;
    ///
    /// let mut area = TextArea::default();
    /// assert_eq!(area.indent(), "    ");
    /// area.set_hard_tab_indent(true);
    /// assert_eq!(area.indent(), "\t");
    /// ```
    pub fn indent(&self) -> &'static str {
        const SPACES: &str = match std::str::from_utf8(&[b' '; 255]) {
            Ok(spaces) => spaces,
            Err(_) => unreachable!(),
        };
        if self.hard_tab_indent() {
            "\t"
        } else {
            &SPACES[..usize::from(self.tab_length())]
        }
    }

    /// Sets how lines are wrapped.
    ///
    /// ```
    /// use tui_textarea::{TextArea, WrapMode};
    ///
    /// let mut area = TextArea::from(["one two three"]);
    /// area.set_wrap_mode(WrapMode::Word);
    /// assert_eq!(area.measure(6).content_rows, 3);
    /// ```
    pub fn set_wrap_mode(&mut self, mode: WrapMode) {
        must(self.try_set_wrap_mode(mode));
    }

    /// As `set_wrap_mode`, but returns that memory ran out.
    pub fn try_set_wrap_mode(&mut self, mode: WrapMode) -> Result<(), OutOfMemory> {
        let number = match mode {
            WrapMode::None => sys::WRAP_NONE,
            WrapMode::Word => sys::WRAP_WORD,
            WrapMode::Glyph => sys::WRAP_GLYPH,
            WrapMode::WordOrGlyph => sys::WRAP_WORD_OR_GLYPH,
        };
        self.core
            .on(|h| unsafe { sys::ta_set_wrap_mode(h, number) })?;
        Ok(())
    }

    /// Returns how lines are wrapped.
    pub fn wrap_mode(&self) -> WrapMode {
        let mut number = 0;
        self.core
            .is(|h| unsafe { sys::ta_wrap_mode(h, &mut number) });
        match number {
            sys::WRAP_WORD => WrapMode::Word,
            sys::WRAP_GLYPH => WrapMode::Glyph,
            sys::WRAP_WORD_OR_GLYPH => WrapMode::WordOrGlyph,
            _ => WrapMode::None,
        }
    }

    /// Shows line numbers, counted from 1, in this style.
    ///
    /// ```
    /// use tui_textarea::ratatui::style::{Color, Style};
    /// use tui_textarea::TextArea;
    ///
    /// let mut area = TextArea::default();
    /// area.set_line_number_style(Style::new().fg(Color::DarkGray));
    /// assert!(area.line_number_style().is_some());
    /// ```
    pub fn set_line_number_style(&mut self, style: impl Into<Style>) {
        must(self.try_set_line_number_style(style));
    }

    /// As `set_line_number_style`, but returns that memory ran out.
    pub fn try_set_line_number_style(
        &mut self,
        style: impl Into<Style>,
    ) -> Result<(), OutOfMemory> {
        let style = sys::Style::from(style.into());
        self.core
            .on(|h| unsafe { sys::ta_set_line_number_style(h, &style) })?;
        Ok(())
    }

    /// Returns the style of the line numbers, or `None` if they are hidden.
    pub fn line_number_style(&self) -> Option<Style> {
        let mut style = BLANK;
        let is_shown = self
            .core
            .is(|h| unsafe { sys::ta_line_number_style(h, &mut style) });
        is_shown.then_some(style.into())
    }

    /// Sets the alignment of visual rows. In the middle and at the right it also hides the line
    /// numbers.
    ///
    /// ```
    /// use tui_textarea::ratatui::layout::Alignment;
    /// use tui_textarea::TextArea;
    ///
    /// let mut area = TextArea::default();
    /// area.set_alignment(Alignment::Center);
    /// assert_eq!(area.alignment(), Alignment::Center);
    /// ```
    pub fn set_alignment(&mut self, alignment: impl Into<Alignment>) {
        must(self.try_set_alignment(alignment));
    }

    /// As `set_alignment`, but returns that memory ran out.
    pub fn try_set_alignment(
        &mut self,
        alignment: impl Into<Alignment>,
    ) -> Result<(), OutOfMemory> {
        let number = match alignment.into() {
            Alignment::Left => sys::ALIGNMENT_LEFT,
            Alignment::Center => sys::ALIGNMENT_CENTER,
            Alignment::Right => sys::ALIGNMENT_RIGHT,
        };
        self.core
            .on(|h| unsafe { sys::ta_set_alignment(h, number) })?;
        Ok(())
    }

    /// Returns the alignment of visual rows.
    ///
    /// ```
    /// use tui_textarea::ratatui::layout::Alignment;
    /// use tui_textarea::TextArea;
    ///
    /// assert_eq!(TextArea::default().alignment(), Alignment::Left);
    /// ```
    pub fn alignment(&self) -> Alignment {
        let mut number = 0;
        self.core
            .is(|h| unsafe { sys::ta_alignment(h, &mut number) });
        match number {
            sys::ALIGNMENT_CENTER => Alignment::Center,
            sys::ALIGNMENT_RIGHT => Alignment::Right,
            _ => Alignment::Left,
        }
    }

    /// Returns the height that an area of this width, in columns, needs for the block and all visual
    /// rows of the text, or for the placeholder if that is shown.
    ///
    /// ```
    /// use tui_textarea::ratatui::widgets::Block;
    /// use tui_textarea::TextArea;
    ///
    /// let mut area = TextArea::from(["one", "two"]);
    /// area.set_block(Block::bordered());
    /// assert_eq!(area.measure(20).preferred_rows, 4);
    /// ```
    pub fn measure(&mut self, width_cols: u16) -> TextAreaMeasure {
        must(self.try_measure(width_cols))
    }

    /// As `measure`, but returns that memory ran out.
    pub fn try_measure(&mut self, width_cols: u16) -> Result<TextAreaMeasure, OutOfMemory> {
        let mut found = sys::Measure {
            content_rows: 0,
            preferred_rows: 0,
            min_rows: 0,
            max_rows: 0,
        };
        self.core
            .on(|h| unsafe { sys::ta_measure(h, width_cols, &mut found) })?;
        Ok(TextAreaMeasure {
            content_rows: found.content_rows,
            preferred_rows: found.preferred_rows,
            min_rows: found.min_rows,
            max_rows: found.max_rows,
        })
    }
}
