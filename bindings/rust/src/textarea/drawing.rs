//! Drawing.

use super::TextArea;
use crate::data::OutOfMemory;
use crate::handle::must;
use crate::ratatui::buffer::Buffer;
use crate::ratatui::layout::{Position, Rect};
use crate::ratatui::style::Style;
use crate::ratatui::widgets::Widget;
use crate::ratatui::{BLANK, Symbol};
use crate::sys;

impl TextArea<'_> {
    /// Returns what draws the text area; `&area` is the same.
    ///
    /// ```
    /// # #![allow(deprecated)]
    /// use tui_textarea::TextArea;
    /// use tui_textarea::ratatui::{buffer::Buffer, layout::Rect, widgets::Widget};
    ///
    /// let area = TextArea::from(["one"]);
    /// let mut buffer = Buffer::empty(Rect::new(0, 0, 10, 1));
    /// area.widget().render(buffer.area, &mut buffer);
    /// assert_eq!(buffer[(1, 0)].symbol(), "n");
    /// ```
    #[deprecated(note = "a reference to a text area is a widget itself")]
    pub fn widget(&self) -> impl Widget + '_ {
        self
    }

    /// Draws the text area into an area of a buffer, or returns that memory ran out; then cells of
    /// the area may have been drawn.
    pub fn try_render(&self, area: Rect, buf: &mut Buffer) -> Result<(), OutOfMemory> {
        self.draw_foreign_block(area, buf);
        let part = area.intersection(buf.area);
        self.clear_screen(part)?;
        self.copy_to_screen(part, buf)?;
        self.draw(area)?;
        self.screen_cells(part, |x, y, cell, bytes| {
            buf[(x, y)].set(cell, self.symbol(x, y, bytes))
        });
        Ok(())
    }

    /// Draws the text area into an area that the library at hand has, whichever it is: makes a call
    /// `(x, y, symbol, style)` for each cell of the area, row after row. The cell after a wide symbol
    /// is blank. The style has the cell's colours and modifiers; a colour is `None` where it is the
    /// terminal's own.
    ///
    /// So a widget of ratatui is made, of each version from 0.28 on:
    ///
    /// ```
    /// use ratatui::style::{Modifier, Style};
    /// use ratatui::{buffer::Buffer, layout::Rect, widgets::Widget};
    /// use tui_textarea::{TextArea, ratatui::style::Color};
    ///
    /// struct Shown<'a>(&'a TextArea<'a>);
    ///
    /// impl Widget for Shown<'_> {
    ///     fn render(self, area: Rect, buf: &mut Buffer) {
    ///         let color = |c: Option<Color>| c.and_then(|c| c.to_string().parse().ok());
    ///         let place = (area.x, area.y, area.width, area.height);
    ///         self.0.render_with(place, |x, y, symbol, style| {
    ///             let modifier = Modifier::from_bits_truncate(style.add_modifier.bits());
    ///             let mut shown = Style::new().add_modifier(modifier);
    ///             (shown.fg, shown.bg) = (color(style.fg), color(style.bg));
    ///             if let Some(cell) = buf.cell_mut((x, y)) {
    ///                 cell.set_symbol(symbol).set_style(shown);
    ///             }
    ///         });
    ///     }
    /// }
    /// # let mut area = TextArea::from(["one"]);
    /// # area.set_cursor_style(tui_textarea::ratatui::style::Style::new().fg(Color::Rgb(1, 2, 3)));
    /// # let mut buf = Buffer::empty(Rect::new(0, 0, 5, 1));
    /// # Shown(&area).render(buf.area, &mut buf);
    /// # let mut own = Buffer::empty(buf.area);
    /// # Widget::render(&area, own.area, &mut own);
    /// # assert_eq!(buf, own);
    /// # assert_eq!(buf[(0, 0)].fg, Color::Rgb(1, 2, 3));
    /// ```
    pub fn render_with(&self, area: impl Into<Rect>, call: impl FnMut(u16, u16, &str, Style)) {
        must(self.try_render_with(area, call));
    }

    /// As `render_with`, but returns that memory ran out; then it makes no call.
    pub fn try_render_with(
        &self,
        area: impl Into<Rect>,
        mut call: impl FnMut(u16, u16, &str, Style),
    ) -> Result<(), OutOfMemory> {
        let area = area.into();
        self.draw_on_screen(area, area)?;
        self.screen_cells(area, |x, y, cell, bytes| match bytes {
            Some(bytes) => call(x, y, text_of(bytes), cell.into()),
            None => call(x, y, &self.long_symbol(x, y), cell.into()),
        });
        Ok(())
    }

    /// Draws the text area into an area, of which the core's screen gets a part and no other cells.
    pub(crate) fn draw_on_screen(&self, area: Rect, part: Rect) -> Result<(), OutOfMemory> {
        self.clear_screen(part)?;
        if self.has_foreign_block() {
            let mut below = Buffer::empty(part);
            self.draw_foreign_block(area, &mut below);
            self.copy_to_screen(part, &below)?;
        }
        self.draw(area)
    }

    /// Gives the core's screen the cells of this rectangle, each fresh. Takes memory only if it had
    /// others.
    fn clear_screen(&self, part: Rect) -> Result<(), OutOfMemory> {
        if self.screen.get() == part {
            self.core.is(|h| unsafe { sys::ta_screen_clear(h) });
            return Ok(());
        }
        self.core
            .on(|h| unsafe { sys::ta_screen_reset(h, &part.into()) })?;
        self.screen.set(part);
        Ok(())
    }

    /// Copies cells of a buffer to the core's screen, whose cells are fresh.
    fn copy_to_screen(&self, part: Rect, buf: &Buffer) -> Result<(), OutOfMemory> {
        for y in part.top()..part.bottom() {
            for (x, cell) in (part.left()..part.right()).zip(buf.row(part, y)) {
                if !cell.is_blank() {
                    self.core.put(x, y, cell)?;
                }
            }
        }
        Ok(())
    }

    /// Draws the text area over the cells of the core's screen.
    fn draw(&self, area: Rect) -> Result<(), OutOfMemory> {
        self.core
            .on(|h| unsafe { sys::ta_render(h, &area.into()) })?;
        Ok(())
    }

    /// Makes a call for each cell of the core's screen, which has this rectangle, with the bytes of
    /// its text if they have room in a `sys::Cell`.
    fn screen_cells(&self, part: Rect, mut call: impl FnMut(u16, u16, &sys::Cell, Option<&[u8]>)) {
        let cells = self.core_cells(part);
        let mut cells = cells.iter();
        for y in part.top()..part.bottom() {
            for (x, cell) in (part.left()..part.right()).zip(&mut cells) {
                call(x, y, cell, cell.symbol.get(..usize::from(cell.bytes)));
            }
        }
    }

    fn core_cells(&self, part: Rect) -> Vec<sys::Cell> {
        let blank = sys::Cell {
            fg: BLANK.fg,
            bg: BLANK.bg,
            modifier: 0,
            bytes: 0,
            symbol: [0; 24],
        };
        let mut cells = vec![blank; part.area() as usize];
        let mut needed = 0;
        self.core.is(|h| unsafe {
            sys::ta_screen_cells(h, cells.as_mut_ptr(), cells.len(), &mut needed)
        });
        cells
    }

    /// Returns the text of a cell of the core's screen, whose bytes are these if they are given.
    fn symbol(&self, x: u16, y: u16, bytes: Option<&[u8]>) -> Symbol {
        let short = bytes.and_then(Symbol::short);
        short.unwrap_or_else(|| Symbol::from(&*self.long_symbol(x, y)))
    }

    /// Returns the text of a cell of the core's screen, also one that has no room in a `sys::Cell`.
    fn long_symbol(&self, x: u16, y: u16) -> String {
        let text = self.core.text(|h, out, room, needed| unsafe {
            sys::ta_screen_symbol(h, x, y, out, room, needed)
        });
        must(text).unwrap_or_default()
    }

    #[cfg(feature = "tui")]
    fn has_foreign_block(&self) -> bool {
        self.foreign.is_some()
    }

    #[cfg(not(feature = "tui"))]
    fn has_foreign_block(&self) -> bool {
        false
    }

    /// Draws the block that another library draws, if it is one.
    #[cfg(feature = "tui")]
    fn draw_foreign_block(&self, area: Rect, buf: &mut Buffer) {
        if let Some(block) = self.foreign.as_ref().and_then(|b| b.foreign.as_ref()) {
            crate::tui::draw_block(&block.0, area, buf);
        }
    }

    #[cfg(not(feature = "tui"))]
    fn draw_foreign_block(&self, _: Rect, _: &mut Buffer) {}

    /// Returns the cursor's cell at the last drawing, for the terminal's own cursor; `None` if the
    /// cursor was outside the viewport, and before the first drawing.
    ///
    /// ```
    /// use tui_textarea::ratatui::{buffer::Buffer, layout::Rect, widgets::Widget};
    /// use tui_textarea::{CursorRenderMode, TextArea};
    ///
    /// let mut area = TextArea::from(["one"]);
    /// area.set_cursor_render_mode(CursorRenderMode::Hidden); // for the terminal's own cursor
    /// let place = Rect::new(4, 2, 10, 1);
    /// (&area).render(place, &mut Buffer::empty(place));
    /// assert_eq!(area.rendered_cursor_position(), Some((4, 2).into()));
    /// ```
    pub fn rendered_cursor_position(&self) -> Option<Position> {
        let (mut x, mut y) = (0, 0);
        let is_shown = self
            .core
            .is(|h| unsafe { sys::ta_rendered_cursor_position(h, &mut x, &mut y) });
        is_shown.then_some(Position { x, y })
    }
}

fn text_of(bytes: &[u8]) -> &str {
    std::str::from_utf8(bytes).expect("texts of the core are UTF-8")
}

impl Widget for &TextArea<'_> {
    fn render(self, area: Rect, buf: &mut Buffer) {
        must(self.try_render(area, buf));
    }
}
