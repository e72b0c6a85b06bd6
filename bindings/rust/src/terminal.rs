//! A terminal without another library: the bytes that it sends as events, and text areas and buffers
//! as the bytes that show them.
//!
//! The program itself reads and writes the bytes, and sets the terminal's modes: raw input, and those
//! of reports that it wants, such as bracketed paste.
//!
//! ```
//! use tui_textarea::TextArea;
//! use tui_textarea::ratatui::layout::Rect;
//! use tui_textarea::terminal::{Event, Terminal};
//!
//! let mut area = TextArea::default();
//! let place = Rect::new(0, 0, 20, 3);
//! let mut terminal = Terminal::new(place);
//! terminal.feed(b"on\x1b[200~e\rtwo\x1b[201~"); // as they are read from the terminal
//! while let Some(event) = terminal.event() {
//!     match event {
//!         Event::Input(input) => _ = area.input(input),
//!         Event::Paste(text) => _ = area.insert_pasted(&text),
//!         _ => {}
//!     }
//! }
//! assert_eq!(area.lines(), ["one", "two"]);
//! let bytes = terminal.paint_text_area(&area, place);
//! assert!(!bytes.is_empty()); // they are written to the terminal
//! assert!(terminal.paint_text_area(&area, place).is_empty());
//! ```

use crate::TextArea;
use crate::data::{CursorRenderMode, OutOfMemory};
use crate::handle::{Handle, must, status, text_of};
use crate::input::{Input, Key};
use crate::ratatui::buffer::Buffer;
use crate::ratatui::layout::{Position, Rect};
use crate::sys;
use std::ptr::null_mut;
use std::time::Duration;

/// A button of a mouse.
#[derive(Clone, Copy, Debug, PartialEq, Eq, Hash)]
pub enum MouseButton {
    /// The left button.
    Left,
    /// The middle one, or the wheel if it is pressed.
    Middle,
    /// The right button.
    Right,
    /// A further one, by its number: 8 is mostly the one for "back", and 9 the one for "forward".
    Other(u8),
}

/// What a mouse did.
#[derive(Clone, Copy, Debug, PartialEq, Eq, Hash)]
pub enum MouseKind {
    /// A button went down.
    Press(MouseButton),
    /// A button went up.
    Release(MouseButton),
    /// The mouse moved to another cell with a button down.
    Drag(MouseButton),
    /// The mouse moved to another cell with no button down.
    Move,
    /// A button went up, and the report doesn't say which.
    ReleaseAny,
    /// A step of the wheel to the left.
    WheelLeft,
    /// A step of the wheel to the right.
    WheelRight,
}

/// A report of a mouse, except of the steps of its wheel up and down, which are inputs.
#[derive(Clone, Copy, Debug, PartialEq, Eq, Hash)]
pub struct Mouse {
    /// What the mouse did.
    pub kind: MouseKind,
    /// The column of the cell that it is at, from 0.
    pub column: u16,
    /// The row of that cell, from 0.
    pub row: u16,
    /// Whether Ctrl was pressed.
    pub ctrl: bool,
    /// Whether Alt was pressed.
    pub alt: bool,
    /// Whether Shift was pressed.
    pub shift: bool,
}

/// An event that a terminal reports.
#[derive(Clone, Debug, PartialEq, Eq, Hash)]
pub enum Event {
    /// A key, or a step of the mouse's wheel up or down.
    Input(Input),
    /// A pasted text. Invalid UTF-8 is U+FFFD.
    Paste(String),
    /// The mouse was pressed, released or moved.
    Mouse(Mouse),
    /// The terminal's size in cells, as the reply to a query or by the terminal itself.
    Size {
        /// The number of its columns.
        columns: u16,
        /// The number of its rows.
        rows: u16,
    },
    /// The position of the terminal's cursor, from 0, as the reply to a query.
    Cursor {
        /// Its column.
        column: u16,
        /// Its row.
        row: u16,
    },
    /// The terminal's window got the focus.
    FocusGained,
    /// The terminal's window lost the focus.
    FocusLost,
    /// A sequence that is none of the above.
    Unknown,
}

/// The colours that a terminal has.
#[derive(Clone, Copy, Debug, PartialEq, Eq, Hash)]
pub enum Colors {
    /// Only its own two.
    None,
    /// Its own two, and the sixteen with names.
    Sixteen,
    /// Those, and the 256 with numbers.
    Indexed,
    /// All of them.
    True,
}

/// The shape of a terminal's cursor.
#[derive(Clone, Copy, Debug, PartialEq, Eq, Hash)]
pub enum CursorShape {
    /// The terminal's own.
    Default,
    /// A block that blinks.
    BlinkingBlock,
    /// A block.
    Block,
    /// A line under the cell that blinks.
    BlinkingUnderline,
    /// A line under the cell.
    Underline,
    /// A line before the cell that blinks.
    BlinkingBar,
    /// A line before the cell.
    Bar,
}

/// Returns the bytes that give a terminal's cursor a shape.
///
/// ```
/// use tui_textarea::terminal::{CursorShape, cursor_shape_bytes};
///
/// assert_eq!(cursor_shape_bytes(CursorShape::Bar), b"\x1b[6 q"); // to be written
/// ```
pub fn cursor_shape_bytes(shape: CursorShape) -> Vec<u8> {
    must(try_cursor_shape_bytes(shape))
}

/// As [`cursor_shape_bytes`], but returns that memory ran out.
pub fn try_cursor_shape_bytes(shape: CursorShape) -> Result<Vec<u8>, OutOfMemory> {
    let number = match shape {
        CursorShape::Default => sys::SHAPE_DEFAULT,
        CursorShape::BlinkingBlock => sys::SHAPE_BLINKING_BLOCK,
        CursorShape::Block => sys::SHAPE_BLOCK,
        CursorShape::BlinkingUnderline => sys::SHAPE_BLINKING_UNDERLINE,
        CursorShape::Underline => sys::SHAPE_UNDERLINE,
        CursorShape::BlinkingBar => sys::SHAPE_BLINKING_BAR,
        CursorShape::Bar => sys::SHAPE_BAR,
    };
    all_bytes(|out, room, needed| unsafe { sys::ta_cursor_shape_bytes(number, out, room, needed) })
}

/// Returns the bytes that give a terminal's window a title, without the title's control characters.
///
/// ```
/// use tui_textarea::terminal::title_bytes;
///
/// assert_eq!(title_bytes("note.txt\n"), b"\x1b]2;note.txt\x1b\\"); // to be written
/// ```
pub fn title_bytes(title: &str) -> Vec<u8> {
    must(try_title_bytes(title))
}

/// As [`title_bytes`], but returns that memory ran out.
pub fn try_title_bytes(title: &str) -> Result<Vec<u8>, OutOfMemory> {
    let (text, length) = (title.as_ptr(), title.len());
    all_bytes(|out, room, needed| unsafe { sys::ta_title_bytes(text, length, out, room, needed) })
}

/// Returns the bytes that a call writes, as many as there is room for, with the number of all. It is
/// made again while there are more of them.
fn all_bytes(
    mut call: impl FnMut(*mut u8, usize, *mut usize) -> u32,
) -> Result<Vec<u8>, OutOfMemory> {
    let (mut bytes, mut needed) = (Vec::new(), 0);
    loop {
        status(call(bytes.as_mut_ptr(), bytes.len(), &mut needed))?;
        let is_whole = needed <= bytes.len();
        bytes.resize(needed, 0);
        if is_whole {
            return Ok(bytes);
        }
    }
}

/// A terminal: a decoder of the bytes that it sends, and a painter of frames on it.
pub struct Terminal {
    core: sys::TerminalHandle,
    /// The area that it shows.
    area: Rect,
    /// A text area to whose screen buffers are copied, and the cells of that screen.
    canvas: Handle,
    copied: Buffer,
}

impl Terminal {
    /// Returns a terminal that shows the cells of an area, of which the first is in its first column
    /// and row. What it shows at first is unknown.
    pub fn new(area: Rect) -> Terminal {
        must(Terminal::try_new(area))
    }

    /// As [`Terminal::new`], but returns that memory ran out.
    pub fn try_new(area: Rect) -> Result<Terminal, OutOfMemory> {
        let core = sys::TerminalHandle {
            stored: sys::HeldTerminal { at: null_mut() },
            full: false,
        };
        let mut terminal = Terminal {
            core,
            area,
            canvas: Handle::new()?,
            copied: Buffer::default(),
        };
        terminal.on(|t| unsafe { sys::ta_terminal_new(t, &area.into()) })?;
        Ok(terminal)
    }

    #[inline]
    fn on(
        &mut self,
        call: impl FnOnce(*mut sys::TerminalHandle) -> u32,
    ) -> Result<bool, OutOfMemory> {
        status(call(&mut self.core))
    }

    /// Decodes the next bytes that the terminal sent, however they are split. [`Terminal::event`]
    /// returns the events.
    pub fn feed(&mut self, bytes: &[u8]) {
        must(self.try_feed(bytes));
    }

    /// As [`Terminal::feed`], but returns that memory ran out; then nothing changed.
    pub fn try_feed(&mut self, bytes: &[u8]) -> Result<(), OutOfMemory> {
        self.on(|t| unsafe { sys::ta_decoder_feed(t, bytes.as_ptr(), bytes.len()) })?;
        Ok(())
    }

    /// Tells that the terminal sent nothing for this pause, since the last byte or the last call of
    /// this. A lone ESC is the key Esc then; after 5 seconds of such pauses nothing stays incomplete.
    pub fn idle(&mut self, pause: Duration) {
        must(self.try_idle(pause));
    }

    /// As [`Terminal::idle`], but returns that memory ran out; then nothing changed.
    pub fn try_idle(&mut self, pause: Duration) -> Result<(), OutOfMemory> {
        let milliseconds = u32::try_from(pause.as_millis()).unwrap_or(u32::MAX);
        self.on(|t| unsafe { sys::ta_decoder_idle(t, milliseconds) })?;
        Ok(())
    }

    /// Takes the oldest event that was not taken yet.
    pub fn event(&mut self) -> Option<Event> {
        let mut event = BLANK;
        let is_there = must(self.on(|t| unsafe { sys::ta_decoder_event(t, &mut event) }));
        is_there.then(|| match event.kind {
            sys::EVENT_INPUT => Event::Input(input_of(&event.input)),
            sys::EVENT_PASTE => Event::Paste(self.pasted()),
            sys::EVENT_MOUSE => Event::Mouse(mouse_of(&event)),
            sys::EVENT_SIZE => Event::Size {
                columns: event.column,
                rows: event.row,
            },
            sys::EVENT_CURSOR => Event::Cursor {
                column: event.column,
                row: event.row,
            },
            sys::EVENT_FOCUS_GAINED => Event::FocusGained,
            sys::EVENT_FOCUS_LOST => Event::FocusLost,
            _ => Event::Unknown,
        })
    }

    fn pasted(&mut self) -> String {
        let text = text_of(|out, room, needed| {
            self.on(|t| unsafe { sys::ta_decoder_pasted(t, out, room, needed) })
        });
        must(text).unwrap_or_default()
    }

    /// Tells that a query was sent whose reply is a size (`CSI 18 t`) or the cursor's position
    /// (`CSI ? 6 n`). Its reply is then no part of a pasted text in which it is sent.
    pub fn asked(&mut self) {
        must(self.on(|t| unsafe { sys::ta_decoder_asked(t) }));
    }

    /// Sets whether the terminal reports a new size by itself (mode 2048).
    pub fn set_resizes(&mut self, resizes: bool) {
        must(self.on(|t| unsafe { sys::ta_decoder_set_resizes(t, resizes) }));
    }

    /// Sets whether the terminal is the Linux console, on which ESC and a tab are Tab with Shift.
    pub fn set_console(&mut self, console: bool) {
        must(self.on(|t| unsafe { sys::ta_decoder_set_console(t, console) }));
    }

    /// Returns the bytes that make the terminal show a buffer and a caret, after the frame before;
    /// none if it shows them already. A cell that the buffer doesn't have is a blank, and a caret
    /// outside of the area is hidden. So a frame may have several text areas, and other widgets:
    ///
    /// ```
    /// use tui_textarea::TextArea;
    /// use tui_textarea::ratatui::{buffer::Buffer, layout::Rect, widgets::Widget};
    /// use tui_textarea::terminal::Terminal;
    ///
    /// let (first, second) = (TextArea::from(["one"]), TextArea::from(["two"]));
    /// let mut buffer = Buffer::empty(Rect::new(0, 0, 20, 2));
    /// let mut terminal = Terminal::new(buffer.area);
    /// (&first).render(Rect::new(0, 0, 20, 1), &mut buffer);
    /// (&second).render(Rect::new(0, 1, 20, 1), &mut buffer);
    /// let bytes = terminal.paint(&buffer, None);
    /// assert!(!bytes.is_empty()); // they are written to the terminal
    /// assert!(terminal.paint(&buffer, None).is_empty());
    /// ```
    pub fn paint(&mut self, buffer: &Buffer, caret: Option<Position>) -> Vec<u8> {
        must(self.try_paint(buffer, caret))
    }

    /// As [`Terminal::paint`], but returns that memory ran out; then the terminal is as it was.
    pub fn try_paint(
        &mut self,
        buffer: &Buffer,
        caret: Option<Position>,
    ) -> Result<Vec<u8>, OutOfMemory> {
        self.copy_to_canvas(buffer)?;
        paint_screen(&mut self.core, &self.canvas, caret)?;
        Ok(self.bytes())
    }

    /// Draws a text area into an area of the terminal, and returns the bytes that make the terminal
    /// show it with blanks around it, after the frame before; none if it shows that already. With
    /// [`CursorRenderMode::Hidden`] the terminal's own cursor is shown at the text area's cursor;
    /// with [`CursorRenderMode::Cell`] the text area shows its cursor itself, and the terminal's is
    /// hidden.
    ///
    /// The bytes are those of [`Terminal::paint`] for a buffer with only the text area and for that
    /// caret, but no cell is copied to a buffer and back.
    ///
    /// ```
    /// use tui_textarea::ratatui::layout::Rect;
    /// use tui_textarea::terminal::Terminal;
    /// use tui_textarea::{CursorRenderMode, TextArea};
    ///
    /// let place = Rect::new(0, 0, 20, 3);
    /// let mut terminal = Terminal::new(place);
    /// let mut text_area = TextArea::from(["one"]);
    /// text_area.set_cursor_render_mode(CursorRenderMode::Hidden);
    /// let frame = terminal.paint_text_area(&text_area, place);
    /// assert!(frame.windows(3).any(|bytes| bytes == b"one")); // it is written to the terminal
    /// text_area.insert_char('t');
    /// let change = terminal.paint_text_area(&text_area, place);
    /// assert!(change.len() < frame.len());
    /// assert!(terminal.paint_text_area(&text_area, place).is_empty());
    /// ```
    pub fn paint_text_area(&mut self, text_area: &TextArea, area: Rect) -> Vec<u8> {
        must(self.try_paint_text_area(text_area, area))
    }

    /// As [`Terminal::paint_text_area`], but returns that memory ran out; then the terminal is as it
    /// was.
    pub fn try_paint_text_area(
        &mut self,
        text_area: &TextArea,
        area: Rect,
    ) -> Result<Vec<u8>, OutOfMemory> {
        text_area.draw_on_screen(area, area.intersection(self.area))?;
        let caret = match text_area.cursor_render_mode() {
            CursorRenderMode::Cell => None,
            CursorRenderMode::Hidden => text_area.rendered_cursor_position(),
        };
        paint_screen(&mut self.core, &text_area.core, caret)?;
        Ok(self.bytes())
    }

    /// Gives the screen of the canvas the cells of a buffer: those that it hasn't yet are copied.
    fn copy_to_canvas(&mut self, buffer: &Buffer) -> Result<(), OutOfMemory> {
        let area = buffer.area;
        if self.copied.area != area {
            self.canvas
                .on(|h| unsafe { sys::ta_screen_reset(h, &area.into()) })?;
            self.copied = Buffer::empty(area);
        }
        for y in area.top()..area.bottom() {
            let cells = self.copied.row_mut(area, y).iter_mut();
            let pairs = cells.zip(buffer.row(area, y));
            for (x, (copied, cell)) in (area.left()..area.right()).zip(pairs) {
                if copied != cell {
                    self.canvas.put(x, y, cell)?;
                    copied.clone_from(cell);
                }
            }
        }
        Ok(())
    }

    fn bytes(&mut self) -> Vec<u8> {
        let terminal = &mut self.core;
        must(all_bytes(|out, room, needed| unsafe {
            sys::ta_painter_bytes(terminal, out, room, needed)
        }))
    }

    /// Forgets what the terminal shows, and its modes, as after another program has written to it.
    /// The next frame erases it.
    pub fn reset(&mut self) {
        must(self.on(|t| unsafe { sys::ta_painter_reset(t) }));
    }

    /// Changes the area that the terminal shows, and forgets what it shows. Call it at each
    /// [`Event::Size`], also of the same size.
    pub fn resize(&mut self, area: Rect) {
        must(self.try_resize(area));
    }

    /// As [`Terminal::resize`], but returns that memory ran out; then nothing changed.
    pub fn try_resize(&mut self, area: Rect) -> Result<(), OutOfMemory> {
        self.on(|t| unsafe { sys::ta_painter_resize(t, &area.into()) })?;
        self.area = area;
        Ok(())
    }

    /// Sets the colours that the terminal has, which are all at first, and forgets what it shows.
    /// Other colours are shown as the nearest that it has.
    pub fn set_colors(&mut self, colors: Colors) {
        let number = match colors {
            Colors::None => sys::COLORS_NONE,
            Colors::Sixteen => sys::COLORS_SIXTEEN,
            Colors::Indexed => sys::COLORS_INDEXED,
            Colors::True => sys::COLORS_TRUE,
        };
        must(self.on(|t| unsafe { sys::ta_painter_set_colors(t, number) }));
    }
}

impl Drop for Terminal {
    fn drop(&mut self) {
        unsafe { sys::ta_terminal_free(&mut self.core) }
    }
}

/// Paints the screen of a text area.
fn paint_screen(
    terminal: &mut sys::TerminalHandle,
    screen: &Handle,
    caret: Option<Position>,
) -> Result<(), OutOfMemory> {
    let Position { x, y } = caret.unwrap_or_default();
    screen.on(|h| unsafe { sys::ta_painter_paint(terminal, h, caret.is_some(), x, y) })?;
    Ok(())
}

const BLANK: sys::Event = sys::Event {
    kind: sys::EVENT_UNKNOWN,
    input: sys::Input {
        key: sys::KEY_NULL,
        argument: 0,
        ctrl: false,
        alt: false,
        shift: false,
    },
    mouse: 0,
    button: 0,
    column: 0,
    row: 0,
    bytes: 0,
};

fn input_of(input: &sys::Input) -> Input {
    Input {
        key: key_of(input.key, input.argument),
        ctrl: input.ctrl,
        alt: input.alt,
        shift: input.shift,
    }
}

fn key_of(key: u32, argument: u32) -> Key {
    match key {
        sys::KEY_CHAR => Key::Char(char::from_u32(argument).unwrap_or(char::REPLACEMENT_CHARACTER)),
        sys::KEY_F => Key::F(argument as u8),
        sys::KEY_BACKSPACE => Key::Backspace,
        sys::KEY_ENTER => Key::Enter,
        sys::KEY_LEFT => Key::Left,
        sys::KEY_RIGHT => Key::Right,
        sys::KEY_UP => Key::Up,
        sys::KEY_DOWN => Key::Down,
        sys::KEY_TAB => Key::Tab,
        sys::KEY_DELETE => Key::Delete,
        sys::KEY_HOME => Key::Home,
        sys::KEY_END => Key::End,
        sys::KEY_PAGE_UP => Key::PageUp,
        sys::KEY_PAGE_DOWN => Key::PageDown,
        sys::KEY_ESC => Key::Esc,
        sys::KEY_COPY => Key::Copy,
        sys::KEY_CUT => Key::Cut,
        sys::KEY_PASTE => Key::Paste,
        sys::KEY_MOUSE_SCROLL_DOWN => Key::MouseScrollDown,
        sys::KEY_MOUSE_SCROLL_UP => Key::MouseScrollUp,
        _ => Key::Null,
    }
}

fn mouse_of(event: &sys::Event) -> Mouse {
    let button = match event.button {
        sys::BUTTON_LEFT => MouseButton::Left,
        sys::BUTTON_MIDDLE => MouseButton::Middle,
        sys::BUTTON_RIGHT => MouseButton::Right,
        number => MouseButton::Other(number as u8),
    };
    let kind = match event.mouse {
        sys::MOUSE_PRESS => MouseKind::Press(button),
        sys::MOUSE_RELEASE => MouseKind::Release(button),
        sys::MOUSE_DRAG => MouseKind::Drag(button),
        sys::MOUSE_MOVE => MouseKind::Move,
        sys::MOUSE_RELEASE_ANY => MouseKind::ReleaseAny,
        sys::MOUSE_WHEEL_LEFT => MouseKind::WheelLeft,
        _ => MouseKind::WheelRight,
    };
    Mouse {
        kind,
        column: event.column,
        row: event.row,
        ctrl: event.input.ctrl,
        alt: event.input.alt,
        shift: event.input.shift,
    }
}
