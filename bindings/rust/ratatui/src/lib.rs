//! The screen types of `tui_textarea` under the paths of ratatui, so that tests and examples that are
//! written for both crates compile unchanged. It has no terminal.

pub use tui_textarea::ratatui::{buffer, layout, style, text, widgets};

/// What most programs import.
pub mod prelude {
    pub use crate::buffer::{self, Buffer};
    pub use crate::layout::{self, Alignment, Position, Rect};
    pub use crate::style::{self, Color, Modifier, Style, Stylize};
    pub use crate::text::{self, Line, Span, Text};
    pub use crate::widgets::Widget;
}
