//! Types like those of ratatui, in its modules: as much of them as a text area needs.

mod area;
mod block;
mod cells;
mod lines;
mod styles;
mod stylize;
mod symbols;

pub(crate) use lines::Parts;
pub(crate) use styles::BLANK;
pub(crate) use symbols::Symbol;

/// Buffers of cells.
pub mod buffer {
    pub use super::cells::{Buffer, Cell};
}

/// Rectangles, positions and alignments.
pub mod layout {
    pub use super::area::{Alignment, Position, Rect};
}

/// Colours, modifiers and styles.
pub mod style {
    pub use super::styles::{Color, Modifier, ParseColorError, Style};
    pub use super::stylize::{Styled, Stylize};
}

/// Styled texts.
pub mod text {
    pub use super::lines::{Line, Span, Text};
}

/// Blocks, and what is drawn.
pub mod widgets {
    pub use super::area::Padding;
    pub use super::block::{Block, Borders};

    #[cfg(feature = "tui")]
    pub(crate) use super::block::Foreign;

    use super::area::Rect;
    use super::cells::Buffer;

    /// What can be drawn into a buffer.
    pub trait Widget {
        /// Draws into an area of the buffer.
        fn render(self, area: Rect, buf: &mut Buffer)
        where
            Self: Sized;
    }
}
