//! A text editor widget for terminals over a proved core.
//!
//! [`TextArea`] has the names and the behaviour of the crate `tui-textarea-2`, and the core under it
//! is written in Rattle, with each function proved to meet its contract. This crate is a thin layer:
//! it calls the core's C interface, and has types like those of ratatui in [`ratatui`].
//!
//! ```
//! use tui_textarea::{CursorMove, TextArea};
//!
//! let mut area = TextArea::from(["one two", "three"]);
//! area.move_cursor(CursorMove::WordForward);
//! assert!(area.delete_next_word());
//! assert_eq!(area.lines(), ["one ", "three"]);
//! assert!(area.undo());
//! assert_eq!(area.lines(), ["one two", "three"]);
//! ```
//!
//! # Features
//!
//! None is on by itself.
//!
//! - `crossterm` (0.25) and `termion` (1.5): an [`Input`] is made of their events, so that
//!   [`TextArea::input`] takes an event as it is.
//! - `tui` (0.19): `&area` is a widget of that library, and the setters take its `Style`, `Block`,
//!   `Text` and `Alignment`. A block of it is drawn by the library itself.
//! - `serde`: the plain data can be written and read, in the same forms as those of the core.
//! - `search` and `ratatui`, which the crate `tui-textarea-2` has, change nothing: what they name is
//!   always there.
//!
//! Any other library draws the text area by [`TextArea::render_with`]; there is how for ratatui.
//! Programs for a terminal are in the folder `examples`:
//!
//! ```sh
//! cargo run --features crossterm,tui --example editor
//! ```
//!
//! # The core
//!
//! The core is a static library for Linux on x86-64. The build takes that of the release, which is in
//! the repository's folder `release`, or the one in the folder that the variable `TEXTAREA_LIB_DIR`
//! names.
//!
//! # Out of memory
//!
//! Out of memory ends the program in the calls with the names of that crate, as in collections of
//! `std`. Each of them has a form `try_..` that returns [`OutOfMemory`] instead, and then the text
//! area is unchanged, but for the selected text, which an insertion may have removed.
//!
//! # Threads
//!
//! A text area stays on its thread: it is neither `Send` nor `Sync`, and neither is a
//! [terminal](terminal::Terminal). Copies of a text area share its search pattern, which the core
//! counts without atomics, since the toolchain has no proof that a compiled pattern may be shared by
//! threads. A program with several threads gives the text area to one of them, and sends that one
//! what it is to do, or texts.

#![warn(missing_docs)]

mod data;
mod handle;
mod input;
pub mod ratatui;
#[rustfmt::skip]
mod sys;
pub mod terminal;
mod textarea;
#[cfg(feature = "tui")]
mod tui;

pub use data::{
    AtomicCursorBias, AtomicDeleteDirection, AtomicRange, AtomicRangeError,
    AtomicRangeRejectReason, ChangeUnit, CursorMove, CursorRenderMode, CursorUnit, OutOfMemory,
    Pattern, RejectedAtomicRange, Scrolling, SearchError, TextAreaMeasure, TextChange, WrapMode,
};
pub use input::{Input, Key};
pub use textarea::TextArea;
