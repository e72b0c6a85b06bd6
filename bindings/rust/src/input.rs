//! Key inputs, independent of the terminal library.

#[cfg(feature = "crossterm")]
mod crossterm;
#[cfg(feature = "termion")]
mod termion;

use crate::sys;
#[cfg(feature = "serde")]
use serde::{Deserialize, Serialize};

/// A key.
#[non_exhaustive]
#[derive(Clone, Copy, Debug, Default, PartialEq, Eq, Hash)]
#[cfg_attr(feature = "serde", derive(Serialize, Deserialize))]
pub enum Key {
    /// A key that types a character.
    Char(char),
    /// A function key by its number: F1, F2 and so on.
    F(u8),
    /// The key that removes what is before the cursor.
    Backspace,
    /// Enter, or Return.
    Enter,
    /// The arrow to the left.
    Left,
    /// The arrow to the right.
    Right,
    /// The arrow up.
    Up,
    /// The arrow down.
    Down,
    /// The key for a tab.
    Tab,
    /// The key that removes what is after the cursor.
    Delete,
    /// The key to a line's start.
    Home,
    /// The key to a line's end.
    End,
    /// The key to the page above.
    PageUp,
    /// The key to the page below.
    PageDown,
    /// Escape.
    Esc,
    /// Copy, which few terminals report.
    Copy,
    /// Cut, which few terminals report.
    Cut,
    /// Paste, which few terminals report.
    Paste,
    /// The mouse's wheel, turned down.
    MouseScrollDown,
    /// The mouse's wheel, turned up.
    MouseScrollUp,
    /// No key: an input that text areas ignore.
    #[default]
    Null,
}

/// A key with the modifiers that are pressed. The default is [`Key::Null`] without any.
///
/// ```
/// use tui_textarea::{Input, Key};
///
/// let undo = Input { key: Key::Char('u'), ctrl: true, alt: false, shift: false };
/// assert_eq!(undo, Input::from('u').ctrl());
/// ```
///
/// With the features `crossterm` and `termion`, an input is made of the events of these libraries:
///
/// ```
/// # #[cfg(feature = "crossterm")]
/// # {
/// use crossterm::event::{Event, KeyCode};
/// use tui_textarea::{Input, Key, TextArea};
///
/// let event = Event::Key(KeyCode::Enter.into());
/// assert_eq!(Input::from(event.clone()), Input::from(Key::Enter));
/// let mut area = TextArea::default();
/// assert!(area.input(event));
/// # }
/// ```
#[derive(Clone, Debug, Default, PartialEq, Eq, Hash)]
#[cfg_attr(feature = "serde", derive(Serialize, Deserialize))]
pub struct Input {
    /// The key.
    pub key: Key,
    /// Whether Ctrl is pressed.
    pub ctrl: bool,
    /// Whether Alt is pressed.
    pub alt: bool,
    /// Whether Shift is pressed.
    pub shift: bool,
}

impl Input {
    /// Returns the input with Ctrl.
    pub const fn ctrl(self) -> Input {
        Input { ctrl: true, ..self }
    }

    /// Returns the input with Alt.
    pub const fn alt(self) -> Input {
        Input { alt: true, ..self }
    }

    /// Returns the input with Shift.
    pub const fn shift(self) -> Input {
        Input {
            shift: true,
            ..self
        }
    }
}

impl From<Key> for Input {
    fn from(key: Key) -> Input {
        Input {
            key,
            ..Input::default()
        }
    }
}

impl From<char> for Input {
    fn from(c: char) -> Input {
        Key::Char(c).into()
    }
}

impl From<&Input> for sys::Input {
    fn from(input: &Input) -> sys::Input {
        let (key, argument) = match input.key {
            Key::Char(c) => (sys::KEY_CHAR, c as u32),
            Key::F(number) => (sys::KEY_F, number.into()),
            Key::Backspace => (sys::KEY_BACKSPACE, 0),
            Key::Enter => (sys::KEY_ENTER, 0),
            Key::Left => (sys::KEY_LEFT, 0),
            Key::Right => (sys::KEY_RIGHT, 0),
            Key::Up => (sys::KEY_UP, 0),
            Key::Down => (sys::KEY_DOWN, 0),
            Key::Tab => (sys::KEY_TAB, 0),
            Key::Delete => (sys::KEY_DELETE, 0),
            Key::Home => (sys::KEY_HOME, 0),
            Key::End => (sys::KEY_END, 0),
            Key::PageUp => (sys::KEY_PAGE_UP, 0),
            Key::PageDown => (sys::KEY_PAGE_DOWN, 0),
            Key::Esc => (sys::KEY_ESC, 0),
            Key::Copy => (sys::KEY_COPY, 0),
            Key::Cut => (sys::KEY_CUT, 0),
            Key::Paste => (sys::KEY_PASTE, 0),
            Key::MouseScrollDown => (sys::KEY_MOUSE_SCROLL_DOWN, 0),
            Key::MouseScrollUp => (sys::KEY_MOUSE_SCROLL_UP, 0),
            Key::Null => (sys::KEY_NULL, 0),
        };
        sys::Input {
            key,
            argument,
            ctrl: input.ctrl,
            alt: input.alt,
            shift: input.shift,
        }
    }
}
