//! Inputs from the events of termion.

use super::{Input, Key};
use ::termion::event::{Event, Key as TermionKey, MouseButton, MouseEvent};

impl From<Event> for Input {
    /// Returns the key or the turn of the wheel that the event reports, or an input that text areas
    /// ignore.
    fn from(event: Event) -> Input {
        match event {
            Event::Key(key) => key.into(),
            Event::Mouse(event) => event.into(),
            _ => Input::default(),
        }
    }
}

impl From<TermionKey> for Input {
    /// Returns the key. termion reports Ctrl and Alt with characters alone, and Shift never; a tab is
    /// the character, and Shift with Tab is [`Key::Tab`].
    fn from(key: TermionKey) -> Input {
        let input = Input::from(match key {
            TermionKey::Char('\n' | '\r') => Key::Enter,
            TermionKey::Char(c) | TermionKey::Ctrl(c) | TermionKey::Alt(c) => Key::Char(c),
            TermionKey::F(number) => Key::F(number),
            TermionKey::Backspace => Key::Backspace,
            TermionKey::Left => Key::Left,
            TermionKey::Right => Key::Right,
            TermionKey::Up => Key::Up,
            TermionKey::Down => Key::Down,
            TermionKey::BackTab => Key::Tab,
            TermionKey::Delete => Key::Delete,
            TermionKey::Home => Key::Home,
            TermionKey::End => Key::End,
            TermionKey::PageUp => Key::PageUp,
            TermionKey::PageDown => Key::PageDown,
            TermionKey::Esc => Key::Esc,
            _ => Key::Null,
        });
        match key {
            TermionKey::Ctrl(_) => input.ctrl(),
            TermionKey::Alt(_) => input.alt(),
            _ => input,
        }
    }
}

impl From<MouseEvent> for Input {
    /// Returns the turn of the wheel; other events of the mouse are no input.
    fn from(event: MouseEvent) -> Input {
        match event {
            MouseEvent::Press(button, ..) => Key::from(button).into(),
            _ => Input::default(),
        }
    }
}

impl From<MouseButton> for Key {
    /// Returns the turn of the wheel, or [`Key::Null`] for a button.
    fn from(button: MouseButton) -> Key {
        match button {
            MouseButton::WheelDown => Key::MouseScrollDown,
            MouseButton::WheelUp => Key::MouseScrollUp,
            _ => Key::Null,
        }
    }
}
