//! Inputs from the events of crossterm.

use super::{Input, Key};
use ::crossterm::event::{
    Event, KeyCode, KeyEvent, KeyEventKind, KeyModifiers, MouseEvent, MouseEventKind,
};

impl From<Event> for Input {
    /// Returns the key or the turn of the wheel that the event reports, or an input that text areas
    /// ignore. A pasted text is no input: pass it to
    /// [`insert_pasted`](crate::TextArea::insert_pasted).
    fn from(event: Event) -> Input {
        match event {
            Event::Key(event) => event.into(),
            Event::Mouse(event) => event.into(),
            _ => Input::default(),
        }
    }
}

impl From<KeyEvent> for Input {
    /// Returns the key with its modifiers. Shift with Tab is [`Key::Tab`] with Shift, and a key that
    /// is released is no input.
    fn from(event: KeyEvent) -> Input {
        if event.kind == KeyEventKind::Release {
            return Input::default();
        }
        match event.code {
            KeyCode::BackTab => with_modifiers(Key::Tab, event.modifiers).shift(),
            code => with_modifiers(code.into(), event.modifiers),
        }
    }
}

impl From<MouseEvent> for Input {
    /// Returns the turn of the wheel with its modifiers; other events of the mouse are no input.
    fn from(event: MouseEvent) -> Input {
        with_modifiers(event.kind.into(), event.modifiers)
    }
}

fn with_modifiers(key: Key, modifiers: KeyModifiers) -> Input {
    Input {
        key,
        ctrl: modifiers.contains(KeyModifiers::CONTROL),
        alt: modifiers.contains(KeyModifiers::ALT),
        shift: modifiers.contains(KeyModifiers::SHIFT),
    }
}

impl From<KeyCode> for Key {
    /// Returns the key, or [`Key::Null`] for one that text areas don't know.
    fn from(code: KeyCode) -> Key {
        match code {
            KeyCode::Char(c) => Key::Char(c),
            KeyCode::F(number) => Key::F(number),
            KeyCode::Backspace => Key::Backspace,
            KeyCode::Enter => Key::Enter,
            KeyCode::Left => Key::Left,
            KeyCode::Right => Key::Right,
            KeyCode::Up => Key::Up,
            KeyCode::Down => Key::Down,
            KeyCode::Tab => Key::Tab,
            KeyCode::Delete => Key::Delete,
            KeyCode::Home => Key::Home,
            KeyCode::End => Key::End,
            KeyCode::PageUp => Key::PageUp,
            KeyCode::PageDown => Key::PageDown,
            KeyCode::Esc => Key::Esc,
            _ => Key::Null,
        }
    }
}

impl From<MouseEventKind> for Key {
    /// Returns the turn of the wheel, or [`Key::Null`] for anything else.
    fn from(kind: MouseEventKind) -> Key {
        match kind {
            MouseEventKind::ScrollDown => Key::MouseScrollDown,
            MouseEventKind::ScrollUp => Key::MouseScrollUp,
            _ => Key::Null,
        }
    }
}
