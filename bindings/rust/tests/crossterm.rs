//! Inputs from each variant of crossterm's events.
#![cfg(feature = "crossterm")]

use crossterm::event::{
    Event, KeyCode, KeyEvent, KeyEventKind, KeyModifiers, MediaKeyCode, ModifierKeyCode,
    MouseButton, MouseEvent, MouseEventKind,
};
use tui_textarea::{Input, Key, TextArea};

const KEYS: [(KeyCode, Key); 29] = [
    (KeyCode::Char('a'), Key::Char('a')),
    (KeyCode::Char('A'), Key::Char('A')),
    (KeyCode::Char('犬'), Key::Char('犬')),
    (KeyCode::F(1), Key::F(1)),
    (KeyCode::F(255), Key::F(255)),
    (KeyCode::Backspace, Key::Backspace),
    (KeyCode::Enter, Key::Enter),
    (KeyCode::Left, Key::Left),
    (KeyCode::Right, Key::Right),
    (KeyCode::Up, Key::Up),
    (KeyCode::Down, Key::Down),
    (KeyCode::Tab, Key::Tab),
    (KeyCode::Delete, Key::Delete),
    (KeyCode::Home, Key::Home),
    (KeyCode::End, Key::End),
    (KeyCode::PageUp, Key::PageUp),
    (KeyCode::PageDown, Key::PageDown),
    (KeyCode::Esc, Key::Esc),
    (KeyCode::Insert, Key::Null),
    (KeyCode::Null, Key::Null),
    (KeyCode::CapsLock, Key::Null),
    (KeyCode::ScrollLock, Key::Null),
    (KeyCode::NumLock, Key::Null),
    (KeyCode::PrintScreen, Key::Null),
    (KeyCode::Pause, Key::Null),
    (KeyCode::Menu, Key::Null),
    (KeyCode::KeypadBegin, Key::Null),
    (KeyCode::Media(MediaKeyCode::Play), Key::Null),
    (KeyCode::Modifier(ModifierKeyCode::LeftShift), Key::Null),
];

const WHEEL: [(MouseEventKind, Key); 6] = [
    (MouseEventKind::ScrollDown, Key::MouseScrollDown),
    (MouseEventKind::ScrollUp, Key::MouseScrollUp),
    (MouseEventKind::Down(MouseButton::Left), Key::Null),
    (MouseEventKind::Up(MouseButton::Middle), Key::Null),
    (MouseEventKind::Drag(MouseButton::Right), Key::Null),
    (MouseEventKind::Moved, Key::Null),
];

/// Each set of modifiers, and the same key with it.
fn with_each_modifier(key: Key) -> impl Iterator<Item = (KeyModifiers, Input)> {
    (0..8).map(move |bits| {
        let (ctrl, alt, shift) = (bits & 1 != 0, bits & 2 != 0, bits & 4 != 0);
        let mut modifiers = KeyModifiers::NONE;
        modifiers.set(KeyModifiers::CONTROL, ctrl);
        modifiers.set(KeyModifiers::ALT, alt);
        modifiers.set(KeyModifiers::SHIFT, shift);
        let input = Input {
            key,
            ctrl,
            alt,
            shift,
        };
        (modifiers, input)
    })
}

fn mouse(kind: MouseEventKind, modifiers: KeyModifiers) -> MouseEvent {
    MouseEvent {
        kind,
        column: 3,
        row: 4,
        modifiers,
    }
}

#[test]
fn keys() {
    for (code, key) in KEYS {
        assert_eq!(Key::from(code), key, "{code:?}");
        for (modifiers, input) in with_each_modifier(key) {
            let event = KeyEvent::new(code, modifiers);
            assert_eq!(Input::from(event), input, "{event:?}");
            assert_eq!(Input::from(Event::Key(event)), input, "{event:?}");
            let repeated = KeyEvent::new_with_kind(code, modifiers, KeyEventKind::Repeat);
            assert_eq!(Input::from(repeated), input, "{repeated:?}");
            let released = KeyEvent::new_with_kind(code, modifiers, KeyEventKind::Release);
            assert_eq!(Input::from(released), Input::default(), "{released:?}");
        }
    }
}

#[test]
fn tab_with_shift() {
    assert_eq!(Key::from(KeyCode::BackTab), Key::Null);
    for (modifiers, input) in with_each_modifier(Key::Tab) {
        let event = KeyEvent::new(KeyCode::BackTab, modifiers);
        assert_eq!(Input::from(event), input.shift(), "{event:?}");
    }
}

#[test]
fn mouse_events() {
    for (kind, key) in WHEEL {
        assert_eq!(Key::from(kind), key, "{kind:?}");
        for (modifiers, input) in with_each_modifier(key) {
            let event = mouse(kind, modifiers);
            assert_eq!(Input::from(event), input, "{event:?}");
            assert_eq!(Input::from(Event::Mouse(event)), input, "{event:?}");
        }
    }
}

#[test]
fn other_events() {
    let others = [
        Event::FocusGained,
        Event::FocusLost,
        Event::Paste("a".into()),
        Event::Resize(80, 24),
    ];
    for event in others {
        assert_eq!(Input::from(event), Input::default());
    }
}

#[test]
fn a_text_area_takes_events() {
    let mut area = TextArea::default();
    let key = |code| Event::Key(KeyEvent::new(code, KeyModifiers::NONE));
    assert!(area.input(key(KeyCode::Char('a'))) && area.input(key(KeyCode::Enter)));
    assert!(!area.input(Event::Resize(80, 24)));
    assert!(area.input(KeyEvent::new(KeyCode::Char('u'), KeyModifiers::CONTROL)));
    let wheel = mouse(MouseEventKind::ScrollDown, KeyModifiers::NONE);
    assert!(!area.input_without_shortcuts(wheel));
    assert_eq!(area.lines(), ["a"]);
}
