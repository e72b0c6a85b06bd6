//! Inputs from each variant of termion's events.
#![cfg(feature = "termion")]

use termion::event::{Event, Key as TermionKey, MouseButton, MouseEvent};
use tui_textarea::{Input, Key, TextArea};

const KEYS: [(TermionKey, Key); 22] = [
    (TermionKey::Char('a'), Key::Char('a')),
    (TermionKey::Char('A'), Key::Char('A')),
    (TermionKey::Char('\t'), Key::Char('\t')),
    (TermionKey::Char('\n'), Key::Enter),
    (TermionKey::Char('\r'), Key::Enter),
    (TermionKey::F(1), Key::F(1)),
    (TermionKey::F(12), Key::F(12)),
    (TermionKey::Backspace, Key::Backspace),
    (TermionKey::Left, Key::Left),
    (TermionKey::Right, Key::Right),
    (TermionKey::Up, Key::Up),
    (TermionKey::Down, Key::Down),
    (TermionKey::BackTab, Key::Tab),
    (TermionKey::Delete, Key::Delete),
    (TermionKey::Home, Key::Home),
    (TermionKey::End, Key::End),
    (TermionKey::PageUp, Key::PageUp),
    (TermionKey::PageDown, Key::PageDown),
    (TermionKey::Esc, Key::Esc),
    (TermionKey::Insert, Key::Null),
    (TermionKey::Null, Key::Null),
    (TermionKey::__IsNotComplete, Key::Null),
];

const BUTTONS: [(MouseButton, Key); 5] = [
    (MouseButton::WheelDown, Key::MouseScrollDown),
    (MouseButton::WheelUp, Key::MouseScrollUp),
    (MouseButton::Left, Key::Null),
    (MouseButton::Middle, Key::Null),
    (MouseButton::Right, Key::Null),
];

#[test]
fn keys() {
    for (from, key) in KEYS {
        assert_eq!(Input::from(from), Input::from(key), "{from:?}");
        let event = Event::Key(from);
        assert_eq!(Input::from(event), Input::from(key), "{from:?}");
    }
    for c in ['a', 'A', '犬', '\n'] {
        let input = Input::from(c);
        assert_eq!(Input::from(TermionKey::Ctrl(c)), input.clone().ctrl());
        assert_eq!(Input::from(TermionKey::Alt(c)), input.alt());
    }
}

#[test]
fn mouse_events() {
    for (button, key) in BUTTONS {
        assert_eq!(Key::from(button), key, "{button:?}");
        let event = MouseEvent::Press(button, 3, 4);
        assert_eq!(Input::from(event), Input::from(key), "{event:?}");
        assert_eq!(Input::from(Event::Mouse(event)), Input::from(key));
    }
    for event in [MouseEvent::Release(3, 4), MouseEvent::Hold(3, 4)] {
        assert_eq!(Input::from(event), Input::default(), "{event:?}");
    }
}

#[test]
fn other_events() {
    assert_eq!(
        Input::from(Event::Unsupported(vec![27, 91])),
        Input::default()
    );
}

#[test]
fn a_text_area_takes_events() {
    let mut area = TextArea::default();
    assert!(area.input(TermionKey::Char('a')) && area.input(Event::Key(TermionKey::Char('\n'))));
    assert!(!area.input(Event::Unsupported(vec![])));
    assert!(area.input(TermionKey::Ctrl('u')));
    let wheel = MouseEvent::Press(MouseButton::WheelDown, 1, 1);
    assert!(!area.input_without_shortcuts(wheel));
    assert_eq!(area.lines(), ["a"]);
}
