//! The forms that serde writes and reads: those of the Rattle crate.
#![cfg(feature = "serde")]

use serde_json::{from_str, to_string};
use std::fmt::Debug;
use tui_textarea::{
    AtomicCursorBias, AtomicDeleteDirection, AtomicRange, AtomicRangeError,
    AtomicRangeRejectReason, CursorMove, Input, Key, RejectedAtomicRange, Scrolling, WrapMode,
};

/// Checks that values are written in these forms and read from them, and that nothing else is read.
fn check<T>(forms: &[(T, &str)], others: &[&str])
where
    T: serde::Serialize + for<'a> serde::Deserialize<'a> + PartialEq + Debug,
{
    for (value, form) in forms {
        assert_eq!(to_string(value).unwrap(), *form);
        assert_eq!(from_str::<T>(form).unwrap(), *value);
    }
    for form in others {
        assert!(from_str::<T>(form).is_err(), "{form}");
    }
}

#[test]
fn keys() {
    let named = [
        Key::Backspace,
        Key::Enter,
        Key::Left,
        Key::Right,
        Key::Up,
        Key::Down,
        Key::Tab,
        Key::Delete,
        Key::Home,
        Key::End,
        Key::PageUp,
        Key::PageDown,
        Key::Esc,
        Key::Copy,
        Key::Cut,
        Key::Paste,
        Key::MouseScrollDown,
        Key::MouseScrollUp,
        Key::Null,
    ];
    for key in named {
        check(&[(key, &format!(r#""{key:?}""#))], &[]);
    }
    check(
        &[
            (Key::Char('a'), r#"{"Char":"a"}"#),
            (Key::Char('"'), r#"{"Char":"\""}"#),
            (Key::Char('犬'), r#"{"Char":"犬"}"#),
            (Key::F(0), r#"{"F":0}"#),
            (Key::F(255), r#"{"F":255}"#),
        ],
        &["", "null", r#""enter""#, r#"{"Char":"ab"}"#, r#"{"F":256}"#],
    );
}

#[test]
fn inputs() {
    check(
        &[
            (
                Input::from(Key::Esc).ctrl(),
                r#"{"key":"Esc","ctrl":true,"alt":false,"shift":false}"#,
            ),
            (
                Input::from('x').alt().shift(),
                r#"{"key":{"Char":"x"},"ctrl":false,"alt":true,"shift":true}"#,
            ),
        ],
        &["{}", r#"{"key":"Esc","ctrl":true,"alt":false}"#],
    );
}

#[test]
fn moves_and_scrolls() {
    let named = [
        CursorMove::Forward,
        CursorMove::Back,
        CursorMove::Up,
        CursorMove::Down,
        CursorMove::Head,
        CursorMove::End,
        CursorMove::Top,
        CursorMove::Bottom,
        CursorMove::WordForward,
        CursorMove::WordEnd,
        CursorMove::WordBack,
        CursorMove::ParagraphForward,
        CursorMove::ParagraphBack,
        CursorMove::InViewport,
    ];
    for to in named {
        check(&[(to, &format!(r#""{to:?}""#))], &[]);
    }
    let jumps = [
        (CursorMove::Jump(3, 4), r#"{"Jump":[3,4]}"#),
        (CursorMove::Jump(0, 65535), r#"{"Jump":[0,65535]}"#),
    ];
    check(&jumps, &[r#""Jump""#, r#"{"Jump":[3]}"#, r#""forward""#]);
    let least = Scrolling::Delta {
        rows: -32768,
        cols: 32767,
    };
    let scrolls = [
        (least, r#"{"Delta":{"rows":-32768,"cols":32767}}"#),
        (Scrolling::PageDown, r#""PageDown""#),
        (Scrolling::PageUp, r#""PageUp""#),
        (Scrolling::HalfPageDown, r#""HalfPageDown""#),
        (Scrolling::HalfPageUp, r#""HalfPageUp""#),
    ];
    check(&scrolls, &[r#"{"Delta":1}"#, r#"{"Delta":{"rows":1}}"#]);
    let modes = [
        (WrapMode::None, r#""None""#),
        (WrapMode::Word, r#""Word""#),
        (WrapMode::Glyph, r#""Glyph""#),
        (WrapMode::WordOrGlyph, r#""WordOrGlyph""#),
    ];
    check(&modes, &["null", "1", r#""none""#]);
}

#[test]
fn ranges() {
    let range = AtomicRange {
        row: 1,
        start_col: 2,
        end_col: 5,
    };
    let form = r#"{"row":1,"start_col":2,"end_col":5}"#;
    check(&[(range, form)], &["{}", r#"{"row":1,"start_col":2}"#]);
    let biases = [
        (AtomicCursorBias::Backward, r#""Backward""#),
        (AtomicCursorBias::Forward, r#""Forward""#),
    ];
    check(&biases, &[r#""Back""#, "0"]);
    let directions = [
        (AtomicDeleteDirection::Backward, r#""Backward""#),
        (AtomicDeleteDirection::Forward, r#""Forward""#),
    ];
    check(&directions, &[r#""Back""#, "0"]);
    let reasons = [
        (AtomicRangeRejectReason::Empty, r#""Empty""#),
        (
            AtomicRangeRejectReason::RowOutOfBounds,
            r#""RowOutOfBounds""#,
        ),
        (
            AtomicRangeRejectReason::ColumnOutOfBounds,
            r#""ColumnOutOfBounds""#,
        ),
        (
            AtomicRangeRejectReason::OverlapsPrevious,
            r#""OverlapsPrevious""#,
        ),
    ];
    check(&reasons, &[r#""empty""#, "null"]);
    let rejected = RejectedAtomicRange {
        range,
        reason: AtomicRangeRejectReason::Empty,
    };
    let rejected_form = format!(r#"{{"range":{form},"reason":"Empty"}}"#);
    check(&[(rejected, &rejected_form)], &[form]);
    let error = AtomicRangeError {
        rejected: vec![rejected, rejected],
    };
    let error_form = format!(r#"{{"rejected":[{rejected_form},{rejected_form}]}}"#);
    check(&[(error, &error_form)], &["[]", "{}"]);
}
