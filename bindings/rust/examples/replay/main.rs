//! Makes the calls of a script of `tascript` on a text area, and prints what `tascript` prints:
//!
//!     cargo run --example replay < script
//!
//! The commands are those of calls.rs, `insert_char`, `insert_str`, `move`, `set_max_chars`,
//! `set_search_pattern`, `set_search_text`, `replace_match` and `replace_all`. Texts have no escape
//! `\u{..}`.

#![allow(clippy::unit_arg)] // a call without a result is passed to `done`

mod calls;

use calls::{call, done, flag};
use std::io::Read;
use std::time::Duration;
use tui_textarea::{CursorMove, TextArea};

fn unescaped(text: &str) -> String {
    let mut found = String::new();
    let mut rest = text.chars();
    while let Some(c) = rest.next() {
        found.push(match c {
            '\\' => match rest.next() {
                Some('n') => '\n',
                Some('r') => '\r',
                Some('t') => '\t',
                other => other.unwrap_or('\\'),
            },
            _ => c,
        });
    }
    found
}

fn escaped(text: &str) -> String {
    text.replace('\\', "\\\\")
        .replace('\n', "\\n")
        .replace('\r', "\\r")
        .replace('\t', "\\t")
}

fn move_named(name: &str) -> CursorMove {
    match name {
        "Forward" => CursorMove::Forward,
        "Back" => CursorMove::Back,
        "Up" => CursorMove::Up,
        "Down" => CursorMove::Down,
        "Head" => CursorMove::Head,
        "End" => CursorMove::End,
        "Top" => CursorMove::Top,
        "Bottom" => CursorMove::Bottom,
        "WordForward" => CursorMove::WordForward,
        "WordEnd" => CursorMove::WordEnd,
        "WordBack" => CursorMove::WordBack,
        "ParagraphForward" => CursorMove::ParagraphForward,
        "ParagraphBack" => CursorMove::ParagraphBack,
        "InViewport" => CursorMove::InViewport,
        _ => panic!("no move: {name}"),
    }
}

/// Makes the call of a line, and returns its result in words.
fn result_of(area: &mut TextArea, line: &str) -> String {
    let (name, words) = line.split_once(' ').unwrap_or((line, ""));
    if name == "replace_all" {
        return area.replace_all(unescaped(words)).to_string();
    }
    if let Some(result) = call(area, name, words) {
        return result.into();
    }
    let result = match name {
        "insert_char" => done(area.insert_char(unescaped(words).chars().next().unwrap())),
        "insert_str" => flag(area.insert_str(unescaped(words))),
        "replace_match" => flag(area.replace_match(unescaped(words))),
        "move" => done(area.move_cursor(move_named(words))),
        "set_max_chars" => done(area.set_max_chars(words.parse().ok())), // none for `None`
        "set_search_pattern" => match area.set_search_pattern(unescaped(words)) {
            Ok(()) => "ok",
            Err(_) => "pattern",
        },
        "set_search_text" => {
            let (ignore_case, rest) = words.split_once(' ').unwrap();
            let (whole_word, text) = rest.split_once(' ').unwrap_or((rest, ""));
            let is_set =
                area.set_search_text(unescaped(text), ignore_case == "true", whole_word == "true");
            done(is_set.unwrap())
        }
        _ => panic!("no command: {line}"),
    };
    result.into()
}

fn main() {
    let mut script = String::new();
    std::io::stdin().read_to_string(&mut script).unwrap();
    let mut area = TextArea::default();
    area.set_now(Duration::ZERO);
    for (index, line) in script.lines().enumerate() {
        println!("{} {}", index + 1, result_of(&mut area, line));
    }
    println!("lines {}", area.lines().len());
    for line in area.lines() {
        println!("|{}", escaped(line));
    }
    let (row, column) = area.cursor();
    println!("cursor {row} {column}");
    match area.selection_range() {
        Some((start, end)) => {
            println!("selection {} {} {} {}", start.0, start.1, end.0, end.1);
        }
        None => println!("selection none"),
    }
}
