//! Written by tools/calls from crates/textarea_calls/calls.txt.
//! Each style is read back as it was set.

use tui_textarea::TextArea;
use tui_textarea::ratatui::style::{Color, Style};

#[test]
fn styles_are_kept() {
    let mut area = TextArea::from(["one"]);
    let style = |number| Style::new().fg(Color::Indexed(number));
    area.set_style(style(0));
    area.set_cursor_style(style(1));
    area.set_cursor_line_style(style(2));
    area.set_cursor_line_number_style(style(3));
    area.set_selection_style(style(4));
    area.set_search_style(style(5));
    assert_eq!(area.style(), style(0));
    assert_eq!(area.cursor_style(), style(1));
    assert_eq!(area.cursor_line_style(), style(2));
    assert_eq!(area.cursor_line_number_style(), style(3));
    assert_eq!(area.selection_style(), style(4));
    assert_eq!(area.search_style(), style(5));
}
