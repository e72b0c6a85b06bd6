//! Tests of each group of calls.

use std::time::Duration;
use tui_textarea::ratatui::buffer::Buffer;
use tui_textarea::ratatui::layout::{Alignment, Position, Rect};
use tui_textarea::ratatui::style::{Color, Modifier, Style};
use tui_textarea::ratatui::text::{Line, Span, Text};
use tui_textarea::ratatui::widgets::{Block, Borders, Padding, Widget};
use tui_textarea::{
    AtomicCursorBias, AtomicDeleteDirection, AtomicRange, AtomicRangeRejectReason, CursorMove,
    CursorRenderMode, CursorUnit, Input, Key, Scrolling, SearchError, TextArea, WrapMode,
};

fn row_of(buffer: &Buffer, y: u16) -> String {
    let columns = buffer.area.left()..buffer.area.right();
    columns
        .map(|x| buffer[(x, y)].symbol())
        .collect::<String>()
        .trim_end()
        .to_string()
}

#[test]
fn constructors_and_lines() {
    assert_eq!(TextArea::default().lines(), [""]);
    assert_eq!(TextArea::new(vec![]).lines(), [""]);
    assert_eq!(TextArea::from("a\nb".lines()).lines(), ["a", "b"]);
    assert_eq!(
        (0..3).map(|i| i.to_string()).collect::<TextArea>().lines(),
        ["0", "1", "2"]
    );
    let mut area = TextArea::from(["one", "tw\no", "été"]);
    assert_eq!(area.lines(), ["one", "tw\no", "été"]);
    assert_eq!((area.cursor(), area.is_empty()), ((0, 0), false));
    area.set_lines(vec!["x".into(), String::new()], (1, 7));
    assert_eq!(
        (area.lines(), area.cursor()),
        (&["x".to_string(), String::new()][..], (1, 0))
    );
    let copy = area.clone();
    assert!(area.clear());
    assert!(area.is_empty());
    assert_eq!(copy.into_lines(), ["x", ""]);
    assert_eq!(
        format!("{:?}", TextArea::from(["a"])).split('{').next(),
        Some("TextArea ")
    );
}

#[test]
#[should_panic]
fn no_lines_panic() {
    TextArea::default().set_lines(vec![], (0, 0));
}

#[test]
fn edits() {
    let mut area = TextArea::default();
    area.insert_char('a');
    area.insert_newline();
    assert!(area.insert_str("b\r\nc"));
    assert!(!area.insert_str(""));
    assert_eq!(area.lines(), ["a", "b", "c"]);
    assert!(area.insert_tab());
    assert_eq!(area.lines()[2], "c   ");
    assert!(!area.paste());
    area.set_yank_text("x\ny");
    assert!(area.paste());
    assert_eq!(
        (area.lines().len(), area.yank_text()),
        (4, "x\ny".to_string())
    );
    assert!(area.delete_char() && area.delete_newline() && area.delete_word());
    assert_eq!(area.lines(), ["a", "b", "c   "]);
    area.move_cursor(CursorMove::Jump(0, 0));
    assert!(area.delete_next_char() && area.delete_next_char() && area.delete_str(2));
    assert_eq!(area.lines(), ["c   "]);
    assert!(area.delete_next_word() && area.delete_line_by_end() && !area.delete_line_by_head());
    assert!(area.is_empty() && !area.clear() && area.undo() && area.redo() && !area.redo());
    assert_eq!(area.try_insert_str("z"), Ok(true));
    assert!(area.insert_pasted("x\ry\r\n") && !area.insert_pasted(""));
    assert_eq!(area.text(), "zx\ny\n");
    assert_eq!(TextArea::from_text("a\r\nb\n\n").lines(), ["a", "b", ""]);
}

#[test]
fn replacements() {
    let mut area = TextArea::from(["one two", "three"]);
    assert_eq!(area.text_range((1, 2), (0, 5)), "wo\nth");
    assert!(area.replace_range((9, 9), (0, 4), "2\n3"));
    assert_eq!((area.text().as_str(), area.cursor()), ("one 2\n3", (1, 1)));
    assert!(area.undo());
    assert_eq!(area.text(), "one two\nthree");
    assert_eq!(area.try_replace_range((0, 1), (0, 1), ""), Ok(false));
    assert_eq!(area.try_text_range((0, 0), (0, 3)), Ok("one".into()));
}

#[test]
fn replaced_matches() {
    let mut area = TextArea::from(["one two", "three"]);
    assert_eq!((area.replace_match("x"), area.replace_all("x")), (false, 0));
    area.set_search_text("t", false, false).unwrap();
    assert!(area.search_forward(false) && area.replace_match("tt"));
    assert_eq!((area.text().as_str(), area.cursor()), ("one ttwo\nthree", (1, 0)));
    assert_eq!(area.try_replace_all("\n"), Ok(3));
    assert_eq!(area.text(), "one \n\nwo\n\nhree");
    assert!(area.undo());
    assert_eq!(area.text(), "one ttwo\nthree");
}

#[test]
fn moves_and_selection() {
    let mut area = TextArea::from(["one two", "three"]);
    area.move_cursor(CursorMove::WordForward);
    assert_eq!((area.cursor(), area.selection_range()), ((0, 4), None));
    area.start_selection();
    assert!(area.is_selecting());
    area.move_cursor(CursorMove::Down);
    assert_eq!(area.selection_range(), Some(((0, 4), (1, 4))));
    area.go_to((usize::MAX, 2));
    assert_eq!(area.cursor(), (1, 2));
    area.go_to((1, 4));
    area.copy();
    assert_eq!(
        (area.yank_text(), area.is_selecting()),
        ("two\nthre".to_string(), false)
    );
    assert!(!area.cut());
    area.select_all();
    assert!(area.cut());
    assert_eq!(area.lines(), [""]);
    area.start_selection();
    area.cancel_selection();
    assert!(!area.is_selecting());
    let mut area: TextArea = (0..20).map(|i| i.to_string()).collect();
    let place = Rect::new(0, 0, 24, 8);
    (&area).render(place, &mut Buffer::empty(place));
    area.scroll((15, 0));
    assert_eq!(area.cursor(), (15, 0));
    area.scroll(Scrolling::HalfPageUp);
    area.scroll(Scrolling::PageUp);
    assert_eq!(area.cursor(), (10, 0));
}

#[test]
fn inputs() {
    let mut area = TextArea::default();
    let input = |key, ctrl| Input {
        key,
        ctrl,
        ..Input::default()
    };
    assert!(area.input(input(Key::Char('犬'), false)) && area.input(input(Key::Enter, false)));
    assert!(!area.input(Input::default()) && !area.input(input(Key::F(12), false)));
    assert_eq!(area.lines(), ["犬", ""]);
    assert_eq!(Input::from('u').ctrl(), input(Key::Char('u'), true));
    assert!(area.input(Input::from('u').ctrl()));
    assert!(!area.input_without_shortcuts(input(Key::Char('u'), true)));
    assert!(area.input_without_shortcuts(input(Key::Backspace, true)));
    assert_eq!(area.lines(), [""]);
}

#[test]
fn history() {
    let mut area = TextArea::default();
    assert_eq!((area.max_histories(), area.undo_coalescing()), (50, false));
    area.set_undo_coalescing(true);
    area.insert_char('a');
    area.insert_char('b');
    assert!(area.undo());
    assert_eq!(area.lines(), [""]);
    area.set_now(Duration::from_secs(1));
    area.insert_char('a');
    area.set_now(Duration::from_secs(2));
    area.insert_char('b');
    assert!(area.undo());
    assert_eq!(area.lines(), ["a"]);
    area.set_max_histories(0);
    assert!(!area.undo() && !area.redo());
}

#[test]
fn read_only() {
    let mut area = TextArea::from(["one"]);
    assert!(!area.read_only());
    area.set_read_only(true);
    area.insert_char('x');
    assert!(!area.insert_str("x") && !area.delete_next_char() && !area.undo());
    area.select_all();
    assert!(area.read_only() && area.cut());
    assert_eq!(area.yank_text(), "one");
    assert_eq!(area.lines(), ["one"]);
    area.set_read_only(false);
    area.insert_char('x');
    assert_eq!(area.lines(), ["onex"]);
}

#[test]
fn single_line() {
    let mut area = TextArea::from(["one", "two"]);
    assert!(!area.single_line() && !area.set_single_line(true) && !area.single_line());
    area.set_lines(vec!["one".into()], (0, 0));
    assert!(area.set_single_line(true) && area.single_line());
    area.insert_newline();
    area.insert_char('\r');
    assert!(area.insert_pasted("a\r\nb"));
    assert_eq!(area.lines(), ["a bone"]);
    assert!(area.set_single_line(false));
    area.insert_newline();
    assert_eq!(area.lines(), ["a b", "one"]);
}

#[test]
fn max_chars() {
    let mut area = TextArea::from(["one"]);
    assert_eq!(area.max_chars(), None);
    area.set_max_chars(Some(6));
    assert_eq!(area.max_chars(), Some(6));
    assert!(area.insert_str("a\u{301}e\u{301}"));
    area.insert_str("xy");
    area.insert_char('y');
    assert!(!area.insert_tab());
    assert_eq!(area.lines(), ["a\u{301}xone"]);
    area.set_max_chars(None);
    area.insert_char('y');
    assert_eq!(area.lines(), ["a\u{301}xyone"]);
    area.set_max_chars(Some(0));
    assert_eq!(area.max_chars(), Some(0));
}

#[test]
fn cursor_unit() {
    let mut area = TextArea::from(["e\u{301}x"]);
    assert_eq!(area.cursor_unit(), CursorUnit::Character);
    area.move_cursor(CursorMove::Forward);
    assert_eq!(area.cursor(), (0, 1));
    area.set_cursor_unit(CursorUnit::Cluster);
    assert_eq!(area.cursor_unit(), CursorUnit::Cluster);
    assert_eq!(area.cursor(), (0, 2));
    area.set_search_pattern("e").unwrap();
    assert_eq!((area.match_count(), area.replace_all("a")), (0, 0));
    assert!(area.delete_char());
    assert_eq!(area.lines(), ["x"]);
}

#[test]
fn undo_groups() {
    let mut area = TextArea::from(["one"]);
    assert!(!area.undo_grouping());
    area.set_undo_grouping(true);
    area.select_all();
    area.insert_char('x');
    assert!(area.undo_grouping() && area.undo());
    assert_eq!(area.lines(), ["one"]);
    area.begin_undo_group();
    area.insert_newline();
    area.insert_char('y');
    area.end_undo_group();
    area.end_run();
    assert!(area.undo() && !area.undo() && area.redo());
    assert_eq!(area.lines(), ["one", "y"]);
}

#[test]
fn searches() {
    let mut area = TextArea::from(["one two", "one"]);
    assert_eq!(area.search_pattern(), None);
    assert!(!area.search_forward(true));
    area.set_search_pattern("o.e").unwrap();
    assert_eq!(area.search_pattern().unwrap().as_str(), "o.e");
    assert!(area.search_forward(false));
    assert_eq!(area.cursor(), (1, 0));
    assert!(area.search_back(false));
    assert_eq!(area.cursor(), (0, 0));
    let Err(SearchError::Pattern(why)) = area.set_search_pattern("(") else {
        panic!("a group must be closed");
    };
    assert!(!why.is_empty());
    assert_eq!(area.search_pattern().unwrap().as_str(), "o.e");
    area.set_search_pattern("").unwrap();
    assert_eq!(area.search_pattern(), None);
    area.set_search_text("ONE", true, true).unwrap();
    assert_eq!((area.match_count(), area.match_index()), (2, Some(0)));
    area.set_search_text("n.", false, false).unwrap();
    assert_eq!((area.match_count(), area.match_index()), (0, None));
}

#[test]
fn ranges() {
    let range = |row, start_col, end_col| AtomicRange {
        row,
        start_col,
        end_col,
    };
    let mut area = TextArea::from(["@one two", "three"]);
    area.set_atomic_ranges([range(1, 0, 5), range(0, 0, 4)]);
    assert_eq!(area.atomic_ranges(), [range(0, 0, 4), range(1, 0, 5)]);
    let error = area
        .try_set_atomic_ranges([range(0, 2, 2), range(7, 0, 1)])
        .unwrap_err();
    let reasons: Vec<_> = error
        .rejected
        .iter()
        .map(|rejected| rejected.reason)
        .collect();
    assert_eq!(
        reasons,
        [
            AtomicRangeRejectReason::Empty,
            AtomicRangeRejectReason::RowOutOfBounds
        ]
    );
    let (back, on) = (
        AtomicDeleteDirection::Backward,
        AtomicDeleteDirection::Forward,
    );
    assert_eq!(area.atomic_range_at_cursor(back), None);
    assert_eq!(area.atomic_range_at_cursor(on), Some(range(0, 0, 4)));
    assert!(!area.normalize_cursor_around_atomic_ranges(AtomicCursorBias::Forward));
    assert_eq!(area.delete_atomic_range_at_cursor(on), Some(range(0, 0, 4)));
    assert_eq!(area.lines(), [" two", "three"]);
    assert_eq!(area.atomic_ranges(), [range(1, 0, 5)]);
    assert!(!area.undo_ranges() && area.undo());
    assert_eq!(area.atomic_ranges(), [range(1, 0, 5)]);
    area.set_undo_ranges(true);
    area.set_atomic_ranges([range(0, 0, 4)]);
    assert!(area.undo_ranges());
    assert_eq!(
        area.delete_atomic_range_at_cursor(back),
        Some(range(0, 0, 4))
    );
    assert_eq!(area.atomic_ranges(), []);
    assert!(area.undo());
    assert_eq!(area.atomic_ranges(), [range(0, 0, 4)]);
    assert!(area.redo());
    assert_eq!(area.atomic_ranges(), []);
    area.clear_atomic_ranges();
    assert_eq!(area.atomic_ranges(), []);
}

#[test]
#[should_panic]
fn invalid_ranges_panic() {
    TextArea::default().set_atomic_ranges([AtomicRange {
        row: 0,
        start_col: 0,
        end_col: 1,
    }]);
}

#[test]
fn settings() {
    let mut area = TextArea::from(["one two three"]);
    assert_eq!(
        (area.tab_length(), area.hard_tab_indent(), area.indent()),
        (4, false, "    ")
    );
    area.set_tab_length(2);
    assert_eq!(area.indent(), "  ");
    area.set_hard_tab_indent(true);
    assert_eq!((area.tab_length(), area.indent()), (2, "\t"));
    for mode in [
        WrapMode::Glyph,
        WrapMode::WordOrGlyph,
        WrapMode::None,
        WrapMode::Word,
    ] {
        area.set_wrap_mode(mode);
        assert_eq!(area.wrap_mode(), mode);
    }
    let heights = area.measure(6);
    assert_eq!((heights.content_rows, heights.preferred_rows), (3, 3));
    let bold = Style::new()
        .fg(Color::Indexed(9))
        .add_modifier(Modifier::BOLD);
    assert_eq!(area.line_number_style(), None);
    area.set_line_number_style(bold);
    assert_eq!(area.line_number_style(), Some(bold));
    for alignment in [Alignment::Left, Alignment::Right, Alignment::Center] {
        area.set_alignment(alignment);
        assert_eq!(area.alignment(), alignment);
    }
    assert_eq!(area.line_number_style(), None);
    area.remove_line_number();
    area.set_min_rows(3);
    area.set_max_rows(0);
    assert_eq!((area.min_rows(), area.max_rows()), (3, 3));
}

#[test]
fn looks() {
    let mut area = TextArea::from(["one"]);
    let style = Style::new()
        .bg(Color::Rgb(1, 2, 3))
        .remove_modifier(Modifier::DIM);
    area.set_style(style);
    area.set_cursor_style(style.fg(Color::Red));
    area.set_cursor_line_style(style.fg(Color::White));
    area.set_selection_style(style.fg(Color::Reset));
    area.set_search_style(style.fg(Color::LightCyan));
    assert_eq!(area.style(), style);
    assert_eq!(area.cursor_style(), style.fg(Color::Red));
    assert_eq!(area.cursor_line_style(), style.fg(Color::White));
    assert_eq!(area.selection_style(), style.fg(Color::Reset));
    assert_eq!(area.search_style(), style.fg(Color::LightCyan));
    assert_eq!(area.mask_char(), None);
    area.set_mask_char('•');
    assert_eq!(area.mask_char(), Some('•'));
    area.set_cursor_render_mode(CursorRenderMode::Hidden);
    assert_eq!(area.cursor_render_mode(), CursorRenderMode::Hidden);
    area.custom_highlight(((0, 1), (0, 3)), Style::new().fg(Color::Green), 40);
    let place = Rect::new(0, 0, 5, 1);
    let mut buffer = Buffer::empty(place);
    (&area).render(place, &mut buffer);
    assert_eq!(
        (row_of(&buffer, 0), buffer[(1, 0)].fg),
        ("•••".to_string(), Color::Green)
    );
    area.clear_mask_char();
    area.clear_custom_highlight();
    (&area).render(place, &mut buffer);
    assert_eq!(
        (row_of(&buffer, 0), buffer[(1, 0)].fg),
        ("one".to_string(), Color::White)
    );
}

#[test]
fn surroundings() {
    let mut area = TextArea::default();
    let red = Style::new().fg(Color::Red);
    let title = Line::from(vec![Span::raw("a"), Span::styled("bc", red)]);
    let block = Block::bordered()
        .title(title)
        .padding(Padding::uniform(1))
        .border_style(red);
    assert_eq!(area.block(), None);
    area.set_block(block.clone());
    assert_eq!(area.block(), Some(&block));
    area.set_placeholder_text("say");
    assert_eq!(
        (area.placeholder_text(), area.placeholder().lines.len()),
        ("say", 1)
    );
    let place = Rect::new(2, 1, 9, 5);
    let mut buffer = Buffer::empty(Rect::new(0, 0, 12, 7));
    buffer[(0, 0)].set_symbol("é").set_fg(Color::Blue);
    (&area).render(place, &mut buffer);
    let rows: Vec<String> = (0..7).map(|y| row_of(&buffer, y)).collect();
    assert_eq!(rows[..3], ["é", "  ┌abc────┐", "  │       │"]);
    assert_eq!(rows[3], "  │  say  │");
    assert_eq!(
        (buffer[(0, 0)].fg, buffer[(4, 1)].fg),
        (Color::Blue, Color::Red)
    );
    area.remove_block();
    assert_eq!(area.block(), None);
    let text = Text::from(vec![Line::from("x").style(red), Line::from(vec![])]).style(red);
    area.set_styled_placeholder(text.clone());
    assert_eq!(
        (area.placeholder(), area.placeholder_style()),
        (&text, Some(red))
    );
    area.set_placeholder_style(red.bg(Color::Black));
    assert_eq!(area.placeholder_style(), Some(red.bg(Color::Black)));
    area.set_placeholder_text("");
    assert_eq!(area.placeholder_style(), None);
    assert_eq!(
        Block::new().borders(Borders::TOP).inner(place),
        Rect::new(2, 2, 9, 4)
    );
}

#[test]
fn drawing() {
    let mut area = TextArea::from(["one", "two"]);
    let place = Rect::new(10, 5, 8, 2);
    assert_eq!(area.rendered_cursor_position(), None);
    let mut buffer = Buffer::empty(place);
    (&area).render(place, &mut buffer);
    assert_eq!(
        (row_of(&buffer, 5), row_of(&buffer, 6)),
        ("one".into(), "two".into())
    );
    assert_eq!(area.rendered_cursor_position(), Some(Position::new(10, 5)));
    assert_eq!(area.cursor_at_position(Position::new(12, 6)), Some((1, 2)));
    assert_eq!(area.cursor_at_position(Position::new(9, 5)), None);
    assert!(buffer[(10, 5)].modifier.contains(Modifier::REVERSED));
    let long = "e\u{301}".to_string() + &"\u{301}".repeat(14);
    area.move_cursor(CursorMove::End);
    area.insert_str(&long);
    (&area).render(place, &mut buffer);
    assert_eq!(buffer[(13, 5)].symbol(), long);
    (&area).render(place, &mut buffer);
    assert_eq!(buffer[(13, 5)].symbol(), long);
}

#[test]
fn a_thousand_areas() {
    let mut areas: Vec<TextArea> = (0..1000).map(|i| TextArea::from([i.to_string()])).collect();
    areas.iter_mut().for_each(|area| area.insert_char('x'));
    assert!(
        areas
            .iter()
            .enumerate()
            .all(|(i, area)| area.lines() == [format!("x{i}")])
    );
}

#[test]
fn buffers_of_lines() {
    let buffer = Buffer::with_lines(["a犬b", "é"]);
    assert_eq!(buffer.area, Rect::new(0, 0, 4, 2));
    assert_eq!(
        (buffer[(1, 0)].symbol(), buffer[(3, 0)].symbol()),
        ("犬", "b")
    );
    let mut area = TextArea::from(["a犬b", "é"]);
    area.set_cursor_line_style(Style::new());
    area.set_cursor_render_mode(CursorRenderMode::Hidden);
    let mut drawn = Buffer::empty(buffer.area);
    #[allow(deprecated)]
    area.widget().render(buffer.area, &mut drawn);
    assert_eq!(drawn, buffer);
    drawn.set_string(3, 1, "xy", Style::new().fg(Color::Red));
    assert_eq!(
        (drawn[(3, 1)].symbol(), drawn[(3, 1)].fg),
        ("x", Color::Red)
    );
}

#[test]
fn colors_by_name() {
    for color in [
        "Reset",
        "black",
        "LIGHTCYAN",
        "White",
        "0",
        "255",
        "#00ff10",
    ] {
        let written = color.parse::<Color>().unwrap().to_string();
        assert!(written.eq_ignore_ascii_case(color), "{written}");
    }
    for text in [
        "",
        "lightreds",
        "256",
        "-1",
        "#00ff1",
        "#+0ff10",
        "#00ff100",
        "00ff10",
    ] {
        assert!(text.parse::<Color>().is_err(), "{text}");
    }
    assert_eq!(Modifier::from_bits_truncate(0xffff), Modifier::all());
}

// The paths of a program that is written for ratatui.
mod with_ratatuis_paths {
    use ratatui::buffer::Buffer;
    use ratatui::layout::Rect;
    use ratatui::style::{Color, Modifier, Style, Stylize};
    use ratatui::text::Line;
    use ratatui::widgets::{Block, Borders, Widget as _};
    use tui_textarea::TextArea;

    #[test]
    fn a_frame() {
        let mut area = TextArea::default();
        area.set_placeholder_text("name");
        area.set_placeholder_style(Style::default().fg(Color::DarkGray));
        area.set_block(Block::default().borders(Borders::ALL).title("Who?".bold()));
        area.set_cursor_line_style(Style::default());
        let place = Rect::new(0, 0, 8, 3);
        let mut buffer = Buffer::empty(place);
        area.render(place, &mut buffer);
        let rows = ["┌Who?──┐", "│ name │", "└──────┘"];
        for (y, row) in (0..).zip(rows) {
            let found: String = (0..8).map(|x| buffer[(x, y)].symbol()).collect();
            assert_eq!(found, row);
        }
        assert_eq!(buffer[(1, 0)].modifier, Modifier::BOLD);
        assert_eq!(buffer.cell((2, 1)).unwrap().fg, Color::DarkGray);
    }

    #[test]
    fn names_of_styles() {
        assert_eq!(Style::new().red().on_light_blue().bold(), {
            let style = Style::new().fg(Color::Red).bg(Color::LightBlue);
            style.add_modifier(Modifier::BOLD)
        });
        let line = Line::from(vec!["a".green(), String::from("b").not_dim()]);
        assert_eq!(line.spans[0].style, Style::from(Color::Green));
        assert_eq!(
            line.spans[1].style,
            Style::new().remove_modifier(Modifier::DIM)
        );
        assert_eq!(line.reversed().style, Style::from(Modifier::REVERSED));
    }
}
