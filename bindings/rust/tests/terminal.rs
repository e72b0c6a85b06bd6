//! Tests of a terminal: the bytes that it sends as events, and frames as the bytes that show them.

use std::time::Duration;
use tui_textarea::ratatui::buffer::{Buffer, Cell};
use tui_textarea::ratatui::layout::{Position, Rect};
use tui_textarea::ratatui::style::{Color, Modifier, Style};
use tui_textarea::ratatui::widgets::{Block, Widget};
use tui_textarea::terminal::{
    Colors, CursorShape, Event, Mouse, MouseButton, MouseKind, Terminal, cursor_shape_bytes,
    title_bytes,
};
use tui_textarea::{CursorMove, CursorRenderMode, Input, Key, TextArea, WrapMode};

const PLACE: Rect = Rect::new(0, 0, 10, 2);

fn events(terminal: &mut Terminal) -> Vec<Event> {
    std::iter::from_fn(|| terminal.event()).collect()
}

fn key(key: Key) -> Event {
    Event::Input(key.into())
}

#[test]
fn keys() {
    let mut terminal = Terminal::new(PLACE);
    assert_eq!(terminal.event(), None);
    terminal.feed("aé\x1b[1;5".as_bytes());
    terminal.feed(b"A\x1b[15~\r");
    let up = Event::Input(Input::from(Key::Up).ctrl());
    assert_eq!(
        events(&mut terminal),
        [
            key(Key::Char('a')),
            key(Key::Char('é')),
            up,
            key(Key::F(5)),
            key(Key::Enter)
        ]
    );
    terminal.feed(b"\x1b");
    assert_eq!(terminal.event(), None);
    terminal.idle(Duration::from_millis(50));
    assert_eq!(events(&mut terminal), [key(Key::Esc)]);
    terminal.set_console(true);
    terminal.feed(b"\x1b\t");
    assert_eq!(
        terminal.event(),
        Some(Event::Input(Input::from(Key::Tab).shift()))
    );
    terminal.feed(b"\x1b[12");
    terminal.idle(Duration::from_millis(4999));
    assert_eq!(terminal.event(), None);
    terminal.idle(Duration::MAX);
    assert_eq!(events(&mut terminal), [Event::Unknown]);
}

#[test]
fn all_keys() {
    let bytes = "\x7f\r\t\x1b[D\x1b[C\x1b[A\x1b[B\x1b[3~\x1b[H\x1b[F\x1b[5~\x1b[6~\x1b[<65;1;1M\x1b[<64;1;1M\x1b[2~";
    let mut terminal = Terminal::new(PLACE);
    terminal.feed(bytes.as_bytes());
    let keys = [
        Key::Backspace,
        Key::Enter,
        Key::Tab,
        Key::Left,
        Key::Right,
        Key::Up,
        Key::Down,
        Key::Delete,
        Key::Home,
        Key::End,
        Key::PageUp,
        Key::PageDown,
        Key::MouseScrollDown,
        Key::MouseScrollUp,
        Key::Null,
    ];
    assert_eq!(events(&mut terminal), keys.map(key));
}

#[test]
fn reports() {
    let mut terminal = Terminal::new(PLACE);
    let long = "é".repeat(3000);
    terminal.feed(format!("\x1b[200~{long}\x1b[201~").as_bytes());
    terminal.feed(b"\x1b[<18;3;4M\x1b[<0;1;2m\x1b[<128;1;1M\x1b[I\x1b[O");
    let mouse = |kind, column, row, ctrl| {
        Event::Mouse(Mouse {
            kind,
            column,
            row,
            ctrl,
            alt: false,
            shift: false,
        })
    };
    assert_eq!(
        events(&mut terminal),
        [
            Event::Paste(long),
            mouse(MouseKind::Press(MouseButton::Right), 2, 3, true),
            mouse(MouseKind::Release(MouseButton::Left), 0, 1, false),
            mouse(MouseKind::Press(MouseButton::Other(8)), 0, 0, false),
            Event::FocusGained,
            Event::FocusLost,
        ]
    );
    terminal.asked();
    terminal.set_resizes(true);
    terminal.feed(b"\x1b[8;24;80t\x1b[?3;7R");
    let (columns, rows, column, row) = (80, 24, 6, 2);
    assert_eq!(
        events(&mut terminal),
        [Event::Size { columns, rows }, Event::Cursor { column, row }]
    );
}

#[test]
fn frames() {
    let (mut terminal, area) = (Terminal::new(PLACE), TextArea::from(["one", "two"]));
    let mut buffer = Buffer::empty(PLACE);
    (&area).render(PLACE, &mut buffer);
    let text = |bytes: Vec<u8>| String::from_utf8(bytes).unwrap();
    let caret = area.rendered_cursor_position();
    let first = text(terminal.paint(&buffer, caret));
    assert!(first.contains("ne") && first.contains("two"));
    assert_eq!(terminal.paint(&buffer, caret), []);
    assert!(text(terminal.paint(&buffer, Some(Position::new(3, 1)))).contains("\x1b[2;4H"));
    assert!(text(terminal.paint(&buffer, None)).contains("\x1b[?25l"));
    terminal.reset();
    assert!(text(terminal.paint(&buffer, None)).contains("two"));
    buffer.set_style(PLACE, Style::new().fg(Color::Rgb(255, 0, 0)));
    assert!(text(terminal.paint(&buffer, None)).contains("38;2;255;0;0"));
    terminal.set_colors(Colors::Sixteen);
    assert!(!text(terminal.paint(&buffer, None)).contains("38;2"));
    terminal.resize(Rect::new(0, 1, 3, 1));
    let shown = text(terminal.paint(&buffer, Some(Position::new(1, 1))));
    assert!(shown.contains("two") && !shown.contains("one") && shown.contains("\x1b[1;2H"));
    let smaller = Buffer::empty(Rect::new(0, 1, 1, 1));
    assert!(!text(terminal.paint(&smaller, None)).contains("two"));
}

/// Text areas of several looks.
fn text_areas() -> Vec<TextArea<'static>> {
    let lines = [
        "one two three four five",
        "wide 漢字 and e\u{301}",
        "\ttab",
        "",
        "end",
    ];
    let areas = std::iter::repeat_with(|| TextArea::from(lines)).take(5);
    let mut areas: Vec<TextArea> = areas.chain([TextArea::default()]).collect();
    areas[1].set_wrap_mode(WrapMode::Word);
    areas[1].set_cursor_render_mode(CursorRenderMode::Hidden);
    areas[2].set_block(Block::bordered().title("title"));
    areas[2].set_line_number_style(Style::new().fg(Color::Indexed(7)));
    areas[3].set_wrap_mode(WrapMode::Glyph);
    areas[3].select_all();
    areas[4].set_cursor_render_mode(CursorRenderMode::Hidden);
    areas[4].set_style(Style::new().bg(Color::Rgb(1, 2, 3)));
    areas[5].set_placeholder_text("nothing yet");
    areas
}

/// The bytes of a text area in a frame, by a buffer that has the terminal's area.
fn paint_by_buffer(
    terminal: &mut Terminal,
    whole: Rect,
    text_area: &TextArea,
    area: Rect,
) -> Vec<u8> {
    let mut buffer = Buffer::empty(whole);
    text_area.render(area, &mut buffer);
    let has_caret = text_area.cursor_render_mode() == CursorRenderMode::Hidden;
    let caret = text_area.rendered_cursor_position();
    terminal.paint(&buffer, caret.filter(|_| has_caret))
}

#[test]
fn cells_with_long_texts() {
    for marks in 0..20 {
        let cluster = format!("e{}", "\u{301}".repeat(marks));
        let text_area = TextArea::from([format!("a{cluster}")]);
        let mut buffer = Buffer::empty(PLACE);
        text_area.render(PLACE, &mut buffer);
        assert_eq!(buffer[(1, 0)].symbol(), cluster);
        let expected = Cell::new(&cluster).set_style(Modifier::UNDERLINED).clone();
        assert_eq!(buffer[(1, 0)], expected);
        let shown = String::from_utf8(Terminal::new(PLACE).paint(&buffer, None)).unwrap();
        assert!(shown.contains(&cluster));
        let bytes = Terminal::new(PLACE).paint_text_area(&text_area, PLACE);
        assert!(String::from_utf8(bytes).unwrap().contains(&cluster));
    }
}

#[test]
fn text_areas_without_buffer() {
    let whole = Rect::new(3, 2, 20, 6);
    let places = [
        whole,
        Rect::new(5, 3, 9, 2),
        Rect::new(0, 0, 12, 4),
        Rect::new(15, 5, 40, 40),
        Rect::new(60, 60, 5, 5),
        Rect::ZERO,
        Rect::new(0, 0, u16::MAX, u16::MAX),
        Rect::new(22, 2, 1, 6),
    ];
    let (mut direct, mut by_buffer) = (Terminal::new(whole), Terminal::new(whole));
    for mut text_area in text_areas() {
        for (step, area) in places.into_iter().cycle().take(40).enumerate() {
            let bytes = direct.paint_text_area(&text_area, area);
            let expected = paint_by_buffer(&mut by_buffer, whole, &text_area, area);
            assert_eq!(bytes, expected, "step {step}, {area:?}, {text_area:?}");
            assert_eq!(direct.paint_text_area(&text_area, area), []);
            match step % 5 {
                0 => text_area.move_cursor(CursorMove::Down),
                1 => text_area.insert_char('字'),
                2 => text_area.move_cursor(CursorMove::WordForward),
                3 => text_area.insert_newline(),
                _ => _ = text_area.delete_char(),
            }
        }
    }
    let text_area = TextArea::from(["a longer line than before", "two"]);
    for whole in [Rect::new(3, 2, 7, 3), Rect::new(1, 1, 30, 9)] {
        direct.resize(whole);
        by_buffer.resize(whole);
        let bytes = direct.paint_text_area(&text_area, whole);
        let expected = paint_by_buffer(&mut by_buffer, whole, &text_area, whole);
        assert_eq!(bytes, expected);
    }
}

#[test]
fn caret_of_a_text_area() {
    let (mut terminal, mut text_area) = (Terminal::new(PLACE), TextArea::from(["one"]));
    let text = |bytes: Vec<u8>| String::from_utf8(bytes).unwrap();
    text_area.move_cursor(CursorMove::End);
    assert!(!text(terminal.paint_text_area(&text_area, PLACE)).contains("\x1b[?25h"));
    text_area.set_cursor_render_mode(CursorRenderMode::Hidden);
    assert!(text(terminal.paint_text_area(&text_area, PLACE)).contains("\x1b[?25h"));
    text_area.set_cursor_render_mode(CursorRenderMode::Cell);
    assert!(text(terminal.paint_text_area(&text_area, PLACE)).contains("\x1b[?25l"));
}

#[test]
fn frames_do_not_depend_on_earlier_ones() {
    let long = "e\u{301}".repeat(20);
    let looks = [
        Style::new(),
        Style::new().fg(Color::Red).add_modifier(Modifier::BOLD),
        Style::new().bg(Color::Rgb(1, 2, 3)),
        Style::new().add_modifier(Modifier::all()),
    ];
    let symbols = [
        " ",
        "a",
        "é",
        "漢",
        "",
        "0123456789012345678901",
        long.as_str(),
    ];
    let mut later = Terminal::new(PLACE);
    let mut number = 1_u32;
    let mut next = |count: usize| {
        number = number.wrapping_mul(1_103_515_245).wrapping_add(12345);
        (number >> 16) as usize % count
    };
    for _ in 0..200 {
        let (x, y, width) = (next(2) as u16, next(2) as u16, 9 + next(2) as u16);
        let mut buffer = Buffer::empty(Rect::new(x, y, width, 2));
        for cell in &mut buffer.content {
            cell.set_symbol(symbols[next(symbols.len())]);
            cell.set_style(looks[next(looks.len())]);
        }
        later.reset();
        let caret = Some(Position::new(1, 1));
        assert_eq!(
            later.paint(&buffer, caret),
            Terminal::new(PLACE).paint(&buffer, caret)
        );
    }
}

#[test]
fn cursor_shapes() {
    let shapes = [
        CursorShape::Default,
        CursorShape::BlinkingBlock,
        CursorShape::Block,
        CursorShape::BlinkingUnderline,
        CursorShape::Underline,
        CursorShape::BlinkingBar,
        CursorShape::Bar,
    ];
    for (number, shape) in shapes.into_iter().enumerate() {
        let bytes = format!("\x1b[{number} q");
        assert_eq!(cursor_shape_bytes(shape), bytes.as_bytes(), "{shape:?}");
    }
}

#[test]
fn titles() {
    let shown = title_bytes("a\x07b\u{9c}\x1b漢");
    assert_eq!(shown, "\x1b]2;ab漢\x1b\\".as_bytes());
    assert_eq!(title_bytes(""), b"\x1b]2;\x1b\\");
    let long = "x".repeat(3000);
    let bytes = format!("\x1b]2;{long}\x1b\\");
    assert_eq!(title_bytes(&long), bytes.as_bytes());
}
