//! Random frames of the library tui, compared cell by cell with those of this crate's own buffer.
#![cfg(feature = "tui")]

mod pairs;
mod random;

use pairs::{alignment, block, style, text};
use random::Random;
use tui::Terminal;
use tui::backend::TestBackend;
use tui_textarea::ratatui::buffer::{Buffer, Cell};
use tui_textarea::ratatui::layout::Rect;
use tui_textarea::ratatui::style::Style;
use tui_textarea::ratatui::widgets::Widget;
use tui_textarea::terminal;
use tui_textarea::{CursorMove, CursorRenderMode, TextArea, WrapMode};

const FRAMES: u64 = 2_000;

/// One text area by this crate's types, and one by those of tui.
struct Pair {
    own: TextArea<'static>,
    tui: TextArea<'static>,
}

impl Pair {
    fn new(random: &mut Random) -> Pair {
        let lines: Vec<String> = (0..random.below(6)).map(|_| random.line()).collect();
        let mut pair = Pair {
            own: TextArea::new(lines.clone()),
            tui: TextArea::new(lines),
        };
        pair.edit(random);
        pair.set_up(random);
        pair.dress(random);
        pair
    }

    fn each(&mut self, call: impl Fn(&mut TextArea<'static>)) {
        call(&mut self.own);
        call(&mut self.tui);
    }

    fn edit(&mut self, random: &mut Random) {
        for _ in 0..random.below(5) {
            let (row, column) = (random.below(6), random.below(20));
            match random.below(4) {
                0 => self.each(|area| area.go_to((row, column))),
                1 => self.each(TextArea::start_selection),
                2 => self.each(|area| area.move_cursor(CursorMove::WordForward)),
                _ => {
                    let line = random.line();
                    self.each(|area| {
                        area.insert_str(&line);
                    });
                }
            }
        }
    }

    fn set_up(&mut self, random: &mut Random) {
        let modes = [
            WrapMode::None,
            WrapMode::Word,
            WrapMode::Glyph,
            WrapMode::WordOrGlyph,
        ];
        let mode = modes[random.below(4)];
        self.each(|area| area.set_wrap_mode(mode));
        if random.one_of(3) {
            let (own, tui) = alignment(random);
            self.own.set_alignment(own);
            self.tui.set_alignment(tui);
        }
        if random.one_of(3) {
            self.each(|area| area.set_search_pattern("o|犬").unwrap());
        }
        if random.one_of(8) {
            self.each(|area| area.set_mask_char('•'));
        }
        if random.one_of(4) {
            self.each(|area| area.set_cursor_render_mode(CursorRenderMode::Hidden));
        }
    }

    fn dress(&mut self, random: &mut Random) {
        macro_rules! style_by {
            ($($setter:ident)*) => {
                $(if random.one_of(3) {
                    let (own, tui) = style(random);
                    self.own.$setter(own);
                    self.tui.$setter(tui);
                })*
            };
        }
        style_by! {
            set_style set_cursor_style set_cursor_line_style set_selection_style set_search_style
            set_placeholder_style set_line_number_style
        }
        if random.one_of(2) {
            let (own, tui) = block(random);
            self.own.set_block(own);
            self.tui.set_block(tui);
        }
        if random.one_of(3) {
            let (own, tui) = text(random);
            self.own.set_styled_placeholder(own);
            self.tui.set_styled_placeholder(tui);
        }
        if random.one_of(4) {
            let (own, tui) = style(random);
            let (start, end) = (random.below(4), 4 + random.below(9));
            let range = ((0, start), (0, end));
            self.own.custom_highlight(range, own, 15);
            self.tui.custom_highlight(range, tui, 15);
        }
    }
}

/// The same cells under both text areas.
struct Below<'a>(&'a Buffer);

impl tui::widgets::Widget for Below<'_> {
    fn render(self, area: tui::layout::Rect, buf: &mut tui::buffer::Buffer) {
        for y in area.top()..area.bottom() {
            for x in area.left()..area.right() {
                let cell = &self.0[(x, y)];
                let style = tui::style::Style::from(cell.style());
                buf.get_mut(x, y).set_symbol(cell.symbol()).set_style(style);
            }
        }
    }
}

fn below(screen: Rect, random: &mut Random) -> Buffer {
    let mut buffer = Buffer::empty(screen);
    for cell in &mut buffer.content {
        if random.one_of(4) {
            cell.set_symbol(["x", "é", " "][random.below(3)]);
            cell.set_style(style(random).0);
        }
    }
    buffer
}

fn assert_same(found: &tui::buffer::Cell, own: &Cell, place: (u64, u16, u16)) {
    let (found, own) = (
        (&*found.symbol, tui::style::Style::from(own.style())),
        (own.symbol(), found.style()),
    );
    assert_eq!((found.0, own.1), (own.0, found.1), "frame, x, y: {place:?}");
}

#[test]
fn frames() {
    let random = &mut Random(0x9e3779b97f4a7c15);
    let mut terminal = Terminal::new(TestBackend::new(1, 1)).unwrap();
    for frame in 0..FRAMES {
        if frame % 10 == 0 {
            let (width, height) = (1 + random.below(40) as u16, 1 + random.below(12) as u16);
            terminal = Terminal::new(TestBackend::new(width, height)).unwrap();
        }
        let screen = Rect::from(terminal.size().unwrap());
        let area = random.area(screen);
        let pair = Pair::new(random);
        let mut buffer = below(screen, random);
        let drawn = terminal
            .draw(|frame| {
                frame.render_widget(Below(&buffer), screen.into());
                frame.render_widget(&pair.tui, area.into());
            })
            .unwrap();
        Widget::render(&pair.own, area, &mut buffer);
        for y in 0..screen.height {
            for x in 0..screen.width {
                assert_same(drawn.buffer.get(x, y), &buffer[(x, y)], (frame, x, y));
            }
        }
        // The cell after a wide symbol is not sent to a terminal.
        let shown = terminal.backend().buffer();
        for y in 0..screen.height {
            for x in 0..screen.width {
                if x == 0 || buffer[(x - 1, y)].symbol().len() == 1 {
                    assert_same(shown.get(x, y), &buffer[(x, y)], (frame, x, y));
                }
            }
        }
        assert_eq!(
            pair.own.rendered_cursor_position(),
            pair.tui.rendered_cursor_position()
        );
    }
}

#[test]
fn calls_for_cells() {
    let random = &mut Random(7);
    for _ in 0..500 {
        let pair = Pair::new(random);
        let area = Rect::new(
            random.below(9) as u16,
            random.below(9) as u16,
            random.below(30) as u16,
            random.below(9) as u16,
        );
        for text_area in [&pair.own, &pair.tui] {
            let mut buffer = Buffer::empty(area);
            Widget::render(text_area, area, &mut buffer);
            let (mut by_calls, mut places) = (Buffer::empty(area), Vec::new());
            text_area.render_with(area, |x, y, symbol, style: Style| {
                by_calls[(x, y)].set_symbol(symbol).set_style(style);
                places.push((y, x));
            });
            assert_eq!(by_calls, buffer);
            assert!(places.is_sorted() && places.len() == buffer.content.len());
        }
    }
}

#[test]
fn frames_without_buffer() {
    let random = &mut Random(11);
    for _ in 0..500 {
        let pair = Pair::new(random);
        let (width, height) = (1 + random.below(30) as u16, 1 + random.below(9) as u16);
        let screen = Rect::new(2, 1, width, height);
        let area = random.area(screen);
        for text_area in [&pair.own, &pair.tui] {
            let mut buffer = Buffer::empty(screen);
            Widget::render(text_area, area, &mut buffer);
            let has_caret = text_area.cursor_render_mode() == CursorRenderMode::Hidden;
            let caret = text_area.rendered_cursor_position();
            let bytes = terminal::Terminal::new(screen).paint_text_area(text_area, area);
            let caret = caret.filter(|_| has_caret);
            assert_eq!(bytes, terminal::Terminal::new(screen).paint(&buffer, caret));
        }
    }
}

#[test]
fn placeholders() {
    use tui::text::{Span, Spans, Text};
    let red = tui::style::Style::default().fg(tui::style::Color::Red);
    let mut area = TextArea::default();
    area.set_styled_placeholder(Span::styled("name", red));
    let found = area.placeholder().clone();
    assert_eq!(found.lines.len(), 1);
    assert_eq!(found.lines[0].spans[0].content, "name");
    assert_eq!(found.lines[0].spans[0].style, red.into());
    area.set_styled_placeholder(Spans::from(Span::styled("name", red)));
    assert_eq!(*area.placeholder(), found);
    area.set_styled_placeholder(Text::styled("name", red));
    assert_eq!(*area.placeholder(), found);
}

#[test]
fn a_block_of_tui_stays() {
    use tui::widgets::{Block, BorderType, Borders};
    let block = Block::default()
        .borders(Borders::ALL)
        .border_type(BorderType::Double)
        .title("who")
        .title_alignment(tui::layout::Alignment::Right);
    let mut area = TextArea::from(["one"]);
    area.set_block(block.clone());
    assert_eq!(area.block(), Some(&block.clone().into()));
    assert_eq!(area.measure(20).preferred_rows, 3);
    let place = tui::layout::Rect::new(2, 1, 9, 3);
    let mut buffer = tui::buffer::Buffer::empty(tui::layout::Rect::new(0, 0, 12, 5));
    tui::widgets::Widget::render(&area, place, &mut buffer);
    let rows: Vec<String> = (0..5)
        .map(|y| (0..12).map(|x| &*buffer.get(x, y).symbol).collect())
        .collect();
    let wanted = [
        "            ",
        "  ╔════who╗ ",
        "  ║one    ║ ",
        "  ╚═══════╝ ",
        "            ",
    ];
    assert_eq!(rows, wanted);
    area.set_block(tui_textarea::ratatui::widgets::Block::bordered());
    assert_ne!(area.block(), Some(&block.clone().into()));
    area.set_block(block);
    area.remove_block();
    assert_eq!(area.block(), None);
}
