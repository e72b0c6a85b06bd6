//! Prints what calls cost from Rust, in nanoseconds of processor time: the least of five rounds.

use std::ffi::c_long;
use std::hint::black_box;
use tui_textarea::TextArea;
use tui_textarea::ratatui::{buffer::Buffer, layout::Rect, widgets::Widget};
use tui_textarea::terminal::{Event, Terminal};

const PLACE: Rect = Rect::new(0, 0, 80, 24);

unsafe extern "C" {
    /// The processor time of the process, in microseconds.
    safe fn clock() -> c_long;
}

fn cost(name: &str, count: u32, mut call: impl FnMut()) {
    let least = (0..5)
        .map(|_| {
            let start = clock();
            (0..count).for_each(|_| call());
            (clock() - start) as f64 * 1000.0 / f64::from(count)
        })
        .fold(f64::INFINITY, f64::min);
    println!("{name:<28} {least:10.1}");
}

/// Decodes the byte of a key and gives the text area its input.
fn take(terminal: &mut Terminal, area: &mut TextArea, byte: u8) {
    terminal.feed(&[byte]);
    while let Some(event) = terminal.event() {
        if let Event::Input(input) = event {
            area.input(input);
        }
    }
}

/// A key: its byte is decoded, the input is taken, the text area drawn, and the frame painted.
fn key_to_frame(terminal: &mut Terminal, area: &mut TextArea, byte: u8) -> usize {
    take(terminal, area, byte);
    terminal.paint_text_area(area, PLACE).len()
}

/// The same, by a buffer.
fn key_to_buffer(
    terminal: &mut Terminal,
    area: &mut TextArea,
    buffer: &mut Buffer,
    byte: u8,
) -> usize {
    take(terminal, area, byte);
    buffer.reset();
    (&*area).render(PLACE, buffer);
    terminal
        .paint(buffer, area.rendered_cursor_position())
        .len()
}

fn main() {
    let mut area = TextArea::from(["one two three", "four"]);
    cost("cursor", 2_000_000, || {
        black_box(area.cursor());
    });
    cost("is_empty", 2_000_000, || {
        black_box(area.is_empty());
    });
    cost("insert_char", 20_000, || area.insert_char('a'));
    let mut area = TextArea::from(["one two three", "four"]);
    let mut terminal = Terminal::new(PLACE);
    let mut keys = [b'x', 0x7f].into_iter().cycle();
    cost("a key and its frame, bytes", 2_000, || {
        let byte = keys.next().unwrap_or(b'x');
        black_box(key_to_frame(&mut terminal, &mut area, byte));
    });
    let mut buffer = Buffer::empty(PLACE);
    cost("the same, by a buffer", 2_000, || {
        let byte = keys.next().unwrap_or(b'x');
        black_box(key_to_buffer(&mut terminal, &mut area, &mut buffer, byte));
    });
}
