//! A prompt that grows with its text, up to five rows, and then scrolls; above it what was sent.
//! Enter sends the text, Alt with Enter breaks the line, and Esc ends the program.

mod screen;

use crossterm::event::Event;
use screen::{Frame, Program};
use tui::layout::Rect;
use tui::style::{Color, Style};
use tui::widgets::{Block, Borders};
use tui_textarea::{CursorMove, Input, Key, TextArea, WrapMode};

/// The most rows of text that are visible.
const MOST_ROWS: u16 = 5;

struct Prompt {
    area: TextArea<'static>,
    sent: TextArea<'static>,
}

impl Prompt {
    fn new() -> Prompt {
        let cyan = Style::default().fg(Color::Cyan);
        let mut area = TextArea::default();
        area.set_block(Block::default().borders(Borders::ALL).border_style(cyan));
        area.set_max_rows(MOST_ROWS + 2);
        area.set_cursor_line_style(Style::default());
        area.set_placeholder_style(Style::default().fg(Color::DarkGray));
        area.set_placeholder_text("Ask anything");
        area.set_wrap_mode(WrapMode::Word);
        // What was sent has no cursor that shows.
        let mut sent = TextArea::default();
        sent.set_cursor_style(Style::default());
        sent.set_cursor_line_style(Style::default());
        sent.set_wrap_mode(WrapMode::Word);
        Prompt { area, sent }
    }

    /// Sends the text, and empties the prompt.
    fn send(&mut self) {
        if !self.area.is_empty() {
            self.sent.move_cursor(CursorMove::Bottom);
            self.sent.move_cursor(CursorMove::End);
            self.sent.insert_newline();
            self.sent.insert_str(self.area.text());
        }
        self.area.clear();
    }
}

impl Program for Prompt {
    fn take(&mut self, event: Event) -> bool {
        // A terminal pastes line ends as carriage returns.
        if let Event::Paste(text) = event {
            self.area.insert_pasted(text);
            return true;
        }
        match Input::from(event) {
            Input { key: Key::Esc, .. } => return false,
            Input {
                key: Key::Enter,
                alt: false,
                ..
            } => self.send(),
            input => drop(self.area.input(input)),
        }
        true
    }

    fn draw(&mut self, frame: &mut Frame) {
        let screen = frame.size();
        let height = self.area.measure(screen.width).preferred_rows;
        let height = height.min(screen.height);
        let above = Rect {
            height: screen.height - height,
            ..screen
        };
        let below = Rect {
            y: above.bottom(),
            height,
            ..screen
        };
        frame.render_widget(&self.sent, above);
        frame.render_widget(&self.area, below);
    }
}

fn main() -> std::io::Result<()> {
    screen::run(Prompt::new())
}
