//! A field in the middle of the screen, with a placeholder in two styles. Enter and Esc end the program.

mod screen;

use crossterm::event::Event;
use screen::{Frame, Program};
use tui::layout::Rect;
use tui::style::{Color, Modifier, Style};
use tui::text::{Span, Spans};
use tui_textarea::ratatui::widgets::{Block, Padding};
use tui_textarea::{Input, Key, TextArea};

struct Popup {
    area: TextArea<'static>,
}

impl Popup {
    fn new() -> Popup {
        let gray = Style::default().fg(Color::DarkGray);
        let yellow = Style::default().fg(Color::Yellow);
        let placeholder = Spans::from(vec![
            Span::styled("Press ", gray),
            Span::styled("Enter", yellow.add_modifier(Modifier::BOLD)),
            Span::styled(" to go on", gray),
        ]);
        let mut area = TextArea::default();
        area.set_styled_placeholder(placeholder);
        // A block of tui has no padding, but one of the text area has.
        let block = Block::bordered().title(" Your name ");
        area.set_block(block.padding(Padding::horizontal(1)));
        area.set_cursor_line_style(Style::default());
        Popup { area }
    }
}

impl Program for Popup {
    fn take(&mut self, event: Event) -> bool {
        let input = Input::from(event);
        if matches!(input.key, Key::Esc | Key::Enter) {
            return false;
        }
        self.area.input(input);
        true
    }

    fn draw(&mut self, frame: &mut Frame) {
        let screen = frame.size();
        let width = screen.width.min(28);
        let height = screen.height.min(3);
        let place = Rect {
            x: (screen.width - width) / 2,
            y: (screen.height - height) / 2,
            width,
            height,
        };
        frame.render_widget(&self.area, place);
    }
}

fn main() -> std::io::Result<()> {
    screen::run(Popup::new())
}
