//! A message with mentions: tokens that the cursor jumps over, and that are deleted as a whole. An at
//! sign inserts the next mention, and Esc ends the program.

mod screen;

use crossterm::event::Event;
use screen::{Frame, Program};
use tui::style::{Color, Modifier, Style};
use tui::widgets::{Block, Borders};
use tui_textarea::{AtomicRange, Input, Key, TextArea};

const NAMES: [&str; 3] = ["@Ada", "@Alan", "@Grace"];

struct Composer {
    area: TextArea<'static>,
}

impl Composer {
    fn new() -> Composer {
        let mut area = TextArea::default();
        area.set_block(Block::default().borders(Borders::ALL));
        area.set_cursor_line_style(Style::default());
        area.set_undo_ranges(true);
        Composer { area }
    }

    /// Inserts a name as a mention.
    fn mention(&mut self, name: &str) {
        self.area.insert_str(name);
        let (row, end_col) = self.area.cursor();
        let start_col = end_col - name.chars().count();
        let mention = AtomicRange {
            row,
            start_col,
            end_col,
        };
        let mut ranges = self.area.atomic_ranges().to_vec();
        ranges.push(mention);
        self.area.set_atomic_ranges(ranges);
    }

    /// Lights the mentions.
    fn light(&mut self) {
        let blue = Style::default().fg(Color::LightBlue);
        let style = blue.add_modifier(Modifier::BOLD);
        self.area.clear_custom_highlight();
        for range in self.area.atomic_ranges().to_vec() {
            let line = &self.area.lines()[range.row];
            let byte = |column| {
                let found = line.char_indices().nth(column);
                found.map_or(line.len(), |(byte, _)| byte)
            };
            let (start, end) = (byte(range.start_col), byte(range.end_col));
            let lit = ((range.row, start), (range.row, end));
            self.area.custom_highlight(lit, style, 5);
        }
    }
}

impl Program for Composer {
    fn take(&mut self, event: Event) -> bool {
        let input = Input::from(event);
        match input.key {
            Key::Esc => return false,
            Key::Char('@') => self.mention(NAMES[self.area.atomic_ranges().len() % NAMES.len()]),
            _ => drop(self.area.input(input)),
        }
        true
    }

    fn draw(&mut self, frame: &mut Frame) {
        self.light();
        frame.render_widget(&self.area, frame.size());
    }
}

fn main() -> std::io::Result<()> {
    screen::run(Composer::new())
}
