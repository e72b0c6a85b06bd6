//! A search whose matches are lit and counted while its pattern is typed, and replaced by what is typed
//! beside it. Enter and Down go to the next match, Up to the previous one, Tab to the other field, and
//! Esc ends the program. In the field for the replacement Enter replaces the match at the cursor, and
//! Alt with Enter each match.

mod screen;

use crossterm::event::Event;
use screen::{Frame, Program};
use tui::layout::Rect;
use tui::style::{Color, Modifier, Style};
use tui::widgets::{Block, Borders};
use tui_textarea::{Input, Key, TextArea};

const POEM: &str = "The sea was calm, the sea was wide,\nand on the shore the seals would hide;\n\
    they saw a sail, they saw it pass,\nas green as seaweed, smooth as glass.";

// The columns of the field for what replaces a match.
const COLUMNS: u16 = 14;

struct Finder {
    text: TextArea<'static>,
    pattern: TextArea<'static>,
    replacement: TextArea<'static>,
    /// Whether the keys go to the replacement.
    is_replacing: bool,
}

/// An empty text area in a block with this title.
fn field(title: &'static str) -> TextArea<'static> {
    let mut field = TextArea::default();
    field.set_block(Block::default().borders(Borders::ALL).title(title));
    field.set_cursor_line_style(Style::default());
    field
}

/// The style of a cursor, which is visible only with the focus.
fn cursor_style(has_focus: bool) -> Style {
    match has_focus {
        true => Style::default().add_modifier(Modifier::REVERSED),
        false => Style::default(),
    }
}

impl Finder {
    fn new() -> Finder {
        let mut text = TextArea::from_text(POEM);
        text.set_search_style(Style::default().fg(Color::Black).bg(Color::Yellow));
        text.set_cursor_line_style(Style::default());
        Finder {
            text,
            pattern: field(" Find "),
            replacement: field(" Replace by "),
            is_replacing: false,
        }
    }

    /// Edits the pattern, and goes to its next match.
    fn edit(&mut self, input: Input) {
        self.pattern.input(input);
        if self.text.set_search_pattern(&self.pattern.lines()[0]).is_err() {
            let _ = self.text.set_search_pattern("");
        }
        self.text.search_forward(true);
    }

    /// Replaces the match at the cursor, or each.
    fn replace(&mut self, all: bool) {
        let replacement = &self.replacement.lines()[0];
        match all {
            true => drop(self.text.replace_all(replacement)),
            false => drop(self.text.replace_match(replacement)),
        }
    }

    /// Says which of how many matches the cursor is at.
    fn found(&self) -> String {
        let count = self.text.match_count();
        match self.text.match_index() {
            Some(index) => format!(": {} of {count}", index + 1),
            None if count > 0 => format!(": {count}"),
            None if self.text.search_pattern().is_some() => ": no match".to_string(),
            None if self.pattern.is_empty() => String::new(),
            None => ": this is no pattern".to_string(),
        }
    }
}

impl Program for Finder {
    fn take(&mut self, event: Event) -> bool {
        let input = Input::from(event);
        match input.key {
            Key::Esc => return false,
            Key::Tab => self.is_replacing = !self.is_replacing,
            Key::Enter if self.is_replacing => self.replace(input.alt),
            Key::Enter | Key::Down => drop(self.text.search_forward(false)),
            Key::Up => drop(self.text.search_back(false)),
            _ if self.is_replacing => drop(self.replacement.input(input)),
            _ => self.edit(input),
        }
        true
    }

    fn draw(&mut self, frame: &mut Frame) {
        let screen = frame.size();
        let above = Rect {
            height: screen.height.saturating_sub(3),
            ..screen
        };
        let left = Rect {
            y: above.bottom(),
            width: screen.width.saturating_sub(COLUMNS),
            height: screen.height - above.height,
            ..screen
        };
        let right = Rect {
            x: left.right(),
            width: screen.width - left.width,
            ..left
        };
        let title = format!(" Find{} ", self.found());
        let block = Block::default().borders(Borders::ALL).title(title);
        self.pattern.set_block(block);
        self.pattern
            .set_cursor_style(cursor_style(!self.is_replacing));
        self.replacement
            .set_cursor_style(cursor_style(self.is_replacing));
        frame.render_widget(&self.text, above);
        frame.render_widget(&self.pattern, left);
        frame.render_widget(&self.replacement, right);
    }
}

fn main() -> std::io::Result<()> {
    screen::run(Finder::new())
}
