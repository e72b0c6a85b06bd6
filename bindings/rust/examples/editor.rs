//! An editor with line numbers, soft wrap, a lit cursor line, a selection and a status. A click moves
//! the cursor, a drag selects, and Esc ends the program.

mod screen;

use crossterm::event::{Event, MouseButton, MouseEvent, MouseEventKind};
use screen::{Frame, Program};
use tui::layout::Rect;
use tui::style::{Color, Modifier, Style};
use tui::widgets::Block;
use tui_textarea::{CursorUnit, Input, Key, TextArea, WrapMode};

const TEXT: &str = "# Notes\n\nA line that is longer than the screen goes on in the next row, \
    and has one number.\n\n- 漢字 and other wide characters\n- a selection from here to there";

struct Editor {
    area: TextArea<'static>,
    is_changed: bool,
}

impl Editor {
    fn new() -> Editor {
        let mut area = TextArea::from_text(TEXT);
        area.set_cursor_line_style(Style::default().bg(Color::DarkGray));
        area.set_selection_style(Style::default().fg(Color::Black).bg(Color::Cyan));
        area.set_cursor_unit(CursorUnit::Cluster);
        area.set_line_number_style(Style::default().fg(Color::DarkGray));
        area.set_wrap_mode(WrapMode::Word);
        Editor {
            area,
            is_changed: false,
        }
    }

    fn take_mouse(&mut self, mouse: MouseEvent) {
        let place = (mouse.column, mouse.row).into();
        let Some(place) = self.area.cursor_at_position(place) else {
            return;
        };
        match mouse.kind {
            MouseEventKind::Down(MouseButton::Left) => self.area.cancel_selection(),
            MouseEventKind::Drag(MouseButton::Left) if !self.area.is_selecting() => {
                self.area.start_selection()
            }
            MouseEventKind::Drag(MouseButton::Left) => {}
            _ => return,
        }
        self.area.go_to(place);
    }
}

impl Program for Editor {
    fn take(&mut self, event: Event) -> bool {
        if let Event::Mouse(mouse) = event {
            self.take_mouse(mouse);
        }
        // The keys and the wheel are those of the text area.
        let input = Input::from(event);
        if input.key == Key::Esc {
            return false;
        }
        self.is_changed |= self.area.input(input);
        true
    }

    fn draw(&mut self, frame: &mut Frame) {
        let screen = frame.size();
        let mark = if self.is_changed { "*" } else { "" };
        let line = self.area.cursor().0 + 1;
        let status = format!(" notes.md{mark}, line {line}");
        self.area.set_block(Block::default().title(status));
        frame.render_widget(&self.area, screen);
        let top = Rect {
            height: screen.height.min(1),
            ..screen
        };
        let reversed = Style::default().add_modifier(Modifier::REVERSED);
        frame.render_widget(Block::default().style(reversed), top);
    }
}

fn main() -> std::io::Result<()> {
    screen::run(Editor::new())
}
