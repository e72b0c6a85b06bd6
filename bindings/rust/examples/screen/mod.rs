//! Runs a program on the terminal's screen, by crossterm and tui.

use crossterm::event::{
    DisableBracketedPaste, DisableMouseCapture, EnableBracketedPaste, EnableMouseCapture, Event,
    read,
};
use crossterm::execute;
use crossterm::terminal::{
    EnterAlternateScreen, LeaveAlternateScreen, disable_raw_mode, enable_raw_mode,
};
use std::io::{Result, Stdout, stdout};
use tui::Terminal;
use tui::backend::CrosstermBackend;

/// A frame of tui on the terminal.
pub type Frame<'f> = tui::Frame<'f, CrosstermBackend<Stdout>>;

pub trait Program {
    /// Takes an event, and returns whether the program goes on.
    fn take(&mut self, event: Event) -> bool;

    /// Draws the program over the whole screen.
    fn draw(&mut self, frame: &mut Frame);
}

/// Restores the terminal when it is dropped, also in a panic.
struct Restores;

impl Drop for Restores {
    fn drop(&mut self) {
        // The terminal may be gone.
        let _ = execute!(
            stdout(),
            DisableBracketedPaste,
            DisableMouseCapture,
            LeaveAlternateScreen
        );
        let _ = disable_raw_mode();
    }
}

/// Draws a program and gives it the terminal's events until it ends.
pub fn run(mut program: impl Program) -> Result<()> {
    enable_raw_mode()?;
    let _restores = Restores;
    execute!(
        stdout(),
        EnterAlternateScreen,
        EnableMouseCapture,
        EnableBracketedPaste
    )?;
    let mut terminal = Terminal::new(CrosstermBackend::new(stdout()))?;
    loop {
        terminal.draw(|frame| program.draw(frame))?;
        if !program.take(read()?) {
            return terminal.show_cursor();
        }
    }
}
