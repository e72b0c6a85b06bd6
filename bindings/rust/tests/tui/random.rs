//! Random numbers, lines and areas.

use tui_textarea::ratatui::layout::Rect;

pub struct Random(pub u64);

impl Random {
    /// Returns a number below this one.
    pub fn below(&mut self, end: usize) -> usize {
        self.0 ^= self.0 << 13;
        self.0 ^= self.0 >> 7;
        self.0 ^= self.0 << 17;
        (self.0 >> 16) as usize % end
    }

    /// Returns true once in this many times.
    pub fn one_of(&mut self, times: usize) -> bool {
        self.below(times) == 0
    }

    pub fn line(&mut self) -> String {
        const PARTS: [&str; 10] = [
            "one",
            " ",
            "two ",
            "犬",
            "é",
            "e\u{301}",
            "\t",
            "👍",
            "loooooong",
            "a",
        ];
        let count = self.below(7);
        (0..count).map(|_| PARTS[self.below(PARTS.len())]).collect()
    }

    /// Returns an area of this screen, at times the whole one, or one that goes on below it.
    pub fn area(&mut self, screen: Rect) -> Rect {
        if self.one_of(4) {
            return screen;
        }
        let (x, y) = (
            self.below(screen.width.into()) as u16,
            self.below(screen.height.into()) as u16,
        );
        Rect {
            x,
            y,
            width: self.below(usize::from(screen.width - x) + 1) as u16,
            height: self.below(usize::from(screen.height - y) + 4) as u16,
        }
    }
}
