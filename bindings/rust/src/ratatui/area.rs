use crate::sys;

/// The position of a cell: its column and its row, counted from 0.
#[derive(Clone, Copy, Debug, Default, PartialEq, Eq, Hash, PartialOrd, Ord)]
pub struct Position {
    /// The column.
    pub x: u16,
    /// The row.
    pub y: u16,
}

impl Position {
    /// The top left cell.
    pub const ORIGIN: Position = Position { x: 0, y: 0 };

    /// Returns the position of this column and row.
    pub const fn new(x: u16, y: u16) -> Position {
        Position { x, y }
    }
}

impl From<(u16, u16)> for Position {
    fn from((x, y): (u16, u16)) -> Position {
        Position { x, y }
    }
}

impl From<Position> for (u16, u16) {
    fn from(position: Position) -> (u16, u16) {
        (position.x, position.y)
    }
}

/// A rectangle of cells: its left column, its top row, its width and its height.
#[derive(Clone, Copy, Debug, Default, PartialEq, Eq, Hash)]
pub struct Rect {
    /// The left column.
    pub x: u16,
    /// The top row.
    pub y: u16,
    /// The number of columns.
    pub width: u16,
    /// The number of rows.
    pub height: u16,
}

impl Rect {
    /// The rectangle without cells at the top left.
    pub const ZERO: Rect = Rect {
        x: 0,
        y: 0,
        width: 0,
        height: 0,
    };

    /// Returns the rectangle. Columns and rows past 65535 are left out.
    pub const fn new(x: u16, y: u16, width: u16, height: u16) -> Rect {
        Rect {
            x,
            y,
            width: x.saturating_add(width) - x,
            height: y.saturating_add(height) - y,
        }
    }

    /// Returns the number of cells.
    pub const fn area(self) -> u32 {
        self.width as u32 * self.height as u32
    }

    /// Returns whether it has no cells.
    pub const fn is_empty(self) -> bool {
        self.width == 0 || self.height == 0
    }

    /// Returns the left column.
    pub const fn left(self) -> u16 {
        self.x
    }

    /// Returns the column after the last one.
    pub const fn right(self) -> u16 {
        self.x.saturating_add(self.width)
    }

    /// Returns the top row.
    pub const fn top(self) -> u16 {
        self.y
    }

    /// Returns the row after the last one.
    pub const fn bottom(self) -> u16 {
        self.y.saturating_add(self.height)
    }

    /// Returns whether the cell is one of its cells.
    pub const fn contains(self, position: Position) -> bool {
        self.x <= position.x
            && position.x < self.right()
            && self.y <= position.y
            && position.y < self.bottom()
    }

    /// Returns the cells that are in both.
    pub fn intersection(self, other: Rect) -> Rect {
        let (x, y) = (self.x.max(other.x), self.y.max(other.y));
        let right = self.right().min(other.right());
        let bottom = self.bottom().min(other.bottom());
        Rect {
            x,
            y,
            width: right.saturating_sub(x),
            height: bottom.saturating_sub(y),
        }
    }
}

impl From<(u16, u16, u16, u16)> for Rect {
    /// Returns the rectangle of a left column, a top row, a width and a height.
    fn from((x, y, width, height): (u16, u16, u16, u16)) -> Rect {
        Rect::new(x, y, width, height)
    }
}

impl From<Rect> for sys::Area {
    fn from(area: Rect) -> sys::Area {
        sys::Area {
            x: area.x,
            y: area.y,
            width: area.width,
            height: area.height,
        }
    }
}

/// Free columns and rows at the four sides of a rectangle.
#[derive(Clone, Copy, Debug, Default, PartialEq, Eq, Hash)]
pub struct Padding {
    /// The free columns at the left.
    pub left: u16,
    /// The free columns at the right.
    pub right: u16,
    /// The free rows at the top.
    pub top: u16,
    /// The free rows at the bottom.
    pub bottom: u16,
}

impl Padding {
    /// No padding.
    pub const ZERO: Padding = Padding::new(0, 0, 0, 0);

    /// Returns the padding with these free columns and rows.
    pub const fn new(left: u16, right: u16, top: u16, bottom: u16) -> Padding {
        Padding {
            left,
            right,
            top,
            bottom,
        }
    }

    /// Returns the padding that is the same at each side.
    pub const fn uniform(value: u16) -> Padding {
        Padding::new(value, value, value, value)
    }

    /// Returns the padding at the left and at the right.
    pub const fn horizontal(value: u16) -> Padding {
        Padding::new(value, value, 0, 0)
    }

    /// Returns the padding at the top and at the bottom.
    pub const fn vertical(value: u16) -> Padding {
        Padding::new(0, 0, value, value)
    }
}

/// How a line is aligned in the columns that it has.
#[derive(Clone, Copy, Debug, Default, PartialEq, Eq, Hash)]
pub enum Alignment {
    /// At the left edge.
    #[default]
    Left,
    /// In the middle.
    Center,
    /// At the right edge.
    Right,
}
