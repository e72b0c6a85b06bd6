use super::area::{Padding, Rect};
use super::lines::Line;
use super::styles::Style;
use std::ops::BitOr;

/// The sides of a block that have a border.
#[derive(Clone, Copy, Debug, Default, PartialEq, Eq, Hash)]
pub struct Borders(u8);

impl Borders {
    /// No border.
    pub const NONE: Borders = Borders(0);
    /// A border at the top.
    pub const TOP: Borders = Borders(1);
    /// A border at the right.
    pub const RIGHT: Borders = Borders(2);
    /// A border at the bottom.
    pub const BOTTOM: Borders = Borders(4);
    /// A border at the left.
    pub const LEFT: Borders = Borders(8);
    /// A border at each side.
    pub const ALL: Borders = Borders(15);

    /// Returns the set as a number with a bit for each side.
    pub const fn bits(self) -> u8 {
        self.0
    }

    pub(crate) const fn from_core(bits: u8) -> Borders {
        Borders(bits)
    }

    /// Returns whether it has all sides of the other.
    pub const fn contains(self, other: Borders) -> bool {
        self.0 & other.0 == other.0
    }

    /// Returns the sides that one of them has.
    pub const fn union(self, other: Borders) -> Borders {
        Borders(self.0 | other.0)
    }
}

impl BitOr for Borders {
    type Output = Borders;

    fn bitor(self, other: Borders) -> Borders {
        self.union(other)
    }
}

/// A frame around an area: borders, a title in the top row, and free rows and columns inside.
#[derive(Clone, Debug, Default, PartialEq, Eq, Hash)]
pub struct Block<'a> {
    pub(crate) borders: Borders,
    pub(crate) padding: Padding,
    pub(crate) title: Option<Line<'a>>,
    pub(crate) style: Style,
    pub(crate) border_style: Style,
    /// A block that another library draws in place of this one, whose padding is its frame.
    #[cfg(feature = "tui")]
    pub(crate) foreign: Option<Foreign<'a>>,
}

/// A block of the library tui.
#[cfg(feature = "tui")]
#[derive(Clone, Debug, PartialEq, Eq)]
pub(crate) struct Foreign<'a>(pub tui::widgets::Block<'a>);

#[cfg(feature = "tui")]
impl std::hash::Hash for Foreign<'_> {
    // The block doesn't show what it has.
    fn hash<H: std::hash::Hasher>(&self, _: &mut H) {}
}

impl<'a> Block<'a> {
    /// Returns a block without borders, title and padding.
    pub const fn new() -> Block<'a> {
        Block {
            borders: Borders::NONE,
            padding: Padding::ZERO,
            title: None,
            style: Style::new(),
            border_style: Style::new(),
            #[cfg(feature = "tui")]
            foreign: None,
        }
    }

    /// Returns a block with a border at each side.
    pub const fn bordered() -> Block<'a> {
        Block::new().borders(Borders::ALL)
    }

    /// Returns the block with borders at these sides.
    pub const fn borders(mut self, borders: Borders) -> Block<'a> {
        self.borders = borders;
        self
    }

    /// Returns the block with this padding inside of its borders.
    pub const fn padding(mut self, padding: Padding) -> Block<'a> {
        self.padding = padding;
        self
    }

    /// Returns the block with this title; a block has one at most.
    pub fn title<T: Into<Line<'a>>>(mut self, title: T) -> Block<'a> {
        self.title = Some(title.into());
        self
    }

    /// Returns the block with this style of its whole area.
    pub fn style<S: Into<Style>>(mut self, style: S) -> Block<'a> {
        self.style = style.into();
        self
    }

    /// Returns the block with this style of its borders.
    pub fn border_style<S: Into<Style>>(mut self, style: S) -> Block<'a> {
        self.border_style = style.into();
        self
    }

    /// Returns the area inside the block.
    pub fn inner(&self, area: Rect) -> Rect {
        let side = |is_taken: bool, free: u16| u16::from(is_taken).saturating_add(free);
        let left = side(self.borders.contains(Borders::LEFT), self.padding.left);
        let right = side(self.borders.contains(Borders::RIGHT), self.padding.right);
        let has_top = self.borders.contains(Borders::TOP) || self.title.is_some();
        let top = side(has_top, self.padding.top);
        let bottom = side(self.borders.contains(Borders::BOTTOM), self.padding.bottom);
        Rect {
            x: area.x + left.min(area.width),
            y: area.y + top.min(area.height),
            width: area.width.saturating_sub(left).saturating_sub(right),
            height: area.height.saturating_sub(top).saturating_sub(bottom),
        }
    }
}
