use crate::sys;
use std::error::Error;
use std::fmt;
use std::ops::{BitAnd, BitOr, BitOrAssign, Not, Sub};
use std::str::FromStr;

/// A colour of a terminal.
#[derive(Clone, Copy, Debug, Default, PartialEq, Eq, Hash)]
pub enum Color {
    /// The terminal's own colour.
    #[default]
    Reset,
    /// Black.
    Black,
    /// Red.
    Red,
    /// Green.
    Green,
    /// Yellow.
    Yellow,
    /// Blue.
    Blue,
    /// Magenta.
    Magenta,
    /// Cyan.
    Cyan,
    /// Gray.
    Gray,
    /// Dark gray.
    DarkGray,
    /// Light red.
    LightRed,
    /// Light green.
    LightGreen,
    /// Light yellow.
    LightYellow,
    /// Light blue.
    LightBlue,
    /// Light magenta.
    LightMagenta,
    /// Light cyan.
    LightCyan,
    /// White.
    White,
    /// A mix of red, green and blue.
    Rgb(u8, u8, u8),
    /// One of the 256 colours of a terminal, by its number.
    Indexed(u8),
}

const NAMED: [Color; 17] = [
    Color::Reset,
    Color::Black,
    Color::Red,
    Color::Green,
    Color::Yellow,
    Color::Blue,
    Color::Magenta,
    Color::Cyan,
    Color::Gray,
    Color::DarkGray,
    Color::LightRed,
    Color::LightGreen,
    Color::LightYellow,
    Color::LightBlue,
    Color::LightMagenta,
    Color::LightCyan,
    Color::White,
];

impl fmt::Display for Color {
    /// Writes a name such as `LightRed`, a mix as `#ff8000`, or a number, as ratatui does.
    fn fmt(&self, f: &mut fmt::Formatter) -> fmt::Result {
        match self {
            Color::Rgb(red, green, blue) => write!(f, "#{red:02x}{green:02x}{blue:02x}"),
            Color::Indexed(number) => number.fmt(f),
            named => write!(f, "{named:?}"),
        }
    }
}

/// A text that names no colour.
#[derive(Clone, Copy, Debug, PartialEq, Eq)]
pub struct ParseColorError;

impl fmt::Display for ParseColorError {
    fn fmt(&self, f: &mut fmt::Formatter) -> fmt::Result {
        f.write_str("no colour has this name")
    }
}

impl Error for ParseColorError {}

impl FromStr for Color {
    type Err = ParseColorError;

    /// Reads what [`Color`] is written as. In names, case doesn't count.
    ///
    /// ```
    /// use tui_textarea::ratatui::style::Color;
    ///
    /// assert_eq!("lightred".parse(), Ok(Color::LightRed));
    /// assert_eq!("#ff8000".parse(), Ok(Color::Rgb(255, 128, 0)));
    /// assert_eq!(Color::Indexed(77).to_string().parse(), Ok(Color::Indexed(77)));
    /// ```
    fn from_str(text: &str) -> Result<Color, ParseColorError> {
        let is_named = |color: &&Color| text.eq_ignore_ascii_case(&color.to_string());
        if let Some(color) = NAMED.iter().find(is_named) {
            return Ok(*color);
        }
        match text.strip_prefix('#') {
            Some(mix) => mixed(mix).ok_or(ParseColorError),
            None => text
                .parse()
                .map(Color::Indexed)
                .map_err(|_| ParseColorError),
        }
    }
}

/// Returns the mix that six hexadecimal digits write.
fn mixed(digits: &str) -> Option<Color> {
    let is_mix = digits.len() == 6 && digits.bytes().all(|digit| digit.is_ascii_hexdigit());
    let number = u32::from_str_radix(digits, 16).ok().filter(|_| is_mix)?;
    let [_, red, green, blue] = number.to_be_bytes();
    Some(Color::Rgb(red, green, blue))
}

fn to_core(color: Option<Color>) -> sys::Color {
    let (kind, red, green, blue) = match color {
        None => (sys::COLOR_NONE, 0, 0, 0),
        Some(Color::Rgb(red, green, blue)) => (sys::COLOR_RGB, red, green, blue),
        Some(Color::Indexed(number)) => (sys::COLOR_INDEXED, number, 0, 0),
        Some(named) => {
            let at = NAMED
                .iter()
                .position(|c| *c == named)
                .expect("the colour has a name");
            (sys::COLOR_RESET + at as u32, 0, 0, 0)
        }
    };
    sys::Color {
        kind: kind as u8,
        red,
        green,
        blue,
    }
}

pub(crate) fn from_core(color: sys::Color) -> Option<Color> {
    match u32::from(color.kind) {
        sys::COLOR_NONE => None,
        sys::COLOR_RGB => Some(Color::Rgb(color.red, color.green, color.blue)),
        sys::COLOR_INDEXED => Some(Color::Indexed(color.red)),
        kind => Some(NAMED[(kind - sys::COLOR_RESET) as usize]),
    }
}

/// Attributes of a text besides its colours: a set with one bit for each.
#[derive(Clone, Copy, Debug, Default, PartialEq, Eq, Hash)]
pub struct Modifier(u16);

impl Modifier {
    /// Bold.
    pub const BOLD: Modifier = Modifier(1);
    /// Dim.
    pub const DIM: Modifier = Modifier(2);
    /// Italic.
    pub const ITALIC: Modifier = Modifier(4);
    /// Underlined.
    pub const UNDERLINED: Modifier = Modifier(8);
    /// Blinking slowly.
    pub const SLOW_BLINK: Modifier = Modifier(16);
    /// Blinking fast.
    pub const RAPID_BLINK: Modifier = Modifier(32);
    /// With the two colours exchanged.
    pub const REVERSED: Modifier = Modifier(64);
    /// Hidden.
    pub const HIDDEN: Modifier = Modifier(128);
    /// Crossed out.
    pub const CROSSED_OUT: Modifier = Modifier(256);

    /// Returns the set of none.
    pub const fn empty() -> Modifier {
        Modifier(0)
    }

    /// Returns the set of all.
    pub const fn all() -> Modifier {
        Modifier(511)
    }

    /// Returns the set as a number with a bit for each modifier.
    pub const fn bits(self) -> u16 {
        self.0
    }

    /// Returns the set of the modifiers whose bits are set; other bits are left out.
    pub const fn from_bits_truncate(bits: u16) -> Modifier {
        Modifier(bits & Modifier::all().bits())
    }

    pub(crate) const fn from_core(bits: u16) -> Modifier {
        Modifier(bits)
    }

    /// Returns whether it has none.
    pub const fn is_empty(self) -> bool {
        self.0 == 0
    }

    /// Returns whether it has all of the other.
    pub const fn contains(self, other: Modifier) -> bool {
        self.0 & other.0 == other.0
    }

    /// Returns whether it has one of the other.
    pub const fn intersects(self, other: Modifier) -> bool {
        self.0 & other.0 != 0
    }

    /// Returns those that one of them has.
    pub const fn union(self, other: Modifier) -> Modifier {
        Modifier(self.0 | other.0)
    }

    /// Returns its own that the other hasn't.
    pub const fn difference(self, other: Modifier) -> Modifier {
        Modifier(self.0 & !other.0)
    }

    /// Adds those of the other.
    pub fn insert(&mut self, other: Modifier) {
        self.0 |= other.0;
    }

    /// Removes those of the other.
    pub fn remove(&mut self, other: Modifier) {
        self.0 &= !other.0;
    }
}

impl BitOr for Modifier {
    type Output = Modifier;

    fn bitor(self, other: Modifier) -> Modifier {
        self.union(other)
    }
}

impl BitOrAssign for Modifier {
    fn bitor_assign(&mut self, other: Modifier) {
        self.insert(other);
    }
}

impl BitAnd for Modifier {
    type Output = Modifier;

    fn bitand(self, other: Modifier) -> Modifier {
        Modifier(self.0 & other.0)
    }
}

impl Sub for Modifier {
    type Output = Modifier;

    fn sub(self, other: Modifier) -> Modifier {
        self.difference(other)
    }
}

impl Not for Modifier {
    type Output = Modifier;

    fn not(self) -> Modifier {
        Modifier::all().difference(self)
    }
}

/// A change to the colours and modifiers of cells. A colour of `None` leaves the cell's colour; the
/// modifiers of `add_modifier` are added, then those of `sub_modifier` removed.
#[derive(Clone, Copy, Debug, Default, PartialEq, Eq, Hash)]
pub struct Style {
    /// The colour of the text; `None` leaves it.
    pub fg: Option<Color>,
    /// The colour behind the text; `None` leaves it.
    pub bg: Option<Color>,
    /// The modifiers that it adds.
    pub add_modifier: Modifier,
    /// The modifiers that it removes.
    pub sub_modifier: Modifier,
}

impl Style {
    /// Returns the style that changes nothing.
    pub const fn new() -> Style {
        Style {
            fg: None,
            bg: None,
            add_modifier: Modifier::empty(),
            sub_modifier: Modifier::empty(),
        }
    }

    /// Returns the style that resets all.
    pub const fn reset() -> Style {
        Style {
            fg: Some(Color::Reset),
            bg: Some(Color::Reset),
            add_modifier: Modifier::empty(),
            sub_modifier: Modifier::all(),
        }
    }

    /// Returns the style with this colour of the text.
    pub const fn fg(mut self, color: Color) -> Style {
        self.fg = Some(color);
        self
    }

    /// Returns the style with this colour behind the text.
    pub const fn bg(mut self, color: Color) -> Style {
        self.bg = Some(color);
        self
    }

    /// Returns the style that also adds these modifiers.
    pub const fn add_modifier(mut self, modifier: Modifier) -> Style {
        self.sub_modifier = self.sub_modifier.difference(modifier);
        self.add_modifier = self.add_modifier.union(modifier);
        self
    }

    /// Returns the style that also removes these modifiers.
    pub const fn remove_modifier(mut self, modifier: Modifier) -> Style {
        self.add_modifier = self.add_modifier.difference(modifier);
        self.sub_modifier = self.sub_modifier.union(modifier);
        self
    }

    /// Returns the style that applies this one and then `other`.
    pub fn patch(mut self, other: impl Into<Style>) -> Style {
        let other = other.into();
        self.fg = other.fg.or(self.fg);
        self.bg = other.bg.or(self.bg);
        self.add_modifier = self
            .add_modifier
            .difference(other.sub_modifier)
            .union(other.add_modifier);
        self.sub_modifier = self
            .sub_modifier
            .difference(other.add_modifier)
            .union(other.sub_modifier);
        self
    }
}

impl From<Color> for Style {
    fn from(color: Color) -> Style {
        Style::new().fg(color)
    }
}

impl From<Modifier> for Style {
    fn from(modifier: Modifier) -> Style {
        Style::new().add_modifier(modifier)
    }
}

impl From<Style> for sys::Style {
    fn from(style: Style) -> sys::Style {
        sys::Style {
            fg: to_core(style.fg),
            bg: to_core(style.bg),
            add_modifier: style.add_modifier.bits(),
            sub_modifier: style.sub_modifier.bits(),
        }
    }
}

impl From<sys::Style> for Style {
    fn from(style: sys::Style) -> Style {
        Style {
            fg: from_core(style.fg),
            bg: from_core(style.bg),
            add_modifier: Modifier::from_core(style.add_modifier),
            sub_modifier: Modifier::from_core(style.sub_modifier),
        }
    }
}

impl From<&sys::Cell> for Style {
    /// Returns the style of a cell; a colour is `None` where it is the terminal's own.
    fn from(cell: &sys::Cell) -> Style {
        let color = |color| from_core(color).filter(|color| *color != Color::Reset);
        Style {
            fg: color(cell.fg),
            bg: color(cell.bg),
            ..Style::from(Modifier::from_core(cell.modifier))
        }
    }
}

/// The style of the core that changes nothing.
pub(crate) const BLANK: sys::Style = sys::Style {
    fg: sys::Color {
        kind: 0,
        red: 0,
        green: 0,
        blue: 0,
    },
    bg: sys::Color {
        kind: 0,
        red: 0,
        green: 0,
        blue: 0,
    },
    add_modifier: 0,
    sub_modifier: 0,
};
