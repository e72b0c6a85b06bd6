use super::block::Block;
use super::cells::Cell;
use super::lines::{Line, Span, Text};
use super::styles::{Color, Modifier, Style};
use std::borrow::Cow;

/// What has a style.
pub trait Styled {
    /// The same with another style.
    type Item;

    /// Returns the style.
    fn style(&self) -> Style;

    /// Returns the same with this style.
    fn set_style<S: Into<Style>>(self, style: S) -> Self::Item;
}

/// Writes the methods named after colours and modifiers.
macro_rules! names {
    ($($color:ident $on_color:ident $value:ident,)* ; $($modifier:ident $not_modifier:ident $bit:ident,)*) => {
        /// Styles by the names of colours and modifiers.
        pub trait Stylize<'a, T>: Sized {
            /// With this colour behind the text.
            fn bg<C: Into<Color>>(self, color: C) -> T;
            /// With this colour of the text.
            fn fg<C: Into<Color>>(self, color: C) -> T;
            /// With the style that resets all.
            fn reset(self) -> T;
            /// With these modifiers.
            fn add_modifier(self, modifier: Modifier) -> T;
            /// Without these modifiers.
            fn remove_modifier(self, modifier: Modifier) -> T;
            $(
                /// With the text in this colour.
                fn $color(self) -> T {
                    self.fg(Color::$value)
                }

                /// With this colour behind the text.
                fn $on_color(self) -> T {
                    self.bg(Color::$value)
                }
            )*
            $(
                /// With this modifier.
                fn $modifier(self) -> T {
                    self.add_modifier(Modifier::$bit)
                }

                /// Without this modifier.
                fn $not_modifier(self) -> T {
                    self.remove_modifier(Modifier::$bit)
                }
            )*
        }

        impl Style {
            $(
                /// Returns the style with the text in this colour.
                pub const fn $color(self) -> Style {
                    self.fg(Color::$value)
                }

                /// Returns the style with this colour behind the text.
                pub const fn $on_color(self) -> Style {
                    self.bg(Color::$value)
                }
            )*
            $(
                /// Returns the style that also adds this modifier.
                pub const fn $modifier(self) -> Style {
                    self.add_modifier(Modifier::$bit)
                }

                /// Returns the style that also removes this modifier.
                pub const fn $not_modifier(self) -> Style {
                    self.remove_modifier(Modifier::$bit)
                }
            )*
        }
    };
}

names! {
    black on_black Black,
    red on_red Red,
    green on_green Green,
    yellow on_yellow Yellow,
    blue on_blue Blue,
    magenta on_magenta Magenta,
    cyan on_cyan Cyan,
    gray on_gray Gray,
    dark_gray on_dark_gray DarkGray,
    light_red on_light_red LightRed,
    light_green on_light_green LightGreen,
    light_yellow on_light_yellow LightYellow,
    light_blue on_light_blue LightBlue,
    light_magenta on_light_magenta LightMagenta,
    light_cyan on_light_cyan LightCyan,
    white on_white White,
    ;
    bold not_bold BOLD,
    dim not_dim DIM,
    italic not_italic ITALIC,
    underlined not_underlined UNDERLINED,
    slow_blink not_slow_blink SLOW_BLINK,
    rapid_blink not_rapid_blink RAPID_BLINK,
    reversed not_reversed REVERSED,
    hidden not_hidden HIDDEN,
    crossed_out not_crossed_out CROSSED_OUT,
}

impl<T, U: Styled<Item = T>> Stylize<'_, T> for U {
    fn bg<C: Into<Color>>(self, color: C) -> T {
        let style = self.style().bg(color.into());
        self.set_style(style)
    }

    fn fg<C: Into<Color>>(self, color: C) -> T {
        let style = self.style().fg(color.into());
        self.set_style(style)
    }

    fn reset(self) -> T {
        self.set_style(Style::reset())
    }

    fn add_modifier(self, modifier: Modifier) -> T {
        let style = self.style().add_modifier(modifier);
        self.set_style(style)
    }

    fn remove_modifier(self, modifier: Modifier) -> T {
        let style = self.style().remove_modifier(modifier);
        self.set_style(style)
    }
}

impl Styled for Style {
    type Item = Style;

    fn style(&self) -> Style {
        *self
    }

    fn set_style<S: Into<Style>>(self, style: S) -> Style {
        self.patch(style)
    }
}

impl<'a> Styled for &'a str {
    type Item = Span<'a>;

    fn style(&self) -> Style {
        Style::new()
    }

    fn set_style<S: Into<Style>>(self, style: S) -> Span<'a> {
        Span::styled(self, style)
    }
}

impl Styled for String {
    type Item = Span<'static>;

    fn style(&self) -> Style {
        Style::new()
    }

    fn set_style<S: Into<Style>>(self, style: S) -> Span<'static> {
        Span::styled(Cow::Owned(self), style)
    }
}

/// Writes the impl for a type with a field `style`.
macro_rules! has_style {
    ($($kind:ident)*) => {
        $(
            impl<'a> Styled for $kind<'a> {
                type Item = $kind<'a>;

                fn style(&self) -> Style {
                    self.style
                }

                fn set_style<S: Into<Style>>(mut self, style: S) -> $kind<'a> {
                    self.style = style.into();
                    self
                }
            }
        )*
    };
}

has_style! { Span Line Text Block }

impl Styled for Cell {
    type Item = Cell;

    fn style(&self) -> Style {
        Cell::style(self)
    }

    fn set_style<S: Into<Style>>(mut self, style: S) -> Cell {
        Cell::set_style(&mut self, style);
        self
    }
}
