//! The text area as a widget of the library tui, and what is made of that library's types.

use crate::TextArea;
use crate::handle::must;
use crate::ratatui::buffer::{Buffer, Cell};
use crate::ratatui::layout::{Alignment, Rect};
use crate::ratatui::style::{Color, Modifier, Style};
use crate::ratatui::text::{Line, Span, Text};
use crate::ratatui::widgets::{Block, Foreign, Padding};
use ::tui::layout::Alignment as TuiAlignment;
use ::tui::style::Color as TuiColor;
use ::tui::{buffer, layout, style, text, widgets};
use std::mem::take;

impl widgets::Widget for &TextArea<'_> {
    fn render(self, area: layout::Rect, buf: &mut buffer::Buffer) {
        let part = Rect::from(area).intersection(buf.area.into());
        let mut cells = cells_of(buf, part);
        must(self.try_render(area.into(), &mut cells));
        put_back(cells, buf);
    }
}

/// Returns copies of the cells of a part of a buffer.
fn cells_of(buf: &buffer::Buffer, part: Rect) -> Buffer {
    let content = places(part).map(|(x, y)| {
        let cell = buf.get(x, y);
        Cell {
            symbol: cell.symbol.as_str().into(),
            fg: cell.fg.into(),
            bg: cell.bg.into(),
            modifier: cell.modifier.into(),
        }
    });
    Buffer {
        content: content.collect(),
        area: part,
    }
}

/// Copies cells to the same places of a buffer.
fn put_back(cells: Buffer, buf: &mut buffer::Buffer) {
    for ((x, y), cell) in places(cells.area).zip(cells.content) {
        let place = buf.get_mut(x, y).set_symbol(cell.symbol());
        (place.fg, place.bg) = (cell.fg.into(), cell.bg.into());
        place.modifier = cell.modifier.into();
    }
}

fn places(part: Rect) -> impl Iterator<Item = (u16, u16)> {
    (part.top()..part.bottom()).flat_map(move |y| (part.left()..part.right()).map(move |x| (x, y)))
}

/// Draws a block of the library into an area, as far as a buffer has it.
pub(crate) fn draw_block(block: &widgets::Block, area: Rect, buf: &mut Buffer) {
    let area = layout::Rect::from(area);
    let part = Rect::from(area).intersection(buf.area);
    let mut cells = buffer::Buffer::empty(area);
    let content = places(part).map(|at| take(&mut buf[at])).collect();
    put_back(
        Buffer {
            content,
            area: part,
        },
        &mut cells,
    );
    widgets::Widget::render(block.clone(), area, &mut cells);
    for (at, cell) in places(part).zip(cells_of(&cells, part).content) {
        buf[at] = cell;
    }
}

impl<'a> From<widgets::Block<'a>> for Block<'a> {
    /// Returns a block that is drawn as the library draws it, and that has the same inner area.
    fn from(block: widgets::Block<'a>) -> Block<'a> {
        const SIDE: u16 = 100;
        let inner = block.inner(layout::Rect::new(0, 0, SIDE, SIDE));
        let right = SIDE - inner.right();
        let padding = Padding::new(inner.x, right, inner.y, SIDE - inner.bottom());
        Block {
            foreign: Some(Foreign(block)),
            ..Block::new().padding(padding)
        }
    }
}

impl<'a> From<text::Span<'a>> for Line<'a> {
    fn from(span: text::Span<'a>) -> Line<'a> {
        Line::from(vec![Span::styled(span.content, span.style)])
    }
}

impl<'a> From<text::Spans<'a>> for Line<'a> {
    fn from(line: text::Spans<'a>) -> Line<'a> {
        let spans = line.0.into_iter();
        spans
            .map(|span| Span::styled(span.content, span.style))
            .collect()
    }
}

impl<'a> From<text::Span<'a>> for Text<'a> {
    fn from(span: text::Span<'a>) -> Text<'a> {
        Line::from(span).into()
    }
}

impl<'a> From<text::Spans<'a>> for Text<'a> {
    fn from(line: text::Spans<'a>) -> Text<'a> {
        Line::from(line).into()
    }
}

impl<'a> From<text::Text<'a>> for Text<'a> {
    fn from(text: text::Text<'a>) -> Text<'a> {
        text.lines.into_iter().collect()
    }
}

impl From<style::Style> for Style {
    fn from(style: style::Style) -> Style {
        Style {
            fg: style.fg.map(Color::from),
            bg: style.bg.map(Color::from),
            add_modifier: style.add_modifier.into(),
            sub_modifier: style.sub_modifier.into(),
        }
    }
}

impl From<Style> for style::Style {
    fn from(style: Style) -> style::Style {
        style::Style {
            fg: style.fg.map(TuiColor::from),
            bg: style.bg.map(TuiColor::from),
            add_modifier: style.add_modifier.into(),
            sub_modifier: style.sub_modifier.into(),
        }
    }
}

impl From<style::Modifier> for Modifier {
    fn from(modifier: style::Modifier) -> Modifier {
        Modifier::from_bits_truncate(modifier.bits())
    }
}

impl From<Modifier> for style::Modifier {
    fn from(modifier: Modifier) -> style::Modifier {
        style::Modifier::from_bits_truncate(modifier.bits())
    }
}

impl From<layout::Rect> for Rect {
    fn from(area: layout::Rect) -> Rect {
        Rect::new(area.x, area.y, area.width, area.height)
    }
}

impl From<Rect> for layout::Rect {
    /// Returns the rectangle, or a smaller one where it has more cells than the library allows.
    fn from(area: Rect) -> layout::Rect {
        layout::Rect::new(area.x, area.y, area.width, area.height)
    }
}

/// Writes the conversions both ways between enums whose variants have the same names.
macro_rules! same_variants {
    ($($ours:ident = $theirs:ident { $($variant:ident $(($($field:ident),*))?)* })*) => {
        $(
            impl From<$theirs> for $ours {
                fn from(value: $theirs) -> $ours {
                    match value {
                        $($theirs::$variant $(($($field),*))? => $ours::$variant $(($($field),*))?,)*
                    }
                }
            }

            impl From<$ours> for $theirs {
                fn from(value: $ours) -> $theirs {
                    match value {
                        $($ours::$variant $(($($field),*))? => $theirs::$variant $(($($field),*))?,)*
                    }
                }
            }
        )*
    };
}

same_variants! {
    Color = TuiColor {
        Reset Black Red Green Yellow Blue Magenta Cyan Gray DarkGray LightRed LightGreen
        LightYellow LightBlue LightMagenta LightCyan White Rgb(red, green, blue) Indexed(number)
    }
    Alignment = TuiAlignment { Left Center Right }
}
