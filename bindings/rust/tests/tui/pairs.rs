//! The same values by this crate's types and by those of tui.

use crate::random::Random;
use tui::{layout, style, text, widgets};
use tui_textarea::ratatui::layout::Alignment;
use tui_textarea::ratatui::style::{Color, Modifier, Style};
use tui_textarea::ratatui::text::{Line, Span, Text};
use tui_textarea::ratatui::widgets::{Block, Borders};

const COLORS: [(Color, style::Color); 19] = [
    (Color::Reset, style::Color::Reset),
    (Color::Black, style::Color::Black),
    (Color::Red, style::Color::Red),
    (Color::Green, style::Color::Green),
    (Color::Yellow, style::Color::Yellow),
    (Color::Blue, style::Color::Blue),
    (Color::Magenta, style::Color::Magenta),
    (Color::Cyan, style::Color::Cyan),
    (Color::Gray, style::Color::Gray),
    (Color::DarkGray, style::Color::DarkGray),
    (Color::LightRed, style::Color::LightRed),
    (Color::LightGreen, style::Color::LightGreen),
    (Color::LightYellow, style::Color::LightYellow),
    (Color::LightBlue, style::Color::LightBlue),
    (Color::LightMagenta, style::Color::LightMagenta),
    (Color::LightCyan, style::Color::LightCyan),
    (Color::White, style::Color::White),
    (Color::Rgb(1, 20, 255), style::Color::Rgb(1, 20, 255)),
    (Color::Indexed(77), style::Color::Indexed(77)),
];

const MODIFIERS: [(Modifier, style::Modifier); 9] = [
    (Modifier::BOLD, style::Modifier::BOLD),
    (Modifier::DIM, style::Modifier::DIM),
    (Modifier::ITALIC, style::Modifier::ITALIC),
    (Modifier::UNDERLINED, style::Modifier::UNDERLINED),
    (Modifier::SLOW_BLINK, style::Modifier::SLOW_BLINK),
    (Modifier::RAPID_BLINK, style::Modifier::RAPID_BLINK),
    (Modifier::REVERSED, style::Modifier::REVERSED),
    (Modifier::HIDDEN, style::Modifier::HIDDEN),
    (Modifier::CROSSED_OUT, style::Modifier::CROSSED_OUT),
];

const SIDES: [(Borders, widgets::Borders); 4] = [
    (Borders::TOP, widgets::Borders::TOP),
    (Borders::RIGHT, widgets::Borders::RIGHT),
    (Borders::BOTTOM, widgets::Borders::BOTTOM),
    (Borders::LEFT, widgets::Borders::LEFT),
];

pub fn style(random: &mut Random) -> (Style, style::Style) {
    let (mut own, mut tui) = (Style::new(), style::Style::default());
    if random.one_of(2) {
        let color = COLORS[random.below(COLORS.len())];
        (own, tui) = (own.fg(color.0), tui.fg(color.1));
    }
    if random.one_of(2) {
        let color = COLORS[random.below(COLORS.len())];
        (own, tui) = (own.bg(color.0), tui.bg(color.1));
    }
    for _ in 0..random.below(3) {
        let modifier = MODIFIERS[random.below(MODIFIERS.len())];
        (own, tui) = if random.one_of(3) {
            (
                own.remove_modifier(modifier.0),
                tui.remove_modifier(modifier.1),
            )
        } else {
            (own.add_modifier(modifier.0), tui.add_modifier(modifier.1))
        };
    }
    (own, tui)
}

pub fn alignment(random: &mut Random) -> (Alignment, layout::Alignment) {
    match random.below(3) {
        0 => (Alignment::Left, layout::Alignment::Left),
        1 => (Alignment::Center, layout::Alignment::Center),
        _ => (Alignment::Right, layout::Alignment::Right),
    }
}

fn spans(random: &mut Random) -> (Vec<Span<'static>>, Vec<text::Span<'static>>) {
    let count = random.below(4);
    (0..count)
        .map(|_| {
            let (content, style) = (random.line(), style(random));
            (
                Span::styled(content.clone(), style.0),
                text::Span::styled(content, style.1),
            )
        })
        .unzip()
}

pub fn text(random: &mut Random) -> (Text<'static>, text::Text<'static>) {
    let count = random.below(4);
    let (own, tui): (Vec<_>, Vec<_>) = (0..count)
        .map(|_| {
            let (own, tui) = spans(random);
            (Line::from(own), text::Spans(tui))
        })
        .unzip();
    (Text::from(own), text::Text::from(tui))
}

pub fn block(random: &mut Random) -> (Block<'static>, widgets::Block<'static>) {
    let (base, border) = (style(random), style(random));
    let mut borders = (Borders::NONE, widgets::Borders::NONE);
    for side in SIDES {
        if !random.one_of(4) {
            borders = (borders.0 | side.0, borders.1 | side.1);
        }
    }
    let own = Block::new().borders(borders.0).style(base.0);
    let tui = widgets::Block::default().borders(borders.1).style(base.1);
    let (own, tui) = (own.border_style(border.0), tui.border_style(border.1));
    if random.one_of(2) {
        return (own, tui);
    }
    // tui draws a wide symbol that has no room otherwise.
    let (content, title) = (["", "who", "one two three"][random.below(3)], style(random));
    (
        own.title(Span::styled(content, title.0)),
        tui.title(text::Span::styled(content, title.1)),
    )
}
