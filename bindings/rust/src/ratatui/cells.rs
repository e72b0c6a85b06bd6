use super::area::{Position, Rect};
use super::lines::Line;
use super::styles::{Color, Modifier, Style, from_core};
use super::symbols::Symbol;
use super::widgets::Widget;
use crate::{CursorMove, CursorRenderMode, TextArea, sys};
use std::ops::{Index, IndexMut, Range};

/// One cell of a screen: its text, mostly one character, its colours and its modifiers.
#[derive(Clone, Debug, PartialEq, Eq, Hash)]
pub struct Cell {
    pub(crate) symbol: Symbol,
    /// The colour of the text.
    pub fg: Color,
    /// The colour behind the text.
    pub bg: Color,
    /// The modifiers.
    pub modifier: Modifier,
}

impl Default for Cell {
    fn default() -> Cell {
        Cell {
            symbol: Symbol::SPACE,
            fg: Color::Reset,
            bg: Color::Reset,
            modifier: Modifier::empty(),
        }
    }
}

impl Cell {
    /// Returns a cell with this text, without colours and modifiers.
    pub fn new(symbol: &str) -> Cell {
        Cell {
            symbol: symbol.into(),
            ..Cell::default()
        }
    }

    /// Returns the text.
    pub fn symbol(&self) -> &str {
        self.symbol.as_str()
    }

    /// Sets the text.
    pub fn set_symbol(&mut self, symbol: &str) -> &mut Cell {
        self.symbol = symbol.into();
        self
    }

    /// Sets the text to this character.
    pub fn set_char(&mut self, c: char) -> &mut Cell {
        self.set_symbol(c.encode_utf8(&mut [0; 4]))
    }

    /// Sets the colour of the text.
    pub fn set_fg(&mut self, color: Color) -> &mut Cell {
        self.fg = color;
        self
    }

    /// Sets the colour behind the text.
    pub fn set_bg(&mut self, color: Color) -> &mut Cell {
        self.bg = color;
        self
    }

    /// Applies a style: sets its colours, adds its modifiers, then removes those that it removes.
    pub fn set_style<S: Into<Style>>(&mut self, style: S) -> &mut Cell {
        let style = style.into();
        self.fg = style.fg.unwrap_or(self.fg);
        self.bg = style.bg.unwrap_or(self.bg);
        self.modifier.insert(style.add_modifier);
        self.modifier.remove(style.sub_modifier);
        self
    }

    /// Returns the colours and modifiers as a style.
    pub fn style(&self) -> Style {
        Style::new()
            .fg(self.fg)
            .bg(self.bg)
            .add_modifier(self.modifier)
    }

    /// Returns the style that gives any cell the colours and modifiers of this one.
    pub(crate) fn whole_style(&self) -> Style {
        Style {
            sub_modifier: Modifier::all().difference(self.modifier),
            ..self.style()
        }
    }

    /// Makes the cell a blank one, without colours and modifiers.
    pub fn reset(&mut self) {
        *self = Cell::default();
    }

    /// Returns whether the cell is as a fresh one.
    pub(crate) fn is_blank(&self) -> bool {
        self.symbol == Symbol::SPACE
            && self.modifier.is_empty()
            && (self.fg, self.bg) == (Color::Reset, Color::Reset)
    }

    /// Writes a cell of the core with this text here.
    pub(crate) fn set(&mut self, cell: &sys::Cell, symbol: Symbol) {
        self.symbol = symbol;
        self.fg = from_core(cell.fg).unwrap_or_default();
        self.bg = from_core(cell.bg).unwrap_or_default();
        self.modifier = Modifier::from_core(cell.modifier);
    }
}

/// The cells of a rectangle, row after row.
#[derive(Clone, Debug, Default, PartialEq, Eq, Hash)]
pub struct Buffer {
    /// The rectangle.
    pub area: Rect,
    /// The cells, as many as the rectangle has.
    pub content: Vec<Cell>,
}

impl Buffer {
    /// Returns the buffer of a rectangle with blank cells.
    pub fn empty(area: Rect) -> Buffer {
        Buffer::filled(area, Cell::default())
    }

    /// Returns the buffer of a rectangle with copies of this cell.
    pub fn filled(area: Rect, cell: Cell) -> Buffer {
        Buffer {
            area,
            content: vec![cell; area.area() as usize],
        }
    }

    /// Returns a buffer of these lines, as wide as the widest one.
    pub fn with_lines<'a, I>(lines: I) -> Buffer
    where
        I: IntoIterator,
        I::Item: Into<Line<'a>>,
    {
        let rows: Vec<Vec<Cell>> = lines
            .into_iter()
            .map(|line| cells_of(&line.into()))
            .collect();
        let width = rows.iter().map(Vec::len).max().unwrap_or(0);
        let area = Rect::new(0, 0, width as u16, rows.len() as u16);
        let mut content = Vec::new();
        for mut row in rows {
            row.resize(width, Cell::default());
            content.extend(row);
        }
        Buffer { area, content }
    }

    /// Returns the rectangle.
    pub fn area(&self) -> &Rect {
        &self.area
    }

    /// Returns the cells, row after row.
    pub fn content(&self) -> &[Cell] {
        &self.content
    }

    fn place(&self, position: Position) -> Option<usize> {
        self.area.contains(position).then(|| {
            let row = usize::from(position.y - self.area.y);
            row * usize::from(self.area.width) + usize::from(position.x - self.area.x)
        })
    }

    /// Returns the index of a cell in `content`. Panics if the buffer hasn't the cell.
    pub fn index_of(&self, x: u16, y: u16) -> usize {
        self.place(Position { x, y })
            .expect("the cell is in the buffer")
    }

    /// Returns the cells of a row in a part of the buffer's area.
    pub(crate) fn row(&self, part: Rect, y: u16) -> &[Cell] {
        &self.content[self.places(part, y)]
    }

    /// As `row`, for changes of the cells.
    pub(crate) fn row_mut(&mut self, part: Rect, y: u16) -> &mut [Cell] {
        let places = self.places(part, y);
        &mut self.content[places]
    }

    fn places(&self, part: Rect, y: u16) -> Range<usize> {
        let count = usize::from(part.right() - part.left());
        let first = if count == 0 {
            0
        } else {
            self.index_of(part.x, y)
        };
        first..first + count
    }

    /// Returns the cell, or `None` if the buffer hasn't it.
    pub fn cell<P: Into<Position>>(&self, position: P) -> Option<&Cell> {
        self.place(position.into()).map(|at| &self.content[at])
    }

    /// Returns the cell, or `None` if the buffer hasn't it.
    pub fn cell_mut<P: Into<Position>>(&mut self, position: P) -> Option<&mut Cell> {
        self.place(position.into()).map(|at| &mut self.content[at])
    }

    /// Applies a style to those cells of an area that the buffer has.
    pub fn set_style<S: Into<Style>>(&mut self, area: Rect, style: S) {
        let (area, style) = (self.area.intersection(area), style.into());
        for y in area.top()..area.bottom() {
            for x in area.left()..area.right() {
                self[(x, y)].set_style(style);
            }
        }
    }

    /// Writes a text into the cells of row `y` from column `x` on, as many as the buffer has, and
    /// applies a style to them.
    pub fn set_string<T: AsRef<str>, S: Into<Style>>(&mut self, x: u16, y: u16, text: T, style: S) {
        let style = style.into();
        for (x, symbol) in (x..self.area.right()).zip(symbols_of(text.as_ref())) {
            self[(x, y)].set_symbol(&symbol).set_style(style);
        }
    }

    /// Makes each cell a blank one, without colours and modifiers.
    pub fn reset(&mut self) {
        self.content.iter_mut().for_each(Cell::reset);
    }
}

/// The cells that show a line.
fn cells_of(line: &Line) -> Vec<Cell> {
    let mut cells = Vec::new();
    for span in &line.spans {
        for symbol in symbols_of(&span.content) {
            let mut cell = Cell::new(&symbol);
            cell.set_style(line.style.patch(span.style));
            cells.push(cell);
        }
    }
    cells
}

/// The texts of the cells that show a text. A wide character has a blank cell after it.
fn symbols_of(text: &str) -> Vec<String> {
    if text.is_ascii() {
        return text.chars().map(String::from).collect();
    }
    let mut area = TextArea::from([text]);
    area.set_cursor_render_mode(CursorRenderMode::Hidden);
    area.move_cursor(CursorMove::End);
    let room = u16::try_from(2 * text.len() + 1).unwrap_or(u16::MAX);
    let mut row = Buffer::empty(Rect::new(0, 0, room, 1));
    (&area).render(row.area, &mut row);
    let width = area.rendered_cursor_position().map_or(room, |end| end.x);
    let shown = row.content.into_iter().take(usize::from(width));
    shown.map(|cell| cell.symbol().to_string()).collect()
}

impl<P: Into<Position>> Index<P> for Buffer {
    type Output = Cell;

    fn index(&self, position: P) -> &Cell {
        self.cell(position).expect("the cell is in the buffer")
    }
}

impl<P: Into<Position>> IndexMut<P> for Buffer {
    fn index_mut(&mut self, position: P) -> &mut Cell {
        self.cell_mut(position).expect("the cell is in the buffer")
    }
}
