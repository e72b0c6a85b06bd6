use super::styles::Style;
use crate::sys;
use std::borrow::Cow;
use std::fmt;

/// A text in one style.
#[derive(Clone, Debug, Default, PartialEq, Eq, Hash)]
pub struct Span<'a> {
    /// The text.
    pub content: Cow<'a, str>,
    /// The style.
    pub style: Style,
}

impl<'a> Span<'a> {
    /// Returns a text without a style.
    pub fn raw<T: Into<Cow<'a, str>>>(content: T) -> Span<'a> {
        Span::styled(content, Style::new())
    }

    /// Returns a text in this style.
    pub fn styled<T: Into<Cow<'a, str>>, S: Into<Style>>(content: T, style: S) -> Span<'a> {
        Span {
            content: content.into(),
            style: style.into(),
        }
    }

    /// Returns the text in this style.
    pub fn style<S: Into<Style>>(mut self, style: S) -> Span<'a> {
        self.style = style.into();
        self
    }
}

impl fmt::Display for Span<'_> {
    fn fmt(&self, f: &mut fmt::Formatter) -> fmt::Result {
        f.write_str(&self.content)
    }
}

impl<'a, T: Into<Cow<'a, str>>> From<T> for Span<'a> {
    fn from(content: T) -> Span<'a> {
        Span::raw(content)
    }
}

/// Spans one after another. The style of the line is under theirs.
#[derive(Clone, Debug, Default, PartialEq, Eq, Hash)]
pub struct Line<'a> {
    /// The style.
    pub style: Style,
    /// The spans.
    pub spans: Vec<Span<'a>>,
}

impl<'a> Line<'a> {
    /// Returns a line of the text; a line feed in it begins another span, as it can't be shown.
    pub fn raw<T: Into<Cow<'a, str>>>(content: T) -> Line<'a> {
        Line::styled(content, Style::new())
    }

    /// Returns a line of the text in this style.
    pub fn styled<T: Into<Cow<'a, str>>, S: Into<Style>>(content: T, style: S) -> Line<'a> {
        let spans = match content.into() {
            Cow::Borrowed(text) => text.lines().map(Span::raw).collect(),
            Cow::Owned(text) => text
                .lines()
                .map(|line| Span::raw(line.to_string()))
                .collect(),
        };
        Line {
            style: style.into(),
            spans,
        }
    }

    /// Returns the line in this style.
    pub fn style<S: Into<Style>>(mut self, style: S) -> Line<'a> {
        self.style = style.into();
        self
    }
}

impl<'a> From<&'a str> for Line<'a> {
    fn from(content: &'a str) -> Line<'a> {
        Line::raw(content)
    }
}

impl From<String> for Line<'_> {
    fn from(content: String) -> Self {
        Line::raw(content)
    }
}

impl<'a> From<Cow<'a, str>> for Line<'a> {
    fn from(content: Cow<'a, str>) -> Line<'a> {
        Line::raw(content)
    }
}

impl<'a> From<Vec<Span<'a>>> for Line<'a> {
    fn from(spans: Vec<Span<'a>>) -> Line<'a> {
        Line {
            style: Style::new(),
            spans,
        }
    }
}

impl<'a, S: Into<Span<'a>>> FromIterator<S> for Line<'a> {
    fn from_iter<I: IntoIterator<Item = S>>(spans: I) -> Line<'a> {
        Line::from(spans.into_iter().map(Into::into).collect::<Vec<_>>())
    }
}

impl<'a> From<Span<'a>> for Line<'a> {
    fn from(span: Span<'a>) -> Line<'a> {
        Line::from(vec![span])
    }
}

impl fmt::Display for Line<'_> {
    fn fmt(&self, f: &mut fmt::Formatter) -> fmt::Result {
        self.spans
            .iter()
            .try_for_each(|span| f.write_str(&span.content))
    }
}

/// Lines one below another. The style of the text is under theirs.
#[derive(Clone, Debug, Default, PartialEq, Eq, Hash)]
pub struct Text<'a> {
    /// The style.
    pub style: Style,
    /// The lines.
    pub lines: Vec<Line<'a>>,
}

impl<'a> Text<'a> {
    /// Returns a text of the lines of `content`.
    pub fn raw<T: Into<Cow<'a, str>>>(content: T) -> Text<'a> {
        let lines = match content.into() {
            Cow::Borrowed("") => vec![Line::from("")],
            Cow::Borrowed(text) => text.lines().map(Line::from).collect(),
            Cow::Owned(text) if text.is_empty() => vec![Line::from("")],
            Cow::Owned(text) => text
                .lines()
                .map(|line| Line::from(line.to_string()))
                .collect(),
        };
        Text::from(lines)
    }

    /// Returns a text of the lines of `content` in this style.
    pub fn styled<T: Into<Cow<'a, str>>, S: Into<Style>>(content: T, style: S) -> Text<'a> {
        Text::raw(content).style(style)
    }

    /// Returns the text in this style.
    pub fn style<S: Into<Style>>(mut self, style: S) -> Text<'a> {
        self.style = style.into();
        self
    }
}

impl<'a> From<&'a str> for Text<'a> {
    fn from(content: &'a str) -> Text<'a> {
        Text::raw(content)
    }
}

impl From<String> for Text<'_> {
    fn from(content: String) -> Self {
        Text::raw(content)
    }
}

impl<'a, L: Into<Line<'a>>> FromIterator<L> for Text<'a> {
    fn from_iter<I: IntoIterator<Item = L>>(lines: I) -> Text<'a> {
        Text::from(lines.into_iter().map(Into::into).collect::<Vec<_>>())
    }
}

impl<'a> From<Cow<'a, str>> for Text<'a> {
    fn from(content: Cow<'a, str>) -> Text<'a> {
        Text::raw(content)
    }
}

impl<'a> From<Span<'a>> for Text<'a> {
    fn from(span: Span<'a>) -> Text<'a> {
        Text::from(Line::from(span))
    }
}

impl<'a> From<Line<'a>> for Text<'a> {
    fn from(line: Line<'a>) -> Text<'a> {
        Text::from(vec![line])
    }
}

impl<'a> From<Vec<Line<'a>>> for Text<'a> {
    fn from(lines: Vec<Line<'a>>) -> Text<'a> {
        Text {
            style: Style::new(),
            lines,
        }
    }
}

impl fmt::Display for Text<'_> {
    fn fmt(&self, f: &mut fmt::Formatter) -> fmt::Result {
        for (row, line) in self.lines.iter().enumerate() {
            let separator = if row == 0 { "" } else { "\n" };
            write!(f, "{separator}{line}")?;
        }
        Ok(())
    }
}

/// Styled lines as the core takes them: texts, spans and lines, each one after another.
#[derive(Default)]
pub(crate) struct Parts {
    pub text: String,
    pub spans: Vec<sys::Span>,
    pub lines: Vec<sys::Line>,
}

impl Parts {
    pub fn of(lines: &[Line]) -> Parts {
        let mut parts = Parts::default();
        for line in lines {
            for span in &line.spans {
                parts.text.push_str(&span.content);
                parts.spans.push(sys::Span {
                    bytes: span.content.len(),
                    style: span.style.into(),
                });
            }
            parts.lines.push(sys::Line {
                spans: line.spans.len(),
                style: line.style.into(),
            });
        }
        parts
    }

    pub fn lines(&self) -> Vec<Line<'static>> {
        let mut text = self.text.as_str();
        let mut spans = self.spans.as_slice();
        let mut lines = Vec::new();
        for line in &self.lines {
            let (own, after) = spans.split_at(line.spans);
            spans = after;
            let own = own.iter().map(|span| {
                let (content, after) = text.split_at(span.bytes);
                text = after;
                Span::styled(content.to_string(), span.style)
            });
            let own = own.collect();
            lines.push(Line {
                style: line.style.into(),
                spans: own,
            });
        }
        lines
    }
}
