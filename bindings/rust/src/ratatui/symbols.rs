use std::fmt;
use std::str::from_utf8;

/// The number of bytes that a text has at most to be stored in place.
const ROOM: usize = 22;

/// The text of a cell. It takes memory only if it has more than 22 bytes.
#[derive(Clone, PartialEq, Eq, Hash)]
pub(crate) struct Symbol(Stored);

/// Equal texts are stored in the same way.
#[derive(Clone, PartialEq, Eq, Hash)]
enum Stored {
    /// The number of bytes, and the bytes with zeroes after them.
    Short(u8, [u8; ROOM]),
    /// A text that has more.
    Long(Box<str>),
}

impl Symbol {
    /// A space.
    pub(crate) const SPACE: Symbol = {
        let mut bytes = [0; ROOM];
        bytes[0] = b' ';
        Symbol(Stored::Short(1, bytes))
    };

    /// Returns the text that has these bytes in UTF-8, or `None` if they are more than 22.
    pub(crate) fn short(text: &[u8]) -> Option<Symbol> {
        let mut bytes = [0; ROOM];
        bytes.get_mut(..text.len())?.copy_from_slice(text);
        Some(Symbol(Stored::Short(text.len() as u8, bytes)))
    }

    /// Returns the text.
    pub(crate) fn as_str(&self) -> &str {
        match &self.0 {
            Stored::Short(length, bytes) => {
                from_utf8(&bytes[..usize::from(*length)]).expect("a symbol is UTF-8")
            }
            Stored::Long(text) => text,
        }
    }
}

impl From<&str> for Symbol {
    fn from(text: &str) -> Symbol {
        let short = Symbol::short(text.as_bytes());
        short.unwrap_or_else(|| Symbol(Stored::Long(text.into())))
    }
}

impl fmt::Debug for Symbol {
    fn fmt(&self, f: &mut fmt::Formatter) -> fmt::Result {
        self.as_str().fmt(f)
    }
}
