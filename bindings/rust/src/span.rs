//! Byte ranges of a text.

use std::fmt::{self, Display, Formatter};
use std::ops::Range;

/// A byte range of the text that was read: from `start` up to, and without, `end`.
#[derive(Clone, Copy, Debug, Default, PartialEq, Eq, Hash)]
pub struct Span {
    /// Where it starts.
    pub start: usize,
    /// Where it ends.
    pub end: usize,
}

impl Span {
    /// The range `start..end`.
    pub const fn new(start: usize, end: usize) -> Span {
        Span { start, end }
    }

    /// How many bytes it has.
    pub const fn len(self) -> usize {
        self.end.saturating_sub(self.start)
    }

    /// Whether it has no byte.
    pub const fn is_empty(self) -> bool {
        self.len() == 0
    }

    /// The same range, to take a part of a slice with.
    pub const fn range(self) -> Range<usize> {
        self.start..self.end
    }

    /// The bytes of a text that it names; none where the text is too short to be the one that was read.
    pub fn of(self, text: &[u8]) -> &[u8] {
        text.get(self.range()).unwrap_or_default()
    }

    /// A range from two cells of the library's answers.
    pub(crate) fn of_cells(start: u16, end: u16) -> Span {
        Span::new(usize::from(start), usize::from(end))
    }
}

impl From<Span> for Range<usize> {
    fn from(span: Span) -> Range<usize> {
        span.range()
    }
}

impl Display for Span {
    fn fmt(&self, f: &mut Formatter<'_>) -> fmt::Result {
        write!(f, "{}..{}", self.start, self.end)
    }
}
