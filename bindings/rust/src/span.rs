//! Bytes of a text.

use std::ops::Range;

/// A range of bytes of a text. Both offsets count bytes of UTF-8, from 0.
#[derive(Clone, Copy, Debug, PartialEq, Eq, Hash, PartialOrd, Ord)]
pub struct Span {
    /// Offset of the first byte.
    pub begin: usize,
    /// Offset after the last byte.
    pub end: usize,
}

impl Span {
    /// The range of offsets, for slicing.
    ///
    /// ```
    /// use starlark_lexer::Span;
    ///
    /// assert_eq!(&"x = 1"[Span { begin: 4, end: 5 }.range()], "1");
    /// ```
    #[must_use]
    pub fn range(self) -> Range<usize> {
        self.begin..self.end
    }
}

impl From<Span> for Range<usize> {
    fn from(span: Span) -> Self {
        span.range()
    }
}
