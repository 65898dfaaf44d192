//! Lines and columns of a text.

use crate::ffi;

/// The line and columns of an offset in a text. Each counts from 0.
#[derive(Clone, Copy, Debug, PartialEq, Eq, Hash, PartialOrd, Ord)]
pub struct Place {
    /// How many LF are before the offset.
    pub line: usize,
    /// How many characters are on the line before the offset.
    pub column: usize,
    /// How many units of UTF-16 these characters take, as editors count columns.
    pub utf16_column: usize,
}

/// How many bytes are read at most to find a place.
const STRIDE: usize = 4096;

/// A place within a long line, from which later ones are counted.
#[derive(Clone, Copy, Debug)]
struct Mark {
    /// Its offset in the text.
    at: usize,
    /// How many characters are on the line before it.
    column: usize,
    /// How many units of UTF-16 these characters take.
    utf16_column: usize,
}

impl Mark {
    /// The start of a line.
    fn line_start(at: usize) -> Self {
        Mark {
            at,
            column: 0,
            utf16_column: 0,
        }
    }

    /// The mark of an offset after it on the same line. `None` inside a character.
    fn moved(self, text: &str, at: usize) -> Option<Self> {
        let more = ffi::place(&text[self.at..], at - self.at)?;
        Some(Mark {
            at,
            column: self.column + more.column,
            utf16_column: self.utf16_column + more.utf16_column,
        })
    }

    /// The next mark on its line, which ends at an offset.
    fn next(self, text: &str, line_end: usize) -> Option<Self> {
        if line_end - self.at <= STRIDE {
            return None;
        }
        let boundary = |at: &usize| text.is_char_boundary(*at);
        let at = (self.at..=self.at + STRIDE).rev().find(boundary)?;
        self.moved(text, at)
    }
}

/// The lines of a text, by which the place of an offset is found.
///
/// It takes eight bytes a line, and 24 bytes for each 4 KB of a longer line. A place takes the time to
/// read at most 4 KB, however long its line is.
///
/// ```
/// use starlark_lexer::{LineIndex, Place};
///
/// let lines = LineIndex::new("a\n🔬b\n");
/// let place = Place { line: 1, column: 1, utf16_column: 2 };
/// assert_eq!(lines.place(6), Some(place));
/// assert_eq!(lines.place(3), None);
/// ```
#[derive(Clone, Debug)]
pub struct LineIndex<'a> {
    text: &'a str,
    starts: Vec<usize>,
    marks: Vec<Mark>,
}

impl<'a> LineIndex<'a> {
    /// The lines of a text. It reads the text once, and lines of more than 4 KB twice.
    #[must_use]
    pub fn new(text: &'a str) -> Self {
        let after_newlines = text.match_indices('\n').map(|(at, _)| at + 1);
        let starts: Vec<_> = std::iter::once(0).chain(after_newlines).collect();
        let ends = starts.iter().skip(1).copied().chain([text.len()]);
        let marks = starts.iter().zip(ends).flat_map(|(&start, end)| {
            let next = move |mark: &Mark| mark.next(text, end);
            std::iter::successors(Mark::line_start(start).next(text, end), next)
        });
        LineIndex {
            text,
            marks: marks.collect(),
            starts,
        }
    }

    /// The place of an offset in bytes. `None` past the end of the text, and inside a character.
    #[must_use]
    pub fn place(&self, at: usize) -> Option<Place> {
        if at > self.text.len() {
            return None;
        }
        let line = self.starts.partition_point(|&start| start <= at) - 1;
        let start = self.starts[line];
        let before = self.marks.partition_point(|mark| mark.at <= at);
        let mark = match self.marks[..before].last() {
            Some(mark) if mark.at > start => *mark,
            _ => Mark::line_start(start),
        };
        let mark = mark.moved(self.text, at)?;
        Some(Place {
            line,
            column: mark.column,
            utf16_column: mark.utf16_column,
        })
    }
}
