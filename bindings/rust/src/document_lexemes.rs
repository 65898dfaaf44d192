//! Lexemes of a document, in buffers from which their values are borrowed.

use crate::ffi::{Buffers, LexemeRecord};
use crate::value::{OwnValue, Part, Value};
use crate::{Lexeme, TokenKind};
use std::fmt;
use std::iter::FusedIterator;
use std::slice;
use std::str;

/// Lexemes that touch a range of a [`Document`](crate::Document), as they were when it was asked.
///
/// It has two buffers, one of records and one of values, which
/// [`Document::lexemes_into`](crate::Document::lexemes_into) fills again. The lexemes borrow their
/// values from it.
///
/// ```
/// use starlark_lexer::{Document, DocumentLexemes, TokenKind};
///
/// let document = Document::new("a = b\n")?;
/// let mut lexemes = DocumentLexemes::new();
/// document.lexemes_into(.., &mut lexemes);
/// let names = lexemes.iter().filter(|lexeme| lexeme.kind() == TokenKind::Identifier);
/// assert!(names.map(|name| name.into_text()).eq(["a", "b"]));
/// # Ok::<(), starlark_lexer::TooLong>(())
/// ```
#[derive(Clone, Default)]
pub struct DocumentLexemes {
    pub(crate) buffers: Buffers,
}

impl DocumentLexemes {
    /// No lexemes. It allocates nothing.
    #[must_use]
    pub fn new() -> Self {
        DocumentLexemes::default()
    }

    /// How many lexemes there are.
    #[must_use]
    pub fn len(&self) -> usize {
        self.buffers.lexemes().len()
    }

    /// Whether there are none.
    #[must_use]
    pub fn is_empty(&self) -> bool {
        self.len() == 0
    }

    /// The lexemes in order. Beginning reads all values once.
    #[must_use]
    pub fn iter(&self) -> DocumentLexemesIter<'_> {
        let values = self.buffers.values();
        DocumentLexemesIter {
            records: self.buffers.lexemes().iter(),
            values,
            text: text_before(values),
        }
    }
}

impl<'d> IntoIterator for &'d DocumentLexemes {
    type Item = Lexeme<'d>;
    type IntoIter = DocumentLexemesIter<'d>;

    fn into_iter(self) -> Self::IntoIter {
        self.iter()
    }
}

impl fmt::Debug for DocumentLexemes {
    fn fmt(&self, f: &mut fmt::Formatter<'_>) -> fmt::Result {
        f.debug_list().entries(self).finish()
    }
}

/// The bytes before the first that isn't UTF-8, which only bytes literals have.
fn text_before(values: &[u8]) -> &str {
    let len = match str::from_utf8(values) {
        Ok(text) => return text,
        Err(error) => error.valid_up_to(),
    };
    str::from_utf8(&values[..len]).unwrap_or_default()
}

/// An iterator of [`DocumentLexemes`].
#[derive(Clone)]
pub struct DocumentLexemesIter<'d> {
    records: slice::Iter<'d, LexemeRecord>,
    values: &'d [u8],
    /// The values up to the first byte that isn't UTF-8.
    // Tested at once: to test each value by itself takes half of the time of all.
    text: &'d str,
}

impl<'d> DocumentLexemesIter<'d> {
    /// The lexeme of a record.
    ///
    /// # Panics
    ///
    /// Where its number is of no kind.
    #[inline]
    fn lexeme(&self, record: &LexemeRecord) -> Lexeme<'d> {
        let kind = TokenKind::of_number(record.head.kind);
        let range = record.value_begin..record.value_begin + record.value_len;
        let value = match self.text.get(range.clone()) {
            // The values of a document have at most `u32::MAX` bytes.
            Some(_) => Value::Part(Part {
                source: self.text,
                begin: record.value_begin as u32,
                len: record.value_len as u32,
            }),
            None => value(kind, &self.values[range]),
        };
        Lexeme {
            head: record.head,
            begin: record.begin,
            end: record.end,
            value,
        }
    }
}

/// The value of a kind. It is borrowed unless a bytes literal denotes no UTF-8.
#[cold]
fn value(kind: TokenKind, bytes: &[u8]) -> Value<'_> {
    match str::from_utf8(bytes) {
        Ok(text) => Value::Part(Part {
            source: text,
            begin: 0,
            len: text.len() as u32,
        }),
        Err(_) => Value::Own(Box::new(OwnValue::of_kind(kind, bytes))),
    }
}

impl<'d> Iterator for DocumentLexemesIter<'d> {
    type Item = Lexeme<'d>;

    #[inline]
    fn next(&mut self) -> Option<Self::Item> {
        self.records.next().map(|record| self.lexeme(record))
    }

    fn size_hint(&self) -> (usize, Option<usize>) {
        self.records.size_hint()
    }
}

impl DoubleEndedIterator for DocumentLexemesIter<'_> {
    #[inline]
    fn next_back(&mut self) -> Option<Self::Item> {
        self.records.next_back().map(|record| self.lexeme(record))
    }
}

impl fmt::Debug for DocumentLexemesIter<'_> {
    fn fmt(&self, f: &mut fmt::Formatter<'_>) -> fmt::Result {
        f.debug_list().entries(self.clone()).finish()
    }
}

impl ExactSizeIterator for DocumentLexemesIter<'_> {}

impl FusedIterator for DocumentLexemesIter<'_> {}
