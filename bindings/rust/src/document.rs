//! Documents: texts that stay lexed while they are edited.

use crate::ffi::{Buffers, OpenDocument};
use crate::{DocumentLexemes, Fault, FaultKind, Place, TooLong};
use std::error::Error;
use std::fmt;
use std::iter::FusedIterator;
use std::ops::{Bound, Range, RangeBounds};

/// A text that stays lexed while it is edited. It owns its text.
///
/// An edit lexes only what it touches. Its lexemes and faults are those that a
/// [`RecoveringLexer`](crate::RecoveringLexer) finds in the whole text, each at its place.
///
/// A document may be sent to another thread. It can't be shared between threads, since each call
/// uses the library's own state. Where memory runs out the process aborts.
///
/// ```
/// use starlark_lexer::{Document, TokenKind};
///
/// let mut document = Document::new("x = 'a\ny = 1\n")?;
/// assert_eq!(document.faults(..).count(), 1);
///
/// let change = document.edit(6..6, "'").unwrap();
/// assert_eq!(document.faults(..).count(), 0);
/// assert_eq!(document.text(4..7).as_deref(), Some("'a'"));
///
/// let painted = document.lexemes(change.new_range());
/// assert!(painted.iter().any(|lexeme| lexeme.kind() == TokenKind::String));
/// # Ok::<(), starlark_lexer::TooLong>(())
/// ```
pub struct Document(OpenDocument);

/// What an edit changed. Before `begin` and after the ends all lexemes and faults are the old ones;
/// those after are moved by `new_end - old_end`.
#[derive(Clone, Copy, Debug, PartialEq, Eq)]
#[non_exhaustive]
pub struct Change {
    /// Start of the range in both texts, in bytes.
    pub begin: usize,
    /// End of the range in the old text.
    pub old_end: usize,
    /// End of the range in the new text.
    pub new_end: usize,
    pub(crate) lexed: usize,
}

impl Change {
    /// The range in the old text: the lexemes that touched it are to be replaced.
    #[must_use]
    pub fn old_range(&self) -> Range<usize> {
        self.begin..self.old_end
    }

    /// The range in the new text: the lexemes that touch it take their place.
    #[must_use]
    pub fn new_range(&self) -> Range<usize> {
        self.begin..self.new_end
    }

    /// How many bytes were lexed. A byte that was lexed twice counts twice.
    #[must_use]
    pub fn lexed(&self) -> usize {
        self.lexed
    }
}

/// Why a document refuses an edit.
#[derive(Clone, Copy, Debug, PartialEq, Eq)]
#[non_exhaustive]
pub enum EditError {
    /// The offsets aren't in order, or aren't character boundaries of the text.
    BadRange,
    /// The text would have more than 4,294,967,295 bytes.
    TooLong,
}

impl fmt::Display for EditError {
    fn fmt(&self, f: &mut fmt::Formatter<'_>) -> fmt::Result {
        f.write_str(match self {
            EditError::BadRange => "the range isn't one of the text",
            EditError::TooLong => "the text would be longer than 4294967295 bytes",
        })
    }
}

impl Error for EditError {}

impl Document {
    /// A document of a text.
    ///
    /// # Errors
    ///
    /// `TooLong` for a text of more than 4,294,967,295 bytes.
    pub fn new(text: &str) -> Result<Self, TooLong> {
        OpenDocument::new(text).map(Document)
    }

    /// Replaces a range of bytes by a text, and lexes what that touches.
    ///
    /// # Errors
    ///
    /// `BadRange` where the range isn't one of the text, or is cut inside of a character, and
    /// `TooLong`. The document is as it was then.
    pub fn edit(
        &mut self,
        range: impl RangeBounds<usize>,
        text: &str,
    ) -> Result<Change, EditError> {
        let range = self.range(&range).ok_or(EditError::BadRange)?;
        self.0.edit(range, text)
    }

    /// The lexemes that touch a range of bytes, in order: each that ends at its start or later, and
    /// begins at its end or earlier. `..` is all of them.
    ///
    /// What they have is of this moment. So the document may be edited while they are taken.
    pub fn lexemes(&self, range: impl RangeBounds<usize>) -> DocumentLexemes {
        let mut lexemes = DocumentLexemes::new();
        self.lexemes_into(range, &mut lexemes);
        lexemes
    }

    /// Puts what [`lexemes`](Document::lexemes) returns in place of some lexemes, whose buffers are
    /// used again.
    pub fn lexemes_into(&self, range: impl RangeBounds<usize>, lexemes: &mut DocumentLexemes) {
        match self.range(&range) {
            Some(range) => self.0.lexemes(range, &mut lexemes.buffers),
            None => lexemes.buffers.clear(),
        }
    }

    /// The faults that touch a range of bytes, in order. `..` is all of them.
    pub fn faults(&self, range: impl RangeBounds<usize>) -> DocumentFaults {
        let mut buffers = Buffers::with_capacity(0, 0);
        if let Some(range) = self.range(&range) {
            self.0.faults(range, &mut buffers);
        }
        DocumentFaults { buffers, index: 0 }
    }

    /// The text of a range of bytes. `None` where the range isn't one of the text, or is cut inside
    /// of a character.
    pub fn text(&self, range: impl RangeBounds<usize>) -> Option<String> {
        self.0.text(self.range(&range)?)
    }

    /// Length of the text in bytes.
    pub fn len(&self) -> usize {
        self.0.len()
    }

    /// Whether the text is empty.
    pub fn is_empty(&self) -> bool {
        self.len() == 0
    }

    /// The line and columns of an offset. `None` where it is no character boundary of the text.
    pub fn place(&self, at: usize) -> Option<Place> {
        self.0.place(at)
    }

    /// The offset of a line and a column in units of UTF-16, both from 0. `None` where no character
    /// boundary is there.
    pub fn offset_at_utf16(&self, line: usize, column: usize) -> Option<usize> {
        self.0.offset_at_utf16(line, column)
    }

    /// The offsets of a range. `None` where no number says one.
    fn range(&self, range: &impl RangeBounds<usize>) -> Option<Range<usize>> {
        let begin = match range.start_bound() {
            Bound::Included(&begin) => begin,
            Bound::Excluded(&before) => before.checked_add(1)?,
            Bound::Unbounded => 0,
        };
        let end = match range.end_bound() {
            Bound::Included(&last) => last.checked_add(1)?,
            Bound::Excluded(&end) => end,
            Bound::Unbounded => self.len(),
        };
        Some(begin..end)
    }
}

impl fmt::Debug for Document {
    fn fmt(&self, f: &mut fmt::Formatter<'_>) -> fmt::Result {
        f.debug_struct("Document")
            .field("len", &self.len())
            .finish_non_exhaustive()
    }
}

/// The faults that touch a range of a [`Document`].
#[derive(Clone, Debug)]
pub struct DocumentFaults {
    buffers: Buffers,
    index: usize,
}

impl Iterator for DocumentFaults {
    type Item = Fault;

    fn next(&mut self) -> Option<Self::Item> {
        let record = self.buffers.fault(self.index)?;
        self.index += 1;
        let kind = FaultKind::of_number(record.kind)
            .unwrap_or_else(|| unreachable!("the library has no fault {}", record.kind));
        let span = crate::Span {
            begin: record.begin as usize,
            end: record.end as usize,
        };
        Some(Fault::new(kind, span, self.buffers.message(record)))
    }
}

impl FusedIterator for DocumentFaults {}
