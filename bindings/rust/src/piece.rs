//! A piece of a text, with its lexemes.

use crate::ffi::{Buffers, LexemeRecord};
use crate::frame::Frame;
use crate::value::{OwnValue, Part, Value};
use crate::{Lexeme, Span, TokenKind};

/// A piece of a text that is lexed as a text of its own.
#[derive(Clone, Debug)]
pub(crate) struct Piece<'a> {
    /// The text from the piece on.
    pub text: &'a str,
    /// Offset in the whole text where the piece begins.
    pub from: u32,
    /// The lexemes of the piece. Their offsets count from where the piece begins.
    pub buffers: Buffers,
    /// Whether the piece was lexed on after its faults, and so may have open quotes as lexemes.
    pub is_recovered: bool,
}

impl<'a> Piece<'a> {
    /// The bytes of the whole text from one offset in the piece to another.
    pub fn span(&self, begin: u32, end: u32) -> Span {
        Span {
            begin: (self.from + begin) as usize,
            end: (self.from + end) as usize,
        }
    }

    /// The lexeme of a record of the piece. Its value is borrowed if the text has it before the
    /// lexeme's closing quotes.
    ///
    /// Where the value fills the least frame of its kind, no bytes are compared, for they are what the
    /// text has there: a name is its value, as a float is, and each part of a literal denotes its own
    /// bytes, or fewer than it has. A literal of three quotes, or a raw one, has a larger frame.
    // One comparison tells a value that fills its frame, of a number that is one of a kind. With two
    // tests of the number besides, a mix takes 5 % longer, and BUILD files 7 %.
    #[inline]
    pub fn lexeme(&self, record: &LexemeRecord) -> Lexeme<'a> {
        let frame = Frame::least(record.head.kind);
        let len = frame.value_len(record.end - record.begin);
        if record.value_len != len as usize || self.may_be_open(record, frame) {
            return self.lexeme_by_comparing(record);
        }
        Lexeme {
            head: record.head.without_place(),
            begin: self.from + record.begin,
            end: self.from + record.end,
            value: Value::Part(Part {
                source: self.text,
                begin: record.begin + u32::from(frame.before),
                len,
            }),
        }
    }

    /// Whether a record may be of an open quote with an `r` before it: so its value has as many bytes as
    /// one that fills the least frame, and no quote is right before that.
    #[inline]
    fn may_be_open(&self, record: &LexemeRecord, frame: Frame) -> bool {
        if !self.is_recovered {
            return false;
        }
        let before = &self.text.as_bytes()[record.begin as usize..][..usize::from(frame.before)];
        matches!(before.last(), Some(byte) if *byte != b'"' && *byte != b'\'')
    }

    /// The lexeme of a record whose value doesn't fill the least frame of its kind.
    // Returns all of the lexeme, so that a loop needs no register for what is left of the record.
    #[cold]
    #[inline(never)]
    fn lexeme_by_comparing(&self, record: &LexemeRecord) -> Lexeme<'a> {
        let kind = TokenKind::of_number(record.head.kind);
        let value = match self.find_value(record) {
            // Both are at most the length of the text, which `u32` holds.
            Some(begin) => Value::Part(Part {
                source: self.text,
                begin: begin as u32,
                len: record.value_len as u32,
            }),
            None => Value::Own(Box::new(OwnValue::of_kind(
                kind,
                self.buffers.value(record),
            ))),
        };
        Lexeme {
            head: record.head.without_place(),
            begin: self.from + record.begin,
            end: self.from + record.end,
            value,
        }
    }

    /// Offset where the bytes of a record's value are in its lexeme: where the record tells, or
    /// before no, one or three closing quotes.
    fn find_value(&self, record: &LexemeRecord) -> Option<usize> {
        if let Some(begin) = record.value_in_text() {
            return Some(begin);
        }
        let bytes = self.buffers.value(record);
        [0, 1, 3].into_iter().find_map(|closing| {
            let begin = (record.end as usize).checked_sub(closing + bytes.len())?;
            let part = self.text.get(begin..begin + bytes.len())?;
            (begin >= record.begin as usize && part.as_bytes() == bytes).then_some(begin)
        })
    }
}

#[cfg(test)]
mod tests {
    use super::*;
    use crate::ffi::LexemeHead;

    /// The lexeme with a kind's number that is all of a text, by a record with no value.
    fn lexeme(text: &str, kind: u16) -> Lexeme<'_> {
        let piece = Piece {
            text,
            from: 0,
            buffers: Buffers::with_capacity(0, 0),
            is_recovered: false,
        };
        piece.lexeme(&LexemeRecord {
            begin: 0,
            end: text.len() as u32,
            head: LexemeHead {
                kind,
                detail: 0,
                integer: 0,
            },
            value_begin: 0,
            value_len: 0,
        })
    }

    #[test]
    fn an_empty_value_needs_no_frame() {
        for &kind in TokenKind::ALL {
            for text in ["", "a", "''", "b''", ""] {
                let lexeme = lexeme(text, kind as u16);
                assert_eq!((lexeme.kind(), lexeme.bytes()), (kind, &b""[..]));
                assert_eq!(lexeme.span().range(), 0..text.len());
            }
        }
    }

    #[test]
    #[should_panic(expected = "the library has no kind 0")]
    fn a_number_below_those_of_kinds() {
        lexeme("a", 0);
    }

    #[test]
    #[should_panic(expected = "the library has no kind 65535")]
    fn a_number_above_those_of_kinds() {
        lexeme("a", u16::MAX);
    }
}
