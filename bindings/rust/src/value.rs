//! The value of a lexeme: a part of the text, or bytes of its own.

use crate::TokenKind;
use std::hash::{Hash, Hasher};
use std::ops::Range;

/// The bytes of a lexeme's value. Equal bytes are equal values, wherever they are.
#[derive(Clone)]
pub(crate) enum Value<'a> {
    /// A part of the text, which is empty where the kind has no value.
    Part(Part<'a>),
    /// What the text doesn't have byte for byte.
    Own(Box<OwnValue>),
}

/// A part of a text, which begins and ends at character boundaries.
// No slice: to test its ends for each lexeme costs 9 instructions, though few are asked for.
#[derive(Clone, Copy)]
pub(crate) struct Part<'a> {
    /// The text.
    pub source: &'a str,
    /// Offset in the text where the part begins.
    pub begin: u32,
    /// How many bytes it has.
    pub len: u32,
}

/// A value that owns its bytes.
#[derive(Clone)]
pub(crate) enum OwnValue {
    /// The value of any kind but `Bytes`.
    Text(String),
    /// The value of a bytes literal.
    Bytes(Vec<u8>),
}

impl Value<'_> {
    /// The value of a lexeme of a kind, which may outlive the text.
    pub fn into_owned(self, kind: TokenKind) -> Value<'static> {
        let own = match self {
            Value::Part(Part { len: 0, .. }) => return Value::Part(Part::EMPTY),
            Value::Part(part) => Box::new(OwnValue::of_kind(kind, part.bytes())),
            Value::Own(own) => own,
        };
        Value::Own(own)
    }

    /// The bytes, in UTF-8 if they are a text.
    #[inline]
    pub fn bytes(&self) -> &[u8] {
        match self {
            Value::Part(part) => part.bytes(),
            Value::Own(own) => own.bytes(),
        }
    }
}

impl Part<'static> {
    /// A part with no bytes.
    const EMPTY: Self = Part {
        source: "",
        begin: 0,
        len: 0,
    };
}

impl<'a> Part<'a> {
    /// The part as a text.
    #[inline]
    pub fn text(self) -> &'a str {
        &self.source[self.range()]
    }

    /// The bytes of the part.
    #[inline]
    pub fn bytes(self) -> &'a [u8] {
        &self.source.as_bytes()[self.range()]
    }

    /// The offsets of the part in the text.
    #[inline]
    fn range(self) -> Range<usize> {
        let begin = self.begin as usize;
        begin..begin + self.len as usize
    }
}

impl OwnValue {
    /// The value of a kind, with a copy of its bytes.
    ///
    /// # Panics
    ///
    /// Where the bytes of a text aren't UTF-8.
    pub fn of_kind(kind: TokenKind, bytes: &[u8]) -> Self {
        if kind == TokenKind::Bytes {
            return OwnValue::Bytes(bytes.to_vec());
        }
        let text = String::from_utf8(bytes.to_vec());
        OwnValue::Text(text.expect("the library's values of texts are UTF-8"))
    }

    /// The bytes, in UTF-8 if they are a text.
    pub fn bytes(&self) -> &[u8] {
        match self {
            OwnValue::Text(text) => text.as_bytes(),
            OwnValue::Bytes(bytes) => bytes,
        }
    }
}

impl PartialEq for Value<'_> {
    fn eq(&self, other: &Self) -> bool {
        self.bytes() == other.bytes()
    }
}

impl Eq for Value<'_> {}

impl Hash for Value<'_> {
    fn hash<H: Hasher>(&self, state: &mut H) {
        self.bytes().hash(state);
    }
}
