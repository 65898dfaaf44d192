//! Lexemes: the kinds of tokens, with their places and values.

use crate::ffi::LexemeHead;
use crate::frame::Frame;
use crate::value::{OwnValue, Value};
use crate::{Span, Token, TokenKind};
use std::borrow::Cow;
use std::fmt;

/// A token with its bytes in the text. It has its kind and its value apart, and makes the [`Token`]
/// when it is asked for.
///
/// ```
/// use starlark_lexer::{Lexer, Token, TokenKind};
///
/// let lexeme = Lexer::new("'a\\n'")?.next().unwrap().unwrap();
/// assert_eq!((lexeme.kind(), lexeme.span().range()), (TokenKind::String, 0..5));
/// assert_eq!(lexeme.text(), "a\n");
/// assert_eq!(lexeme.token(), Token::String("a\n".into()));
/// # Ok::<(), starlark_lexer::TooLong>(())
/// ```
#[derive(Clone, PartialEq, Eq, Hash)]
pub struct Lexeme<'a> {
    pub(crate) head: LexemeHead,
    // A text has at most `u32::MAX` bytes: so both take one word.
    pub(crate) begin: u32,
    pub(crate) end: u32,
    pub(crate) value: Value<'a>,
}

impl<'a> Lexeme<'a> {
    /// The kind of the token.
    #[inline]
    #[must_use]
    pub fn kind(&self) -> TokenKind {
        // Making the lexeme tested that its number is one of a kind.
        Frame::least(self.head.kind).kind
    }

    /// The bytes of the token in the text. A `Dedent` and the `Newline` at the end of a text have
    /// none.
    #[inline]
    #[must_use]
    pub fn span(&self) -> Span {
        Span {
            begin: self.begin as usize,
            end: self.end as usize,
        }
    }

    /// The value where it is a text: of a comment, a name, a float, a string or a text of an
    /// f-string, and the digits of an integer out of the range of `i32`. Else it is empty.
    #[inline]
    #[must_use]
    pub fn text(&self) -> &str {
        match &self.value {
            Value::Part(_) if self.is_bytes() => "",
            Value::Part(part) => part.text(),
            Value::Own(own) => match &**own {
                OwnValue::Text(text) => text,
                OwnValue::Bytes(_) => "",
            },
        }
    }

    /// What [`text`](Lexeme::text) returns, which may outlive the lexeme. It is borrowed where the
    /// text has it byte for byte.
    ///
    /// ```
    /// use starlark_lexer::{Lexer, TokenKind};
    ///
    /// let names: Vec<_> = Lexer::new("a = b + 'c'")?
    ///     .map_while(Result::ok)
    ///     .filter(|lexeme| lexeme.kind() == TokenKind::Identifier)
    ///     .map(|name| name.into_text())
    ///     .collect();
    /// assert_eq!(names, ["a", "b"]);
    /// # Ok::<(), starlark_lexer::TooLong>(())
    /// ```
    #[inline]
    #[must_use]
    pub fn into_text(self) -> Cow<'a, str> {
        match self.value {
            Value::Part(_) if self.is_bytes() => Cow::Borrowed(""),
            Value::Part(part) => Cow::Borrowed(part.text()),
            Value::Own(own) => match *own {
                OwnValue::Text(text) => Cow::Owned(text),
                OwnValue::Bytes(_) => Cow::Borrowed(""),
            },
        }
    }

    /// The bytes of what [`text`](Lexeme::text) returns, and those of a bytes literal with its
    /// escapes decoded.
    #[inline]
    #[must_use]
    pub fn bytes(&self) -> &[u8] {
        self.value.bytes()
    }

    /// The token. What it has is borrowed from the text, or from the lexeme.
    #[inline]
    #[must_use]
    pub fn token(&self) -> Token<'_> {
        match &self.value {
            Value::Part(part) => Token::new(self.head, || Cow::Borrowed(part.text())),
            Value::Own(own) => match &**own {
                OwnValue::Text(text) => Token::new(self.head, || Cow::Borrowed(text)),
                OwnValue::Bytes(bytes) => Token::Bytes(Cow::Borrowed(bytes)),
            },
        }
    }

    /// The token, which may outlive the lexeme. What it has is borrowed from the text where the text
    /// has it byte for byte.
    #[inline]
    #[must_use]
    pub fn into_token(self) -> Token<'a> {
        match self.value {
            Value::Part(part) => Token::new(self.head, || Cow::Borrowed(part.text())),
            Value::Own(own) => match *own {
                OwnValue::Text(text) => Token::new(self.head, || Cow::Owned(text)),
                OwnValue::Bytes(bytes) => Token::Bytes(Cow::Owned(bytes)),
            },
        }
    }

    /// The lexeme with a value of its own, which may outlive the text.
    #[must_use]
    pub fn into_owned(self) -> Lexeme<'static> {
        let kind = self.kind();
        Lexeme {
            head: self.head,
            begin: self.begin,
            end: self.end,
            value: self.value.into_owned(kind),
        }
    }

    /// Whether the token is a bytes literal.
    #[inline]
    fn is_bytes(&self) -> bool {
        self.head.kind == TokenKind::Bytes as u16
    }
}

impl fmt::Debug for Lexeme<'_> {
    fn fmt(&self, f: &mut fmt::Formatter<'_>) -> fmt::Result {
        f.debug_struct("Lexeme")
            .field("span", &self.span())
            .field("token", &self.token())
            .finish()
    }
}

#[cfg(test)]
#[cfg(target_pointer_width = "64")]
mod tests {
    use super::*;
    use crate::Fault;
    use std::mem::size_of;

    #[test]
    fn a_lexeme_has_five_words() {
        assert_eq!(size_of::<Token<'_>>(), 32);
        assert_eq!(size_of::<Lexeme<'_>>(), 40);
        assert_eq!(size_of::<Option<Result<Lexeme<'_>, Fault>>>(), 48);
    }
}
