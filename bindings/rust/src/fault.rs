//! Why a text isn't Starlark's tokens, and why it can't be lexed.

use crate::Span;
use std::error::Error;
use std::fmt;

/// The kind of a fault. It prints its code.
#[derive(Clone, Copy, Debug, PartialEq, Eq, Hash)]
#[non_exhaustive]
pub enum FaultKind {
    /// A line closes a block, and is as wide as no open one.
    Indentation,
    /// No token starts so.
    InvalidInput,
    /// A tab between words, at the end of a line, or in an indentation.
    InvalidTab,
    /// A literal or the text of an f-string has no end.
    UnfinishedStringLiteral,
    /// An escape sequence that means nothing, such as `\x4`.
    InvalidEscapeSequence,
    /// A backslash at the end of the text, in a literal.
    EmptyEscapeSequence,
    /// A reserved word, such as `class`.
    ReservedKeyword,
    /// An integer with a leading zero, such as `01`.
    StartsZero,
    /// A text literal in an expression of an f-string has no end, as in `f'{"a`.
    UnfinishedFStringExpression,
}

impl FaultKind {
    /// The kind with a number of the library.
    pub(crate) fn of_number(number: u32) -> Option<Self> {
        Some(match number {
            1 => FaultKind::Indentation,
            2 => FaultKind::InvalidInput,
            3 => FaultKind::InvalidTab,
            4 => FaultKind::UnfinishedStringLiteral,
            5 => FaultKind::InvalidEscapeSequence,
            6 => FaultKind::EmptyEscapeSequence,
            7 => FaultKind::ReservedKeyword,
            8 => FaultKind::StartsZero,
            9 => FaultKind::UnfinishedFStringExpression,
            _ => return None,
        })
    }

    /// The code of the kind, which no later version changes.
    ///
    /// ```
    /// use starlark_lexer::{FaultKind, Lexer};
    ///
    /// let fault = Lexer::new("x = 01")?.find_map(Result::err).unwrap();
    /// assert_eq!((fault.kind(), fault.kind().code()), (FaultKind::StartsZero, "SL008"));
    /// # Ok::<(), starlark_lexer::TooLong>(())
    /// ```
    #[must_use]
    pub fn code(self) -> &'static str {
        match self {
            FaultKind::Indentation => "SL001",
            FaultKind::InvalidInput => "SL002",
            FaultKind::InvalidTab => "SL003",
            FaultKind::UnfinishedStringLiteral => "SL004",
            FaultKind::InvalidEscapeSequence => "SL005",
            FaultKind::EmptyEscapeSequence => "SL006",
            FaultKind::ReservedKeyword => "SL007",
            FaultKind::StartsZero => "SL008",
            FaultKind::UnfinishedFStringExpression => "SL009",
        }
    }
}

impl fmt::Display for FaultKind {
    fn fmt(&self, f: &mut fmt::Formatter<'_>) -> fmt::Result {
        f.pad(self.code())
    }
}

/// A fault of a text: it ends a `Lexer`. It prints its message, without its place.
// The parts are boxed, so that an item of a lexer is no larger than a lexeme.
#[derive(Clone, PartialEq, Eq)]
pub struct Fault(Box<Parts>);

/// What a fault has.
#[derive(Clone, PartialEq, Eq)]
struct Parts {
    kind: FaultKind,
    span: Span,
    message: String,
}

impl Fault {
    /// A fault with its message.
    pub(crate) fn new(kind: FaultKind, span: Span, message: String) -> Self {
        Fault(Box::new(Parts {
            kind,
            span,
            message,
        }))
    }

    /// The kind of the fault.
    #[must_use]
    pub fn kind(&self) -> FaultKind {
        self.0.kind
    }

    /// The bytes of the text that are at fault.
    #[must_use]
    pub fn span(&self) -> Span {
        self.0.span
    }

    /// The message, such as ``Parse error: invalid input `!` ``.
    #[must_use]
    pub fn message(&self) -> &str {
        &self.0.message
    }
}

impl fmt::Debug for Fault {
    fn fmt(&self, f: &mut fmt::Formatter<'_>) -> fmt::Result {
        f.debug_struct("Fault")
            .field("kind", &self.kind())
            .field("span", &self.span())
            .field("message", &self.message())
            .finish()
    }
}

impl fmt::Display for Fault {
    fn fmt(&self, f: &mut fmt::Formatter<'_>) -> fmt::Result {
        f.write_str(self.message())
    }
}

impl Error for Fault {}

/// The error of a text with more than 4,294,967,295 bytes.
#[derive(Clone, Copy, Debug, PartialEq, Eq)]
pub struct TooLong;

impl fmt::Display for TooLong {
    fn fmt(&self, f: &mut fmt::Formatter<'_>) -> fmt::Result {
        f.write_str("the text has more than 4294967295 bytes")
    }
}

impl Error for TooLong {}

#[cfg(test)]
mod tests {
    use super::*;
    use crate::ffi::fault_code;

    #[test]
    fn codes_are_those_of_the_library() {
        for number in 0..1000 {
            let kind = FaultKind::of_number(number);
            assert_eq!(
                kind.map_or("", FaultKind::code),
                fault_code(number),
                "{number}"
            );
        }
    }
}
