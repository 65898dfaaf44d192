//! The lexer that goes on after faults.

use crate::{Fault, Lexeme, Lexer, TooLong};
use std::iter::FusedIterator;

/// All lexemes and all faults of a text, in order.
///
/// It yields what a [`Lexer`] yields up to the first fault. A reserved word, an integer with a
/// leading 0, a character that begins no token, and a tab in code keep their lines: it goes on after
/// them, with all brackets, f-strings and blocks open, and so it does after a literal with a bad
/// escape, and at the line end of an open quote, whose brackets count. Right after the fault of such a
/// word, integer or literal a lexeme stands for it. After any other fault it begins again at the next
/// line, with the blocks alone open. So a parser goes on, an editor keeps its colours after an open
/// quote, and a linter shows each fault of a file.
///
/// What comes after the first fault is lexed at once, and kept until it is yielded: 32 bytes for each
/// lexeme, and 40 for each fault. So a text with many faults takes no longer than one with few.
///
/// ```
/// use starlark_lexer::{RecoveringLexer, Token};
///
/// let text = "x = 'a\ny = 01\nz\n";
/// let mut names = Vec::new();
/// let mut faults = Vec::new();
/// for item in RecoveringLexer::new(text)? {
///     match item {
///         Ok(lexeme) => {
///             if let Token::Identifier(name) = lexeme.into_token() {
///                 names.push(name);
///             }
///         }
///         Err(fault) => faults.push(&text[fault.span().range()]),
///     }
/// }
/// assert_eq!(names, ["x", "y", "z"]);
/// assert_eq!(faults, ["'a", "01"]);
/// # Ok::<(), starlark_lexer::TooLong>(())
/// ```
#[derive(Clone, Debug)]
pub struct RecoveringLexer<'a> {
    lexer: Lexer<'a>,
    /// How many faults were yielded of those that the buffers have. The first is the lexer's own.
    faults: usize,
}

impl<'a> RecoveringLexer<'a> {
    /// A lexer of a text. Nothing is lexed before the first item is asked for.
    ///
    /// # Errors
    ///
    /// `TooLong` for a text of more than 4,294,967,295 bytes.
    pub fn new(text: &'a str) -> Result<Self, TooLong> {
        Lexer::new(text).map(RecoveringLexer::from)
    }

    /// The text that is lexed.
    #[must_use]
    pub fn text(&self) -> &'a str {
        self.lexer.text()
    }
}

/// Yields what a lexer has left, and then what comes after its fault. A fault that it has yielded
/// isn't yielded again.
///
/// ```
/// use starlark_lexer::{Lexer, RecoveringLexer};
///
/// let mut lexer = Lexer::with_capacity("!\n!\nx", 16, 16)?;
/// assert!(lexer.by_ref().any(|item| item.is_err()));
/// assert!(lexer.next().is_none());
///
/// let rest = RecoveringLexer::from(lexer);
/// assert_eq!(rest.filter(Result::is_err).count(), 1);
/// # Ok::<(), starlark_lexer::TooLong>(())
/// ```
impl<'a> From<Lexer<'a>> for RecoveringLexer<'a> {
    fn from(lexer: Lexer<'a>) -> Self {
        RecoveringLexer { lexer, faults: 0 }
    }
}

impl<'a> Iterator for RecoveringLexer<'a> {
    type Item = Result<Lexeme<'a>, Fault>;

    #[inline]
    fn next(&mut self) -> Option<Self::Item> {
        if self.lexer.pass_fault() {
            self.faults = 1;
        }
        match self.lexer.next_fault(self.faults) {
            Some(fault) => {
                self.faults += 1;
                Some(Err(fault))
            }
            None => self.lexer.next(),
        }
    }
}

impl FusedIterator for RecoveringLexer<'_> {}
