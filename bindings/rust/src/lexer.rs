//! The lexer: an iterator over a text's lexemes.

use crate::ffi::{Buffers, Ending, FaultRecord};
use crate::piece::Piece;
use crate::{Fault, FaultKind, Lexeme, TooLong};
use std::iter::FusedIterator;

/// How many bytes of a text are lexed by one call at first. What a call fills then stays in the caches
/// of the processor.
// What is after the last cut of a window is lexed again: with a fourth of it a mix of statements and
// functions takes a twelfth longer.
const WINDOW: usize = 1 << 16;

/// How many times larger a window gets that has no cut.
const GROWTH: usize = 4;

/// What comes after the lexemes in the buffers.
#[derive(Clone, Copy, Debug)]
enum After {
    /// The text from an offset on, as a text of its own, which isn't lexed yet.
    Text(usize),
    /// The next piece of the text, which begins at an offset.
    Piece(usize),
    /// The text's fault.
    Fault(FaultRecord),
    /// Nothing, since the text's fault was yielded.
    Passed,
    /// Nothing.
    End,
}

/// The lexemes of a text, in order. The first fault is the last item.
///
/// It keeps the lexemes of a piece of the text, 32 bytes each, until they are yielded. A piece ends
/// where the text may be cut, and mostly has up to 64 KB. Where no such offset is found the piece is
/// longer: at most all that is left of the text.
///
/// ```
/// use starlark_lexer::{FaultKind, Lexeme, Lexer, Token, TokenInt};
///
/// let mut lexer = Lexer::new("x = 1 $")?;
/// let tokens: Vec<_> = lexer.by_ref().map_while(Result::ok).map(Lexeme::into_token).collect();
/// let value = Token::Int(TokenInt::I32(1));
/// assert_eq!(tokens, [Token::Identifier("x".into()), Token::Equal, value]);
///
/// let fault = Lexer::new("x = 1 $")?.find_map(Result::err).unwrap();
/// assert_eq!((fault.kind(), fault.span().range()), (FaultKind::InvalidInput, 6..7));
/// # Ok::<(), starlark_lexer::TooLong>(())
/// ```
#[derive(Clone, Debug)]
pub struct Lexer<'a> {
    text: &'a str,
    /// A piece of the text with its lexemes, and the index of the next one.
    piece: Piece<'a>,
    index: usize,
    after: After,
    /// How many bytes of the text one call lexes.
    window: usize,
}

impl<'a> Lexer<'a> {
    /// A lexer of a text. Nothing is lexed before the first lexeme is asked for.
    ///
    /// # Errors
    ///
    /// `TooLong` for a text of more than 4,294,967,295 bytes.
    pub fn new(text: &'a str) -> Result<Self, TooLong> {
        let (lexemes, values) = room_for(text.len().min(WINDOW));
        Lexer::with_capacity(text, lexemes, values)
    }

    /// A lexer of a text whose buffers have room at first for this many lexemes, and this many
    /// bytes of their values. Whatever the room is, the lexemes are the same.
    ///
    /// Small buffers hold less, and lex the text in more pieces, which takes longer. They grow for
    /// each further piece, up to the room for some 64 KB of the text.
    ///
    /// # Errors
    ///
    /// `TooLong` for a text of more than 4,294,967,295 bytes.
    ///
    /// # Panics
    ///
    /// Where a buffer would take more than `isize::MAX` bytes, as `Vec::with_capacity` does.
    pub fn with_capacity(text: &'a str, lexemes: usize, values: usize) -> Result<Self, TooLong> {
        if text.len() > u32::MAX as usize {
            return Err(TooLong);
        }
        Ok(Lexer {
            text,
            piece: Piece {
                text,
                from: 0,
                buffers: Buffers::with_capacity(lexemes, values),
                is_recovered: false,
            },
            index: 0,
            after: After::Text(0),
            window: WINDOW,
        })
    }

    /// The text that is lexed.
    #[must_use]
    pub fn text(&self) -> &'a str {
        self.text
    }

    /// Goes on after a fault that was yielded, to the end of the text, and tells whether one was. The
    /// buffers have all lexemes and faults of the piece and of what comes after it then; those that
    /// were yielded are the first.
    ///
    /// Nothing changes where none was.
    #[inline]
    pub(crate) fn pass_fault(&mut self) -> bool {
        let is_passed = matches!(self.after, After::Passed);
        if is_passed {
            self.lex_recovering();
        }
        is_passed
    }

    /// The fault with an index among those that the buffers have, if it comes next.
    #[inline]
    pub(crate) fn next_fault(&self, index: usize) -> Option<Fault> {
        let record = self.piece.buffers.fault(index)?;
        (record.lexemes_before == self.index).then(|| self.fault(record))
    }

    /// Fills the buffers where they have no further lexeme. They have one then, or the error is the
    /// fault that comes next, if there is one.
    #[cold]
    #[inline(never)]
    fn refill(&mut self) -> Result<(), Option<Fault>> {
        while self.index >= self.piece.buffers.lexemes().len() {
            match self.after {
                After::Text(from) => self.lex(from),
                After::Piece(from) => {
                    self.grow(0, 0);
                    self.lex(from);
                }
                After::Fault(record) => {
                    self.after = After::Passed;
                    return Err(Some(self.fault(&record)));
                }
                After::Passed | After::End => return Err(None),
            }
        }
        Ok(())
    }

    /// Fills the buffers with the lexemes of the text from an offset on, or of a piece of it.
    fn lex(&mut self, from: usize) {
        self.index = 0;
        self.piece.text = &self.text[from..];
        // A text has at most `u32::MAX` bytes.
        self.piece.from = from as u32;
        self.after = loop {
            let front = front_of(self.piece.text, self.window);
            let is_whole = front.len() == self.piece.text.len();
            let ending = if is_whole {
                self.piece.buffers.lex(front)
            } else {
                self.piece.buffers.lex_front(front)
            };
            match ending {
                Ending::Piece { next } => break After::Piece(from + next),
                Ending::Full { lexemes, values } => self.grow(lexemes, values),
                Ending::Whole if is_whole => break After::End,
                Ending::Fault(record) if is_whole => break After::Fault(record),
                Ending::Whole | Ending::Fault(_) => {
                    self.window = self.window.saturating_mul(GROWTH);
                }
            }
        };
    }

    /// Fills the buffers with all lexemes and faults from where the piece begins.
    #[cold]
    fn lex_recovering(&mut self) {
        self.after = After::End;
        self.piece.is_recovered = true;
        self.piece.buffers.lex_recovering(self.piece.text);
    }

    /// Makes the buffers larger, up to the room for a window, and gives them at least this much room.
    fn grow(&mut self, lexemes: usize, values: usize) {
        let room = (
            self.piece.buffers.lexemes_capacity(),
            self.piece.buffers.values_capacity(),
        );
        let most = room_for(self.window.min(self.piece.text.len()));
        let lexemes = lexemes.max(twice(room.0, most.0));
        let values = values.max(twice(room.1, most.1));
        if (lexemes, values) != room {
            self.piece.buffers = Buffers::with_capacity(lexemes, values);
        }
    }

    /// A fault of the text, whose record counts from where the piece begins.
    fn fault(&self, record: &FaultRecord) -> Fault {
        let number = record.kind;
        let kind = FaultKind::of_number(number)
            .unwrap_or_else(|| unreachable!("the library has no fault {number}"));
        Fault::new(
            kind,
            self.piece.span(record.begin, record.end),
            self.piece.buffers.message(record),
        )
    }
}

/// The room in buffers for a text of so many bytes, unless it has more lexemes than is usual.
fn room_for(len: usize) -> (usize, usize) {
    (len / 2 + 16, len + 16)
}

/// The front of a text that one call lexes: all, or at most so many bytes of it.
///
/// It ends after the first letter of the last line before which the text may mostly be cut, if such a
/// line is in the second half of those bytes.
fn front_of(text: &str, window: usize) -> &str {
    if text.len() <= window {
        return text;
    }
    let front = &text[..floor_boundary(text, window)];
    let half = floor_boundary(text, window / 2);
    match last_cut(&front[half..]) {
        Some(at) => &front[..=half + at],
        None => front,
    }
}

/// The last character boundary of a text that is not after an offset in it.
fn floor_boundary(text: &str, at: usize) -> usize {
    let boundary = (0..=at).rev().find(|&at| text.is_char_boundary(at));
    boundary.unwrap_or(0)
}

/// Where the last line begins before which a text may mostly be cut, whatever comes after.
///
/// It begins with a letter, as a statement does. The line before it, but for blank lines and comments,
/// has no margin, so that no block is open there.
fn last_cut(text: &str) -> Option<usize> {
    let mut statement = None;
    let mut end = text.len();
    while let Some(lf) = text[..end].rfind('\n') {
        end = lf;
        match text.as_bytes().get(lf + 1) {
            None | Some(b'\n' | b'\r' | b'#') => {}
            Some(b' ' | b'\t') => statement = None,
            Some(_) if statement.is_some() => return statement,
            Some(byte) => statement = byte.is_ascii_alphabetic().then_some(lf + 1),
        }
    }
    None
}

/// Twice a capacity, if that isn't more than the most; else the capacity.
fn twice(capacity: usize, most: usize) -> usize {
    capacity.max((2 * capacity).min(most))
}

impl<'a> Iterator for Lexer<'a> {
    type Item = Result<Lexeme<'a>, Fault>;

    // Always: a program with two loops over lexemes calls it otherwise, at 40 instructions a lexeme.
    #[inline(always)]
    fn next(&mut self) -> Option<Self::Item> {
        loop {
            if let Some(record) = self.piece.buffers.lexeme(self.index) {
                self.index += 1;
                return Some(Ok(self.piece.lexeme(record)));
            }
            if let Err(fault) = self.refill() {
                return fault.map(Err);
            }
        }
    }
}

impl FusedIterator for Lexer<'_> {}

#[cfg(test)]
mod tests {
    use super::*;

    /// Where the pieces of a text begin, by buffers with little room at first.
    fn pieces(text: &str, lexemes: usize, values: usize) -> Vec<u32> {
        let mut lexer = Lexer::with_capacity(text, lexemes, values).unwrap();
        let mut begins = Vec::new();
        while lexer.next().is_some() {
            if begins.last() != Some(&lexer.piece.from) {
                begins.push(lexer.piece.from);
            }
        }
        begins
    }

    #[test]
    fn small_buffers_lex_in_pieces() {
        let text = "a\n".repeat(1000);
        assert_eq!(pieces(&text, 4096, 4096), [0]);
        let begins = pieces(&text, 8, 4096);
        assert!(begins.len() > 4, "{begins:?}");
        assert!(begins.iter().all(|begin| begin % 2 == 0), "{begins:?}");
        let escapes = "'\\n'\n".repeat(1000);
        assert!(pieces(&escapes, 4096, 8).len() > 4);
    }

    /// The items of a text, by windows of some bytes at first.
    fn items(text: &str, window: usize) -> Vec<Result<Lexeme<'_>, Fault>> {
        let mut lexer = Lexer::new(text).unwrap();
        lexer.window = window;
        lexer.collect()
    }

    #[test]
    fn windows_of_each_size_give_the_same_items() {
        let block =
            "def f(a):\n    return 'é'\n\nx = [\n  1,\n]\n# c\n\ny = f('''\na\n''')  # 汉\n";
        for end in ["", "z", "if z:\n  y\n", "z = !", "z = '''\n", "\tz"] {
            let text = block.repeat(3) + end;
            let whole = items(&text, text.len());
            for window in 1..text.len() {
                assert_eq!(items(&text, window), whole, "{window} bytes: {end:?}");
            }
        }
    }

    #[test]
    fn a_front_ends_where_a_statement_may_begin() {
        assert_eq!(front_of("a\nb\ncd", 8), "a\nb\ncd");
        assert_eq!(front_of("abcdefgh\ni\nj\nk", 13), "abcdefgh\ni\nj");
        let commented = "abcdefghij\n)\n# c\n\nj\n k";
        assert_eq!(front_of(commented, 21), "abcdefghij\n)\n# c\n\nj");
        // Before the last `j` a block is open.
        let open = "abcdefghij\nh\ni\n  k\nj\nk";
        assert_eq!(front_of(open, 21), "abcdefghij\nh\ni");
        // What begins a statement is in the first half, and `é` has two bytes.
        assert_eq!(front_of("h\ni\n  klmn\nj\nk", 13), "h\ni\n  klmn\nj\n");
        assert_eq!(front_of("abcdefghiéj", 10), "abcdefghi");
    }

    #[test]
    fn empty_buffers_grow() {
        assert_eq!(pieces("f(a,\n  b)\nc", 0, 0).len(), 2);
    }
}
