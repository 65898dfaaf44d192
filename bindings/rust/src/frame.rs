//! Which bytes of a lexeme are its value, by its kind.

use crate::TokenKind;

/// A kind, and which bytes of its lexemes are the value.
#[derive(Clone, Copy)]
pub(crate) struct Frame {
    /// The kind.
    pub kind: TokenKind,
    /// How many bytes of a lexeme are before the value.
    pub before: u8,
    /// How many bytes of a lexeme aren't in the value.
    besides: u8,
    /// All bits where the value has bytes of the lexeme, and no bit where it is empty.
    mask: u32,
}

impl Frame {
    /// The least frames of the kinds, by their numbers in the library.
    // One for each byte: so no index is out of range, which would be one more jump.
    const LEAST: [Frame; 256] = {
        let mut frames = [Frame::NONE; 256];
        let mut index = 0;
        while index < TokenKind::ALL.len() {
            let kind = TokenKind::ALL[index];
            frames[kind as usize] = Frame::least_of_kind(kind);
            index += 1;
        }
        frames
    };

    /// The frame of a number of no kind, which no value fills.
    const NONE: Frame = Frame {
        kind: TokenKind::Newline,
        before: 0,
        besides: 1,
        mask: 0,
    };

    /// The least frame that a lexeme of a kind has. An integer has no digits then.
    const fn least_of_kind(kind: TokenKind) -> Self {
        match kind {
            TokenKind::Comment => Frame::around(kind, 1, 0),
            TokenKind::Identifier | TokenKind::Float | TokenKind::FStringText => {
                Frame::around(kind, 0, 0)
            }
            TokenKind::String => Frame::around(kind, 1, 1),
            TokenKind::Bytes => Frame::around(kind, 2, 1),
            _ => Frame {
                mask: 0,
                ..Frame::around(kind, 0, 0)
            },
        }
    }

    /// The frame with this many bytes before the value, and this many after it.
    const fn around(kind: TokenKind, before: u8, after: u8) -> Self {
        Frame {
            kind,
            before,
            besides: before + after,
            mask: u32::MAX,
        }
    }

    /// The least frame of the kind with a number, or one that no value fills.
    #[inline]
    pub fn least(number: u16) -> Self {
        debug_assert!(number <= 0xff, "the library has no kind {number}");
        Frame::LEAST[usize::from(number as u8)]
    }

    /// How many bytes a value has that fills the rest of a lexeme of this many bytes.
    #[inline]
    pub fn value_len(self, lexeme_len: u32) -> u32 {
        (lexeme_len & self.mask).wrapping_sub(u32::from(self.besides))
    }
}

#[cfg(test)]
mod tests {
    use super::*;

    #[test]
    fn each_number_has_a_frame() {
        for number in 0..=0xff {
            let frame = Frame::least(number);
            if let Some(kind) = TokenKind::ALL.iter().find(|&&kind| kind as u16 == number) {
                assert_eq!(frame.kind, *kind);
            } else {
                assert_eq!(frame.value_len(5), u32::MAX, "{number}");
            }
        }
    }

    #[test]
    fn a_value_fills_its_frame() {
        let literals = [
            ("# a", TokenKind::Comment, " a"),
            ("a", TokenKind::Identifier, "a"),
            ("1.5", TokenKind::Float, "1.5"),
            ("'a'", TokenKind::String, "a"),
            ("''", TokenKind::String, ""),
            ("b'a'", TokenKind::Bytes, "a"),
            ("{{", TokenKind::FStringText, "{{"),
            ("15", TokenKind::Int, ""),
            ("for", TokenKind::For, ""),
        ];
        for (text, kind, value) in literals {
            let frame = Frame::least(kind as u16);
            let len = frame.value_len(text.len() as u32) as usize;
            let before = usize::from(frame.before);
            assert_eq!(&text[before..before + len], value);
        }
    }

    #[test]
    #[cfg(debug_assertions)]
    #[should_panic(expected = "the library has no kind 261")]
    fn a_number_of_more_than_a_byte() {
        Frame::least(0x105);
    }
}
