//! Tokens, their kinds and their values.

use crate::ffi::LexemeHead;
use std::borrow::Cow;
use std::fmt;
use std::ops::RangeInclusive;

/// An integer literal's value. It isn't negative, since a sign is a token of its own.
#[derive(Clone, Debug, PartialEq, Eq, Hash)]
#[non_exhaustive]
pub enum TokenInt<'a> {
    /// A value in the range of `i32`.
    I32(i32),
    /// A larger value.
    BigInt {
        /// The digits, without leading zeros, and with letters in lower case.
        digits: Cow<'a, str>,
        /// The base of the digits: 2, 8, 10 or 16.
        radix: u32,
    },
}

impl<'a> TokenInt<'a> {
    /// The value of a lexeme's head, with digits where it is out of the range of `i32`.
    fn new(head: LexemeHead, digits: Cow<'a, str>) -> Self {
        if digits.is_empty() {
            return TokenInt::I32(head.integer);
        }
        let radix = u32::from(head.detail);
        TokenInt::BigInt { digits, radix }
    }

    /// The value with digits of its own.
    fn into_owned(self) -> TokenInt<'static> {
        match self {
            TokenInt::I32(value) => TokenInt::I32(value),
            TokenInt::BigInt { digits, radix } => TokenInt::BigInt {
                digits: Cow::Owned(digits.into_owned()),
                radix,
            },
        }
    }
}

/// The quotes of an f-string.
#[derive(Clone, Copy, Debug, PartialEq, Eq, Hash)]
pub enum FStringQuote {
    /// `f'...'`
    Single,
    /// `f"..."`
    Double,
    /// `f'''...'''`
    TripleSingle,
    /// `f"""..."""`
    TripleDouble,
}

impl FStringQuote {
    /// The quotes with a number of the library.
    fn of_number(number: u16) -> Option<Self> {
        Some(match number {
            1 => FStringQuote::Single,
            2 => FStringQuote::Double,
            3 => FStringQuote::TripleSingle,
            4 => FStringQuote::TripleDouble,
            _ => return None,
        })
    }
}

/// The numbers of the tokens without a value that are no symbols.
const LAYOUT: RangeInclusive<u16> = 2..=4;

/// The least number from which on all are those of symbols.
const FIRST_SYMBOL: u16 = 12;

/// What a kind of token is to a highlighter, an editor or a parser.
///
/// As a number it is the class in the header of the library for C, which never changes.
#[derive(Clone, Copy, Debug, PartialEq, Eq, Hash)]
#[repr(u8)]
#[non_exhaustive]
pub enum KindClass {
    /// A comment.
    Comment = 1,
    /// `Indent`, `Dedent` or `Newline`.
    Layout = 2,
    /// A name.
    Name = 3,
    /// An integer or a float literal.
    Number = 4,
    /// A string or bytes literal, or the quotes or the text of an f-string.
    String = 5,
    /// A keyword.
    Keyword = 6,
    /// A symbol that computes, compares or assigns, or is `->`.
    Operator = 7,
    /// `,`, `;`, `:`, `.`, `...`, or the `!` of an f-string's expression.
    Punctuation = 8,
    /// A bracket, also the `{` and `}` of an f-string's expression.
    Bracket = 9,
}

/// Declares `TokenKind` and `Token`, by the tokens with a value and those without, with their classes
/// and their numbers in the library. The last list has all numbers from the least of them on.
macro_rules! tokens {
    (
        with_value { $($(#[$value_doc:meta])* $value_name:ident($value:ty): $value_class:ident = $value_number:literal,)* }
        layout { $($(#[$layout_doc:meta])* $layout:ident: $layout_class:ident = $layout_number:literal,)* }
        symbols { $($(#[$doc:meta])* $name:ident: $class:ident = $number:literal,)* }
    ) => {
        /// The kind of a token. Its variants have the names of those of [`Token`].
        ///
        /// As a number it is the kind in the header of the library for C, which never changes. It prints
        /// its name, as the program `starlark_lex` does.
        ///
        /// ```
        /// use starlark_lexer::{Lexer, TokenKind};
        ///
        /// let kinds = Lexer::new("x = 1")?.map_while(Result::ok).map(|lexeme| lexeme.kind());
        /// let wanted = [TokenKind::Identifier, TokenKind::Equal, TokenKind::Int, TokenKind::Newline];
        /// assert!(kinds.eq(wanted));
        /// assert_eq!(TokenKind::Identifier as u8, 5);
        /// # Ok::<(), starlark_lexer::TooLong>(())
        /// ```
        #[derive(Clone, Copy, Debug, PartialEq, Eq, Hash)]
        #[repr(u8)]
        #[non_exhaustive]
        pub enum TokenKind {
            $($(#[$value_doc])* $value_name = $value_number,)*
            $($(#[$layout_doc])* $layout = $layout_number,)*
            $($(#[$doc])* $name = $number,)*
        }

        impl TokenKind {
            /// All kinds.
            pub(crate) const ALL: &'static [TokenKind] = &[
                $(TokenKind::$value_name,)*
                $(TokenKind::$layout,)*
                $(TokenKind::$name,)*
            ];

            /// The class of the kind.
            ///
            /// ```
            /// use starlark_lexer::{KindClass, TokenKind};
            ///
            /// assert_eq!(TokenKind::Comma.class(), KindClass::Punctuation);
            /// ```
            pub fn class(self) -> KindClass {
                match self {
                    $(TokenKind::$value_name => KindClass::$value_class,)*
                    $(TokenKind::$layout => KindClass::$layout_class,)*
                    $(TokenKind::$name => KindClass::$class,)*
                }
            }

            /// The kind with a number of the library.
            // Each kind is its number: so this is a test of the range.
            #[inline]
            pub(crate) fn of_number(number: u16) -> Self {
                match number {
                    $($value_number => TokenKind::$value_name,)*
                    $($layout_number => TokenKind::$layout,)*
                    $($number => TokenKind::$name,)*
                    _ => no_kind(number),
                }
            }
        }

        /// A token. What it has is borrowed from the text where it is there byte for byte, as a
        /// name is; else, as for a string with escapes, it is owned.
        #[derive(Clone, Debug, PartialEq, Eq, Hash)]
        #[non_exhaustive]
        pub enum Token<'a> {
            $($(#[$value_doc])* $value_name($value),)*
            $($(#[$layout_doc])* $layout,)*
            $($(#[$doc])* $name,)*
        }

        impl<'a> Token<'a> {
            /// The kind of the token.
            pub fn kind(&self) -> TokenKind {
                match self {
                    $(Token::$value_name(_) => TokenKind::$value_name,)*
                    $(Token::$layout => TokenKind::$layout,)*
                    $(Token::$name => TokenKind::$name,)*
                }
            }

            /// The token of a lexeme's head, with a text for its value.
            // Comparisons in this order, and no table of all kinds: the processor foresees more of
            // them (4 % of a mix).
            #[inline]
            pub(crate) fn new(head: LexemeHead, text: impl FnOnce() -> Cow<'a, str>) -> Self {
                let number = head.kind;
                if number >= FIRST_SYMBOL {
                    return Token::symbol(number);
                }
                if number == TokenKind::Identifier as u16 {
                    return Token::Identifier(text());
                }
                if number == TokenKind::String as u16 {
                    return Token::String(text());
                }
                if LAYOUT.contains(&number) {
                    return Token::layout(number);
                }
                Token::with_value(head, text())
            }

            /// The token with a number of the list before the last.
            #[inline]
            fn layout(number: u16) -> Self {
                match number {
                    $($layout_number => Token::$layout,)*
                    _ => no_kind(number),
                }
            }

            /// The token with a number of the last list.
            // A match on nothing but these numbers: it costs no table.
            #[inline]
            fn symbol(number: u16) -> Self {
                match number {
                    $($number => Token::$name,)*
                    _ => no_kind(number),
                }
            }

            /// The token with a value of its own, which may outlive the text.
            pub fn into_owned(self) -> Token<'static> {
                match self {
                    Token::Comment(text) => Token::Comment(Cow::Owned(text.into_owned())),
                    Token::Identifier(name) => Token::Identifier(Cow::Owned(name.into_owned())),
                    Token::Int(value) => Token::Int(value.into_owned()),
                    Token::Float(text) => Token::Float(Cow::Owned(text.into_owned())),
                    Token::String(text) => Token::String(Cow::Owned(text.into_owned())),
                    Token::Bytes(bytes) => Token::Bytes(Cow::Owned(bytes.into_owned())),
                    Token::FStringStart(quote) => Token::FStringStart(quote),
                    Token::FStringText(text) => Token::FStringText(Cow::Owned(text.into_owned())),
                    $(Token::$layout => Token::$layout,)*
                    $(Token::$name => Token::$name,)*
                }
            }
        }
    };
}

tokens! {
    with_value {
        /// A comment: the text after `#`, without the line end.
        Comment(Cow<'a, str>): Comment = 1,
        /// A name.
        Identifier(Cow<'a, str>): Name = 5,
        /// An integer literal.
        Int(TokenInt<'a>): Number = 6,
        /// A float literal, as it is written. `str::parse` makes an `f64` of it.
        Float(Cow<'a, str>): Number = 7,
        /// A string literal: the text with its escapes decoded.
        String(Cow<'a, str>): String = 8,
        /// A bytes literal: the bytes with their escapes decoded.
        Bytes(Cow<'a, [u8]>): String = 9,
        /// The opening of an f-string.
        FStringStart(FStringQuote): String = 10,
        /// Text of an f-string outside of its expressions, with its escapes decoded.
        FStringText(Cow<'a, str>): String = 11,
    }
    layout {
        /// The margin of a line opens a block.
        Indent: Layout = 2,
        /// A block ends.
        Dedent: Layout = 3,
        /// A logical line ends, or a blank line.
        Newline: Layout = 4,
    }
    symbols {
        /// The `{` of an f-string's expression.
        FStringExprStart: Bracket = 12,
        /// The `}` of an f-string's expression.
        FStringExprEnd: Bracket = 13,
        /// The `!` before the conversion of an f-string's expression.
        FStringBang: Punctuation = 14,
        /// The closing quotes of an f-string.
        FStringEnd: String = 15,
        /// The keyword `and`.
        And: Keyword = 16,
        /// The keyword `break`.
        Break: Keyword = 17,
        /// The keyword `continue`.
        Continue: Keyword = 18,
        /// The keyword `def`.
        Def: Keyword = 19,
        /// The keyword `elif`.
        Elif: Keyword = 20,
        /// The keyword `else`.
        Else: Keyword = 21,
        /// The keyword `for`.
        For: Keyword = 22,
        /// The keyword `if`.
        If: Keyword = 23,
        /// The keyword `in`.
        In: Keyword = 24,
        /// The keyword `lambda`.
        Lambda: Keyword = 25,
        /// The keyword `load`.
        Load: Keyword = 26,
        /// The keyword `not`.
        Not: Keyword = 27,
        /// The keyword `or`.
        Or: Keyword = 28,
        /// The keyword `pass`.
        Pass: Keyword = 29,
        /// The keyword `return`.
        Return: Keyword = 30,
        /// `,`
        Comma: Punctuation = 31,
        /// `;`
        Semicolon: Punctuation = 32,
        /// `:`
        Colon: Punctuation = 33,
        /// `+=`
        PlusEqual: Operator = 34,
        /// `-=`
        MinusEqual: Operator = 35,
        /// `*=`
        StarEqual: Operator = 36,
        /// `/=`
        SlashEqual: Operator = 37,
        /// `//=`
        SlashSlashEqual: Operator = 38,
        /// `%=`
        PercentEqual: Operator = 39,
        /// `==`
        EqualEqual: Operator = 40,
        /// `!=`
        BangEqual: Operator = 41,
        /// `<=`
        LessEqual: Operator = 42,
        /// `>=`
        GreaterEqual: Operator = 43,
        /// `**`
        StarStar: Operator = 44,
        /// `->`
        MinusGreater: Operator = 45,
        /// `=`
        Equal: Operator = 46,
        /// `<`
        LessThan: Operator = 47,
        /// `>`
        GreaterThan: Operator = 48,
        /// `-`
        Minus: Operator = 49,
        /// `+`
        Plus: Operator = 50,
        /// `*`
        Star: Operator = 51,
        /// `%`
        Percent: Operator = 52,
        /// `/`
        Slash: Operator = 53,
        /// `//`
        SlashSlash: Operator = 54,
        /// `.`
        Dot: Punctuation = 55,
        /// `&`
        Ampersand: Operator = 56,
        /// `|`
        Pipe: Operator = 57,
        /// `^`
        Caret: Operator = 58,
        /// `<<`
        LessLess: Operator = 59,
        /// `>>`
        GreaterGreater: Operator = 60,
        /// `~`
        Tilde: Operator = 61,
        /// `&=`
        AmpersandEqual: Operator = 62,
        /// `|=`
        PipeEqual: Operator = 63,
        /// `^=`
        CaretEqual: Operator = 64,
        /// `<<=`
        LessLessEqual: Operator = 65,
        /// `>>=`
        GreaterGreaterEqual: Operator = 66,
        /// `...`
        Ellipsis: Punctuation = 67,
        /// `[`
        OpeningSquare: Bracket = 68,
        /// `{`
        OpeningCurly: Bracket = 69,
        /// `(`
        OpeningRound: Bracket = 70,
        /// `]`
        ClosingSquare: Bracket = 71,
        /// `}`
        ClosingCurly: Bracket = 72,
        /// `)`
        ClosingRound: Bracket = 73,
    }
}

impl fmt::Display for TokenKind {
    fn fmt(&self, f: &mut fmt::Formatter<'_>) -> fmt::Result {
        fmt::Debug::fmt(self, f)
    }
}

impl<'a> Token<'a> {
    /// The token of a lexeme's head, of a kind with a value, with a text for it.
    #[inline(never)]
    fn with_value(head: LexemeHead, text: Cow<'a, str>) -> Self {
        match TokenKind::of_number(head.kind) {
            TokenKind::Comment => Token::Comment(text),
            TokenKind::Identifier => Token::Identifier(text),
            TokenKind::Int => Token::Int(TokenInt::new(head, text)),
            TokenKind::Float => Token::Float(text),
            TokenKind::String => Token::String(text),
            TokenKind::Bytes => Token::Bytes(bytes_of(text)),
            TokenKind::FStringStart => Token::FStringStart(quotes(head.detail)),
            TokenKind::FStringText => Token::FStringText(text),
            kind => unreachable!("{kind:?} has no value"),
        }
    }
}

/// Panics for a number of no kind.
#[cold]
fn no_kind(number: u16) -> ! {
    unreachable!("the library has no kind {number}")
}

/// The bytes of a text.
fn bytes_of(text: Cow<'_, str>) -> Cow<'_, [u8]> {
    match text {
        Cow::Borrowed(text) => Cow::Borrowed(text.as_bytes()),
        Cow::Owned(text) => Cow::Owned(text.into_bytes()),
    }
}

/// The quotes with a number of the library.
fn quotes(number: u16) -> FStringQuote {
    FStringQuote::of_number(number)
        .unwrap_or_else(|| unreachable!("the library has no quotes {number}"))
}

#[cfg(test)]
mod tests {
    use super::*;
    use crate::ffi::{kind_class, kind_name};

    #[test]
    fn numbers_have_the_names_and_classes_of_the_library() {
        for number in 0..u16::MAX {
            let library = kind_name(u32::from(number));
            let class = kind_class(u32::from(number));
            let is_kind = (1..=TokenKind::ALL.len()).contains(&usize::from(number));
            assert_eq!((!library.is_empty(), class != 0), (is_kind, is_kind));
            if !is_kind {
                continue;
            }
            let kind = TokenKind::of_number(number);
            assert_eq!((kind.to_string(), kind as u16), (library, number));
            assert_eq!(kind.class() as u32, class, "{kind}");
            assert!(TokenKind::ALL.contains(&kind));
            let head = LexemeHead {
                kind: number,
                detail: 1,
                integer: 0,
            };
            assert_eq!(Token::new(head, || Cow::Borrowed("")).kind(), kind);
        }
    }

    #[test]
    #[should_panic(expected = "the library has no kind 65535")]
    fn a_number_of_no_kind() {
        TokenKind::of_number(u16::MAX);
    }
}
