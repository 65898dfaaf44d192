//! The lexer of Starlark, the language of Bazel's and Buck's files, over the proved library.
//!
//! A [`Lexer`] yields the lexemes of a text: each has a [`TokenKind`], a [`Span`] and a value, and
//! makes its [`Token`] when it is asked for. The first [`Fault`] ends it. A [`RecoveringLexer`] goes on
//! after faults. A [`LineIndex`] tells the line and columns of an offset. A [`Document`] is a text that
//! stays lexed while it is edited.
//!
//! ```
//! use starlark_lexer::{Lexer, LineIndex, TokenKind};
//!
//! let text = "load('//a.bzl', 'a')\nb = 01\n";
//! let lines = LineIndex::new(text);
//! let mut strings = Vec::new();
//! for lexeme in Lexer::new(text)? {
//!     match lexeme {
//!         Ok(lexeme) => {
//!             if lexeme.kind() == TokenKind::String {
//!                 strings.push(lexeme.into_text());
//!             }
//!         }
//!         Err(fault) => {
//!             let place = lines.place(fault.span().begin).unwrap();
//!             assert_eq!((place.line + 1, place.column + 1), (2, 5));
//!             assert_eq!(fault.to_string(), "Parse error: integer cannot have leading 0, got `01`");
//!         }
//!     }
//! }
//! assert_eq!(strings, ["//a.bzl", "a"]);
//! # Ok::<(), starlark_lexer::TooLong>(())
//! ```
//!
//! The library is proved to yield exactly the lexemes of a written grammar. The lines of this crate
//! are not proved, but tested. Its calls share nothing, so they may run in any number of threads.
//!
//! The crate has the library for `x86_64-unknown-linux-gnu`, `aarch64-unknown-linux-gnu` and
//! `x86_64-pc-windows-gnu`. The feature `system` links the system's shared library instead, which
//! pkg-config finds. The variable `STARLARK_LEX_DIR` names a folder with another
//! `libstarlark_lex.a`, and goes before both.
#![deny(unsafe_code)]
#![deny(unsafe_op_in_unsafe_fn)]
#![warn(missing_docs)]

mod document;
mod document_lexemes;
mod fault;
#[allow(unsafe_code)]
mod ffi;
mod frame;
mod lexeme;
mod lexer;
mod piece;
mod places;
mod recovering_lexer;
mod span;
mod token;
mod value;

pub use crate::document::{Change, Document, DocumentFaults, EditError};
pub use crate::document_lexemes::{DocumentLexemes, DocumentLexemesIter};
pub use crate::fault::{Fault, FaultKind, TooLong};
pub use crate::lexeme::Lexeme;
pub use crate::lexer::Lexer;
pub use crate::places::{LineIndex, Place};
pub use crate::recovering_lexer::RecoveringLexer;
pub use crate::span::Span;
pub use crate::token::{FStringQuote, KindClass, Token, TokenInt, TokenKind};
