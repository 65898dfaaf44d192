//! Measures how fast standard input is lexed, as `starlark_bench` does.
//!
//!     bench --bench N <TEXT
//!     bench --tokens N <TEXT
//!
//! It prints for each of N runs the text's bytes, its lexemes, its faults, a checksum over their
//! places, and nanoseconds. Reading the text isn't in the time. Of each lexeme the span, the kind and
//! the bytes of its value are looked at; then it is dropped. With `--tokens` each lexeme is made into
//! its token, which is looked at and dropped.

// `black_box` is of Rust 1.66, later than what the crate needs.
#![allow(clippy::incompatible_msrv)]

use starlark_lexer::{Lexeme, Lexer};
use std::env;
use std::error::Error;
use std::hint::black_box;
use std::io::{self, Read};
use std::time::Instant;

/// The lexemes, the faults and the checksum of a text, each lexeme of which is used.
fn count(
    text: &str,
    use_lexeme: impl Fn(Lexeme<'_>),
) -> Result<(usize, usize, usize), Box<dyn Error>> {
    let (mut lexemes, mut faults, mut checksum) = (0, 0, 0_usize);
    for lexeme in Lexer::new(text)? {
        match lexeme {
            Ok(lexeme) => {
                lexemes += 1;
                let span = lexeme.span();
                checksum = checksum.wrapping_add(span.begin ^ span.end);
                use_lexeme(lexeme);
            }
            Err(_) => faults += 1,
        }
    }
    Ok((lexemes, faults, checksum))
}

/// Looks at the kind and the value of a lexeme, and drops it.
fn look_at(lexeme: Lexeme<'_>) {
    black_box((lexeme.kind(), lexeme.bytes()));
}

/// Makes the token of a lexeme, looks at it, and drops it.
fn make_token(lexeme: Lexeme<'_>) {
    black_box(lexeme.into_token());
}

fn main() -> Result<(), Box<dyn Error>> {
    let mut args = env::args().skip(1);
    let mode = args.next().unwrap_or_default();
    let runs: usize = args.next().unwrap_or_default().parse()?;
    let mut text = String::new();
    io::stdin().read_to_string(&mut text)?;
    for _ in 0..runs {
        let start = Instant::now();
        let (lexemes, faults, checksum) = match mode.as_str() {
            "--bench" => count(&text, look_at)?,
            "--tokens" => count(&text, make_token)?,
            _ => return Err("usage: bench --bench N | --tokens N".into()),
        };
        let time = start.elapsed().as_nanos();
        println!("{} {lexemes} {faults} {checksum} {time}", text.len());
    }
    Ok(())
}
