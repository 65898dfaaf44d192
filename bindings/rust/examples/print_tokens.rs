//! Prints the tokens and the faults of standard input, each with its place.

use starlark_lexer::{LineIndex, RecoveringLexer, Span};
use std::error::Error;
use std::io::{self, Read, Write};
use std::process::ExitCode;

/// The line and column where a span begins, from 1, in characters.
fn place(lines: &LineIndex<'_>, span: Span) -> String {
    let place = lines.place(span.begin);
    place.map_or_else(String::new, |place| {
        format!("{}:{}", place.line + 1, place.column + 1)
    })
}

/// Prints the tokens of a text, and returns whether it has no fault.
fn print_tokens(text: &str, out: &mut impl Write) -> Result<bool, Box<dyn Error>> {
    let lines = LineIndex::new(text);
    let mut is_clean = true;
    for item in RecoveringLexer::new(text)? {
        match item {
            Ok(lexeme) => writeln!(out, "{} {:?}", place(&lines, lexeme.span()), lexeme.token())?,
            Err(fault) => {
                writeln!(out, "{} {fault}", place(&lines, fault.span()))?;
                is_clean = false;
            }
        }
    }
    Ok(is_clean)
}

fn main() -> Result<ExitCode, Box<dyn Error>> {
    let mut text = String::new();
    io::stdin().read_to_string(&mut text)?;
    let mut out = io::BufWriter::new(io::stdout().lock());
    let is_clean = print_tokens(&text, &mut out)?;
    out.flush()?;
    Ok(ExitCode::from(u8::from(!is_clean)))
}
