//! Times keystrokes in the middle of a document, as `starlark_bench --keystrokes` does.
//!
//!     keystrokes COUNT <TEXT
//!
//! It types COUNT characters into the middle half of a document, each at another place, and deletes
//! each again. It prints one line: the text's bytes, and in nanoseconds what making the document took,
//! and a keystroke at the median and at 99 %.

use starlark_lexer::{Document, EditError};
use std::env;
use std::error::Error;
use std::io::{self, Read};
use std::time::Instant;

const TYPED: [&str; 10] = ["a", "_", "x", " ", "=", "1", ",", "s", "e", "."];

/// Nanoseconds of an edit.
fn timed_edit(
    document: &mut Document,
    begin: usize,
    end: usize,
    text: &str,
) -> Result<u128, EditError> {
    let start = Instant::now();
    document.edit(begin..end, text)?;
    Ok(start.elapsed().as_nanos())
}

fn main() -> Result<(), Box<dyn Error>> {
    let count: usize = env::args()
        .nth(1)
        .ok_or("usage: keystrokes COUNT")?
        .parse()?;
    let mut text = String::new();
    io::stdin().read_to_string(&mut text)?;
    let start = Instant::now();
    let mut document = Document::new(&text)?;
    let made = start.elapsed().as_nanos();
    let mut times = Vec::with_capacity(2 * count);
    let mut number = 1_u64;
    for typed in TYPED.iter().cycle().take(count) {
        number = number
            .wrapping_mul(6364136223846793005)
            .wrapping_add(1442695040888963407);
        let quarter = document.len() / 4;
        let at = quarter + (number >> 33) as usize % (quarter * 2).max(1);
        let at = if document.place(at).is_some() { at } else { 0 };
        times.push(timed_edit(&mut document, at, at, typed)?);
        times.push(timed_edit(&mut document, at, at + 1, "")?);
    }
    times.sort_unstable();
    let percentile = |part| times.get(times.len() * part / 100).copied().unwrap_or(0);
    println!(
        "{} {made} {} {}",
        text.len(),
        percentile(50),
        percentile(99)
    );
    Ok(())
}
