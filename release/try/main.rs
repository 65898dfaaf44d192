//! Prints the tokens of standard input by the crate.

use starlark_lexer::Lexer;
use std::io::Read;

fn main() -> Result<(), Box<dyn std::error::Error>> {
    let mut text = String::new();
    std::io::stdin().read_to_string(&mut text)?;
    for lexeme in Lexer::new(&text)? {
        let lexeme = lexeme?;
        let span = lexeme.span();
        println!("{}-{} {}", span.begin, span.end, lexeme.kind());
    }
    Ok(())
}
