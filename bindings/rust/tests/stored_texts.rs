//! Lexes the stored texts, and compares with what the programs print of them.
//!
//! The files are those of `crates/starlark_rows`. Their parts `texts` are texts, and the lines that
//! are printed of each. Of a record that isn't a plain text (its fronts, a repetition, an edit)
//! nothing is compared. Each short text is also lexed with buffers of each smaller size. The texts of
//! the parts `recovered` are lexed on after their faults.

use starlark_lexer::{
    FStringQuote, Fault, Lexeme, Lexer, LineIndex, Place, RecoveringLexer, Span, Token, TokenInt,
};
use std::fs;
use std::path::PathBuf;
use std::str;

const SHORT_TEXT: usize = 64;

type Items<'a> = Vec<Result<Lexeme<'a>, Fault>>;

/// A record of the file of texts: the number of a text, whether it is plain, and its bytes.
struct Stored<'a> {
    number: usize,
    is_plain: bool,
    text: &'a [u8],
}

/// The line at the front of bytes, and what follows its LF.
fn split_line(bytes: &[u8]) -> (&str, &[u8]) {
    let end = bytes
        .iter()
        .position(|&byte| byte == b'\n')
        .expect("a line has its end");
    let line = str::from_utf8(&bytes[..end]).expect("a line is UTF-8");
    (line, &bytes[end + 1..])
}

/// The part of a name in a file, which is a list of parts: a line `part NAME LEN`, and LEN bytes.
fn read_part(name: &str, part: &str) -> Vec<u8> {
    let folder = PathBuf::from(env!("CARGO_MANIFEST_DIR")).join("../../crates/starlark_rows");
    let file = fs::read(folder.join(name)).expect("the stored texts are beside the crate");
    let mut rest = file.as_slice();
    loop {
        let (line, after) = split_line(rest);
        let words: Vec<&str> = line.split(' ').collect();
        let ["part", found, len] = words[..] else {
            panic!("{line:?} begins no part");
        };
        let (bytes, after) = after.split_at(len.parse().expect("a part has a length"));
        if found == part {
            return bytes.to_vec();
        }
        rest = after;
    }
}

/// Splits a file of texts: a line with a length and, where it isn't plain, a task; the bytes; LF.
fn stored_texts(mut file: &[u8]) -> Vec<Stored<'_>> {
    let mut texts = Vec::new();
    while !file.is_empty() {
        let (line, after) = split_line(file);
        let (len, task) = line.split_once(' ').unwrap_or((line, ""));
        let len: usize = len.parse().expect("a line has a length");
        let (text, rest) = after.split_at(len);
        let number = texts.len() + 1;
        texts.push(Stored {
            number,
            is_plain: task.is_empty(),
            text,
        });
        file = &rest[1..];
    }
    texts
}

/// The lines that are printed of each text that is plain, by number.
fn printed_lines<'a>(printed: &'a str, texts: &[Stored<'_>]) -> Vec<Option<&'a str>> {
    let starts: Vec<(usize, usize)> = printed
        .match_indices("text ")
        .filter(|&(at, _)| at == 0 || printed.as_bytes()[at - 1] == b'\n')
        .filter_map(|(at, word)| {
            let (number, _) = printed[at + word.len()..].split_once(": ")?;
            Some((at, number.parse().ok()?))
        })
        .collect();
    texts
        .iter()
        .map(|stored| {
            let index = starts
                .iter()
                .position(|&(_, number)| number == stored.number)?;
            let end = starts.get(index + 1).map_or(printed.len(), |&(at, _)| at);
            Some(&printed[starts[index].0..end])
        })
        .collect()
}

/// A span as the program prints it.
fn place_text(lines: &LineIndex<'_>, span: Span) -> String {
    let place = |at| lines.place(at).expect("an offset has a place");
    let Place { line, column, .. } = place(span.begin);
    let end = place(span.end);
    let mut text = format!("{}:{}", line + 1, column + 1);
    if span.begin != span.end {
        text.push('-');
        if end.line != line {
            text.push_str(&format!("{}:", end.line + 1));
        }
        text.push_str(&(end.column + 1).to_string());
    }
    text
}

fn hex(bytes: &[u8]) -> String {
    bytes.iter().map(|byte| format!("{byte:02x}")).collect()
}

/// The value of a token as the program prints it.
fn value_text(token: &Token<'_>) -> Option<String> {
    Some(match token {
        Token::Comment(text) | Token::Identifier(text) | Token::Float(text) => text.to_string(),
        Token::Int(TokenInt::I32(value)) => value.to_string(),
        Token::Int(TokenInt::BigInt { digits, radix: 10 }) => digits.to_string(),
        Token::Int(TokenInt::BigInt { digits, radix }) => format!("{digits} (base {radix})"),
        Token::String(text) | Token::FStringText(text) => hex(text.as_bytes()),
        Token::Bytes(bytes) => hex(bytes),
        Token::FStringStart(quote) => format!("{quote:?}"),
        _ => return None,
    })
}

/// The line that the program prints of an item.
fn item_line(lines: &LineIndex<'_>, item: &Result<Lexeme<'_>, Fault>) -> String {
    match item {
        Ok(lexeme) => {
            let (kind, span, token) = (lexeme.kind(), lexeme.span(), lexeme.token());
            assert_eq!((token.kind(), &token), (kind, &lexeme.clone().into_token()));
            let place = place_text(lines, span);
            let value = value_text(&token).map_or_else(String::new, |value| format!(" {value}"));
            format!("{}-{} {place} {kind:?}{value}\n", span.begin, span.end)
        }
        Err(fault) => {
            let span = fault.span();
            let place = place_text(lines, span);
            format!(
                "fault {}-{} <stdin>:{place} {fault}\n",
                span.begin, span.end
            )
        }
    }
}

/// The lines that the program prints of a text with a number.
fn lines_of(stored: &Stored<'_>) -> String {
    let number = stored.number;
    let Ok(text) = str::from_utf8(stored.text) else {
        return format!("text {number}: input is not UTF-8\n");
    };
    let items: Items<'_> = Lexer::new(text).expect("a stored text is short").collect();
    let status = if items.iter().all(Result::is_ok) {
        "clean"
    } else {
        "fault"
    };
    let lines = LineIndex::new(text);
    let printed: String = items.iter().map(|item| item_line(&lines, item)).collect();
    format!("text {number}: {status}\n{printed}")
}

#[test]
fn texts_are_lexed_as_the_program_prints_them() {
    let file = read_part("stdin", "texts");
    let texts = stored_texts(&file);
    let printed = read_part("stdout", "texts");
    let printed = String::from_utf8(printed).expect("what is printed is UTF-8");
    let mut compared = 0;
    for (stored, lines) in texts.iter().zip(printed_lines(&printed, &texts)) {
        if stored.is_plain {
            assert_eq!(Some(lines_of(stored).as_str()), lines);
            compared += 1;
        }
    }
    assert!(compared > 1000, "only {compared} texts were compared");
}

/// The lines of all lexemes and all faults of a text, by buffers with room for so much at first.
fn recovered_lines(text: &str, lexemes: usize, values: usize) -> String {
    let lines = LineIndex::new(text);
    let lexer = Lexer::with_capacity(text, lexemes, values).expect("a stored text is short");
    RecoveringLexer::from(lexer)
        .map(|item| item_line(&lines, &item))
        .collect()
}

#[test]
fn texts_are_lexed_on_after_faults() {
    let file = read_part("stdin", "recovered");
    let printed = read_part("stdout", "recovered");
    let printed = String::from_utf8(printed).expect("what is printed is UTF-8");
    let mut rest = printed.as_str();
    let texts = stored_texts(&file);
    for stored in &texts {
        let text = str::from_utf8(stored.text).expect("the texts are UTF-8");
        let lines = recovered_lines(text, 16, 16);
        rest = rest
            .strip_prefix(&format!("text {}\n{lines}", stored.number))
            .unwrap_or_else(|| panic!("{text:?} is lexed on as\n{lines}"));
        for room in 0..=2 * text.len() {
            assert_eq!(recovered_lines(text, room, 2 * text.len()), lines);
            assert_eq!(recovered_lines(text, 2 * text.len(), room), lines);
        }
    }
    assert_eq!(rest, "");
    assert!(texts.len() >= 158);
}

#[test]
fn small_buffers_give_the_same_lexemes() {
    let file = read_part("stdin", "texts");
    let mut compared = 0;
    for stored in stored_texts(&file) {
        let Ok(text) = str::from_utf8(stored.text) else {
            continue;
        };
        if text.len() > SHORT_TEXT {
            continue;
        }
        let whole: Items<'_> = Lexer::new(text).unwrap().collect();
        for room in 0..=whole.len() {
            let lexer = Lexer::with_capacity(text, room, 2 * text.len()).unwrap();
            assert_eq!(
                lexer.collect::<Items<'_>>(),
                whole,
                "{room} lexemes: {text:?}"
            );
        }
        for room in 0..=text.len() {
            let lexer = Lexer::with_capacity(text, whole.len(), room).unwrap();
            assert_eq!(
                lexer.collect::<Items<'_>>(),
                whole,
                "{room} bytes: {text:?}"
            );
        }
        compared += 1;
    }
    assert!(compared > 300, "only {compared} texts were compared");
}

#[test]
fn quotes_print_as_the_program_prints_them() {
    let quotes = ["f''", "f\"\"", "f''''''", "f\"\"\"\"\"\""].map(|text| {
        let first = Lexer::new(text).unwrap().next().unwrap().unwrap();
        match first.into_token() {
            Token::FStringStart(quote) => quote,
            token => panic!("{token:?} begins no f-string"),
        }
    });
    let wanted = [
        FStringQuote::Single,
        FStringQuote::Double,
        FStringQuote::TripleSingle,
        FStringQuote::TripleDouble,
    ];
    assert_eq!(quotes, wanted);
}
