//! What the crate's calls do beside the stored texts: values, faults, places, long texts.

use starlark_lexer::{
    Fault, FaultKind, KindClass, Lexeme, Lexer, LineIndex, Place, RecoveringLexer, Token, TokenInt,
    TokenKind, TooLong,
};
use std::borrow::Cow;
use std::collections::hash_map::DefaultHasher;
use std::error::Error;
use std::hash::{Hash, Hasher};
use std::ops::Range;
use std::thread;
use std::time::{Duration, Instant};

fn tokens(text: &str) -> Vec<Token<'_>> {
    let lexemes = Lexer::new(text).unwrap();
    lexemes.map(|lexeme| lexeme.unwrap().into_token()).collect()
}

/// The only value of a text, which is a string literal.
fn string(text: &str) -> Cow<'_, str> {
    match tokens(text).swap_remove(0) {
        Token::String(value) => value,
        token => panic!("{token:?} is no string"),
    }
}

#[test]
fn an_empty_text_has_a_newline() {
    assert_eq!(tokens(""), [Token::Newline]);
}

#[test]
fn kinds_have_classes() {
    let classes = [
        (TokenKind::Comment, KindClass::Comment),
        (TokenKind::Indent, KindClass::Layout),
        (TokenKind::Identifier, KindClass::Name),
        (TokenKind::Int, KindClass::Number),
        (TokenKind::FStringText, KindClass::String),
        (TokenKind::Or, KindClass::Keyword),
        (TokenKind::Tilde, KindClass::Operator),
        (TokenKind::Dot, KindClass::Punctuation),
        (TokenKind::FStringExprStart, KindClass::Bracket),
    ];
    for (kind, class) in classes {
        assert_eq!(kind.class(), class, "{kind}");
    }
}

#[test]
fn values_are_decoded() {
    let found = tokens("a 1 2147483648 0xFFFFFFFFFF 1.5 'b\\n' b'\\xff' f'c{d}' # e\n");
    let wanted = [
        Token::Identifier("a".into()),
        Token::Int(TokenInt::I32(1)),
        Token::Int(TokenInt::BigInt {
            digits: "2147483648".into(),
            radix: 10,
        }),
        Token::Int(TokenInt::BigInt {
            digits: "ffffffffff".into(),
            radix: 16,
        }),
        Token::Float("1.5".into()),
        Token::String("b\n".into()),
        Token::Bytes(b"\xff"[..].into()),
    ];
    assert_eq!(found[..wanted.len()], wanted);
    assert!(found.contains(&Token::FStringText("c".into())));
    assert!(found.contains(&Token::Comment(" e".into())));
}

#[test]
fn a_value_is_decoded_whatever_its_length() {
    let literals = [
        ("'\\n\\n\\n\\n'", "\n\n\n\n"),
        ("'\\''", "'"),
        ("r'\\''", "'"),
        ("r'\\a'", "\\a"),
        ("'''\\''''", "'"),
        ("'\\.'", "\\."),
        ("'a\rb'", "ab"),
        ("'\\\nab'", "ab"),
    ];
    for (text, value) in literals {
        assert_eq!(string(text), value, "{text}");
    }
}

#[test]
fn values_are_borrowed_where_the_text_has_them() {
    for text in ["'a'", "\"a\"", "'''a'''", "r'a'", "'é'", "''"] {
        assert!(matches!(string(text), Cow::Borrowed(_)), "{text}");
    }
    for text in ["'\\n'", "'a\\\nb'", "'a\rb'"] {
        let value = string(text);
        assert_eq!(
            text.contains(&*value),
            matches!(value, Cow::Borrowed(_)),
            "{text:?}"
        );
    }
    assert!(matches!(string("'\\n'"), Cow::Owned(_)));
    assert!(matches!(
        tokens("b'a'")[0],
        Token::Bytes(Cow::Borrowed(b"a"))
    ));
    assert!(matches!(
        tokens("name")[0],
        Token::Identifier(Cow::Borrowed("name"))
    ));
}

/// The first lexeme of a text.
fn lexeme(text: &str) -> Lexeme<'_> {
    Lexer::new(text).unwrap().next().unwrap().unwrap()
}

#[test]
fn a_lexeme_has_its_kind_and_its_value() {
    let lexemes = [
        ("# a", TokenKind::Comment, " a", true),
        ("#", TokenKind::Comment, "", true),
        ("name", TokenKind::Identifier, "name", true),
        ("1", TokenKind::Int, "", true),
        ("2147483648", TokenKind::Int, "2147483648", true),
        ("0xabcdef012", TokenKind::Int, "abcdef012", true),
        ("0xABCDEF012", TokenKind::Int, "abcdef012", false),
        ("1.5e3", TokenKind::Float, "1.5e3", true),
        ("''", TokenKind::String, "", true),
        ("'é'", TokenKind::String, "é", true),
        ("''''''", TokenKind::String, "", true),
        ("\"\"\"a\"\"\"", TokenKind::String, "a", true),
        ("r'a'", TokenKind::String, "a", true),
        ("'\\t'", TokenKind::String, "\t", false),
        ("f'a'", TokenKind::FStringStart, "", true),
        ("==", TokenKind::EqualEqual, "", true),
        ("", TokenKind::Newline, "", true),
    ];
    for (text, kind, value, is_borrowed) in lexemes {
        let lexeme = lexeme(text);
        assert_eq!((lexeme.kind(), lexeme.text()), (kind, value), "{text}");
        assert_eq!(lexeme.bytes(), value.as_bytes(), "{text}");
        assert_eq!(lexeme.token(), lexeme.clone().into_token());
        assert_eq!(lexeme.token().kind(), kind);
        let found = lexeme.into_text();
        assert_eq!(found, value);
        assert_eq!(matches!(found, Cow::Borrowed(_)), is_borrowed, "{text}");
    }
}

#[test]
fn bytes_are_no_text() {
    let literals: [(&str, &[u8], bool); 9] = [
        ("b''", b"", true),
        ("b''''''", b"", true),
        ("b'a'", b"a", true),
        ("rb'a'", b"a", true),
        ("b'''a'''", b"a", true),
        ("b'é'", "é".as_bytes(), true),
        ("b'\\xff'", b"\xff", false),
        ("b'\\xc3\\xa9'", "é".as_bytes(), false),
        ("b'\\n\\n\\n'", b"\n\n\n", false),
    ];
    for (text, bytes, is_borrowed) in literals {
        let lexeme = lexeme(text);
        assert_eq!(lexeme.kind(), TokenKind::Bytes);
        assert_eq!((lexeme.text(), lexeme.bytes()), ("", bytes), "{text}");
        assert_eq!(lexeme.token(), Token::Bytes(bytes.into()));
        assert_eq!(lexeme.clone().into_text(), "");
        match lexeme.into_token() {
            Token::Bytes(found) => {
                assert_eq!(matches!(found, Cow::Borrowed(_)), is_borrowed, "{text}");
            }
            token => panic!("{token:?} is no bytes literal"),
        }
    }
}

#[test]
fn texts_of_an_f_string_are_values() {
    let lexemes = Lexer::new("f'a{b}\\tc'").unwrap();
    let found: Vec<_> = lexemes
        .map(Result::unwrap)
        .filter(|lexeme| lexeme.kind() == TokenKind::FStringText)
        .map(Lexeme::into_text)
        .collect();
    assert_eq!(found, ["a", "\tc"]);
    assert!(matches!(found[0], Cow::Borrowed(_)));
    assert!(matches!(found[1], Cow::Owned(_)));
}

#[test]
fn lexemes_are_equal_by_what_they_have() {
    fn hash(lexeme: &Lexeme<'_>) -> u64 {
        let mut hasher = DefaultHasher::new();
        lexeme.hash(&mut hasher);
        hasher.finish()
    }
    // The first value is a part of the text, the second one isn't.
    let (part, own) = (lexeme("r'''a'''"), lexeme("'\\u0061'"));
    assert_eq!(part.span(), own.span());
    assert_eq!((&part, hash(&part)), (&own, hash(&own)));
    assert!(matches!(part.into_text(), Cow::Borrowed("a")));
    assert!(matches!(own.into_text(), Cow::Owned(_)));
    assert_ne!(lexeme("a"), lexeme("b"));
    assert_ne!(lexeme("1"), lexeme("2"));
    assert_ne!(lexeme("+"), lexeme("-"));
}

#[test]
fn owned_tokens_outlive_the_text() {
    let source = "def f(): return 99999999999 + f'{x!r}a' + b'b' + 1.5 # c".to_owned();
    let kept: Vec<Token<'static>> = tokens(&source).into_iter().map(Token::into_owned).collect();
    assert_eq!(kept, tokens(&source));
    drop(source);
    assert_eq!(kept[1], Token::Identifier("f".into()));
}

#[test]
fn each_kind_of_fault() {
    let faults = [
        ("if x:\n  y\n z", FaultKind::Indentation),
        ("?", FaultKind::InvalidInput),
        ("x\n\ty", FaultKind::InvalidTab),
        ("'", FaultKind::UnfinishedStringLiteral),
        ("'\\x'", FaultKind::InvalidEscapeSequence),
        ("'\\", FaultKind::EmptyEscapeSequence),
        ("class", FaultKind::ReservedKeyword),
        ("01", FaultKind::StartsZero),
        ("f'{\"a", FaultKind::UnfinishedFStringExpression),
    ];
    for (text, kind) in faults {
        let fault = Lexer::new(text).unwrap().find_map(Result::err);
        assert_eq!(fault.map(|fault| fault.kind()), Some(kind), "{text:?}");
    }
}

#[test]
fn a_fault_ends_the_lexer() {
    let mut lexer = Lexer::new("x = 01\ny").unwrap();
    assert_eq!(lexer.by_ref().take(2).filter(Result::is_ok).count(), 2);
    let fault = lexer.next().unwrap().unwrap_err();
    assert_eq!(fault.span().range(), 4..6);
    assert_eq!(
        fault.to_string(),
        "Parse error: integer cannot have leading 0, got `01`"
    );
    assert_eq!(fault.message(), fault.to_string());
    assert!(lexer.next().is_none());
    assert!(lexer.next().is_none());
}

/// The tokens of a text that is lexed on after its faults, and the spans and kinds of the faults.
fn recovered(text: &str) -> (Vec<Token<'_>>, Vec<(&str, FaultKind)>) {
    let mut tokens = Vec::new();
    let mut faults = Vec::new();
    for item in RecoveringLexer::new(text).unwrap() {
        match item {
            Ok(lexeme) => tokens.push(lexeme.into_token()),
            Err(fault) => faults.push((&text[fault.span().range()], fault.kind())),
        }
    }
    (tokens, faults)
}

#[test]
fn all_faults_of_a_text() {
    let (tokens, faults) = recovered("f(\n  'a\nb\n\tc\nd = 01\n");
    let names: Vec<_> = tokens
        .into_iter()
        .filter(|token| matches!(token, Token::Identifier(_) | Token::Newline))
        .collect();
    let wanted = [
        Token::Identifier("f".into()),
        Token::Identifier("b".into()),
        Token::Identifier("c".into()),
        Token::Identifier("d".into()),
        Token::Newline,
    ];
    // The bracket stays open after the quote, so no line end counts, and the tab is in code.
    let kinds = [
        ("'a", FaultKind::UnfinishedStringLiteral),
        ("", FaultKind::InvalidTab),
        ("01", FaultKind::StartsZero),
    ];
    assert_eq!(names, wanted);
    assert_eq!(faults, kinds);
}

#[test]
fn a_reserved_word_may_be_taken_as_a_name() {
    let (tokens, faults) = recovered("def f():\n  assert.eq(x,\ny)\n");
    let (mut names, none) = recovered("def f():\n  asserx.eq(x,\ny)\n");
    let place = names
        .iter()
        .position(|token| *token == Token::Identifier("asserx".into()));
    names[place.unwrap()] = Token::Identifier("assert".into());
    assert_eq!(tokens, names);
    assert_eq!(faults, [("assert", FaultKind::ReservedKeyword)]);
    assert!(none.is_empty());
}

#[test]
fn a_text_without_fault_stays() {
    let text = long_text();
    let lexer = Lexer::new(&text).unwrap();
    assert!(RecoveringLexer::new(&text).unwrap().eq(lexer));
    assert_eq!(RecoveringLexer::new(&text).unwrap().text(), text);
}

#[test]
fn a_fault_on_each_line() {
    let text = "a = !\n".repeat(1000);
    let lexer = Lexer::with_capacity(&text, 1, 1).unwrap();
    let (mut tokens, mut faults) = (0, Vec::new());
    for item in RecoveringLexer::from(lexer) {
        match item {
            Ok(_) => tokens += 1,
            Err(fault) => faults.push(fault.span().begin),
        }
    }
    let wanted: Vec<usize> = (0..1000).map(|line| 6 * line + 4).collect();
    assert_eq!((tokens, faults), (3001, wanted));
}

/// The bytes of an item, and its token, or the kind and the message of its fault.
type Found<'a> = (Range<usize>, Result<Token<'a>, (FaultKind, String)>);

fn found(item: Result<Lexeme<'_>, Fault>) -> Found<'_> {
    match item {
        Ok(lexeme) => (lexeme.span().range(), Ok(lexeme.into_token())),
        Err(fault) => {
            let message = fault.to_string();
            (fault.span().range(), Err((fault.kind(), message)))
        }
    }
}

#[test]
fn many_faults_take_no_longer() {
    let invalid = "Parse error: invalid input `!`";
    let zero = "Parse error: integer cannot have leading 0, got `01`";
    let lines = [
        ("name = 'é汉🔬' !\n", 1, FaultKind::InvalidInput, invalid),
        ("name = 'é汉🔬' 01\n", 2, FaultKind::StartsZero, zero),
    ];
    let mut text = String::new();
    let mut wanted: Vec<Found<'_>> = Vec::new();
    for (line, len, kind, message) in lines.into_iter().cycle().take(60_000) {
        let at = text.len();
        text.push_str(line);
        wanted.extend([
            (at..at + 4, Ok(Token::Identifier("name".into()))),
            (at + 5..at + 6, Ok(Token::Equal)),
            (at + 7..at + 18, Ok(Token::String("é汉🔬".into()))),
            (at + 19..at + 19 + len, Err((kind, message.to_owned()))),
        ]);
        if kind == FaultKind::StartsZero {
            wanted.push((at + 19..at + 19 + len, Ok(Token::Int(TokenInt::I32(1)))));
        }
        wanted.push((at + 19 + len..text.len(), Ok(Token::Newline)));
    }
    wanted.push((text.len()..text.len(), Ok(Token::Newline)));

    let begin = Instant::now();
    let items: Vec<Found<'_>> = RecoveringLexer::new(&text).unwrap().map(found).collect();
    let time = begin.elapsed();
    let differs = items
        .iter()
        .zip(&wanted)
        .position(|(one, other)| one != other);
    assert_eq!((differs, items.len()), (None, wanted.len()));
    assert!(time < Duration::from_secs(10), "{time:?}");
}

#[test]
fn a_fault_after_a_piece_is_passed() {
    let mut text = "a = 'é'\n".repeat(200);
    let begin = text.len() + 4;
    text.push_str("b = !\nc");
    let lexer = Lexer::with_capacity(&text, 4, 8).unwrap();
    let items: Vec<_> = RecoveringLexer::from(lexer).collect();
    let at = items.iter().position(Result::is_err).unwrap();
    assert_eq!(items[at].as_ref().unwrap_err().span().begin, begin);
    let after: Vec<_> = items[at + 1..].iter().flatten().collect();
    assert_eq!(after[0].token(), Token::Newline);
    assert_eq!(after[1].token(), Token::Identifier("c".into()));
    assert_eq!(after[1].span().range(), begin + 2..begin + 3);
    assert_eq!(after.len(), 3);
}

#[test]
fn a_message_may_be_long() {
    let word = "0".repeat(5000) + "1";
    let fault = Lexer::new(&word).unwrap().find_map(Result::err).unwrap();
    assert!(fault.message().ends_with(&format!("got `{word}`")));
}

#[test]
fn a_fault_after_pieces_counts_from_the_start() {
    let text = "a = 'é'\n".repeat(200) + "b = !";
    let lexer = Lexer::with_capacity(&text, 4, 8).unwrap();
    let fault = lexer.last().unwrap().unwrap_err();
    assert_eq!(fault.span().range(), text.len() - 1..text.len());
}

#[test]
fn faults_are_errors() {
    fn lexemes(text: &str) -> Result<usize, Box<dyn Error>> {
        let lexemes: Result<Vec<_>, Fault> = Lexer::new(text)?.collect();
        Ok(lexemes?.len())
    }
    assert_eq!(lexemes("x\n").unwrap(), 3);
    assert_eq!(
        lexemes("!").unwrap_err().to_string(),
        "Parse error: invalid input `!`"
    );
    assert!(TooLong.to_string().contains("4294967295"));
}

#[test]
fn places_of_all_offsets() {
    for text in [
        "",
        "a\nb\n\nc",
        "é\n汉🔬x\r\n🔬",
        "\u{10ffff}\u{d7ff}\u{ffff}\n",
    ] {
        let lines = LineIndex::new(text);
        for at in 0..text.len() + 2 {
            let wanted = text.get(..at).map(|front| {
                let line = front.rsplit('\n').next().unwrap();
                Place {
                    line: front.matches('\n').count(),
                    column: line.chars().count(),
                    utf16_column: line.encode_utf16().count(),
                }
            });
            assert_eq!(lines.place(at), wanted, "{text:?}, offset {at}");
        }
    }
}

#[test]
fn places_in_long_lines() {
    let line = "é汉🔬 = f(x)".repeat(2_000);
    let text = format!("a\n{line}\n\n{line}");
    let lines = LineIndex::new(&text);
    let mut wanted = Place {
        line: 0,
        column: 0,
        utf16_column: 0,
    };
    for (at, character) in text.char_indices() {
        assert_eq!(lines.place(at), Some(wanted), "offset {at}");
        for inside in 1..character.len_utf8() {
            assert_eq!(lines.place(at + inside), None, "offset {at}");
        }
        if character == '\n' {
            wanted = Place {
                line: wanted.line + 1,
                column: 0,
                utf16_column: 0,
            };
        } else {
            wanted.column += 1;
            wanted.utf16_column += character.len_utf16();
        }
    }
    assert_eq!(lines.place(text.len()), Some(wanted));
    assert_eq!(lines.place(text.len() + 1), None);
}

/// A text of 1 MB with blocks, brackets over lines, comments and strings.
fn long_text() -> String {
    let block = "def f(a, b = \"é\"):  # 汉\n    if a:\n        return [\n            a,\n            1.5,\n        ]\n";
    block.repeat(1_000_000 / block.len() + 1)
}

#[test]
fn a_text_of_a_megabyte_in_pieces() {
    let text = long_text();
    let whole: Vec<_> = Lexer::new(&text).unwrap().map(Result::unwrap).collect();
    let pieces = Lexer::with_capacity(&text, 16, 16).unwrap();
    assert!(pieces.map(Result::unwrap).eq(whole.iter().cloned()));
    assert!(whole
        .windows(2)
        .all(|pair| pair[0].span().end <= pair[1].span().begin));
    for lexeme in &whole {
        if lexeme.kind() == TokenKind::Identifier {
            assert_eq!(&text[lexeme.span().range()], lexeme.text());
        }
    }
    let count = |kind| whole.iter().filter(|lexeme| lexeme.kind() == kind).count();
    let blocks = count(TokenKind::Def);
    let (opened, closed) = (count(TokenKind::Indent), count(TokenKind::Dedent));
    assert_eq!(blocks, text.matches("def ").count());
    assert_eq!((opened, closed), (2 * blocks, 2 * blocks));
}

#[test]
fn lexers_run_in_threads() {
    let text = long_text();
    let wanted = Lexer::new(&text).unwrap().count();
    let counts: Vec<usize> = thread::scope(|scope| {
        let count = || Lexer::with_capacity(&text, 1000, 1000).unwrap().count();
        let threads: Vec<_> = (0..4).map(|_| scope.spawn(count)).collect();
        threads
            .into_iter()
            .map(|thread| thread.join().unwrap())
            .collect()
    });
    assert_eq!(counts, [wanted; 4]);
}

/// It takes 4 GB of address space, but hardly any memory: the zeros are never written.
#[test]
#[ignore = "takes 4 GB of address space"]
fn a_text_that_is_too_long() {
    let zeros = String::from_utf8(vec![0; 1 << 32]).unwrap();
    assert_eq!(Lexer::new(&zeros).err(), Some(TooLong));
    let fault = Lexer::new(&zeros[1..])
        .unwrap()
        .next()
        .unwrap()
        .unwrap_err();
    assert_eq!(fault.kind(), FaultKind::InvalidInput);
}
