//! Documents that are edited at random, against lexing their whole texts.

use starlark_lexer::{
    Change, Document, DocumentFaults, DocumentLexemes, DocumentLexemesIter, EditError, Fault,
    Lexeme, Lexer, LineIndex, RecoveringLexer, Token,
};
use std::borrow::Cow;
use std::thread;

const EDITS: usize = 20_000;

const PIECES: [&str; 20] = [
    "x = 1\n",
    "def f(a, b):\n    return a\n",
    "    y\n",
    "\n",
    "(",
    ")",
    "[1, 2.5, 0xFFFFFFFFFF]\n",
    "'a'",
    "\"\"\"",
    "'''\n",
    "f'{a!r} b{'",
    "}'",
    "# é🔬\n",
    "b'\\x00\\n'",
    "\t",
    "$",
    "'\\q'\n",
    "汉",
    "if x:\n  if y:\n    z\n",
    "a_name = other_name + \"text\"  # comment\n",
];

/// Numbers that look random.
struct Numbers(u64);

impl Numbers {
    fn below(&mut self, count: usize) -> usize {
        self.0 ^= self.0 << 13;
        self.0 ^= self.0 >> 7;
        self.0 ^= self.0 << 17;
        (self.0 % count as u64) as usize
    }

    fn text(&mut self, pieces: usize) -> String {
        (0..pieces)
            .map(|_| PIECES[self.below(PIECES.len())])
            .collect()
    }

    fn boundary(&mut self, text: &str, from: usize, most: usize) -> usize {
        let at = from + self.below(most.min(text.len() - from) + 1);
        (at..).find(|&at| text.is_char_boundary(at)).unwrap()
    }
}

fn whole(text: &str) -> (Vec<Lexeme<'_>>, Vec<Fault>) {
    let mut lexemes = Vec::new();
    let mut faults = Vec::new();
    for item in RecoveringLexer::new(text).unwrap() {
        match item {
            Ok(lexeme) => lexemes.push(lexeme),
            Err(fault) => faults.push(fault),
        }
    }
    (lexemes, faults)
}

fn owned(lexemes: &DocumentLexemes) -> Vec<Lexeme<'static>> {
    lexemes.iter().map(Lexeme::into_owned).collect()
}

/// Replaces the lexemes that touched the old range of a change.
fn replace(list: &mut Vec<Lexeme<'static>>, document: &Document, change: &Change) {
    let begin = list.partition_point(|lexeme| lexeme.span().end < change.begin);
    let end = list.partition_point(|lexeme| lexeme.span().begin <= change.old_end);
    let later = list[end..].len();
    list.splice(begin..end, owned(&document.lexemes(change.new_range())));
    let from = list.len() - later;
    let moved = owned(&document.lexemes(change.new_end..));
    list.splice(from.., moved[moved.len() - later..].iter().cloned());
}

#[test]
fn edits_are_as_lexing_the_whole_text() {
    let mut numbers = Numbers(0x9E37_79B9_7F4A_7C15);
    let mut found = DocumentLexemes::new();
    let mut done = 0;
    while done < EDITS {
        let pieces = numbers.below(60);
        let mut text = numbers.text(pieces);
        let mut document = Document::new(&text).unwrap();
        let mut list = owned(&document.lexemes(..));
        for _ in 0..100 {
            let begin = numbers.boundary(&text, 0, usize::MAX - 1);
            let end = numbers.boundary(&text, begin, 12);
            let pieces = numbers.below(3);
            let inserted = numbers.text(pieces);
            let change = document.edit(begin..end, &inserted).unwrap();
            text.replace_range(begin..end, &inserted);
            done += 1;

            let (lexemes, faults) = whole(&text);
            document.lexemes_into(.., &mut found);
            assert!(found.iter().eq(lexemes.iter().cloned()), "{text:?}");
            assert!(found.iter().rev().eq(lexemes.iter().rev().cloned()));
            assert!(document.faults(..).eq(faults.iter().cloned()), "{text:?}");
            replace(&mut list, &document, &change);
            assert!(list.iter().eq(lexemes.iter()), "{text:?}, {change:?}");

            let from = numbers.boundary(&text, 0, usize::MAX - 1);
            let to = numbers.boundary(&text, from, 40);
            let touching = lexemes.iter().filter(|lexeme| {
                let span = lexeme.span();
                from <= span.end && span.begin <= to
            });
            assert!(document.lexemes(from..to).iter().eq(touching.cloned()));
            assert_eq!(document.text(from..to).as_deref(), Some(&text[from..to]));
            assert_eq!(document.len(), text.len());
            let place = LineIndex::new(&text).place(from);
            assert_eq!(document.place(from), place);
            let place = place.unwrap();
            assert_eq!(
                document.offset_at_utf16(place.line, place.utf16_column),
                Some(from)
            );
        }
    }
}

#[test]
fn refused_edits_change_nothing() {
    let mut document = Document::new("x = 'é'\n").unwrap();
    #[allow(clippy::reversed_empty_ranges)]
    for range in [6..6, 3..2, 0..10, 10..10, usize::MAX..usize::MAX] {
        assert_eq!(document.edit(range.clone(), "y"), Err(EditError::BadRange));
        assert_eq!(document.text(range), None);
    }
    assert_eq!(document.edit(0..=usize::MAX, ""), Err(EditError::BadRange));
    assert!(document.lexemes(0..=usize::MAX).is_empty());
    assert_eq!(document.text(..).as_deref(), Some("x = 'é'\n"));
    assert_eq!(document.place(6), None);
    assert_eq!(document.offset_at_utf16(0, 100), None);
    assert_eq!(
        EditError::BadRange.to_string(),
        "the range isn't one of the text"
    );
}

#[test]
fn lexemes_have_values() {
    let mut document = Document::new("").unwrap();
    assert!(document.is_empty());
    document
        .edit(.., "x = b'\\x00' + 0xFFFFFFFFFF # c")
        .unwrap();
    let lexemes = document.lexemes(..);
    let tokens: Vec<_> = lexemes.iter().map(Lexeme::into_token).collect();
    assert_eq!(tokens.len(), 7);
    assert_eq!(tokens[0], Token::Identifier("x".into()));
    assert_eq!(tokens[2], Token::Bytes(b"\0"[..].into()));
    assert_eq!((lexemes.len(), lexemes.iter().len()), (7, 7));
    let colon = Document::new(":").unwrap().lexemes(0..0);
    let shown = "[Lexeme { span: Span { begin: 0, end: 1 }, token: Colon }]";
    assert_eq!(format!("{colon:?}"), shown);
}

#[test]
fn values_beside_bytes_of_no_text() {
    // The first two values are one character, and after the fourth nothing is UTF-8.
    let text = r"b'\xc3' b'\xa9' 'é' b'\xff' 'é' b'\xc3' name b''";
    let lexemes = Document::new(text).unwrap().lexemes(..);
    let mut whole = Lexer::new(text).unwrap().map(Result::unwrap);
    for lexeme in &lexemes {
        let wanted = whole.next().unwrap();
        assert_eq!(lexeme, wanted);
        assert_eq!(lexeme.text(), wanted.text());
        assert_eq!(lexeme.token(), wanted.token());
        assert_eq!(lexeme.into_owned().into_token(), wanted.into_token());
    }
    assert!(whole.next().is_none());
}

#[test]
fn values_are_borrowed() {
    let lexemes = Document::new("name 'a\\n' b'c'").unwrap().lexemes(..);
    let tokens: Vec<_> = lexemes.iter().map(Lexeme::into_token).collect();
    assert!(matches!(
        tokens[0],
        Token::Identifier(Cow::Borrowed("name"))
    ));
    assert!(matches!(tokens[1], Token::String(Cow::Borrowed("a\n"))));
    assert!(matches!(tokens[2], Token::Bytes(Cow::Borrowed(b"c"))));
}

#[test]
fn an_edit_lexes_what_it_touches() {
    let text = "x = 1\n".repeat(10_000);
    let change = Document::new(&text)
        .unwrap()
        .edit(30_000..30_001, "yz")
        .unwrap();
    assert_eq!(change.old_range().len() + 1, change.new_range().len());
    assert!((1..10_000).contains(&change.lexed()), "{change:?}");
}

/// Compiles only for a type that isn't `Sync`: else the trait's parameter is ambiguous.
trait IsNotSync<Which> {
    fn check() {}
}

struct IfSync;

impl<T> IsNotSync<()> for T {}

impl<T: Sync> IsNotSync<IfSync> for T {}

fn is_send_and_sync<T: Send + Sync>() {}

#[test]
fn all_types_but_documents_are_shared_between_threads() {
    is_send_and_sync::<Lexer<'_>>();
    is_send_and_sync::<RecoveringLexer<'_>>();
    is_send_and_sync::<Lexeme<'_>>();
    is_send_and_sync::<Token<'_>>();
    is_send_and_sync::<Fault>();
    is_send_and_sync::<LineIndex<'_>>();
    is_send_and_sync::<DocumentLexemes>();
    is_send_and_sync::<DocumentLexemesIter<'_>>();
    is_send_and_sync::<DocumentFaults>();
    is_send_and_sync::<(Change, EditError)>();
    <Document as IsNotSync<_>>::check();
}

#[test]
fn a_document_is_sent_to_another_thread() {
    let mut document = Document::new("x = !\n").unwrap();
    let faults = thread::spawn(move || {
        document.edit(4..5, "1").unwrap();
        document.faults(..).count()
    });
    assert_eq!(faults.join().unwrap(), 0);
}
