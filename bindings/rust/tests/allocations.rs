//! How often the lexemes of a document allocate.

use starlark_lexer::{Document, DocumentLexemes, Lexeme};
use std::alloc::{GlobalAlloc, Layout, System};
use std::cell::Cell;

/// The system's allocator, which counts the calls of each thread.
struct Counting;

thread_local! {
    static CALLS: Cell<usize> = const { Cell::new(0) };
}

fn count() {
    CALLS.with(|calls| calls.set(calls.get() + 1));
}

// SAFETY: each call is the system's with the same arguments.
unsafe impl GlobalAlloc for Counting {
    unsafe fn alloc(&self, layout: Layout) -> *mut u8 {
        count();
        System.alloc(layout)
    }

    unsafe fn realloc(&self, block: *mut u8, layout: Layout, len: usize) -> *mut u8 {
        count();
        System.realloc(block, layout, len)
    }

    unsafe fn dealloc(&self, block: *mut u8, layout: Layout) {
        System.dealloc(block, layout);
    }
}

#[global_allocator]
static ALLOCATOR: Counting = Counting;

/// How often a call allocates, with what it returns.
fn allocations<T>(call: impl FnOnce() -> T) -> (usize, T) {
    let before = CALLS.with(Cell::get);
    let result = call();
    (CALLS.with(Cell::get) - before, result)
}

/// How many bytes the values of lexemes have, which become tokens.
fn value_len(lexemes: &DocumentLexemes) -> usize {
    let value_len = |lexeme: Lexeme<'_>| {
        let len = lexeme.bytes().len();
        drop(lexeme.into_token());
        len
    };
    lexemes.iter().map(value_len).sum()
}

#[test]
fn lexemes_of_a_document_take_two_buffers() {
    let document = Document::new(&"a = 'b\\n' + b'c' # d\n".repeat(1000)).unwrap();
    let (calls, mut lexemes) = allocations(|| document.lexemes(..));
    assert_eq!((calls, lexemes.len()), (2, 7001));
    let (calls, len) = allocations(|| value_len(&lexemes));
    assert_eq!((calls, len), (0, 6000));
    let (calls, ()) = allocations(|| document.lexemes_into(.., &mut lexemes));
    assert_eq!((calls, lexemes.len()), (0, 7001));
}
