//! The calls of the library, with the records of `bindings/c/starlark_lex.h`.
//!
//! All `unsafe` of the crate is here. What leaves this module is safe for every argument.

use crate::{Change, EditError, Place, TooLong};
use std::alloc::{handle_alloc_error, Layout};
#[cfg(test)]
use std::ffi::CStr;
use std::fmt;
use std::ops::Range;
#[cfg(test)]
use std::os::raw::c_char;
use std::ptr::NonNull;

/// A lexeme: a `starlark_lexeme` of the header, which says what each field holds.
#[repr(C)]
#[derive(Clone, Copy, Debug)]
pub(crate) struct LexemeRecord {
    pub begin: u32,
    pub end: u32,
    pub head: LexemeHead,
    pub value_begin: usize,
    pub value_len: usize,
}

/// The kind of a lexeme, and its quotes, base or integer: three fields of a `starlark_lexeme`, one
/// after another.
// A type of its own, so that it is copied as one word (9 instructions a lexeme).
#[repr(C)]
#[derive(Clone, Copy, Debug, PartialEq, Eq, Hash)]
pub(crate) struct LexemeHead {
    /// The number of the kind.
    pub kind: u16,
    pub detail: u16,
    pub integer: i32,
}

/// What a record has for `detail` where its value is in the text: `STARLARK_IN_TEXT` of the header.
const IN_TEXT: u16 = 0x8000;

impl LexemeRecord {
    /// Offset of the value in the text, where the record tells that it is there.
    pub fn value_in_text(&self) -> Option<usize> {
        (self.head.detail == IN_TEXT).then_some(self.value_begin)
    }
}

impl LexemeHead {
    /// The same, without telling where the value is.
    #[inline]
    pub fn without_place(self) -> Self {
        LexemeHead {
            detail: self.detail & !IN_TEXT,
            ..self
        }
    }
}

/// A fault: a `starlark_found_fault` of the header. Its offsets count from the start of what was
/// lexed.
#[repr(C)]
#[derive(Clone, Copy, Debug)]
pub(crate) struct FaultRecord {
    pub kind: u32,
    pub begin: u32,
    pub end: u32,
    reserved: u32,
    pub lexemes_before: usize,
    value_begin: usize,
    value_len: usize,
}

/// What a call of `starlark_lex` did: a `starlark_outcome` of the header.
#[repr(C)]
#[derive(Clone, Copy, Debug, Default)]
struct Outcome {
    status: u32,
    fault_kind: u32,
    fault_begin: u32,
    fault_end: u32,
    fault_value_begin: usize,
    fault_value_len: usize,
    lexemes: usize,
    values: usize,
    next: usize,
    wanted_lexemes: usize,
    wanted_values: usize,
}

/// What a call of `starlark_lex_recovering` did: a `starlark_recovered` of the header.
#[repr(C)]
#[derive(Clone, Copy, Debug, Default)]
struct Recovered {
    status: u32,
    lexemes: usize,
    values: usize,
    faults: usize,
    next: usize,
    wanted_lexemes: usize,
    wanted_values: usize,
    wanted_faults: usize,
}

/// A `starlark_text_place` of the header.
#[repr(C)]
#[derive(Clone, Copy, Debug, Default)]
struct TextPlace {
    line: usize,
    column: usize,
    utf16_column: usize,
}

/// A `starlark_document` of the header.
#[repr(C)]
struct RawDocument {
    opaque: [u8; 0],
}

/// A `starlark_change` of the header.
#[repr(C)]
#[derive(Default)]
struct ChangeRecord {
    begin: usize,
    old_end: usize,
    new_end: usize,
    lexed: usize,
    starts: usize,
    reads: u64,
}

/// How many bytes of a text have room for one fault at first.
const BYTES_A_FAULT: usize = 64;

const WHOLE: u32 = 0;
const FAULT: u32 = 1;
const FULL: u32 = 2;
const NOT_UTF8: u32 = 3;
const TOO_LONG: u32 = 4;
const MEMORY: u32 = 5;
const BAD_RANGE: u32 = 6;
const CLOSED: u32 = 7;

/// What tells that a document has no such place.
const NO_OFFSET: usize = usize::MAX;

extern "C" {
    fn starlark_lex_uncopied(
        text: *const u8,
        text_len: usize,
        lexemes: *mut LexemeRecord,
        lexemes_cap: usize,
        values: *mut u8,
        values_cap: usize,
        outcome: *mut Outcome,
    ) -> u32;

    fn starlark_lex_front_uncopied(
        front: *const u8,
        front_len: usize,
        lexemes: *mut LexemeRecord,
        lexemes_cap: usize,
        values: *mut u8,
        values_cap: usize,
        outcome: *mut Outcome,
    ) -> u32;

    fn starlark_lex_recovering(
        text: *const u8,
        text_len: usize,
        lexemes: *mut LexemeRecord,
        lexemes_cap: usize,
        values: *mut u8,
        values_cap: usize,
        faults: *mut FaultRecord,
        faults_cap: usize,
        outcome: *mut Recovered,
    ) -> u32;

    fn starlark_place(text: *const u8, text_len: usize, at: usize, place: *mut TextPlace) -> bool;

    fn starlark_fault_message(
        kind: u32,
        named: *const u8,
        named_len: usize,
        message: *mut u8,
        message_cap: usize,
    ) -> usize;

    fn starlark_document_open(
        text: *const u8,
        text_len: usize,
        status: *mut u32,
    ) -> *mut RawDocument;

    fn starlark_document_edit(
        document: *mut RawDocument,
        begin: usize,
        end: usize,
        text: *const u8,
        text_len: usize,
        change: *mut ChangeRecord,
    ) -> u32;

    fn starlark_document_lexemes(
        document: *const RawDocument,
        begin: usize,
        end: usize,
        lexemes: *mut LexemeRecord,
        lexemes_cap: usize,
        values: *mut u8,
        values_cap: usize,
        outcome: *mut Recovered,
    ) -> u32;

    fn starlark_document_faults(
        document: *const RawDocument,
        begin: usize,
        end: usize,
        values: *mut u8,
        values_cap: usize,
        faults: *mut FaultRecord,
        faults_cap: usize,
        outcome: *mut Recovered,
    ) -> u32;

    fn starlark_document_text(
        document: *const RawDocument,
        begin: usize,
        end: usize,
        text: *mut u8,
        text_cap: usize,
    ) -> u32;

    fn starlark_document_len(document: *const RawDocument) -> usize;

    fn starlark_document_place(
        document: *const RawDocument,
        at: usize,
        place: *mut TextPlace,
    ) -> bool;

    fn starlark_document_offset_at_utf16(
        document: *const RawDocument,
        line: usize,
        column: usize,
    ) -> usize;

    fn starlark_document_close(document: *mut RawDocument);

    #[cfg(test)]
    fn starlark_kind_name(kind: u32) -> *const c_char;

    #[cfg(test)]
    fn starlark_kind_class(kind: u32) -> u32;

    #[cfg(test)]
    fn starlark_fault_code(kind: u32) -> *const c_char;

    #[cfg(test)]
    fn starlark_lex_version() -> u32;
}

/// `starlark_lex_uncopied` or `starlark_lex_front_uncopied`.
type LexCall = unsafe extern "C" fn(
    *const u8,
    usize,
    *mut LexemeRecord,
    usize,
    *mut u8,
    usize,
    *mut Outcome,
) -> u32;

/// How lexing a text into buffers ended.
#[derive(Clone, Copy, Debug)]
pub(crate) enum Ending {
    /// The buffers have all lexemes of the text.
    Whole,
    /// The buffers have all lexemes before the text's fault.
    Fault(FaultRecord),
    /// The buffers have the lexemes up to an offset in bytes, where lexing goes on.
    Piece { next: usize },
    /// The buffers have nothing: they need this much room.
    Full { lexemes: usize, values: usize },
}

/// How many lexemes, bytes of values and faults buffers need room for.
struct Room {
    lexemes: usize,
    values: usize,
    faults: usize,
}

/// Buffers for the lexemes of a text, their values, and the faults after which it was lexed on.
#[derive(Clone, Default)]
pub(crate) struct Buffers {
    lexemes: Vec<LexemeRecord>,
    values: Vec<u8>,
    faults: Vec<FaultRecord>,
}

impl Buffers {
    /// Buffers with room for this many lexemes and bytes of values, which have nothing.
    pub(crate) fn with_capacity(lexemes: usize, values: usize) -> Self {
        Buffers {
            lexemes: Vec::with_capacity(lexemes),
            values: Vec::with_capacity(values),
            faults: Vec::new(),
        }
    }

    /// How many lexemes have room.
    pub(crate) fn lexemes_capacity(&self) -> usize {
        self.lexemes.capacity()
    }

    /// How many bytes of values have room.
    pub(crate) fn values_capacity(&self) -> usize {
        self.values.capacity()
    }

    /// The records of the lexemes that the buffers have.
    pub(crate) fn lexemes(&self) -> &[LexemeRecord] {
        &self.lexemes
    }

    /// The record with an index, if there is one.
    #[inline]
    pub(crate) fn lexeme(&self, index: usize) -> Option<&LexemeRecord> {
        self.lexemes.get(index)
    }

    /// The fault with an index, of those after which the text was lexed on, if there is one.
    #[inline]
    pub(crate) fn fault(&self, index: usize) -> Option<&FaultRecord> {
        self.faults.get(index)
    }

    /// The values that the buffers have, one after another.
    pub(crate) fn values(&self) -> &[u8] {
        &self.values
    }

    /// The bytes of a lexeme's value, which aren't in the text.
    #[inline]
    pub(crate) fn value(&self, lexeme: &LexemeRecord) -> &[u8] {
        &self.values[lexeme.value_begin..][..lexeme.value_len]
    }

    /// The message of a fault of the text that was lexed last.
    pub(crate) fn message(&self, fault: &FaultRecord) -> String {
        let named = &self.values[fault.value_begin..][..fault.value_len];
        let mut message = Vec::with_capacity(named.len() + 128);
        loop {
            let room = message.capacity();
            // SAFETY: `named` is readable for its length, and `message` writable for its capacity.
            // Both are other memory, and neither pointer is null.
            let len = unsafe {
                starlark_fault_message(
                    fault.kind,
                    named.as_ptr(),
                    named.len(),
                    message.as_mut_ptr(),
                    room,
                )
            };
            if len <= room {
                // SAFETY: the call wrote the first `len` bytes, and the capacity has room for them.
                unsafe { message.set_len(len) };
                return String::from_utf8(message).expect("a message is UTF-8");
            }
            message.reserve(len);
        }
    }

    /// Lexes a text into the buffers, which have nothing but its lexemes then.
    ///
    /// The text has at most `u32::MAX` bytes. Where memory runs out the process aborts, as it does
    /// where a `Vec` gets none.
    pub(crate) fn lex(&mut self, text: &str) -> Ending {
        // SAFETY: the call is one of the two.
        unsafe { self.lex_by(starlark_lex_uncopied, text) }
    }

    /// Lexes the front of a longer text into the buffers, up to the last offset where the library
    /// finds that the text may be cut. They have nothing but the lexemes before it then.
    ///
    /// The ending is `Piece` if there is such an offset. Else it is what `lex` returns for the front,
    /// where it isn't known yet how the text goes on. Where memory runs out the process aborts.
    pub(crate) fn lex_front(&mut self, front: &str) -> Ending {
        // SAFETY: the call is one of the two.
        unsafe { self.lex_by(starlark_lex_front_uncopied, front) }
    }

    /// Lexes a text of at most `u32::MAX` bytes into the buffers by a call of the library.
    ///
    /// # Safety
    ///
    /// The call is `starlark_lex_uncopied` or `starlark_lex_front_uncopied`.
    unsafe fn lex_by(&mut self, call: LexCall, text: &str) -> Ending {
        let mut outcome = Outcome::default();
        self.clear();
        // SAFETY: `text` is readable for its length, and both buffers are writable for their
        // capacities, which are numbers of records and bytes. The call reads nothing of them.
        // The four are different memory, no pointer is null, and all live until the call returns.
        unsafe {
            call(
                text.as_ptr(),
                text.len(),
                self.lexemes.as_mut_ptr(),
                self.lexemes.capacity(),
                self.values.as_mut_ptr(),
                self.values.capacity(),
                &mut outcome,
            );
        }
        assert!(outcome.lexemes <= self.lexemes.capacity());
        assert!(outcome.values <= self.values.capacity());
        // SAFETY: the counts are within the capacities, and the call wrote what it counts. All bits
        // are right for the numbers of a record.
        unsafe {
            self.lexemes.set_len(outcome.lexemes);
            self.values.set_len(outcome.values);
        }
        outcome.ending()
    }

    /// Lexes a text on after its faults into the buffers, which have nothing but its lexemes and
    /// faults then. They grow where the text needs more room.
    ///
    /// The text has at most `u32::MAX` bytes. Where memory runs out the process aborts, as it does
    /// where a `Vec` gets none.
    pub(crate) fn lex_recovering(&mut self, text: &str) {
        self.faults.reserve(text.len() / BYTES_A_FAULT + 16);
        // SAFETY: `text` is readable for its length, and the three buffers are writable for their
        // capacities, which are numbers of records and bytes. The call reads nothing of them.
        // The five are different memory, no pointer is null, and all live until the call returns.
        self.fill(|buffers, outcome| unsafe {
            starlark_lex_recovering(
                text.as_ptr(),
                text.len(),
                buffers.lexemes.as_mut_ptr(),
                buffers.lexemes.capacity(),
                buffers.values.as_mut_ptr(),
                buffers.values.capacity(),
                buffers.faults.as_mut_ptr(),
                buffers.faults.capacity(),
                outcome,
            );
        });
    }

    /// Fills the buffers by a call that writes into them, and tells in an outcome what it wrote. They
    /// grow where the call wants more room.
    fn fill(&mut self, call: impl Fn(&mut Buffers, &mut Recovered)) {
        if let Err(wanted) = self.try_fill(&call) {
            self.lexemes.reserve(wanted.lexemes);
            self.values.reserve(wanted.values);
            self.faults.reserve(wanted.faults);
            let is_whole = self.try_fill(&call).is_ok();
            assert!(is_whole, "the library wants more room than it told");
        }
    }

    /// Fills the buffers by such a call, if they have room.
    ///
    /// # Errors
    ///
    /// The room that is wanted, where these have too little. They have nothing then.
    fn try_fill(&mut self, call: &impl Fn(&mut Buffers, &mut Recovered)) -> Result<(), Room> {
        let mut outcome = Recovered::default();
        self.clear();
        call(self, &mut outcome);
        if let Some(wanted) = outcome.wanted() {
            return Err(wanted);
        }
        assert!(outcome.lexemes <= self.lexemes.capacity());
        assert!(outcome.values <= self.values.capacity());
        assert!(outcome.faults <= self.faults.capacity());
        // SAFETY: the counts are within the capacities, and the call wrote what it counts. All bits
        // are right for the numbers of a record.
        unsafe {
            self.lexemes.set_len(outcome.lexemes);
            self.values.set_len(outcome.values);
            self.faults.set_len(outcome.faults);
        }
        Ok(())
    }

    /// Drops what the buffers have, and keeps their room.
    pub(crate) fn clear(&mut self) {
        self.lexemes.clear();
        self.values.clear();
        self.faults.clear();
    }
}

impl fmt::Debug for Buffers {
    fn fmt(&self, f: &mut fmt::Formatter<'_>) -> fmt::Result {
        f.debug_struct("Buffers")
            .field("lexemes", &self.lexemes.len())
            .field("values", &self.values.len())
            .field("faults", &self.faults.len())
            .finish_non_exhaustive()
    }
}

impl Outcome {
    /// How a call with a text of UTF-8 ended that isn't too long.
    fn ending(&self) -> Ending {
        match self.status {
            WHOLE => Ending::Whole,
            FAULT => Ending::Fault(FaultRecord {
                kind: self.fault_kind,
                begin: self.fault_begin,
                end: self.fault_end,
                reserved: 0,
                lexemes_before: self.lexemes,
                value_begin: self.fault_value_begin,
                value_len: self.fault_value_len,
            }),
            FULL if self.next > 0 => Ending::Piece { next: self.next },
            FULL => Ending::Full {
                lexemes: self.wanted_lexemes,
                values: self.wanted_values,
            },
            MEMORY => handle_alloc_error(Layout::new::<LexemeRecord>()),
            NOT_UTF8 | TOO_LONG => unreachable!("a `str` is UTF-8, and its length was tested"),
            status => unreachable!("the library has no status {status}"),
        }
    }
}

impl Recovered {
    /// The room that a text needs, where there was too little. The text is UTF-8 that isn't too long.
    fn wanted(&self) -> Option<Room> {
        match self.status {
            WHOLE => None,
            FULL => Some(Room {
                lexemes: self.wanted_lexemes,
                values: self.wanted_values,
                faults: self.wanted_faults,
            }),
            MEMORY => handle_alloc_error(Layout::new::<LexemeRecord>()),
            NOT_UTF8 | TOO_LONG => unreachable!("a `str` is UTF-8, and its length was tested"),
            status => unreachable!("the library has no status {status} after faults"),
        }
    }
}

/// A document of the library, which is always open.
pub(crate) struct OpenDocument(NonNull<RawDocument>);

// SAFETY: the document owns all that its pointer leads to, and the library keeps nothing of it apart.
// It isn't `Sync`: one thread at a time may call with it.
unsafe impl Send for OpenDocument {}

impl OpenDocument {
    /// A document of a text.
    pub(crate) fn new(text: &str) -> Result<Self, TooLong> {
        let mut status = WHOLE;
        // SAFETY: `text` is readable for its length, and `status` is writable.
        let raw = unsafe { starlark_document_open(text.as_ptr(), text.len(), &mut status) };
        if let Some(raw) = NonNull::new(raw) {
            return Ok(OpenDocument(raw));
        }
        match status {
            TOO_LONG => Err(TooLong),
            MEMORY => handle_alloc_error(Layout::new::<LexemeRecord>()),
            NOT_UTF8 => unreachable!("a `str` is UTF-8"),
            status => unreachable!("the library has no status {status} of opening"),
        }
    }

    /// Replaces a range of the text.
    pub(crate) fn edit(&mut self, range: Range<usize>, text: &str) -> Result<Change, EditError> {
        let mut change = ChangeRecord::default();
        // SAFETY: the document is open and borrowed for this call alone, `text` is readable for its
        // length, and `change` is writable and other memory.
        let status = unsafe {
            starlark_document_edit(
                self.0.as_ptr(),
                range.start,
                range.end,
                text.as_ptr(),
                text.len(),
                &mut change,
            )
        };
        match status {
            WHOLE => Ok(Change {
                begin: change.begin,
                old_end: change.old_end,
                new_end: change.new_end,
                lexed: change.lexed,
            }),
            BAD_RANGE => Err(EditError::BadRange),
            TOO_LONG => Err(EditError::TooLong),
            MEMORY => handle_alloc_error(Layout::new::<LexemeRecord>()),
            NOT_UTF8 | CLOSED => unreachable!("a `str` is UTF-8, and the document is open"),
            status => unreachable!("the library has no status {status} of an edit"),
        }
    }

    /// Fills buffers with the lexemes that touch a range. They grow where they have no room.
    pub(crate) fn lexemes(&self, range: Range<usize>, buffers: &mut Buffers) {
        // SAFETY: the document is open. No other call has it: it isn't `Sync`, and no call of the
        // library calls back.
        buffers.fill(|buffers, outcome| unsafe {
            starlark_document_lexemes(
                self.0.as_ptr(),
                range.start,
                range.end,
                buffers.lexemes.as_mut_ptr(),
                buffers.lexemes.capacity(),
                buffers.values.as_mut_ptr(),
                buffers.values.capacity(),
                outcome,
            );
        });
    }

    /// Fills buffers with the faults that touch a range. They grow where they have no room.
    pub(crate) fn faults(&self, range: Range<usize>, buffers: &mut Buffers) {
        // SAFETY: as in `lexemes`.
        buffers.fill(|buffers, outcome| unsafe {
            starlark_document_faults(
                self.0.as_ptr(),
                range.start,
                range.end,
                buffers.values.as_mut_ptr(),
                buffers.values.capacity(),
                buffers.faults.as_mut_ptr(),
                buffers.faults.capacity(),
                outcome,
            );
        });
    }

    /// A part of the text. `None` where the range isn't one of it.
    pub(crate) fn text(&self, range: Range<usize>) -> Option<String> {
        let len = range.end.checked_sub(range.start)?;
        if range.end > self.len() {
            return None;
        }
        let mut text: Vec<u8> = Vec::with_capacity(len);
        // SAFETY: the document is open, as in `lexemes`, and `text` is writable for its capacity.
        let status = unsafe {
            starlark_document_text(
                self.0.as_ptr(),
                range.start,
                range.end,
                text.as_mut_ptr(),
                text.capacity(),
            )
        };
        match status {
            WHOLE => {
                // SAFETY: the call wrote as many bytes as the range has.
                unsafe { text.set_len(len) };
                Some(String::from_utf8(text).expect("a part of a document is UTF-8"))
            }
            BAD_RANGE => None,
            MEMORY => handle_alloc_error(Layout::new::<LexemeRecord>()),
            status => unreachable!("the library has no status {status} for room enough"),
        }
    }

    /// Length of the text in bytes.
    pub(crate) fn len(&self) -> usize {
        // SAFETY: the document is open, as in `lexemes`.
        unsafe { starlark_document_len(self.0.as_ptr()) }
    }

    /// The place of an offset. `None` where it is no character boundary of the text.
    pub(crate) fn place(&self, at: usize) -> Option<Place> {
        let mut place = TextPlace::default();
        // SAFETY: the document is open, as in `lexemes`, and `place` is writable and other memory.
        let is_told = unsafe { starlark_document_place(self.0.as_ptr(), at, &mut place) };
        is_told.then_some(Place {
            line: place.line,
            column: place.column,
            utf16_column: place.utf16_column,
        })
    }

    /// The offset of a line and a column in units of UTF-16, if a character boundary is there.
    pub(crate) fn offset_at_utf16(&self, line: usize, column: usize) -> Option<usize> {
        // SAFETY: the document is open, as in `lexemes`.
        let at = unsafe { starlark_document_offset_at_utf16(self.0.as_ptr(), line, column) };
        (at != NO_OFFSET).then_some(at)
    }
}

impl Drop for OpenDocument {
    fn drop(&mut self) {
        // SAFETY: the document is open, and nothing calls with it after this.
        unsafe { starlark_document_close(self.0.as_ptr()) }
    }
}

/// The place of an offset in a text. `None` past its end, and inside a character.
pub(crate) fn place(text: &str, at: usize) -> Option<Place> {
    let mut place = TextPlace::default();
    // SAFETY: `text` is readable for its length, `place` is writable and other memory, and neither
    // pointer is null. Each offset may be asked for.
    let is_told = unsafe { starlark_place(text.as_ptr(), text.len(), at, &mut place) };
    is_told.then_some(Place {
        line: place.line,
        column: place.column,
        utf16_column: place.utf16_column,
    })
}

/// A string of the library, which is empty where it has none.
#[cfg(test)]
fn string_of(at: *const c_char) -> String {
    if at.is_null() {
        return String::new();
    }
    // SAFETY: the library's strings end with a zero, and stay.
    let text = unsafe { CStr::from_ptr(at) };
    text.to_str().expect("it is UTF-8").to_owned()
}

/// The name of a kind, which is empty where no kind has the number.
#[cfg(test)]
pub(crate) fn kind_name(kind: u32) -> String {
    // SAFETY: the call takes a number.
    string_of(unsafe { starlark_kind_name(kind) })
}

/// The class of a kind, which is 0 where no kind has the number.
#[cfg(test)]
pub(crate) fn kind_class(kind: u32) -> u32 {
    // SAFETY: the call takes a number.
    unsafe { starlark_kind_class(kind) }
}

/// The code of a fault, which is empty where no fault has the number.
#[cfg(test)]
pub(crate) fn fault_code(kind: u32) -> String {
    // SAFETY: the call takes a number.
    string_of(unsafe { starlark_fault_code(kind) })
}

#[cfg(test)]
mod tests {
    use super::*;

    #[test]
    fn the_library_has_the_version_of_the_crate() {
        // SAFETY: the call takes nothing.
        let number = unsafe { starlark_lex_version() };
        let parts = [number / 1_000_000, number / 1_000 % 1_000, number % 1_000];
        assert_eq!(
            parts.map(|part| part.to_string()).join("."),
            env!("CARGO_PKG_VERSION")
        );
    }
}
