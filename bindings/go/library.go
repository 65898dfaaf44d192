//go:build cgo

package starlarklexer

/*
#cgo !starlark_system CFLAGS: -I${SRCDIR}/lib/include
#cgo !starlark_system,linux,amd64 LDFLAGS: ${SRCDIR}/lib/linux_amd64/libstarlark_lex.a
#cgo !starlark_system,linux,arm64 LDFLAGS: ${SRCDIR}/lib/linux_arm64/libstarlark_lex.a
#cgo !starlark_system,windows,amd64 LDFLAGS: ${SRCDIR}/lib/windows_amd64/libstarlark_lex.a
#cgo starlark_system pkg-config: starlark_lex
#include <starlark_lex.h>
*/
import "C"

import "unsafe"

// All calls of C are in this file. The records below are those of starlark_lex.h. Neither they nor
// the buffers have pointers, so cgo passes them as they are.

type lexemeRecord struct {
	begin, end           uint32
	kind, detail         uint16
	integer              int32
	valueBegin, valueLen uint64
}

type faultRecord struct {
	kind, begin, end, _                 uint32
	lexemesBefore, valueBegin, valueLen uint64
}

type lexOutcome struct {
	status, faultKind, faultBegin, faultEnd uint32
	faultValueBegin, faultValueLen          uint64
	lexemes, values, next                   uint64
	wantedLexemes, wantedValues             uint64
}

type recoveredOutcome struct {
	status                                    uint32
	_                                         uint32
	lexemes, values, faults, next             uint64
	wantedLexemes, wantedValues, wantedFaults uint64
}

type placeRecord struct{ line, column, utf16Column uint64 }

// A build stops here where a record isn't the header's.
var (
	_ = [1]bool{}[unsafe.Sizeof(lexemeRecord{})-C.sizeof_starlark_lexeme]
	_ = [1]bool{}[unsafe.Sizeof(faultRecord{})-C.sizeof_starlark_found_fault]
	_ = [1]bool{}[unsafe.Sizeof(lexOutcome{})-C.sizeof_starlark_outcome]
	_ = [1]bool{}[unsafe.Sizeof(recoveredOutcome{})-C.sizeof_starlark_recovered]
	_ = [1]bool{}[unsafe.Sizeof(placeRecord{})-C.sizeof_starlark_text_place]
	_ = [1]bool{}[unsafe.Offsetof(lexemeRecord{}.valueBegin)-unsafe.Offsetof(C.starlark_lexeme{}.value_begin)]
	_ = [1]bool{}[unsafe.Offsetof(faultRecord{}.lexemesBefore)-unsafe.Offsetof(C.starlark_found_fault{}.lexemes_before)]
	_ = [1]bool{}[unsafe.Offsetof(lexOutcome{}.next)-unsafe.Offsetof(C.starlark_outcome{}.next)]
	_ = [1]bool{}[unsafe.Offsetof(recoveredOutcome{}.next)-unsafe.Offsetof(C.starlark_recovered{}.next)]
)

const (
	statusWhole    = C.STARLARK_STATUS_WHOLE
	statusFault    = C.STARLARK_STATUS_FAULT
	statusFull     = C.STARLARK_STATUS_FULL
	statusNotUTF8  = C.STARLARK_STATUS_NOT_UTF8
	statusTooLong  = C.STARLARK_STATUS_TOO_LONG
	statusMemory   = C.STARLARK_STATUS_MEMORY
	statusBadRange = C.STARLARK_STATUS_BAD_RANGE
	statusClosed   = C.STARLARK_STATUS_CLOSED
)

// pointer returns the address of the first record, which the library takes as NULL for none.
func pointer[To, From any](records []From) *To {
	if len(records) == 0 {
		return nil
	}
	return (*To)(unsafe.Pointer(&records[0]))
}

// textPointer returns the address of a string's bytes, which the library only reads.
func textPointer(text string) *C.uint8_t {
	return *(**C.uint8_t)(unsafe.Pointer(&text))
}

// lex lexes a text, or the front of a longer one up to its last cut, into the buffers.
func (b *buffers) lex(text string, isFront bool) {
	outcome := (*C.starlark_outcome)(unsafe.Pointer(&b.outcome))
	lexemes, values := pointer[C.starlark_lexeme](b.lexemes), pointer[C.uint8_t](b.values)
	if isFront {
		C.starlark_lex_front(textPointer(text), C.size_t(len(text)), lexemes, C.size_t(len(b.lexemes)),
			values, C.size_t(len(b.values)), outcome)
	} else {
		C.starlark_lex(textPointer(text), C.size_t(len(text)), lexemes, C.size_t(len(b.lexemes)),
			values, C.size_t(len(b.values)), outcome)
	}
}

// recover lexes a text on after its faults into the buffers.
func (b *buffers) recover(text string) {
	C.starlark_lex_recovering(textPointer(text), C.size_t(len(text)),
		pointer[C.starlark_lexeme](b.lexemes), C.size_t(len(b.lexemes)),
		pointer[C.uint8_t](b.values), C.size_t(len(b.values)),
		pointer[C.starlark_found_fault](b.faults), C.size_t(len(b.faults)),
		(*C.starlark_recovered)(unsafe.Pointer(&b.recovered)))
}

// document is a text that C keeps lexed. One call at a time may use it.
type document struct{ state *C.starlark_document }

func (d *document) open(text string) uint32 {
	var status C.uint32_t
	d.state = C.starlark_document_open(textPointer(text), C.size_t(len(text)), &status)
	return uint32(status)
}

func (d *document) close() {
	C.starlark_document_close(d.state)
	d.state = nil
}

func (d *document) edit(begin, end int, text string) (Change, uint32) {
	var c C.starlark_change
	status := C.starlark_document_edit(d.state, C.size_t(begin), C.size_t(end),
		textPointer(text), C.size_t(len(text)), &c)
	return Change{Begin: int(c.begin), OldEnd: int(c.old_end), NewEnd: int(c.new_end), Lexed: int(c.lexed)}, uint32(status)
}

// lexemes puts the lexemes that touch a range into the buffers.
func (d *document) lexemes(begin, end int, b *buffers) {
	C.starlark_document_lexemes(d.state, C.size_t(begin), C.size_t(end),
		pointer[C.starlark_lexeme](b.lexemes), C.size_t(len(b.lexemes)),
		pointer[C.uint8_t](b.values), C.size_t(len(b.values)),
		(*C.starlark_recovered)(unsafe.Pointer(&b.recovered)))
}

// faults puts the faults that touch a range into the buffers.
func (d *document) faults(begin, end int, b *buffers) {
	C.starlark_document_faults(d.state, C.size_t(begin), C.size_t(end),
		pointer[C.uint8_t](b.values), C.size_t(len(b.values)),
		pointer[C.starlark_found_fault](b.faults), C.size_t(len(b.faults)),
		(*C.starlark_recovered)(unsafe.Pointer(&b.recovered)))
}

func (d *document) text(begin, end int, text []byte) uint32 {
	return uint32(C.starlark_document_text(d.state, C.size_t(begin), C.size_t(end),
		pointer[C.uint8_t](text), C.size_t(len(text))))
}

func (d *document) len() int { return int(C.starlark_document_len(d.state)) }

func (d *document) place(offset int) (placeRecord, bool) {
	var place placeRecord
	found := C.starlark_document_place(d.state, C.size_t(offset), (*C.starlark_text_place)(unsafe.Pointer(&place)))
	return place, bool(found)
}

func (d *document) offsetAtUTF16(line, column int) (int, bool) {
	offset := C.starlark_document_offset_at_utf16(d.state, C.size_t(line), C.size_t(column))
	return int(offset), offset != C.STARLARK_NO_OFFSET
}

// kindName returns the name of a kind of tokens, "" where there is none.
func kindName(kind Kind) string { return C.GoString(C.starlark_kind_name(C.uint32_t(kind))) }

// faultCode returns the code of a kind of faults, "" where there is none.
func faultCode(kind FaultKind) string { return C.GoString(C.starlark_fault_code(C.uint32_t(kind))) }

// faultMessage writes the message of a fault that names a text, and returns its length.
func faultMessage(kind FaultKind, named, message []byte) int {
	return int(C.starlark_fault_message(C.uint32_t(kind), pointer[C.uint8_t](named), C.size_t(len(named)),
		pointer[C.uint8_t](message), C.size_t(len(message))))
}

// libraryVersion returns the version of the library as one number: 2000 for 0.2.0.
func libraryVersion() int { return int(C.starlark_lex_version()) }
