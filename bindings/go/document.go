//go:build cgo

package starlarklexer

import (
	"runtime"
	"sync"
)

// A Document is a text that stays lexed while it is edited. After any edits it has the tokens and
// faults that Recover finds in its whole text.
//
// Its methods may be called by any goroutine; one runs at a time. Offsets are in bytes, from 0. C
// holds the text, which Close frees, or the garbage collector where Close isn't called. After an
// error a Document is as it was before the call.
type Document struct {
	mu       sync.Mutex
	document document
}

// A Change is what an edit changed. Before Begin, and after the ends, tokens and faults are the old
// ones; those after are moved by NewEnd - OldEnd bytes. So what touched the range from Begin to OldEnd
// is to be replaced by what now touches that from Begin to NewEnd.
type Change struct {
	Begin  int // start of the range in both texts
	OldEnd int // its end in the old text
	NewEnd int // its end in the new text
	Lexed  int // how many bytes were lexed
}

// NewDocument lexes a text, and goes on after its faults. The error is a NotUTF8Error, ErrTooLong or
// ErrMemory.
func NewDocument(src string) (*Document, error) {
	d := new(Document)
	switch status := d.document.open(src); status {
	case statusWhole:
	case statusNotUTF8:
		return nil, NotUTF8Error(firstInvalid(src))
	default:
		return nil, statusError(status)
	}
	runtime.SetFinalizer(d, (*Document).Close)
	return d, nil
}

// Close frees the text. Calls after it return ErrClosed, or nothing. A second Close does nothing. The
// error is always nil.
func (d *Document) Close() error {
	d.mu.Lock()
	defer d.mu.Unlock()
	d.document.close()
	runtime.SetFinalizer(d, nil)
	return nil
}

// Edit replaces the bytes from begin to end by a text, and lexes what that touches. The error is
// ErrBadRange, ErrClosed, ErrTooLong, ErrMemory, or a NotUTF8Error with an offset in the new text.
func (d *Document) Edit(begin, end int, text string) (Change, error) {
	d.mu.Lock()
	defer d.mu.Unlock()
	if begin < 0 || end < begin {
		return Change{}, d.badRange()
	}
	change, status := d.document.edit(begin, end, text)
	switch status {
	case statusWhole:
		return change, nil
	case statusNotUTF8:
		return Change{}, NotUTF8Error(firstInvalid(text))
	}
	return Change{}, statusError(status)
}

// badRange returns the error of a range that begins before 0 or isn't in order.
func (d *Document) badRange() error {
	if status := d.document.text(0, 0, nil); status != statusWhole {
		return statusError(status)
	}
	return ErrBadRange
}

// Len returns the length of the text in bytes, 0 for a closed document.
func (d *Document) Len() int {
	d.mu.Lock()
	defer d.mu.Unlock()
	return d.document.len()
}

// Text returns the bytes from begin to end. The error is ErrBadRange, ErrClosed or ErrMemory.
func (d *Document) Text(begin, end int) (string, error) {
	d.mu.Lock()
	defer d.mu.Unlock()
	return d.text(begin, end)
}

func (d *Document) text(begin, end int) (string, error) {
	if begin < 0 || end < begin || end > d.document.len() {
		return "", d.badRange()
	}
	text := make([]byte, end-begin)
	if status := d.document.text(begin, end, text); status != statusWhole {
		return "", statusError(status)
	}
	return string(text), nil
}

// Tokens returns the tokens that touch the bytes from begin to end: that end at begin or later, and
// begin at end or earlier. An end after the text is its end. The error is ErrBadRange for a range that
// begins before 0 or isn't in order, ErrClosed, or ErrMemory.
func (d *Document) Tokens(begin, end int) ([]Token, error) {
	d.mu.Lock()
	defer d.mu.Unlock()
	b := takeBuffers()
	defer b.release()
	if err := d.fill(begin, end, b, d.document.lexemes); err != nil {
		return nil, err
	}
	records := b.lexemes[:b.recovered.lexemes]
	if len(records) == 0 {
		return nil, nil
	}
	first := records[0].begin
	text, err := d.text(int(first), int(records[len(records)-1].end))
	if err != nil {
		return nil, err
	}
	for i := range records {
		records[i].begin -= first
		records[i].end -= first
	}
	p := piece{text: text, begin: int(first), values: b.values[:b.recovered.values]}
	return p.append(make([]Token, 0, len(records)), records), nil
}

// Faults returns the faults that touch the bytes from begin to end, as Tokens does with tokens. Their
// positions have no Filename.
func (d *Document) Faults(begin, end int) (ErrorList, error) {
	d.mu.Lock()
	defer d.mu.Unlock()
	b := takeBuffers()
	defer b.release()
	if err := d.fill(begin, end, b, d.document.faults); err != nil {
		return nil, err
	}
	var list ErrorList
	for i := range b.faults[:b.recovered.faults] {
		record := &b.faults[i]
		place, _ := d.document.place(int(record.begin))
		kind, named := FaultKind(record.kind), b.values[record.valueBegin:][:record.valueLen]
		list = append(list, &Error{
			Pos: place.position(), Kind: kind, Begin: int(record.begin), End: int(record.end), Msg: message(kind, named),
		})
	}
	return list, nil
}

// fill calls a function until the buffers have room for what touches a range.
func (d *Document) fill(begin, end int, b *buffers, call func(begin, end int, b *buffers)) error {
	if begin < 0 || end < begin {
		return d.badRange()
	}
	b.grow(1024, 4096, 16)
	b.fill(func() { call(begin, end, b) })
	if b.recovered.status != statusWhole {
		return statusError(b.recovered.status)
	}
	return nil
}

func (p placeRecord) position() Position {
	return Position{Line: int32(p.line) + 1, Col: int32(p.column) + 1}
}

// Position returns the position of an offset, without a Filename, and whether the document has such a
// character boundary.
func (d *Document) Position(offset int) (Position, bool) {
	d.mu.Lock()
	defer d.mu.Unlock()
	if offset < 0 {
		return Position{}, false
	}
	place, ok := d.document.place(offset)
	if !ok {
		return Position{}, false
	}
	return place.position(), true
}

// UTF16 returns the line of an offset and its column in units of UTF-16, both from 0, as the Language
// Server Protocol counts them, and whether the document has such a character boundary.
func (d *Document) UTF16(offset int) (line, column int, ok bool) {
	d.mu.Lock()
	defer d.mu.Unlock()
	if offset < 0 {
		return 0, 0, false
	}
	place, ok := d.document.place(offset)
	if !ok {
		return 0, 0, false
	}
	return int(place.line), int(place.utf16Column), true
}

// OffsetAtUTF16 returns the offset of a line and a column in units of UTF-16, both from 0, and whether
// a character boundary is there.
func (d *Document) OffsetAtUTF16(line, column int) (int, bool) {
	d.mu.Lock()
	defer d.mu.Unlock()
	if line < 0 || column < 0 {
		return 0, false
	}
	return d.document.offsetAtUTF16(line, column)
}
