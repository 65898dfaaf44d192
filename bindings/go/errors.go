//go:build cgo

package starlarklexer

import (
	"errors"
	"fmt"
	"unicode/utf8"
)

// Errors that aren't about a place in a text.
var (
	// ErrTooLong says that a text has, or would have, more than 4,294,967,295 bytes.
	ErrTooLong = errors.New("starlarklexer: the text has more than 4294967295 bytes")
	// ErrMemory says that C's malloc or realloc returned NULL.
	ErrMemory = errors.New("starlarklexer: out of memory")
	// ErrBadRange says that two offsets aren't in order, or one is no character boundary of the text.
	ErrBadRange = errors.New("starlarklexer: not a range of the text between character boundaries")
	// ErrClosed says that a Document is closed.
	ErrClosed = errors.New("starlarklexer: the document is closed")
)

// A NotUTF8Error is the offset of the first byte of a text that isn't UTF-8.
type NotUTF8Error int

func (e NotUTF8Error) Error() string {
	return fmt.Sprintf("starlarklexer: not UTF-8 at byte %d", int(e))
}

// An Error is a fault of a text.
type Error struct {
	Pos   Position
	Kind  FaultKind
	Begin int    // offset of its first byte in the source
	End   int    // offset in the source after its last byte
	Msg   string // what is wrong, without the position

	// TokensBefore is how many of the tokens of Recover are before the fault. It is 0 where the
	// fault isn't Recover's.
	TokensBefore int
}

// Error returns the position and the message.
func (e *Error) Error() string { return e.Pos.String() + ": " + e.Msg }

// An ErrorList is all faults of a text, in order. errors.As finds the first *Error in it.
type ErrorList []*Error

// Error returns the first error, and says how many more there are.
func (l ErrorList) Error() string {
	switch len(l) {
	case 0:
		return "no errors"
	case 1:
		return l[0].Error()
	}
	return fmt.Sprintf("%s (and %d more errors)", l[0], len(l)-1)
}

// As finds the first error of the list, for errors.As.
func (l ErrorList) As(target any) bool {
	first, ok := target.(**Error)
	if !ok || len(l) == 0 {
		return false
	}
	*first = l[0]
	return true
}

// Err returns the list as an error, or nil if it is empty.
func (l ErrorList) Err() error {
	if len(l) == 0 {
		return nil
	}
	return l
}

// firstInvalid returns the offset of the first byte that isn't UTF-8, or the length of the text.
func firstInvalid(text string) int {
	for i, r := range text {
		if r == utf8.RuneError {
			if _, size := utf8.DecodeRuneInString(text[i:]); size == 1 {
				return i
			}
		}
	}
	return len(text)
}

// statusError returns the error of a status that says why a call did nothing.
func statusError(status uint32) error {
	switch status {
	case statusTooLong:
		return ErrTooLong
	case statusMemory:
		return ErrMemory
	case statusBadRange:
		return ErrBadRange
	case statusClosed:
		return ErrClosed
	}
	return fmt.Errorf("starlarklexer: the library returned status %d", status)
}

// message returns the message of a fault that names a text.
func message(kind FaultKind, named []byte) string {
	room := make([]byte, len(named)+128)
	n := faultMessage(kind, named, room)
	if n > len(room) {
		room = make([]byte, n)
		n = faultMessage(kind, named, room)
	}
	return string(room[:n])
}

// newError returns the fault of a record, whose offsets count from an offset of the cursor's text.
func newError(filename string, c *cursor, from int, record *faultRecord, values []byte) *Error {
	begin, end := from+int(record.begin), from+int(record.end)
	c.move(begin)
	kind := FaultKind(record.kind)
	named := values[record.valueBegin:][:record.valueLen]
	return &Error{Pos: Position{filename, c.line, c.col}, Kind: kind, Begin: begin, End: end, Msg: message(kind, named)}
}
