//go:build cgo

package starlarklexer

import (
	"math"
	"strings"
)

const (
	firstWindow = 1 << 16 // how many bytes one call of C lexes at first
	growth      = 4       // how many times as many it lexes where a text can't be cut
)

// A Scanner yields the tokens of a text, up to its first fault. It is used as a bufio.Scanner.
type Scanner struct {
	filename string
	text     string
	window   int
	begun    bool
	ended    bool
	err      error

	buffers *buffers // from the first piece to the last
	piece   piece
	records []lexemeRecord // of the piece
	next    int            // index of the record that Next moves to
	rest    int            // offset of the next piece
	token   Token
	cursor  cursor
}

// NewScanner returns a scanner of a text of UTF-8. The filename is that of its positions.
func NewScanner(filename, src string) *Scanner {
	return &Scanner{filename: filename, text: src, window: firstWindow, cursor: newCursor(src)}
}

// Next moves on to the next token, and reports whether there is one. Once it returns false it always
// does.
func (s *Scanner) Next() bool {
	for s.next == len(s.records) {
		if s.ended {
			s.release()
			return false
		}
		s.lexPiece()
	}
	s.piece.set(&s.token, &s.records[s.next])
	s.next++
	return true
}

// Token returns the token that the last call of Next moved to. Before the first one it is a zero
// Token.
func (s *Scanner) Token() Token { return s.token }

// Err returns why Next returned false: nil at the end of the text, or else
//
//	*Error        its first fault, after the tokens before it
//	NotUTF8Error  the text isn't UTF-8, wherever its first fault is; some tokens may come before
//	ErrTooLong    the text has more than 4,294,967,295 bytes; no token comes before
//	ErrMemory     C ran out of memory; some tokens may come before
func (s *Scanner) Err() error { return s.err }

// Position returns the position of an offset in the source. It panics if the source has no such
// offset. It reads what is between this offset and that of the call before. So all positions of a
// text, in order, cost one pass.
func (s *Scanner) Position(offset int) Position {
	s.cursor.move(offset)
	return Position{s.filename, s.cursor.line, s.cursor.col}
}

// release gives the buffers back.
func (s *Scanner) release() {
	if s.buffers != nil {
		s.buffers.release()
		s.buffers, s.piece, s.records, s.next = nil, piece{}, nil, 0
	}
}

// begin tests the length of the text, and takes buffers.
func (s *Scanner) begin() {
	s.begun = true
	if uint64(len(s.text)) > math.MaxUint32 {
		s.ended, s.err = true, ErrTooLong
		return
	}
	length := len(s.text)
	if length > s.window {
		length = s.window
	}
	s.buffers = takeBuffers()
	s.buffers.grow(length/2+16, length+16, 0)
}

// lexPiece lexes the next piece, up to a cut of the text, its end or its fault.
func (s *Scanner) lexPiece() {
	if !s.begun {
		s.begin()
	}
	outcome := lexOutcome{}
	for !s.ended {
		text := s.text[s.rest:]
		isFront := len(text) > s.window
		if isFront {
			text = front(text, s.window)
		}
		s.buffers.lex(text, isFront)
		outcome = s.buffers.outcome
		switch {
		case outcome.status == statusFull && outcome.next > 0:
			s.take(text, &outcome)
			s.rest += int(outcome.next)
			return
		case outcome.status == statusFull:
			s.buffers.grow(int(outcome.wantedLexemes), int(outcome.wantedValues), 0)
		case isFront && outcome.status <= statusFault:
			s.window *= growth
		default:
			s.take(text, &outcome)
			s.end(&outcome)
		}
	}
}

// take makes the lexemes of a call the piece that Next yields.
func (s *Scanner) take(text string, outcome *lexOutcome) {
	s.records, s.next = s.buffers.lexemes[:outcome.lexemes], 0
	s.piece = piece{text: text, begin: s.rest, values: s.buffers.values[:outcome.values]}
}

// end sets the error of the last piece.
func (s *Scanner) end(outcome *lexOutcome) {
	s.ended = true
	switch outcome.status {
	case statusWhole:
	case statusFault:
		record := faultRecord{
			kind: outcome.faultKind, begin: outcome.faultBegin, end: outcome.faultEnd,
			valueBegin: outcome.faultValueBegin, valueLen: outcome.faultValueLen,
		}
		c := s.cursor
		s.err = newError(s.filename, &c, s.rest, &record, s.piece.values)
	case statusNotUTF8:
		s.err = NotUTF8Error(s.rest + int(outcome.next))
	default:
		s.err = statusError(outcome.status)
	}
}

// front returns the first bytes of a text, up to an LF or else to a character boundary.
func front(text string, length int) string {
	if i := strings.LastIndexByte(text[:length], '\n'); i >= 0 {
		return text[:i+1]
	}
	for length > 0 && text[length]&0xC0 == 0x80 {
		length--
	}
	return text[:length]
}
