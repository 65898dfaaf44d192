//go:build cgo

package starlarklexer

import (
	"math/big"
	"strconv"
	"strings"
)

// A Token is a token of a text, with its place.
//
// Text and Value share memory with the source where they can. So a Token keeps its source alive; use
// strings.Clone for a value that is to outlive it.
type Token struct {
	Kind   Kind
	detail uint8 // Int with a Value: the base of its digits; FStringStart: its quotes
	number int32 // Int without a Value: its value

	Begin int // offset of its first byte in the source, from 0
	End   int // offset in the source after its last byte

	// Text is the source from Begin to End.
	Text string

	// Value is the decoded value. It is empty for a kind without one.
	//
	//	Comment              the text after #
	//	Identifier           the name
	//	Int                  empty where the value fits into 32 bits; else its digits, without
	//	                     leading zeros and prefix, with letters in lower case
	//	Float                the text as it is written
	//	String, FStringText  the text with its escapes decoded
	//	Bytes                the bytes with their escapes decoded
	Value string
}

// Int64 returns the value of an Int, and whether the token is an Int that fits.
func (t Token) Int64() (int64, bool) {
	if t.Kind != Int {
		return 0, false
	}
	if t.Value == "" {
		return int64(t.number), true
	}
	n, err := strconv.ParseInt(t.Value, int(t.detail), 64)
	return n, err == nil
}

// BigInt returns the value of an Int of any size, or nil for a token of another kind.
func (t Token) BigInt() *big.Int {
	if t.Kind != Int {
		return nil
	}
	if t.Value == "" {
		return big.NewInt(int64(t.number))
	}
	n, _ := new(big.Int).SetString(t.Value, int(t.detail))
	return n
}

// Float64 returns the value of a Float, with the errors of strconv.ParseFloat.
func (t Token) Float64() (float64, error) { return strconv.ParseFloat(t.Value, 64) }

// Quotes returns the quotes of an FStringStart, and NoQuotes for a token of another kind.
func (t Token) Quotes() Quotes {
	if t.Kind != FStringStart {
		return NoQuotes
	}
	return Quotes(t.detail)
}

// A piece is a text, or a part of one, with the values of its lexemes.
type piece struct {
	text   string
	begin  int    // offset of the part in the whole text
	values []byte // the values, in which the records' offsets count
	copies strings.Builder
}

// Values that the text doesn't have share copies of up to so many bytes: fewer allocations than one
// each, and less memory than a copy of all values.
const copySize = 1 << 14

// append adds the tokens of records to others.
func (p *piece) append(tokens []Token, records []lexemeRecord) []Token {
	for i := range records {
		tokens = append(tokens, Token{})
		p.set(&tokens[len(tokens)-1], &records[i])
	}
	return tokens
}

// set makes the token of a record.
func (p *piece) set(t *Token, record *lexemeRecord) {
	t.Kind, t.detail, t.number = Kind(record.kind), uint8(record.detail), record.integer
	t.Begin, t.End = p.begin+int(record.begin), p.begin+int(record.end)
	t.Text = p.text[record.begin:record.end]
	if record.valueLen == 0 {
		t.Value = ""
		return
	}
	t.Value = p.value(t, int(record.valueBegin), int(record.valueLen))
}

// value returns the value of a token: a part of its text where that has it, and else of a copy.
func (p *piece) value(t *Token, begin, length int) string {
	text := t.Text
	switch t.Kind {
	case Identifier, Float:
		return text
	case String:
		// An escape that isn't its own value is longer than that. So a value of this length has none,
		// but for an open quote after an r.
		if length == len(text)-2 && text[0] != 'r' {
			return text[1 : 1+length]
		}
	}
	value := p.values[begin : begin+length]
	for _, closing := range [...]int{0, 1, 3} {
		if end := len(text) - closing; end >= length && text[end-length:end] == string(value) {
			return text[end-length : end]
		}
	}
	return p.copy(value, len(p.values)-begin)
}

// copy returns a copy of a value. What has been written into a strings.Builder never changes: so one
// has several values, one after another. No more than some bytes of values are left to copy.
func (p *piece) copy(value []byte, left int) string {
	if p.copies.Cap()-p.copies.Len() < len(value) {
		size := copySize
		if left < size {
			size = left
		}
		if size < len(value) {
			size = len(value)
		}
		p.copies.Reset()
		p.copies.Grow(size)
	}
	begin := p.copies.Len()
	p.copies.Write(value)
	return p.copies.String()[begin:]
}
