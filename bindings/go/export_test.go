//go:build cgo

package starlarklexer

import "fmt"

// TokenizeByOneCall returns the tokens of a text without a fault by one call of C for all of it.
func TokenizeByOneCall(src string) []Token {
	b := new(buffers)
	b.grow(2*len(src)+1, len(src), 0)
	b.lex(src, false)
	if b.outcome.status != statusWhole {
		panic(fmt.Sprint("status ", b.outcome.status))
	}
	var tokens []Token
	for _, record := range b.lexemes[:b.outcome.lexemes] {
		value := b.values[record.valueBegin:][:record.valueLen]
		tokens = append(tokens, Token{
			Kind: Kind(record.kind), detail: uint8(record.detail), number: record.integer,
			Begin: int(record.begin), End: int(record.end), Text: src[record.begin:record.end], Value: string(value),
		})
	}
	return tokens
}

// TableName returns the name of a kind in the table, or "".
func TableName(k Kind) string {
	row, _ := k.known()
	return row.name
}

// LibraryName returns the name that the library has for a kind, or "".
func LibraryName(k Kind) string { return kindName(k) }

// LibraryVersion returns the version of the library.
func LibraryVersion() string {
	version := libraryVersion()
	return fmt.Sprintf("%d.%d.%d", version/1000000, version/1000%1000, version%1000)
}

// Detail returns the base of an Int's digits.
func (t Token) Detail() int { return int(t.detail) }

// Number returns the value of an Int without digits.
func (t Token) Number() int { return int(t.number) }
