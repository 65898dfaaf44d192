//go:build cgo

package starlarklexer

import "strconv"

// A Kind is the kind of a token. Its numbers are those of starlark_lex.h, and never change. A later
// version may have more kinds.
type Kind uint8

// A class is what a kind of tokens is to IsKeyword and IsOperator.
type class uint8

const (
	otherClass class = iota
	keywordClass
	operatorClass
)

// known returns the row of a kind, and whether the table has one.
func (k Kind) known() (kindRow, bool) {
	if int(k) < len(kindRows) && kindRows[k].name != "" {
		return kindRows[k], true
	}
	return kindRow{}, false
}

// String returns the name of the kind, as "Identifier": that of its constant.
func (k Kind) String() string {
	if row, ok := k.known(); ok {
		return row.name
	}
	if name := kindName(k); name != "" {
		return name
	}
	return "Kind(" + strconv.Itoa(int(k)) + ")"
}

// IsKeyword reports whether tokens of the kind are keywords. Names that Starlark reserves are none:
// they are faults.
func (k Kind) IsKeyword() bool {
	row, _ := k.known()
	return row.class == keywordClass
}

// IsOperator reports whether tokens of the kind are symbols that compute, compare or assign, or are
// ->. The keywords and, or, not, in, if, else and lambda are none of them, nor are brackets and the
// punctuation , ; : . and the ellipsis.
func (k Kind) IsOperator() bool {
	row, _ := k.known()
	return row.class == operatorClass
}

// A FaultKind is the kind of a fault. Its numbers are those of starlark_lex.h, and never change. A
// later version may have more.
type FaultKind uint8

// Code returns the code of the kind, as "SL008", which no later version changes. It is empty for a
// number that no kind has.
func (k FaultKind) Code() string { return faultCode(k) }

// String returns the code of the kind.
func (k FaultKind) String() string {
	if code := k.Code(); code != "" {
		return code
	}
	return "FaultKind(" + strconv.Itoa(int(k)) + ")"
}

// Quotes are the quotes of an f-string. Their text is what stands around it.
type Quotes uint8

// The quotes of f-strings.
const (
	NoQuotes Quotes = iota
	SingleQuotes
	DoubleQuotes
	TripleSingleQuotes
	TripleDoubleQuotes
)

// String returns the quotes as they are written at the end of the f-string.
func (q Quotes) String() string {
	names := [...]string{"", "'", `"`, "'''", `"""`}
	if int(q) < len(names) {
		return names[q]
	}
	return "Quotes(" + strconv.Itoa(int(q)) + ")"
}
