// Package starlarklexer splits Starlark, the language of Bazel's and Buck's files, into tokens.
//
// Each token is a Token: its kind, its offsets in bytes, its text, and its decoded value. The tokens
// are those of the library starlark_lex, each of whose calls is proved to meet its contract. This
// package calls the library through cgo.
//
// # Tokens of a text
//
// A Scanner is used as a bufio.Scanner. It ends at the first fault of the text:
//
//	s := starlarklexer.NewScanner("BUILD", src)
//	for s.Next() {
//		tok := s.Token()
//		fmt.Println(s.Position(tok.Begin), tok.Kind, tok.Text)
//	}
//	if err := s.Err(); err != nil { // an *Error, with its position
//		log.Fatal(err)
//	}
//
// Tokenize returns the same tokens as a slice. From Go 1.23 on the result of Tokens stands after
// range:
//
//	for tok, err := range starlarklexer.Tokens("BUILD", src) {
//
// # All faults of a text
//
// Recover goes on after faults. It returns all tokens, and an ErrorList. A reserved word, an integer
// with a leading 0, a character that begins no token, and a tab in code keep their lines: lexing goes
// on after them with all brackets, f-strings and blocks open, and so it does after a literal with a
// bad escape, and at the line end of an open quote, whose brackets count. A token stands for such a
// word, integer or literal. After any other fault it begins again at the next line, with the blocks
// alone open.
//
// # Edited texts
//
// A Document stays lexed while it is edited. An edit costs what it touches, and no more.
//
// # Layout
//
// Lines and blocks are tokens, too: Newline, Indent and Dedent. A blank line has a Newline of its own,
// outside of brackets. A text always ends with an empty Newline, and then the Dedents of its open
// blocks. A Comment comes before the Newline of its line. An f-string is several tokens, from
// FStringStart to FStringEnd.
//
// # Beside go.starlark.net/syntax
//
// A Position has the Line and Col of go.starlark.net/syntax: both from 1, and Col in runes. Some
// texts mean something else here: assert is a reserved word, r"\"" has the value ", and a tab in code
// is a fault. The project's page docs/use/compatible.md lists what differs.
//
// # Memory and goroutines
//
// One call of C lexes some 64 KB. So the border to C is crossed a few times a text, not once a token.
// A Token's Text and Value share the memory of the source where the value is in it byte for byte.
// Other values, as those with escapes, share copies of up to 16 KB.
//
// Functions may be called by any number of goroutines. A Scanner is used by one goroutine at a time.
// A Document takes calls of any goroutine, one at a time.
//
// # Building
//
// The module has the library for linux/amd64, linux/arm64 and windows/amd64, as far as the release
// was made with it. On other platforms, or to use the system's library, build with the
// tag starlark_system: pkg-config finds it then. A C compiler is needed, and CGO_ENABLED=1.
package starlarklexer

// Version is the version of the module, and of the library that it has.
const Version = "0.2.0"
