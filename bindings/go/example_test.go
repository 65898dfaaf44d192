//go:build cgo

package starlarklexer_test

import (
	"errors"
	"fmt"

	"example.org/starlarklexer"
)

const build = `load("//tools:defs.bzl", "rule")

rule(
    name = "a",  # the first
    srcs = ["a\tb"],
)
`

func Example() {
	s := starlarklexer.NewScanner("BUILD", "x = \"a\"\n")
	for s.Next() {
		tok := s.Token()
		fmt.Printf("%s %v %q\n", s.Position(tok.Begin), tok.Kind, tok.Value)
	}
	if err := s.Err(); err != nil {
		fmt.Println(err)
	}
	// Output:
	// BUILD:1:1 Identifier "x"
	// BUILD:1:3 Equal ""
	// BUILD:1:5 String "a"
	// BUILD:1:8 Newline ""
	// BUILD:2:1 Newline ""
}

func ExampleScanner_Err() {
	s := starlarklexer.NewScanner("BUILD", "x = 01\n")
	for s.Next() {
		fmt.Println(s.Token().Kind)
	}
	var fault *starlarklexer.Error
	if errors.As(s.Err(), &fault) {
		fmt.Println(fault.Pos, fault.Kind.Code(), fault.Msg)
	}
	// Output:
	// Identifier
	// Equal
	// BUILD:1:5 SL008 Parse error: integer cannot have leading 0, got `01`
}

// The strings of all load statements of a file.
func ExampleTokenize() {
	tokens, err := starlarklexer.Tokenize("BUILD", build)
	if err != nil {
		fmt.Println(err)
		return
	}
	inLoad := false
	for _, tok := range tokens {
		switch tok.Kind {
		case starlarklexer.Load:
			inLoad = true
		case starlarklexer.ClosingRound:
			inLoad = false
		case starlarklexer.String:
			if inLoad {
				fmt.Println(tok.Value)
			}
		}
	}
	// Output:
	// //tools:defs.bzl
	// rule
}

// From Go 1.23 on, what the function takes is the body of a loop over range.
func ExampleTokens() {
	starlarklexer.Tokens("BUILD", "f(x) + 2")(func(tok starlarklexer.Token, err error) bool {
		if err != nil {
			fmt.Println(err)
			return false
		}
		if tok.Kind.IsOperator() {
			fmt.Println(tok.Text, "at byte", tok.Begin)
		}
		return true
	})
	// Output:
	// + at byte 5
}

func ExampleRecover() {
	tokens, err := starlarklexer.Recover("BUILD", "x = [01,\n  class]\ny = 'a\n")
	fmt.Println(len(tokens), "tokens")
	var list starlarklexer.ErrorList
	if errors.As(err, &list) {
		for _, fault := range list {
			fmt.Println(fault.Kind, fault)
		}
	}
	// Output:
	// 13 tokens
	// SL008 BUILD:1:6: Parse error: integer cannot have leading 0, got `01`
	// SL007 BUILD:2:3: Parse error: cannot use reserved keyword `class`
	// SL004 BUILD:3:5: Parse error: unfinished string literal
}

// In starlark-go assert is a name. Here it is a reserved word, for which an identifier stands: a caller
// leaves the fault out.
func ExampleRecover_assert() {
	src := "assert.eq(x,\n  y)\n"
	tokens, err := starlarklexer.Recover("test.star", src)
	faults, _ := err.(starlarklexer.ErrorList)
	for _, fault := range faults {
		if src[fault.Begin:fault.End] != "assert" {
			fmt.Println(fault)
		}
	}
	for _, tok := range tokens {
		if tok.Kind == starlarklexer.Identifier {
			fmt.Println("name", tok.Value)
		}
	}
	// Output:
	// name assert
	// name eq
	// name x
	// name y
}

func ExampleToken_BigInt() {
	tokens, _ := starlarklexer.Tokenize("", "0xFFFFFFFFFFFFFFFFFF")
	fmt.Println(tokens[0].BigInt())
	// Output:
	// 4722366482869645213695
}

func ExampleDocument() {
	d, err := starlarklexer.NewDocument("x = 'a\ny = 1\n")
	if err != nil {
		fmt.Println(err)
		return
	}
	defer d.Close()
	faults, _ := d.Faults(0, d.Len())
	fmt.Println(faults.Err())

	change, _ := d.Edit(6, 6, "'") // the text is "x = 'a'\ny = 1\n" now
	fmt.Println("changed from", change.Begin, "to", change.NewEnd)
	tokens, _ := d.Tokens(change.Begin, change.NewEnd)
	for _, tok := range tokens[:4] {
		fmt.Printf("%v %q\n", tok.Kind, tok.Text)
	}
	faults, _ = d.Faults(0, d.Len())
	fmt.Println(faults.Err())
	// Output:
	// 1:5: Parse error: unfinished string literal
	// changed from 0 to 14
	// Identifier "x"
	// Equal "="
	// String "'a'"
	// Newline "\n"
	// <nil>
}
