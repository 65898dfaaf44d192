//go:build cgo

package starlarklexer_test

import (
	"errors"
	"math/big"
	"strings"
	"testing"

	"example.org/starlarklexer"
)

// show writes a token with its position, kind, text and value.
func show(s *starlarklexer.Scanner) string {
	tok := s.Token()
	return strings.Join([]string{s.Position(tok.Begin).String(), tok.Kind.String(), tok.Text, tok.Value}, "|")
}

// showAll writes all tokens of a text.
func showAll(t *testing.T, filename, src string) []string {
	t.Helper()
	var shown []string
	s := starlarklexer.NewScanner(filename, src)
	for s.Next() {
		shown = append(shown, show(s))
	}
	if err := s.Err(); err != nil {
		t.Fatal(err)
	}
	return shown
}

func compare(t *testing.T, got, want []string) {
	t.Helper()
	if g, w := strings.Join(got, "\n"), strings.Join(want, "\n"); g != w {
		t.Errorf("got\n%s\nwant\n%s", g, w)
	}
}

func TestTokensHavePlacesAndValues(t *testing.T) {
	compare(t, showAll(t, "BUILD", "x = \"a\\n\" + 'é' # c\nif 99999999999:\n  y()\n"), []string{
		"BUILD:1:1|Identifier|x|x", "BUILD:1:3|Equal|=|", "BUILD:1:5|String|\"a\\n\"|a\n", "BUILD:1:11|Plus|+|",
		"BUILD:1:13|String|'é'|é", "BUILD:1:17|Comment|# c| c", "BUILD:1:20|Newline|\n|",
		"BUILD:2:1|If|if|", "BUILD:2:4|Int|99999999999|99999999999", "BUILD:2:15|Colon|:|", "BUILD:2:16|Newline|\n|",
		"BUILD:3:1|Indent|  |", "BUILD:3:3|Identifier|y|y", "BUILD:3:4|OpeningRound|(|", "BUILD:3:5|ClosingRound|)|",
		"BUILD:3:6|Newline|\n|", "BUILD:4:1|Newline||", "BUILD:4:1|Dedent||",
	})
	compare(t, showAll(t, "", "f\"\"\"a{e!r}\\t\"\"\" b'\\xff' r'\\x'"), []string{
		"1:1|FStringStart|f\"\"\"|", "1:5|FStringText|a|a", "1:6|FStringExprStart|{|", "1:7|Identifier|e|e",
		"1:8|FStringBang|!|", "1:9|Identifier|r|r", "1:10|FStringExprEnd|}|", "1:11|FStringText|\\t|\t",
		"1:13|FStringEnd|\"\"\"|", "1:17|Bytes|b'\\xff'|\xff", "1:25|String|r'\\x'|\\x", "1:30|Newline||",
	})
}

func TestEmptyTextHasANewline(t *testing.T) {
	compare(t, showAll(t, "", ""), []string{"1:1|Newline||"})
}

func TestScannerEndsForGood(t *testing.T) {
	s := starlarklexer.NewScanner("", "x")
	if tok := s.Token(); tok != (starlarklexer.Token{}) {
		t.Error("a token before the first:", tok)
	}
	for n := 0; s.Next(); n++ {
		if n > 1 {
			t.Fatal("more than two tokens")
		}
	}
	for n := 0; n < 3; n++ {
		if s.Next() || s.Err() != nil || s.Token().Kind != starlarklexer.Newline {
			t.Fatal("the scanner goes on", s.Token(), s.Err())
		}
	}
}

func TestPositionsGoBack(t *testing.T) {
	src := "é = 1\n\n  日本 = 'x'\r\ny"
	s := starlarklexer.NewScanner("", src)
	want := map[int]string{0: "1:1", 2: "1:2", 6: "1:6", 7: "2:1", 8: "3:1", 10: "3:3", 13: "3:4", 16: "3:5", 22: "3:11", 24: "4:1", 25: "4:2"}
	for _, offset := range []int{25, 0, 16, 13, 24, 22, 8, 7, 6, 10, 2, 2, 25, 24} {
		if got := s.Position(offset).String(); got != want[offset] {
			t.Errorf("offset %d is at %s, want %s", offset, got, want[offset])
		}
	}
	defer func() {
		if recover() == nil {
			t.Error("an offset after the text has a position")
		}
	}()
	s.Position(26)
}

// first returns the first token of a text.
func first(t *testing.T, src string) starlarklexer.Token {
	t.Helper()
	tokens, err := starlarklexer.Tokenize("", src)
	if err != nil {
		t.Fatal(err)
	}
	return tokens[0]
}

func TestNumbers(t *testing.T) {
	for _, test := range []struct {
		src  string
		want string
		fits bool
	}{
		{"0", "0", true}, {"2147483647", "2147483647", true}, {"2147483648", "2147483648", true},
		{"0xFFFFFFFFFF", "1099511627775", true}, {"0b1", "1", true}, {"0o777777777777", "68719476735", true},
		{"9223372036854775807", "9223372036854775807", true}, {"9223372036854775808", "9223372036854775808", false},
		{"0xffffffffffffffffffffffff", "79228162514264337593543950335", false},
	} {
		tok := first(t, test.src)
		want, _ := new(big.Int).SetString(test.want, 10)
		if tok.Kind != starlarklexer.Int || tok.BigInt().Cmp(want) != 0 {
			t.Errorf("%s has the value %v", test.src, tok.BigInt())
		}
		if got, fits := tok.Int64(); fits != test.fits || fits && got != want.Int64() {
			t.Errorf("%s has the value %d, %v", test.src, got, fits)
		}
	}
	if value, err := first(t, "1.5e3").Float64(); value != 1500 || err != nil {
		t.Error(value, err)
	}
	name := first(t, "x")
	if _, ok := name.Int64(); ok || name.BigInt() != nil || name.Quotes() != starlarklexer.NoQuotes {
		t.Error("a name has a number or quotes")
	}
}

func TestQuotes(t *testing.T) {
	for _, quotes := range []string{"'", `"`, "'''", `"""`} {
		if got := first(t, "f"+quotes+"a"+quotes).Quotes().String(); got != quotes {
			t.Errorf("f%s begins with %s", quotes, got)
		}
	}
}

func TestKindsAndClasses(t *testing.T) {
	keywords, operators := 0, 0
	for k := starlarklexer.Kind(0); k < 255; k++ {
		if k.IsKeyword() && k.IsOperator() {
			t.Error(k, "is both")
		}
		if k.IsKeyword() {
			keywords++
		}
		if k.IsOperator() {
			operators++
		}
	}
	if keywords != 15 || operators != 32 {
		t.Errorf("%d keywords, %d operators", keywords, operators)
	}
	for text, want := range map[string]string{
		"and": "keyword", "load": "keyword", "return": "keyword", "x": "", "None": "", "1": "", "'a'": "", "# c": "",
		"+": "operator", "->": "operator", "//=": "operator", "~": "operator", "=": "operator", "<<": "operator",
		",": "", ";": "", ":": "", ".": "", "...": "", "(": "", "[": "", "{": "", "f'": "",
	} {
		tokens, _ := starlarklexer.Tokenize("", text)
		if len(tokens) == 0 {
			t.Fatalf("%q has no token", text)
		}
		got := ""
		if tokens[0].Kind.IsKeyword() {
			got = "keyword"
		}
		if tokens[0].Kind.IsOperator() {
			got += "operator"
		}
		if got != want {
			t.Errorf("%q is %q, want %q", text, got, want)
		}
	}
	if got := starlarklexer.Kind(200).String(); got != "Kind(200)" {
		t.Error(got)
	}
	if got := starlarklexer.FaultKind(200).String(); got != "FaultKind(200)" {
		t.Error(got)
	}
}

func TestFaultEndsTokens(t *testing.T) {
	tokens, err := starlarklexer.Tokenize("a.bzl", "é\n")
	var fault *starlarklexer.Error
	if !errors.As(err, &fault) || len(tokens) != 0 || fault.Kind != starlarklexer.FaultInvalidInput {
		t.Fatal(tokens, err)
	}
	tokens, err = starlarklexer.Tokenize("a.bzl", "x = 'é' +\\\n 01\n")
	if !errors.As(err, &fault) || len(tokens) != 4 {
		t.Fatal(tokens, err)
	}
	want := starlarklexer.Error{
		Pos: starlarklexer.Position{Filename: "a.bzl", Line: 2, Col: 2}, Kind: starlarklexer.FaultStartsZero,
		Begin: 13, End: 15, Msg: "Parse error: integer cannot have leading 0, got `01`",
	}
	if *fault != want || err.Error() != "a.bzl:2:2: "+want.Msg || fault.Kind.Code() != "SL008" {
		t.Errorf("%+v", fault)
	}
}

func TestRecoverFindsAll(t *testing.T) {
	tokens, err := starlarklexer.Recover("a.bzl", "x = [01,\n  class]\ny = 'a\n")
	var list starlarklexer.ErrorList
	if !errors.As(err, &list) || len(list) != 3 {
		t.Fatal(err)
	}
	var shown []string
	for _, fault := range list {
		shown = append(shown, fault.Kind.String()+" "+fault.Error())
	}
	for _, tok := range tokens {
		shown = append(shown, tok.Kind.String()+" "+tok.Text)
	}
	compare(t, shown, []string{
		"SL008 a.bzl:1:6: Parse error: integer cannot have leading 0, got `01`",
		"SL007 a.bzl:2:3: Parse error: cannot use reserved keyword `class`",
		"SL004 a.bzl:3:5: Parse error: unfinished string literal",
		"Identifier x", "Equal =", "OpeningSquare [", "Int 01", "Comma ,", "Identifier class",
		"ClosingSquare ]", "Newline \n", "Identifier y", "Equal =", "String 'a", "Newline \n", "Newline ",
	})
	var fault *starlarklexer.Error
	if !errors.As(err, &fault) || fault != list[0] {
		t.Error("errors.As finds", fault)
	}
	if got := err.Error(); got != list[0].Error()+" (and 2 more errors)" {
		t.Error(got)
	}
	if list[:1].Error() != list[0].Error() || list[:0].Err() != nil || errors.As(list[:0], &fault) {
		t.Error("a short list is wrong")
	}
}

func TestNotUTF8(t *testing.T) {
	long := strings.Repeat("x = 1\n", 50000)
	for _, test := range []struct {
		src  string
		want starlarklexer.NotUTF8Error
	}{{"a\xff", 1}, {"\xc3", 0}, {"'\uFFFD'\xed\xa0\x80", 5}, {long + "'\x80'", starlarklexer.NotUTF8Error(len(long) + 1)}} {
		var got starlarklexer.NotUTF8Error
		if tokens, err := starlarklexer.Tokenize("", test.src); !errors.As(err, &got) || got != test.want || len(tokens) != 0 {
			t.Errorf("Tokenize: %d tokens, %v, want %v", len(tokens), err, test.want)
		}
		if tokens, err := starlarklexer.Recover("", test.src); err != test.want || tokens != nil {
			t.Errorf("Recover: %v, want %v", err, test.want)
		}
		if _, err := starlarklexer.NewDocument(test.src); err != test.want {
			t.Errorf("NewDocument: %v, want %v", err, test.want)
		}
	}
}

func TestTokensYields(t *testing.T) {
	var shown []string
	yield := func(tok starlarklexer.Token, err error) bool {
		if err != nil {
			shown = append(shown, err.Error())
		} else {
			shown = append(shown, tok.Kind.String())
		}
		return len(shown) < 3
	}
	starlarklexer.Tokens("f", "a")(yield)
	compare(t, shown, []string{"Identifier", "Newline"})
	shown = nil
	starlarklexer.Tokens("f", "a b c d")(yield)
	compare(t, shown, []string{"Identifier", "Identifier", "Identifier"})
	shown = nil
	starlarklexer.Tokens("f", "a $")(yield)
	compare(t, shown, []string{"Identifier", "f:1:3: Parse error: invalid input `$`"})
}

// A text with few cuts, one without any, and one with many: the tokens of pieces are those of one
// call.
func TestPieces(t *testing.T) {
	line := "x = ['a\\n', 1, f(y)]  # é\n"
	for name, src := range map[string]string{
		"lines":       strings.Repeat(line, 10000),
		"one block":   "if x:\n" + strings.Repeat("  "+line, 10000),
		"one bracket": "(" + strings.Repeat(line[:len(line)-7]+"+\n", 10000) + "1)\n",
		"one line":    strings.Repeat("x + 'é' + ", 30000) + "x",
		"one string":  "'''" + strings.Repeat("日本\\n\n", 30000) + "'''",
		"a few":       strings.Repeat("if x:\n"+strings.Repeat("  "+line, 4000)+"y\n", 5),
	} {
		whole := starlarklexer.TokenizeByOneCall(src)
		got, err := starlarklexer.Tokenize("", src)
		if err != nil || len(got) != len(whole) {
			t.Fatalf("%s: %d tokens, want %d; %v", name, len(got), len(whole), err)
		}
		for i := range whole {
			if got[i] != whole[i] {
				t.Fatalf("%s: %+v, want %+v", name, got[i], whole[i])
			}
		}
		recovered, err := starlarklexer.Recover("", src)
		if err != nil || len(recovered) != len(whole) || recovered[len(whole)-1] != whole[len(whole)-1] {
			t.Errorf("%s: Recover has %d tokens, want %d; %v", name, len(recovered), len(whole), err)
		}
	}
}

func TestVersion(t *testing.T) {
	if got := starlarklexer.LibraryVersion(); got != starlarklexer.Version {
		t.Errorf("the library has version %s, the package %s", got, starlarklexer.Version)
	}
}

func TestTableHasTheLibrarysNames(t *testing.T) {
	for k := 1; k < 256; k++ {
		if table, library := starlarklexer.TableName(starlarklexer.Kind(k)), starlarklexer.LibraryName(starlarklexer.Kind(k)); table != library {
			t.Errorf("kind %d is %q in the table, %q in the library", k, table, library)
		}
	}
	for kind, code := range map[starlarklexer.FaultKind]string{
		starlarklexer.FaultIndentation: "SL001", starlarklexer.FaultUnfinishedFStringExpression: "SL009", 0: "", 10: "",
	} {
		if got := kind.Code(); got != code {
			t.Errorf("fault %d has the code %q, want %q", uint8(kind), got, code)
		}
	}
}
