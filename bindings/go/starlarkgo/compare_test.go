package starlarkgo

import (
	"encoding/hex"
	"encoding/json"
	"fmt"
	"os"
	"regexp"
	"strconv"
	"strings"
	"testing"

	"example.org/starlarkgo/syntax"
	"example.org/starlarklexer"
)

// theirs returns the tokens with a text, each in a line, and how the scanner ended.
func theirs(text string) ([]string, error) {
	var lines []string
	err := syntax.ScanAll("f", []byte(text), func(tok syntax.Token, raw, value string, line, col int32) {
		switch tok {
		case syntax.NEWLINE:
			lines = append(lines, "newline")
		case syntax.INDENT, syntax.OUTDENT:
			lines = append(lines, tok.String())
		default:
			lines = append(lines, fmt.Sprintf("%d:%d %q %q", line, col, raw, value))
		}
	})
	return lines, err
}

// ours returns the same lines of the lexer's tokens, in which blank lines and comments are left out.
func ours(text string) ([]string, error) {
	var lines []string
	s := starlarklexer.NewScanner("f", text)
	lineHasToken, blocks := false, 0
	for s.Next() {
		tok := s.Token()
		value := ""
		switch tok.Kind {
		case starlarklexer.Comment:
			continue
		case starlarklexer.Newline:
			// At the end of a text without an LF starlark-go has a newline only in a block.
			if lineHasToken && (tok.Text != "" || blocks > 0) {
				lines = append(lines, "newline")
			}
			lineHasToken = false
			continue
		case starlarklexer.Indent:
			blocks++
			lines = append(lines, "indent")
			continue
		case starlarklexer.Dedent:
			blocks--
			lines = append(lines, "outdent")
			continue
		case starlarklexer.String:
			value = tok.Value
		case starlarklexer.Int:
			value = tok.BigInt().String()
		case starlarklexer.Float:
			number, _ := tok.Float64()
			value = strconv.FormatFloat(number, 'g', -1, 64)
		}
		lineHasToken = true
		p := s.Position(tok.Begin)
		lines = append(lines, fmt.Sprintf("%d:%d %q %q", p.Line, p.Col, tok.Text, value))
	}
	return lines, s.Err()
}

// A difference is where the tokens of a text begin to differ, and how both scanners ended.
type difference struct {
	text            string
	got, want       string // a line of each list, or "" after its end
	gotErr, wantErr error
}

// compare returns the first difference of a text; none has neither lines nor errors.
func compare(text string) difference {
	d := difference{text: text}
	var got, want []string
	got, d.gotErr = ours(text)
	want, d.wantErr = theirs(text)
	for i := 0; d.got == d.want && (i < len(got) || i < len(want)); i++ {
		d.got, d.want = "", ""
		if i < len(got) {
			d.got = got[i]
		}
		if i < len(want) {
			d.want = want[i]
		}
	}
	if d.got == d.want {
		d.got, d.want = "", ""
	}
	return d
}

func (d difference) isNone() bool {
	return d.got == d.want && d.gotErr == nil && d.wantErr == nil
}

// TestMadeTexts: texts that both take have the same tokens, values, positions and blocks.
func TestMadeTexts(t *testing.T) {
	tokens := 0
	for seed := int64(1); seed <= 300; seed++ {
		text := Text(seed, 4000)
		if d := compare(text); !d.isNone() {
			t.Fatalf("seed %d: %s, starlark-go %s; %v, %v", seed, d.got, d.want, d.gotErr, d.wantErr)
		}
		lines, _ := ours(text)
		tokens += len(lines)
	}
	t.Log(tokens, "tokens of 300 texts are the same")
}

// part returns the text and the value of a token in a line, or "" for another line.
func part(line string) (raw, value string) {
	_, quoted, _ := strings.Cut(line, " ")
	prefix, err := strconv.QuotedPrefix(quoted)
	if err != nil {
		return "", ""
	}
	raw, _ = strconv.Unquote(prefix)
	value, _ = strconv.Unquote(strings.TrimSpace(quoted[len(prefix):]))
	return raw, value
}

// says reports whether an error has some words.
func says(err error, words string) bool { return err != nil && strings.Contains(err.Error(), words) }

var (
	literal = regexp.MustCompile(`^(?:b|br|rb|f|fr|rf)['"]`)
	prefix  = regexp.MustCompile(`^(?:b|br|rb|f|fr|rf)$`)

	prefixes  = regexp.MustCompile(`(?:br|rb|fr|rf|b|f)['"]`)
	backslash = regexp.MustCompile(`(?m)^ *\\$`)
)

var leftOut = strings.NewReplacer("\r", "", "\x00", "")

func isNumber(raw string) bool {
	return strings.IndexAny(raw, "0123456789") == 0 || strings.IndexAny(raw, ".") == 0 && len(raw) > 1
}

// reasons are the known differences: the first that fits names one.
var reasons = []struct {
	name string
	fits func(d difference, got, want string) bool
}{
	{"a bytes literal or an f-string is a name and a string there", func(d difference, got, want string) bool {
		return literal.MatchString(got) || got == "" && prefix.MatchString(want)
	}},
	{"-> and ... are tokens here", func(d difference, got, want string) bool { return got == "->" || got == "..." }},
	{"a reserved word is a fault here, and there a token, or for assert a name", func(d difference, got, want string) bool {
		return d.got == "" && want != "" && says(d.gotErr, "cannot use reserved keyword `"+want+"`")
	}},
	{"a tab in code is a fault here", func(d difference, got, want string) bool {
		return says(d.gotErr, "tabs are not allowed")
	}},
	{"a name that isn't ASCII is a fault here", func(d difference, got, want string) bool {
		return says(d.gotErr, "invalid input") && strings.ContainsAny(want, "é日本")
	}},
	{"a closing bracket without its opening one is a fault there", func(d difference, got, want string) bool {
		return len(got) == 1 && strings.Contains(")]}", got) && says(d.wantErr, "unexpected '"+got+"'")
	}},
	{"some escapes are faults there, and have a value here", func(d difference, got, want string) bool {
		return strings.Contains(got, `\`) && d.want == "" && says(d.wantErr, "escape sequence")
	}},
	{"a backslash and a quote in a raw string are one character here", func(d difference, got, want string) bool {
		return got == want && strings.HasPrefix(got, "r") && (strings.Contains(got, `\"`) || strings.Contains(got, `\'`))
	}},
	{"a number ends before a letter here", func(d difference, got, want string) bool {
		return isNumber(got) && d.want == "" && says(d.wantErr, " literal")
	}},
	{"00 is a fault here", func(d difference, got, want string) bool {
		return d.got == "" && isNumber(want) && says(d.gotErr, "cannot have leading 0, got `"+want+"`")
	}},
	{"escapes above \\x7F are characters here, and bytes there", func(d difference, got, want string) bool {
		return got == want && (strings.Contains(got, `\x`) || strings.Contains(got, `\3`))
	}},
	{"a line of nothing but a backslash has a newline there", func(d difference, got, want string) bool {
		return d.want == "newline" && backslash.MatchString(d.text)
	}},
	{"a bracket that stays open to the end of the text", func(d difference, got, want string) bool {
		return d.got == "newline" && d.want == "outdent"
	}},
	{"a text that isn't UTF-8 has no tokens here", func(d difference, got, want string) bool {
		_, ok := d.gotErr.(starlarklexer.NotUTF8Error)
		return ok
	}},
}

// TestRandomTexts names each difference on random texts, most of which have faults. Some things
// are left out, since they'd hide all else: CRs, which are dropped in literals here, and are LFs there;
// NULs, which end a text there; and the prefixes of literals that starlark-go lacks.
func TestRandomTexts(t *testing.T) {
	file := os.Getenv("STARLARK_RANDOM_TEXTS")
	if file == "" {
		t.Skip("STARLARK_RANDOM_TEXTS names nothing")
	}
	data, err := os.ReadFile(file)
	if err != nil {
		t.Fatal(err)
	}
	counts := map[string]int{}
	for _, line := range strings.Split(strings.TrimSpace(string(data)), "\n") {
		var pair [2]string
		if err := json.Unmarshal([]byte(line), &pair); err != nil {
			t.Fatal(err)
		}
		bytes, _ := hex.DecodeString(pair[0])
		text := prefixes.ReplaceAllStringFunc(leftOut.Replace(string(bytes)), func(opening string) string {
			if strings.Contains(opening, "r") {
				return "r" + opening[len(opening)-1:]
			}
			return opening[len(opening)-1:]
		})
		counts[nameOf(t, compare(text))]++
	}
	for name, count := range counts {
		t.Logf("%6d texts: %s", count, name)
	}
}

// nameOf returns the name of a difference. One without a name fails.
func nameOf(t *testing.T, d difference) string {
	if d.isNone() {
		return "the same tokens"
	}
	got, _ := part(d.got)
	want, _ := part(d.want)
	for _, reason := range reasons {
		if reason.fits(d, got, want) {
			return reason.name
		}
	}
	if d.gotErr != nil && d.wantErr != nil && (d.got == "" || d.want == "") {
		return "the same tokens before a fault for both"
	}
	t.Errorf("%q: %s, starlark-go %s; %v, starlark-go %v", d.text, d.got, d.want, d.gotErr, d.wantErr)
	return "no known reason"
}
