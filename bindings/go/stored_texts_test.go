//go:build cgo

package starlarklexer_test

import (
	"bytes"
	"encoding/hex"
	"encoding/json"
	"fmt"
	"os"
	"path/filepath"
	"regexp"
	"strconv"
	"strings"
	"sync"
	"testing"
	"unicode/utf8"

	"example.org/starlarklexer"
)

// A folder with the stored texts of the repository, and a file of random texts: scripts/check.sh sets
// both.
const (
	storedTexts = "STARLARK_STORED_TEXTS"
	randomTexts = "STARLARK_RANDOM_TEXTS"
)

// environment returns what a variable names, or skips the test.
func environment(t testing.TB, variable string) string {
	value := os.Getenv(variable)
	if value == "" {
		t.Skip(variable, "names nothing")
	}
	return value
}

// readPart returns a part of a file of stored texts, which is a list of a line "part NAME LEN" and LEN
// bytes.
func readPart(t *testing.T, file, part string) []byte {
	t.Helper()
	rest, err := os.ReadFile(filepath.Join(environment(t, storedTexts), file))
	if err != nil {
		t.Fatal(err)
	}
	for len(rest) > 0 {
		line, after, _ := bytes.Cut(rest, []byte("\n"))
		var name string
		var length int
		if _, err := fmt.Sscanf(string(line), "part %s %d", &name, &length); err != nil {
			t.Fatalf("%q begins no part: %v", line, err)
		}
		if name == part {
			return after[:length]
		}
		rest = after[length:]
	}
	t.Fatal("there is no part", part)
	return nil
}

type stored struct {
	number  int
	isPlain bool
	text    string
}

// storedRecords splits a part with texts: a line with a length and, where it isn't plain, a task; the
// bytes; LF.
func storedRecords(t *testing.T, part []byte) []stored {
	t.Helper()
	var records []stored
	for len(part) > 0 {
		line, after, _ := bytes.Cut(part, []byte("\n"))
		number, task, _ := bytes.Cut(line, []byte(" "))
		length, err := strconv.Atoi(string(number))
		if err != nil {
			t.Fatal(err)
		}
		records = append(records, stored{len(records) + 1, len(task) == 0, string(after[:length])})
		part = after[length+1:]
	}
	return records
}

// placeOf writes a span as the program starlark_lex prints it.
func placeOf(s *starlarklexer.Scanner, begin, end int) string {
	from, to := s.Position(begin), s.Position(end)
	switch {
	case begin == end:
		return fmt.Sprintf("%d:%d", from.Line, from.Col)
	case from.Line != to.Line:
		return fmt.Sprintf("%d:%d-%d:%d", from.Line, from.Col, to.Line, to.Col)
	}
	return fmt.Sprintf("%d:%d-%d", from.Line, from.Col, to.Col)
}

// valueOf writes a token's value as the program prints it, after a space.
func valueOf(tok *starlarklexer.Token) string {
	quotes := [...]string{"", "Single", "Double", "TripleSingle", "TripleDouble"}
	switch tok.Kind {
	case starlarklexer.Comment, starlarklexer.Identifier, starlarklexer.Float:
		return " " + tok.Value
	case starlarklexer.Int:
		if tok.Value == "" {
			return " " + strconv.Itoa(tok.Number())
		}
		if tok.Detail() == 10 {
			return " " + tok.Value
		}
		return fmt.Sprintf(" %s (base %d)", tok.Value, tok.Detail())
	case starlarklexer.String, starlarklexer.FStringText, starlarklexer.Bytes:
		return " " + hex.EncodeToString([]byte(tok.Value))
	case starlarklexer.FStringStart:
		return " " + quotes[tok.Quotes()]
	}
	return ""
}

// printed returns the lines that the program prints of tokens and faults, which may be after tokens.
func printed(src string, tokens []starlarklexer.Token, faults starlarklexer.ErrorList) string {
	s := starlarklexer.NewScanner("", src)
	var lines strings.Builder
	for i := range tokens {
		tok := &tokens[i]
		if src[tok.Begin:tok.End] != tok.Text {
			return fmt.Sprintf("the token at %d has the text %q", tok.Begin, tok.Text)
		}
		fmt.Fprintf(&lines, "%d-%d %s %s%s\n", tok.Begin, tok.End, placeOf(s, tok.Begin, tok.End), tok.Kind, valueOf(tok))
	}
	for _, fault := range faults {
		fmt.Fprintf(&lines, "fault %d-%d <stdin>:%s %s\n", fault.Begin, fault.End, placeOf(s, fault.Begin, fault.End), fault.Msg)
	}
	return lines.String()
}

// tokenized returns the lines that the program prints of a text, and whether it has a fault.
func tokenized(src string) (lines string, clean bool) {
	tokens, err := starlarklexer.Tokenize("", src)
	if fault, ok := err.(*starlarklexer.Error); ok {
		return printed(src, tokens, starlarklexer.ErrorList{fault}), false
	}
	if err != nil {
		return "input is not UTF-8\n", false
	}
	return printed(src, tokens, nil), true
}

// linesByNumber splits an output at the lines that begin a text: those that match "text N" and an
// ending. It returns the parts without these lines by the numbers.
func linesByNumber(output, ending string) map[int]string {
	parts := map[int]string{}
	start := regexp.MustCompile(`(?m)^text (\d+)` + ending)
	at := start.FindAllStringSubmatchIndex(output, -1)
	for i, match := range at {
		end := len(output)
		if i+1 < len(at) {
			end = at[i+1][0]
		}
		number, _ := strconv.Atoi(output[match[2]:match[3]])
		parts[number] = output[match[1]:end]
	}
	return parts
}

func TestStoredTexts(t *testing.T) {
	want := linesByNumber(string(readPart(t, "stdout", "texts")), ": ")
	compared := 0
	for _, record := range storedRecords(t, readPart(t, "stdin", "texts")) {
		if !record.isPlain {
			continue
		}
		lines, clean := tokenized(record.text)
		switch {
		case !utf8.ValidString(record.text):
		case clean:
			lines = "clean\n" + lines
		default:
			lines = "fault\n" + lines
		}
		if lines != want[record.number] {
			t.Fatalf("%q: got\n%s\nwant\n%s", record.text, lines, want[record.number])
		}
		compared++
	}
	if compared < 1000 {
		t.Error("only", compared, "texts were compared")
	}
	t.Log(compared, "texts were compared")
}

func TestStoredTextsWithFaults(t *testing.T) {
	want := linesByNumber(string(readPart(t, "stdout", "recovered")), "\n")
	records := storedRecords(t, readPart(t, "stdin", "recovered"))
	for _, record := range records {
		tokens, err := starlarklexer.Recover("", record.text)
		faults, _ := err.(starlarklexer.ErrorList)
		if got := merged(record.text, tokens, faults); got != want[record.number] {
			t.Fatalf("%q: got\n%s\nwant\n%s", record.text, got, want[record.number])
		}
	}
	if len(records) < 100 {
		t.Error("only", len(records), "texts were compared")
	}
	t.Log(len(records), "texts were compared")
}

// merged returns the lines of tokens and faults in the order of the text.
func merged(src string, tokens []starlarklexer.Token, faults starlarklexer.ErrorList) string {
	var lines strings.Builder
	done := 0
	for _, fault := range faults {
		lines.WriteString(printed(src, tokens[done:fault.TokensBefore], starlarklexer.ErrorList{fault}))
		done = fault.TokensBefore
	}
	lines.WriteString(printed(src, tokens[done:], nil))
	return lines.String()
}

// TestRandomTexts lexes texts from 8 goroutines at once, and compares with what the plain lexer of the
// repository found.
func TestRandomTexts(t *testing.T) {
	data, err := os.ReadFile(environment(t, randomTexts))
	if err != nil {
		t.Fatal(err)
	}
	lines := bytes.Split(bytes.TrimSpace(data), []byte("\n"))
	var group sync.WaitGroup
	const goroutines = 8
	for g := 0; g < goroutines; g++ {
		group.Add(1)
		go func(g int) {
			defer group.Done()
			for i := g; i < len(lines) && !t.Failed(); i += goroutines {
				var pair [2]string
				if err := json.Unmarshal(lines[i], &pair); err != nil {
					t.Error(err)
					return
				}
				text, _ := hex.DecodeString(pair[0])
				if got, _ := tokenized(string(text)); got != pair[1] {
					t.Errorf("%q: got\n%s\nwant\n%s", text, got, pair[1])
				}
			}
		}(g)
	}
	group.Wait()
	t.Log(len(lines), "texts were compared")
}
