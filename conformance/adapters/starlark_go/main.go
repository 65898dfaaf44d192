// Answers requests by the scanner of starlark-go. build.sh compiles this file with two files of its package syntax.
package main

import (
	"bufio"
	"encoding/base64"
	"encoding/json"
	"fmt"
	"os"
	"strconv"
	"unicode/utf8"
)

// What the copied files take from others of their package.
const debug = false

type Comment struct {
	Start Position
	Text  string
}

type request struct {
	Text   string `json:"text"`
	Base64 string `json:"base64"`
}

type answer struct {
	Tokens [][]interface{} `json:"tokens"`
	Faults [][]interface{} `json:"faults"`
}

// The scanner doesn't say the kind of a fault, and names a place in its own way.
var fault = []interface{}{nil, nil, nil}

// token returns a token as the suite has it. Spans of layout aren't compared: the scanner's are empty.
func token(kind Token, val *tokenValue, begin, end int) []interface{} {
	switch kind {
	case INDENT:
		return []interface{}{"indent", nil, nil}
	case OUTDENT:
		return []interface{}{"dedent", nil, nil}
	case NEWLINE:
		return []interface{}{"newline", begin, end}
	case IDENT:
		return []interface{}{"name", begin, end, val.raw}
	case STRING:
		if !utf8.ValidString(val.string) {
			return []interface{}{"string", begin, end, fmt.Sprintf("not UTF-8: %q", val.string)}
		}
		return []interface{}{"string", begin, end, val.string}
	case INT:
		if val.bigInt != nil {
			return []interface{}{"int", begin, end, val.bigInt.String()}
		}
		return []interface{}{"int", begin, end, strconv.FormatInt(val.int, 10)}
	case FLOAT:
		return []interface{}{"float", begin, end, strconv.FormatFloat(val.float, 'g', -1, 64)}
	}
	return []interface{}{kind.String(), begin, end}
}

// lex returns the tokens of a text up to its first fault.
func lex(text []byte) (found answer) {
	found = answer{Tokens: [][]interface{}{}, Faults: [][]interface{}{}}
	defer func() {
		if recover() != nil {
			found.Faults = append(found.Faults, fault)
		}
	}()
	sc, err := newScanner("text", text, false)
	if err != nil {
		panic(err)
	}
	hasNewline := true
	for {
		var val tokenValue
		kind := sc.nextToken(&val)
		begin, end := len(text)-len(sc.token), len(text)-len(sc.rest)
		switch kind {
		case ILLEGAL: // a reserved word
			found.Faults = append(found.Faults, fault)
			return found
		case EOF: // stands for the newline of a last line without one
			if !hasNewline {
				found.Tokens = append(found.Tokens, []interface{}{"newline", begin, begin})
			}
			return found
		}
		hasNewline = kind == NEWLINE || (hasNewline && (kind == INDENT || kind == OUTDENT))
		found.Tokens = append(found.Tokens, token(kind, &val, begin, end))
	}
}

func main() {
	out := json.NewEncoder(os.Stdout)
	out.Encode(map[string]interface{}{
		"lexer":   "starlark-go",
		// Debian's version has no bytes literals.
		"skips":   []string{"fstrings", "bytes", "recovering", "edits", "not_utf8"},
		"ignores": []string{"comments", "blank_lines", "layout_before_faults"},
	})
	lines := bufio.NewScanner(os.Stdin)
	lines.Buffer(nil, 1<<26)
	for lines.Scan() {
		var asked request
		if err := json.Unmarshal(lines.Bytes(), &asked); err != nil {
			panic(err)
		}
		text := []byte(asked.Text)
		if asked.Base64 != "" {
			text, _ = base64.StdEncoding.DecodeString(asked.Base64)
		}
		out.Encode(lex(text))
	}
}
