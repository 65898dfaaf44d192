package starlarkgo

import (
	"os"
	"testing"

	"example.org/starlarkgo/syntax"
	"example.org/starlarklexer"
)

// speedText returns a made text of 1 MB, or that of the file SPEED_TEXT.
func speedText(t testing.TB) string {
	text := Text(1, 1<<20)
	if file := os.Getenv("SPEED_TEXT"); file != "" {
		data, err := os.ReadFile(file)
		if err != nil {
			t.Fatal(err)
		}
		text = string(data)
	}
	return text
}

// runs are what is timed: each reads a text once.
var runs = map[string]func(t testing.TB, text string){
	"starlark-go": func(t testing.TB, text string) {
		if err := syntax.ScanAll("f", []byte(text), func(syntax.Token, string, string, int32, int32) {}); err != nil {
			t.Fatal(err)
		}
	},
	"Scanner": func(t testing.TB, text string) {
		s := starlarklexer.NewScanner("f", text)
		for s.Next() {
		}
		if s.Err() != nil {
			t.Fatal(s.Err())
		}
	},
	// starlark-go always computes the positions.
	"Scanner, each Position": func(t testing.TB, text string) {
		s := starlarklexer.NewScanner("f", text)
		for s.Next() {
			s.Position(s.Token().Begin)
		}
		if s.Err() != nil {
			t.Fatal(s.Err())
		}
	},
	"Tokenize": func(t testing.TB, text string) {
		if _, err := starlarklexer.Tokenize("f", text); err != nil {
			t.Fatal(err)
		}
	},
	"Recover": func(t testing.TB, text string) {
		if _, err := starlarklexer.Recover("f", text); err != nil {
			t.Fatal(err)
		}
	},
}

func BenchmarkText(b *testing.B) {
	text := speedText(b)
	for name, run := range runs {
		b.Run(name, func(b *testing.B) {
			b.SetBytes(int64(len(text)))
			b.ReportAllocs()
			for i := 0; i < b.N; i++ {
				run(b, text)
			}
		})
	}
}

// BenchmarkLine reads a short line: what a call costs.
func BenchmarkLine(b *testing.B) {
	for _, name := range []string{"starlark-go", "Scanner"} {
		b.Run(name, func(b *testing.B) {
			b.ReportAllocs()
			for i := 0; i < b.N; i++ {
				runs[name](b, "x = 1\n")
			}
		})
	}
}

// BenchmarkEdits edits the middle of a text twice, and asks for the tokens of what changed.
func BenchmarkEdits(b *testing.B) {
	text := speedText(b)
	d, err := starlarklexer.NewDocument(text)
	if err != nil {
		b.Fatal(err)
	}
	defer d.Close()
	at := len(text) / 2
	for text[at-1] != '\n' {
		at++
	}
	b.ResetTimer()
	for i := 0; i < b.N; i++ {
		for _, edit := range []struct {
			end  int
			text string
		}{{at, "x"}, {at + 1, ""}} {
			change, err := d.Edit(at, edit.end, edit.text)
			if err != nil {
				b.Fatal(err)
			}
			if _, err := d.Tokens(change.Begin, change.NewEnd); err != nil {
				b.Fatal(err)
			}
		}
	}
}
