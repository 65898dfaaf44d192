//go:build cgo

package starlarklexer_test

import (
	"testing"
	"unicode/utf8"

	"example.org/starlarklexer"
)

// seeds are texts with each kind of token and of fault.
var seeds = []string{
	"", "x = 1\n", "load('//a:b.bzl', \"c\")\ndef f(x, *y, **z):\n    return x // 2 if not y else -1.5e3 -> None\n",
	"f'{a!r:b}' rf\"\"\"{{c}}\\n\"\"\" b'\\xff' r'\\'' '''d\n''' \"\\u00e9\\101\"\n", "if x:\n  y\n z\n", "class\n", "01 0x 1__0\n", "\tx\n", "'a\n",
	"'\\x4'\n", "f'{}'\nf'{x\n", "(\n[}\n$ ..\r\n# é", "0b1 0o7 0xFFFFFFFFFFFFFFFFFFFF 99999999999\n", "x\\\n  y\n", "f'\\q' '\\\r\n'\r",
}

// checkTokens fails where tokens aren't in order, or don't have the text between their offsets.
func checkTokens(t *testing.T, src string, tokens []starlarklexer.Token) {
	t.Helper()
	end := 0
	for _, tok := range tokens {
		if tok.Begin < end || tok.End < tok.Begin || src[tok.Begin:tok.End] != tok.Text || tok.Kind == 0 {
			t.Fatalf("%q: %+v after %d", src, tok, end)
		}
		end = tok.End
	}
}

// FuzzRecover compares the tokens before the first fault with all tokens.
func FuzzRecover(f *testing.F) {
	for _, seed := range seeds {
		f.Add(seed)
	}
	f.Fuzz(func(t *testing.T, src string) {
		tokens, err := starlarklexer.Tokenize("", src)
		all, allErr := starlarklexer.Recover("", src)
		if !utf8.ValidString(src) {
			_, openErr := starlarklexer.NewDocument(src)
			if _, ok := err.(starlarklexer.NotUTF8Error); !ok || err != allErr || err != openErr {
				t.Fatalf("%q: %v, %v, %v", src, err, allErr, openErr)
			}
			return
		}
		checkTokens(t, src, tokens)
		if len(all) < len(tokens) || (err == nil) != (allErr == nil) {
			t.Fatalf("%q: %d tokens and %v, then %d and %v", src, len(tokens), err, len(all), allErr)
		}
		for i := range tokens {
			if tokens[i] != all[i] {
				t.Fatalf("%q: %+v, and %+v", src, tokens[i], all[i])
			}
		}
		if err == nil {
			checkTokens(t, src, all)
			return
		}
		fault, first := err.(*starlarklexer.Error), allErr.(starlarklexer.ErrorList)[0]
		if fault.Begin != first.Begin || fault.Kind != first.Kind || fault.Msg != first.Msg || fault.Pos != first.Pos {
			t.Fatalf("%q: %v, and %v", src, fault, first)
		}
	})
}

// FuzzValues compares the values, which mostly share the source's memory, with copies.
func FuzzValues(f *testing.F) {
	for _, seed := range seeds {
		f.Add(seed)
	}
	f.Fuzz(func(t *testing.T, src string) {
		tokens, err := starlarklexer.Tokenize("", src)
		if err != nil {
			return
		}
		for i, want := range starlarklexer.TokenizeByOneCall(src) {
			if tokens[i] != want {
				t.Fatalf("%q: %+v, want %+v", src, tokens[i], want)
			}
		}
	})
}

// FuzzDocument compares an edited document with its whole text.
func FuzzDocument(f *testing.F) {
	for i, seed := range seeds {
		f.Add(seed, uint(i), uint(2*i), seeds[len(seeds)-1-i])
	}
	f.Fuzz(func(t *testing.T, src string, begin, end uint, part string) {
		d, err := starlarklexer.NewDocument(src)
		if err != nil {
			return
		}
		defer d.Close()
		from, to := int(begin%uint(len(src)+1)), int(end%uint(len(src)+1))
		if _, err := d.Edit(from, to, part); err != nil {
			compareDocument(t, d, src)
			return
		}
		compareDocument(t, d, src[:from]+part+src[to:])
	})
}
