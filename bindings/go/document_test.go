//go:build cgo

package starlarklexer_test

import (
	"errors"
	"math/rand"
	"strings"
	"sync"
	"testing"
	"unicode/utf8"

	"example.org/starlarklexer"
)

func open(t testing.TB, src string) *starlarklexer.Document {
	t.Helper()
	d, err := starlarklexer.NewDocument(src)
	if err != nil {
		t.Fatal(err)
	}
	return d
}

// compareDocument compares all of a document with what Recover finds in its text.
func compareDocument(t testing.TB, d *starlarklexer.Document, text string) {
	t.Helper()
	want, wantErr := starlarklexer.Recover("", text)
	got, err := d.Tokens(0, d.Len())
	if err != nil || len(got) != len(want) || d.Len() != len(text) {
		t.Fatalf("%q: %d tokens, want %d; %v", text, len(got), len(want), err)
	}
	for i := range want {
		if got[i] != want[i] {
			t.Fatalf("%q: %+v, want %+v", text, got[i], want[i])
		}
	}
	wantFaults, _ := wantErr.(starlarklexer.ErrorList)
	faults, err := d.Faults(0, d.Len())
	if err != nil || len(faults) != len(wantFaults) {
		t.Fatalf("%q: %v, want %v; %v", text, faults, wantFaults, err)
	}
	for i, fault := range wantFaults {
		fault.TokensBefore = 0
		if *faults[i] != *fault {
			t.Fatalf("%q: %+v, want %+v", text, faults[i], fault)
		}
	}
	whole, err := d.Text(0, d.Len())
	if err != nil || whole != text {
		t.Fatalf("%q: the document has %q; %v", text, whole, err)
	}
}

// boundaries returns two offsets of character boundaries in order.
func boundaries(dice *rand.Rand, text string) (begin, end int) {
	begin = dice.Intn(len(text) + 1)
	for begin > 0 && begin < len(text) && !utf8.RuneStart(text[begin]) {
		begin--
	}
	end = begin + dice.Intn(len(text)-begin+1)
	if dice.Intn(2) == 0 {
		end = begin
	}
	for end < len(text) && !utf8.RuneStart(text[end]) {
		end++
	}
	return begin, end
}

func TestEditsAgainstTheWholeText(t *testing.T) {
	parts := []string{
		"x", "\n", "if x:\n  y\n", "(", ")", "'", `"""`, "f'{", "}", "é", "01", "class", "\t", "# c\n", " ", "\\\n", "'a\\n'",
		"def f():\n    pass\n", "日本", "$", "\r\n",
	}
	edits := 0
	for seed := int64(1); seed <= 200; seed++ {
		dice := rand.New(rand.NewSource(seed))
		text := strings.Repeat("a = [1, 'b\\n']\nif c:\n  d('é')\n", dice.Intn(8))
		d := open(t, text)
		compareDocument(t, d, text)
		for n := 0; n < 40; n++ {
			begin, end := boundaries(dice, text)
			part := ""
			for k := dice.Intn(3); k > 0; k-- {
				part += parts[dice.Intn(len(parts))]
			}
			change, err := d.Edit(begin, end, part)
			if err != nil {
				t.Fatal(err)
			}
			old := text
			text = text[:begin] + part + text[end:]
			if change.OldEnd-change.NewEnd != len(old)-len(text) || change.Begin > begin || change.OldEnd < end {
				t.Fatalf("%q from %d to %d: %+v", part, begin, end, change)
			}
			compareDocument(t, d, text)
			edits++
		}
		d.Close()
	}
	t.Log(edits, "edits were compared")
}

func TestRangesOfADocument(t *testing.T) {
	text := "a = 'é'\nb = [\n  01, c]\n"
	d := open(t, text)
	defer d.Close()
	all, _ := d.Tokens(0, len(text))
	for begin := 0; begin <= len(text)+2; begin++ {
		for end := begin; end <= len(text)+2; end++ {
			var want []starlarklexer.Token
			for _, tok := range all {
				if tok.End >= begin && tok.Begin <= end {
					want = append(want, tok)
				}
			}
			got, err := d.Tokens(begin, end)
			if err != nil || len(got) != len(want) {
				t.Fatalf("%d to %d: %v, want %v; %v", begin, end, got, want, err)
			}
			for i := range want {
				if got[i] != want[i] {
					t.Fatalf("%d to %d: %v, want %v", begin, end, got[i], want[i])
				}
			}
			faults, err := d.Faults(begin, end)
			if want := end >= 17 && begin <= 19; err != nil || (len(faults) == 1) != want {
				t.Fatalf("%d to %d: %v; %v", begin, end, faults, err)
			}
		}
	}
}

func TestPlacesOfADocument(t *testing.T) {
	d := open(t, "a = '🔬é'\nb\n")
	defer d.Close()
	for _, test := range []struct {
		offset, line, column int
		position             string
	}{{0, 0, 0, "1:1"}, {5, 0, 5, "1:6"}, {9, 0, 7, "1:7"}, {11, 0, 8, "1:8"}, {13, 1, 0, "2:1"}, {15, 2, 0, "3:1"}} {
		position, ok := d.Position(test.offset)
		if !ok || position.String() != test.position {
			t.Errorf("offset %d is at %v, want %s", test.offset, position, test.position)
		}
		line, column, ok := d.UTF16(test.offset)
		if !ok || line != test.line || column != test.column {
			t.Errorf("offset %d is at %d:%d, want %d:%d", test.offset, line, column, test.line, test.column)
		}
		if offset, ok := d.OffsetAtUTF16(test.line, test.column); !ok || offset != test.offset {
			t.Errorf("%d:%d has the offset %d, want %d", test.line, test.column, offset, test.offset)
		}
	}
	for _, offset := range []int{-1, 6, 10, 16, 1 << 40} {
		if _, ok := d.Position(offset); ok {
			t.Errorf("offset %d has a position", offset)
		}
		if _, _, ok := d.UTF16(offset); ok {
			t.Errorf("offset %d has a column", offset)
		}
	}
	for _, place := range [][2]int{{0, 6}, {0, 10}, {3, 0}, {-1, 0}, {0, -1}} {
		if offset, ok := d.OffsetAtUTF16(place[0], place[1]); ok {
			t.Errorf("%v has the offset %d", place, offset)
		}
	}
}

func TestRefusedCallsChangeNothing(t *testing.T) {
	text := "x = 'é'\n"
	d := open(t, text)
	defer d.Close()
	for _, test := range []struct {
		begin, end int
		part       string
		want       error
	}{
		{-1, 0, "", starlarklexer.ErrBadRange}, {1, 0, "", starlarklexer.ErrBadRange}, {0, 100, "", starlarklexer.ErrBadRange},
		{6, 6, "", starlarklexer.ErrBadRange}, {0, 6, "a", starlarklexer.ErrBadRange}, {0, 0, "a\xff", starlarklexer.NotUTF8Error(1)},
	} {
		if change, err := d.Edit(test.begin, test.end, test.part); err != test.want || change != (starlarklexer.Change{}) {
			t.Errorf("Edit(%d, %d, %q): %v, want %v", test.begin, test.end, test.part, err, test.want)
		}
		compareDocument(t, d, text)
	}
	for _, bounds := range [][2]int{{-1, 2}, {2, 1}} {
		if _, err := d.Tokens(bounds[0], bounds[1]); err != starlarklexer.ErrBadRange {
			t.Error(bounds, err)
		}
		if _, err := d.Faults(bounds[0], bounds[1]); err != starlarklexer.ErrBadRange {
			t.Error(bounds, err)
		}
	}
	for _, bounds := range [][2]int{{-1, 2}, {2, 1}, {0, 100}, {0, 6}} {
		if _, err := d.Text(bounds[0], bounds[1]); err != starlarklexer.ErrBadRange {
			t.Error(bounds, err)
		}
	}
	if part, err := d.Text(4, 8); part != "'é'" || err != nil {
		t.Error(part, err)
	}
}

func TestClosedDocument(t *testing.T) {
	d := open(t, "x")
	for n := 0; n < 2; n++ {
		if err := d.Close(); err != nil {
			t.Fatal(err)
		}
	}
	_, edit := d.Edit(0, 0, "y")
	_, negative := d.Edit(-1, 0, "y")
	_, tokens := d.Tokens(0, 0)
	_, faults := d.Faults(0, 0)
	_, text := d.Text(0, 0)
	for _, err := range []error{edit, negative, tokens, faults, text} {
		if !errors.Is(err, starlarklexer.ErrClosed) {
			t.Error(err)
		}
	}
	if _, ok := d.Position(0); ok || d.Len() != 0 {
		t.Error("a closed document has a text")
	}
	if _, ok := d.OffsetAtUTF16(0, 0); ok {
		t.Error("a closed document has an offset")
	}
}

// Goroutines edit one document at once; each edit is whole.
func TestDocumentInGoroutines(t *testing.T) {
	d := open(t, "")
	defer d.Close()
	var group sync.WaitGroup
	for g := 0; g < 8; g++ {
		group.Add(1)
		go func() {
			defer group.Done()
			for n := 0; n < 100; n++ {
				if _, err := d.Edit(0, 0, "x = 'a\\n'\n"); err != nil {
					t.Error(err)
				}
				if _, err := d.Tokens(0, 20); err != nil {
					t.Error(err)
				}
			}
		}()
	}
	group.Wait()
	compareDocument(t, d, strings.Repeat("x = 'a\\n'\n", 800))
}
