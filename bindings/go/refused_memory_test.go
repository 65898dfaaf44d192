//go:build cgo && linux && refused_memory

package starlarklexer_test

import (
	"testing"
	"unsafe"

	"example.org/starlarklexer"
	"example.org/starlarklexer/internal/refusing"
)

// Each allocation of a call is refused in turn: the call returns ErrMemory and no tokens.
func TestRefusedMemory(t *testing.T) {
	refusals := 0
	for _, src := range append(seeds, "x = 'a\nif y:\n  z = 01\n\n$\nf'{b!r} c' + \"\\q\nclass\nd(  # e\n") {
		want, wantErr := starlarklexer.Tokenize("", src)
		all, allErr := starlarklexer.Recover("", src)
		for number := 0; ; number++ {
			var got []starlarklexer.Token
			var err error
			refused := refusing.One(number, func() { got, err = starlarklexer.Tokenize("", src) })
			if !refused {
				if len(got) != len(want) || (err == nil) != (wantErr == nil) {
					t.Fatalf("%q: %d tokens and %v, want %d and %v", src, len(got), err, len(want), wantErr)
				}
				break
			}
			if err != starlarklexer.ErrMemory || got != nil {
				t.Fatalf("%q: %d tokens and %v without allocation %d", src, len(got), err, number)
			}
			refusals++
		}
		for number := 0; ; number++ {
			var got []starlarklexer.Token
			var err error
			refused := refusing.One(number, func() { got, err = starlarklexer.Recover("", src) })
			if !refused {
				if len(got) != len(all) || (err == nil) != (allErr == nil) {
					t.Fatalf("%q: %d tokens and %v, want %d and %v", src, len(got), err, len(all), allErr)
				}
				break
			}
			if err != starlarklexer.ErrMemory || got != nil {
				t.Fatalf("%q: %d tokens and %v without allocation %d", src, len(got), err, number)
			}
			refusals++
		}
	}
	if refusals < 20 {
		t.Error("only", refusals, "allocations were refused")
	}
	t.Log(refusals, "allocations were refused")
}

// A document whose call has no memory is as it was before the call. A call that asks for less where it
// was refused may do its work all the same.
func TestRefusedMemoryOfDocuments(t *testing.T) {
	refusals := 0
	for i, src := range seeds {
		refusals += refuseOpening(t, src)
		refusals += refuseEdit(t, src, seeds[len(seeds)-1-i])
	}
	if refusals < 100 {
		t.Error("only", refusals, "allocations were refused")
	}
	t.Log(refusals, "allocations were refused")
}

func refuseOpening(t *testing.T, src string) (refusals int) {
	for number := 0; ; number++ {
		var d *starlarklexer.Document
		var err error
		refused := refusing.One(number, func() { d, err = starlarklexer.NewDocument(src) })
		switch {
		case err == nil:
			compareDocument(t, d, src)
			d.Close()
		case err != starlarklexer.ErrMemory || d != nil || !refused:
			t.Fatalf("%q: %v without allocation %d", src, err, number)
		default:
			refusals++
		}
		if !refused {
			return refusals
		}
	}
}

func refuseEdit(t *testing.T, src, part string) (refusals int) {
	for number := 0; ; number++ {
		d := open(t, src)
		var err error
		refused := refusing.One(number, func() { _, err = d.Edit(0, 0, part) })
		switch {
		case err == nil:
			compareDocument(t, d, part+src)
		case err != starlarklexer.ErrMemory || !refused:
			t.Fatalf("%q: %v without allocation %d", src, err, number)
		default:
			compareDocument(t, d, src)
			refusals++
		}
		d.Close()
		if !refused {
			return refusals
		}
	}
}

// A text of 4 GB that nothing reads or writes, so that it takes no memory.
func TestTooLong(t *testing.T) {
	bytes := make([]byte, 1<<32)
	src := *(*string)(unsafe.Pointer(&bytes))
	if tokens, err := starlarklexer.Tokenize("", src); err != starlarklexer.ErrTooLong || tokens != nil {
		t.Error("Tokenize:", err)
	}
	if tokens, err := starlarklexer.Recover("", src); err != starlarklexer.ErrTooLong || tokens != nil {
		t.Error("Recover:", err)
	}
	if _, err := starlarklexer.NewDocument(src); err != starlarklexer.ErrTooLong {
		t.Error("NewDocument:", err)
	}
	d := open(t, "x")
	defer d.Close()
	if _, err := d.Edit(0, 0, src); err != starlarklexer.ErrTooLong {
		t.Error("Edit:", err)
	}
	compareDocument(t, d, "x")
}
