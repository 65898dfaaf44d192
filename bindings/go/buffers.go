//go:build cgo

package starlarklexer

import "sync"

// buffers are what a call of C fills, and its outcome.
type buffers struct {
	lexemes   []lexemeRecord
	values    []byte
	faults    []faultRecord
	outcome   lexOutcome
	recovered recoveredOutcome
}

// Larger buffers aren't kept: 2 MB of records.
const keptLexemes = 1 << 16

var pool = sync.Pool{New: func() any { return new(buffers) }}

func takeBuffers() *buffers { return pool.Get().(*buffers) }

// release keeps the buffers for a later call.
func (b *buffers) release() {
	if len(b.lexemes) <= keptLexemes && len(b.values) <= 16*keptLexemes && len(b.faults) <= keptLexemes {
		pool.Put(b)
	}
}

// grow makes room for numbers of lexemes, bytes of values, and faults. What was in the buffers may be
// lost.
func (b *buffers) grow(lexemes, values, faults int) {
	if len(b.lexemes) < lexemes {
		b.lexemes = make([]lexemeRecord, lexemes)
	}
	if len(b.values) < values {
		b.values = make([]byte, values)
	}
	if len(b.faults) < faults {
		b.faults = make([]faultRecord, faults)
	}
}

// fill calls a function that fills the buffers until they have room for all. Its outcome is in
// b.recovered.
func (b *buffers) fill(call func()) {
	for call(); b.recovered.status == statusFull; call() {
		b.grow(int(b.recovered.wantedLexemes), int(b.recovered.wantedValues), int(b.recovered.wantedFaults))
	}
}
