//go:build !windows

package starlarkgo

import (
	"syscall"
	"testing"
	"time"
)

// processorTime returns the processor time of this process so far.
func processorTime() time.Duration {
	var usage syscall.Rusage
	if syscall.Getrusage(syscall.RUSAGE_SELF, &usage) != nil {
		return 0
	}
	return time.Duration(usage.Utime.Nano() + usage.Stime.Nano())
}

// TestSpeed times both scanners in turns, by processor time, with what the garbage collector takes.
func TestSpeed(t *testing.T) {
	if testing.Short() {
		t.Skip("takes seconds")
	}
	text := speedText(nil)
	least := map[string]time.Duration{}
	for turn := 0; turn < 40; turn++ {
		for name, run := range runs {
			begun := processorTime()
			const times = 4
			for i := 0; i < times; i++ {
				run(t, text)
			}
			if took := (processorTime() - begun) / times; least[name] == 0 || took < least[name] {
				least[name] = took
			}
		}
	}
	theirs := least["starlark-go"]
	for name, took := range least {
		allocations := testing.AllocsPerRun(3, func() { runs[name](t, text) })
		t.Logf("%-24s %8.2f ms, %7.0f allocations, %5.2f times starlark-go's rate", name, took.Seconds()*1000, allocations, theirs.Seconds()/took.Seconds())
		if name == "Scanner" && (allocations > 200 || theirs < 4*took) {
			t.Error("Scanner has to be 4 times starlark-go's scanner, with at most 200 allocations")
		}
	}
}
