//go:build !race

package ipnetwork

import (
	"fmt"
	"sync"
	"sync/atomic"
	"testing"
	"time"
)

// Another goroutine writes the offsets, which is wrong, while they are read: the calls use what they have checked.
func TestOffsetsWrittenMeanwhile(t *testing.T) {
	texts, offsets := []byte("10.0.0.0/8"), make([]uint32, 1001)
	offsets[1000] = 10
	networks, faults := make([]Network, 1000), make([]byte, 1000)
	var begun, wait sync.WaitGroup
	var ended atomic.Bool
	begun.Add(1)
	wait.Add(1)
	go func() {
		defer wait.Done()
		begun.Done()
		for value := uint32(0); !ended.Load(); value ^= 0xffffff00 {
			atomic.StoreUint32(&offsets[999], value)
		}
	}()
	begun.Wait()
	for start := time.Now(); time.Since(start) < time.Second; {
		if ReadColumn(texts, offsets, networks, faults) == nil {
			equal(t, "rows", fmt.Sprint(faults[997:]), "[2 2 0]")
		}
		_, _, _ = ParseColumn(texts, offsets)
		_, _ = ParseAddrColumn(texts, offsets)
	}
	ended.Store(true)
	wait.Wait()
}
