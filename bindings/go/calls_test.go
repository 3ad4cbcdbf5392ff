package ipnetwork

import (
	"bytes"
	"fmt"
	"net/netip"
	"runtime"
	"runtime/pprof"
	"strings"
	"sync"
	"testing"
	"time"
)

// Questions about one network or address allocate nothing, wherever the text is in memory.
func TestNoAllocations(t *testing.T) {
	inFour, inSix := MustParse("10.1.9.32/16"), MustParse("2001:db8::1/32")
	one, other := netip.MustParseAddr("10.1.0.9"), netip.MustParseAddr("2001:db8::9")
	networks := []Network{inFour, inSix, MustParse("10.0.0.0/8")}
	table, _ := NewTable(networks)
	set, _ := NewSet(networks)
	room := make([]byte, 0, 64)
	packed, numbers, answers := make([]byte, 4096), make([]int, 1024), make([]byte, 1024)
	text := []byte("2001:db8::1:2:3/64")
	var read Network
	for name, ask := range map[string]func(){
		"Parse":     func() { read, _ = Parse("2001:db8::1/64") },
		"ParseAddr": func() { _, _ = ParseAddr("2001:db8::1") },
		"of bytes":  func() { _ = read.UnmarshalText(text) },
		"of a part": func() { read, _ = Parse(string(text[:11])) },
		"New":       func() { read, _ = New(one, 8) },
		"Contains":  func() { sink = inFour.Contains(one) != inSix.Contains(other) },
		"relations": func() { sink = inFour.IsSubnetOf(inSix) || inFour.Overlaps(inSix) || inFour.Compare(inSix) == 0 },
		"ends":      func() { sink = inFour.Network() == inSix.Broadcast() || inFour.Mask() == inSix.Mask() },
		"AppendTo":  func() { room = inSix.AppendTo(room[:0]) },
		"Find":      func() { sink = table.Find(one) != table.Find(other) },
		"in a Set":  func() { sink = set.Contains(one) != set.Contains(other) },
		"columns": func() {
			sink = table.FindColumn(packed, 4, numbers) != set.ContainsColumn(packed, 16, answers)
		},
		"no address":  func() { sink = table.Find(netip.Addr{}) == 0 || set.Contains(netip.Addr{}) },
		"of a prefix": func() { read, _ = FromPrefix(netip.PrefixFrom(other, 64)) },
	} {
		equal(t, "allocations of "+name, testing.AllocsPerRun(100, ask), 0.0)
	}
	for name, ask := range map[string]func(){
		"FindEach":     func() { sink = table.FindEach([]netip.Addr{one, other})[0] == 0 },
		"ContainsEach": func() { sink = set.ContainsEach([]netip.Addr{one, other})[0] },
	} {
		equal(t, "allocations of "+name, testing.AllocsPerRun(100, ask), 1.0)
	}
	var line string
	equal(t, "allocations of String", testing.AllocsPerRun(100, func() { line = inSix.String() }), 1.0)
	equal(t, "text", line, "2001:db8::1/32")
}

// Texts of about 64 bytes: a longer one is copied, and read by a separate call.
func TestLengths(t *testing.T) {
	nines := strings.Repeat("9", 80)
	for length := 60; length < 70; length++ {
		for text, wanted := range map[string]Fault{
			nines[:length]:                                   Address,
			"10.0.0.0/" + nines[:length-9]:                   Prefix,
			"2001:db8::/" + nines[:length-11]:                Prefix,
			"10.0.0.0/8/" + nines[:length-11]:                Format,
			nines[:length-2] + "//":                          Format,
			nines[:length-1] + "/":                           Address,
			"10.0.0.0/8" + strings.Repeat("\x00", length-10): Prefix,
		} {
			network, err := Parse(text)
			equal(t, "length", len(text), length)
			equal(t, "the cause of "+text, err, wanted)
			equal(t, "no network", network, Network{})
			address, err := ParseAddr(text)
			equal(t, "the cause as an address of "+text, err, Address)
			equal(t, "no address", address, netip.Addr{})
		}
	}
	long := "10.0.0.0/" + strings.Repeat("0", 80) + "8"
	short := long[:9] + long[len(long)-55:]
	equal(t, "allocations of 64 bytes", testing.AllocsPerRun(100, func() { _, _ = Parse(short) }), 0.0)
	equal(t, "allocations of a long text", testing.AllocsPerRun(100, func() { _, _ = Parse(long) }), 1.0)
	equal(t, "a long text", fmt.Sprint(len(short), MustParse(short), MustParse(long)), "64 10.0.0.0/8 10.0.0.0/8")
	longest := "ffff:ffff:ffff:ffff:ffff:ffff:255.255.255.255/128"
	equal(t, "the longest of net/netip", MustParse(longest).Prefix(), netip.MustParsePrefix(longest))
}

// Texts on the stacks of new goroutines, which are small and move as they grow, while garbage is collected.
func TestStacks(t *testing.T) {
	var wait sync.WaitGroup
	for row := 0; row < 2000; row++ {
		wait.Add(1)
		go func(row int) {
			defer wait.Done()
			if problem := deeper(row+1, row%60); problem != "" {
				t.Error(problem)
			}
		}(row)
		if row%50 == 0 {
			runtime.GC()
		}
	}
	wait.Wait()
}

// deeper reads a text on its stack, after some recursive calls, and asks about what it has read.
func deeper(row, depth int) string {
	var text [40]byte
	network, err := Parse(string(fmt.Appendf(text[:0], "2001:db8:%x::%x/48", row, row)))
	if depth > 0 {
		if problem := deeper(row+1, depth-1); problem != "" {
			return problem
		}
	}
	wanted := fmt.Sprintf("2001:db8:%x::%x/48", row, row)
	if err != nil || network.String() != wanted || !network.Contains(network.Broadcast()) {
		return wanted + " is " + network.String()
	}
	return ""
}

// Questions while a profile is taken, goroutines are preempted, and garbage is collected.
func TestWhileProfiled(t *testing.T) {
	var profile bytes.Buffer
	if err := pprof.StartCPUProfile(&profile); err != nil {
		t.Skip(err)
	}
	end := time.Now().Add(time.Second)
	var wait sync.WaitGroup
	for worker := 0; worker < 4; worker++ {
		wait.Add(1)
		go func() {
			defer wait.Done()
			texts := []string{"10.1.9.32/16", "2001:db8::1/32", "::ffff:192.0.2.9/128", strings.Repeat(":", 4000)}
			for count := 0; time.Now().Before(end); count++ {
				for row, text := range texts {
					network, err := Parse(text)
					if (err == nil) != (row < 3) || err == nil && !network.Contains(network.Network()) {
						t.Errorf("%s: %v %v", text, network, err)
						return
					}
				}
				if count%1000 == 0 {
					runtime.GC()
				}
			}
		}()
	}
	wait.Wait()
	pprof.StopCPUProfile()
	equal(t, "a profile", profile.Len() > 0, true)
}
