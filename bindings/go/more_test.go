package ipnetwork

import (
	"database/sql/driver"
	"errors"
	"fmt"
	"math/rand"
	"net/netip"
	"strings"
	"testing"
)

// Errors have the text, at most 60 bytes of it, and the cause.
func TestErrors(t *testing.T) {
	long := strings.Repeat("9", 1000)
	octets := []byte("10.0.0.0/33")
	var network Network
	ofOctets := network.UnmarshalText(octets)
	copy(octets, "XXXXXXXXXXX") // an error keeps a copy
	_, tooLong := Parse(long)
	_, longAddress := ParseAddr(long)
	_, newError := New(netip.MustParseAddr("10.0.0.1"), 33)
	_, noAddress := New(netip.MustParseAddr("fe80::1%eth0"), 64)
	_, noMask := PrefixOfMask(netip.MustParseAddr("255.0.255.0"))
	_, inSet := NewSet([]Network{MustParse("::/0"), {}})
	_, inTable := NewTable([]Network{{}})
	cut := `"` + long[:57] + `..."`
	for _, row := range []struct {
		err    error
		text   string
		wanted Fault
	}{
		{ofOctets, `"10.0.0.0/33": no prefix length of the family`, Prefix},
		{tooLong, cut + ": no address", Address},
		{longAddress, cut + ": no address", Address},
		{newError, `"10.0.0.1/33": no prefix length of the family`, Prefix},
		{noAddress, `"fe80::1%eth0/64": no address or network of the family`, NoFamily},
		{noMask, `"255.0.255.0": no mask`, NoMask},
		{inSet, `element 1, "": no address or network of the family`, NoFamily},
		{inTable, `element 0, "": no address or network of the family`, NoFamily},
		{new(Set).UnmarshalJSON([]byte(`["::/0", "` + long + `"]`)), "element 1, " + cut + ": no address", Address},
		{network.Scan(long), cut + ": no address", Address},
	} {
		var fault Fault
		equal(t, "message", row.err.Error(), row.text)
		equal(t, row.text, errors.Is(row.err, row.wanted) && errors.As(row.err, &fault) && fault == row.wanted, true)
	}
	var refused *Error
	equal(t, "as Error", errors.As(tooLong, &refused) && len(refused.Text) == 60 && refused.Fault == Address, true)
	defer func() { equal(t, "a panic", fmt.Sprint(recover()), "ipnetwork: "+cut+": no address") }()
	MustParse(long)
}

func TestScan(t *testing.T) {
	network := MustParse("10.0.0.0/8")
	for _, value := range []any{"", "10/8", []byte("x"), 10, true} {
		equal(t, fmt.Sprint(value), network.Scan(value) != nil, true)
		equal(t, "left as it was", network, MustParse("10.0.0.0/8"))
	}
	for _, value := range []any{"2001:db8::1/32", []byte("2001:db8::1/32")} {
		equal(t, "read", network.Scan(value), nil)
		written, err := network.Value()
		equal(t, "written", written, driver.Value("2001:db8::1/32"))
		equal(t, "written", err, nil)
		equal(t, "for a driver", driver.IsValue(written), true)
	}
	equal(t, "NULL", network.Scan(nil), nil)
	equal(t, "NULL", network, Network{})
	written, err := network.Value()
	equal(t, "NULL", fmt.Sprint(written, err), "<nil> <nil>")
}

// Sets compared with the same questions about each of 256 addresses of each family.
func TestSetQuestions(t *testing.T) {
	random := rand.New(rand.NewSource(8))
	whole := must(NewSet([]Network{MustParse("0.0.0.0/0"), MustParse("::/0")}))
	for round := 0; round < 300; round++ {
		networks, has := blocksWithin256(random, round%9)
		again, _ := blocksWithin256(random, round%9)
		set, other := must(NewSet(networks)), must(NewSet(again))
		rest := must(set.Complement())
		var ranges []string
		for host := 0; host < 256; host++ {
			equal(t, "complement", rest.Contains(netip.AddrFrom4([4]byte{192, 0, 2, byte(host)})), !has[host])
			if has[host] && (host == 0 || !has[host-1]) {
				ranges = append(ranges, fmt.Sprintf("{192.0.2.%d 192.0.2.", host))
			}
			if has[host] && (host == 255 || !has[host+1]) {
				ranges[len(ranges)-1] += fmt.Sprintf("%d}", host)
			}
		}
		all := set.Ranges()
		equal(t, "ranges", fmt.Sprint(all[:len(all)/2]), fmt.Sprint(ranges))
		equal(t, "as many of each family", len(all), 2*len(ranges))
		equal(t, "empty", set.IsEmpty(), len(networks) == 0)
		equal(t, "the complement of it", must(rest.Complement()).Equal(set), true)
		equal(t, "both", must(rest.Union(set)).Equal(whole), true)
		equal(t, "neither", must(rest.Intersection(set)).IsEmpty(), true)
		equal(t, "equal", set.Equal(other), fmt.Sprint(set.Networks()) == fmt.Sprint(other.Networks()))
	}
	equal(t, "nothing", must(whole.Complement()).IsEmpty() && must(Set{}.Complement()).Equal(whole), true)
	equal(t, "ranges", fmt.Sprint(whole.Ranges()), "[{0.0.0.0 255.255.255.255} {:: ffff:ffff:ffff:ffff:ffff:ffff:ffff:ffff}]")
	count := 0
	whole.All()(func(Network) bool { count++; return false })
	equal(t, "stopped", count, 1)
	equal(t, "none", fmt.Sprint(Set{}.Ranges(), Set{}.Networks(), Set{}.IsEmpty(), Set{}.Mapped().IsEmpty()), "[] [] true true")
}

func TestMaps(t *testing.T) {
	entries := []Entry[string]{{MustParse("10.0.0.0/8"), "one"}, {MustParse("10.1.9.32/16"), "two"}, {MustParse("10.1.0.0/16"), "three"}}
	held := must(NewMap(entries))
	entries[2].Value = "changed"
	for text, wanted := range map[string]string{"10.1.2.3": "10.1.0.0/16 three true", "10.2.0.0": "10.0.0.0/8 one true",
		"11.0.0.0": "  false", "::ffff:10.1.2.3": "  false"} {
		network, value, found := held.Find(netip.MustParseAddr(text))
		equal(t, text, fmt.Sprintln(network, value, found), wanted+"\n")
	}
	_, value, found := held.Mapped().Find(netip.MustParseAddr("::ffff:10.2.0.1"))
	equal(t, "mapped", fmt.Sprintln(value, found), "one true\n")
	var all []string
	held.All()(func(network Network, value string) bool {
		all = append(all, fmt.Sprint(network, " ", value))
		return len(all) < 2
	})
	equal(t, "all", fmt.Sprint(all, held.Len()), "[10.0.0.0/8 one 10.1.9.32/16 two] 3")
	_, err := NewMap([]Entry[int]{{}})
	equal(t, "no network", err, NoFamily)
	_, _, found = Map[int]{}.Find(netip.MustParseAddr("::1"))
	equal(t, "none", found, false)
}

// A set or a table is made of a copy of the networks.
func TestCopies(t *testing.T) {
	networks := []Network{MustParse("10.0.0.0/8")}
	set, table := must(NewSet(networks)), must(NewTable(networks))
	networks[0] = MustParse("11.0.0.0/8")
	equal(t, "kept", fmt.Sprint(set.Contains(netip.MustParseAddr("10.1.2.3")), table.Find(netip.MustParseAddr("10.1.2.3"))), "true 0")
}
