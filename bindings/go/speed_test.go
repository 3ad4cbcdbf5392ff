package ipnetwork

import (
	"math/rand"
	"net/netip"
	"strings"
	"testing"
)

// Each measurement is of one question, or of one row of a column; those of net/netip are next to them.

var (
	sink     bool
	four     = netip.MustParsePrefix("10.1.9.32/16")
	six      = netip.MustParsePrefix("2001:db8:47::1/48")
	oneFour  = netip.MustParseAddr("10.1.255.255")
	oneSix   = netip.MustParseAddr("2001:db8:47::9")
	fourText = four.String()
	sixText  = six.String()
)

func benchContains(b *testing.B, prefix netip.Prefix, address netip.Addr) {
	network, _ := FromPrefix(prefix)
	b.ReportAllocs()
	for i := 0; i < b.N; i++ {
		sink = network.Contains(address)
	}
}

func benchContainsOfNetip(b *testing.B, prefix netip.Prefix, address netip.Addr) {
	for i := 0; i < b.N; i++ {
		sink = prefix.Contains(address)
	}
}

func BenchmarkContains4(b *testing.B)        { benchContains(b, four, oneFour) }
func BenchmarkContains4OfNetip(b *testing.B) { benchContainsOfNetip(b, four, oneFour) }
func BenchmarkContains6(b *testing.B)        { benchContains(b, six, oneSix) }
func BenchmarkContains6OfNetip(b *testing.B) { benchContainsOfNetip(b, six, oneSix) }

func benchParse(b *testing.B, text string) {
	b.ReportAllocs()
	for i := 0; i < b.N; i++ {
		network, _ := Parse(text)
		sink = network.Is4()
	}
}

func benchParseOfNetip(b *testing.B, text string) {
	b.ReportAllocs()
	for i := 0; i < b.N; i++ {
		prefix, _ := netip.ParsePrefix(text)
		sink = prefix.Addr().Is4()
	}
}

func BenchmarkParse4(b *testing.B)        { benchParse(b, fourText) }
func BenchmarkParse4OfNetip(b *testing.B) { benchParseOfNetip(b, fourText) }
func BenchmarkParse6(b *testing.B)        { benchParse(b, sixText) }
func BenchmarkParse6OfNetip(b *testing.B) { benchParseOfNetip(b, sixText) }

func BenchmarkAppendTo6(b *testing.B) {
	network, _ := FromPrefix(six)
	var room [64]byte
	b.ReportAllocs()
	for i := 0; i < b.N; i++ {
		sink = len(network.AppendTo(room[:0])) == 0
	}
}

func BenchmarkAppendTo6OfNetip(b *testing.B) {
	var room [64]byte
	b.ReportAllocs()
	for i := 0; i < b.N; i++ {
		sink = len(six.AppendTo(room[:0])) == 0
	}
}

func benchOverlaps(b *testing.B, prefix, other netip.Prefix) {
	network, _ := FromPrefix(prefix)
	second, _ := FromPrefix(other)
	for i := 0; i < b.N; i++ {
		sink = network.Overlaps(second)
	}
}

func benchOverlapsOfNetip(b *testing.B, prefix, other netip.Prefix) {
	for i := 0; i < b.N; i++ {
		sink = prefix.Overlaps(other)
	}
}

func BenchmarkOverlaps4(b *testing.B) { benchOverlaps(b, four, netip.PrefixFrom(oneFour, 24)) }
func BenchmarkOverlaps4OfNetip(b *testing.B) {
	benchOverlapsOfNetip(b, four, netip.PrefixFrom(oneFour, 24))
}
func BenchmarkOverlaps6(b *testing.B) { benchOverlaps(b, six, netip.PrefixFrom(oneSix, 64)) }
func BenchmarkOverlaps6OfNetip(b *testing.B) {
	benchOverlapsOfNetip(b, six, netip.PrefixFrom(oneSix, 64))
}

func BenchmarkCompare6(b *testing.B) {
	network, _ := FromPrefix(six)
	for i := 0; i < b.N; i++ {
		sink = network.Compare(network) == 0
	}
}

func BenchmarkIsSubnetOf6(b *testing.B) {
	network, _ := FromPrefix(six)
	for i := 0; i < b.N; i++ {
		sink = network.IsSubnetOf(network)
	}
}

func BenchmarkCompareOfNetip(b *testing.B) {
	for i := 0; i < b.N; i++ {
		sink = six.Addr().Compare(six.Addr()) == 0
	}
}

func BenchmarkMasked6(b *testing.B) {
	network, _ := FromPrefix(six)
	for i := 0; i < b.N; i++ {
		sink = network.Network().Is4()
	}
}

func BenchmarkMasked6OfNetip(b *testing.B) {
	for i := 0; i < b.N; i++ {
		sink = six.Masked().Addr().Is4()
	}
}

// many is the number of rows of each column or slice below.
const many = 4096

// benchRows asks about as many rows as there are measurements, many at a time.
func benchRows(b *testing.B, ask func()) {
	b.ReportAllocs()
	b.ResetTimer()
	for done := 0; done < b.N; done += many {
		ask()
	}
}

func benchContainsColumn(b *testing.B, prefix netip.Prefix) {
	network, _ := FromPrefix(prefix)
	column, answers := make([]byte, prefix.Addr().BitLen()/8*many), make([]byte, many)
	benchRows(b, func() { _ = network.ContainsColumn(column, answers) })
}

func BenchmarkContainsColumn4(b *testing.B) { benchContainsColumn(b, four) }
func BenchmarkContainsColumn6(b *testing.B) { benchContainsColumn(b, six) }

func BenchmarkContainsEach(b *testing.B) {
	network, addresses := MustParse("10.1.9.32/16"), make([]netip.Addr, many)
	for row := range addresses {
		addresses[row] = oneFour
	}
	benchRows(b, func() { sink = network.ContainsEach(addresses)[0] })
}

// benchReadColumn measures the texts that benchParse reads, and random texts of both families, some of which name
// nothing.
func benchReadColumn(b *testing.B, whole []byte, offsets []uint32) {
	networks, faults := make([]Network, many), make([]byte, many)
	benchRows(b, func() { _ = ReadColumn(whole, offsets, networks, faults) })
}

func sameTexts(text string) (whole []byte, offsets []uint32) {
	for row := 0; row <= many; row++ {
		offsets = append(offsets, uint32(row*len(text)))
	}
	return []byte(strings.Repeat(text, many)), offsets
}

func BenchmarkReadColumn4(b *testing.B) {
	whole, offsets := sameTexts(fourText)
	benchReadColumn(b, whole, offsets)
}

func BenchmarkReadColumn6(b *testing.B) {
	whole, offsets := sameTexts(sixText)
	benchReadColumn(b, whole, offsets)
}

func BenchmarkReadColumn(b *testing.B) {
	whole, offsets, _ := texts(rand.New(rand.NewSource(1)), many)
	benchReadColumn(b, whole, offsets)
}

func BenchmarkParseAddrColumn(b *testing.B) {
	whole, offsets, _ := texts(rand.New(rand.NewSource(1)), many)
	benchRows(b, func() {
		addresses, _ := ParseAddrColumn(whole, offsets)
		sink = addresses[0].Is4()
	})
}

func BenchmarkParseEach(b *testing.B) {
	_, _, each := texts(rand.New(rand.NewSource(1)), many)
	benchRows(b, func() {
		networks, _ := ParseEach(each)
		sink = networks[0].Is4()
	})
}

func BenchmarkParseAddrsOfNetip(b *testing.B) {
	_, _, each := texts(rand.New(rand.NewSource(1)), many)
	benchRows(b, func() {
		for _, text := range each {
			address, _ := netip.ParseAddr(text)
			sink = address.Is4()
		}
	})
}

// networks10000 returns 10,000 random networks of a family with prefix lengths from 20 to 28, or 80 to 112, and as many
// random addresses, half of which are in one of them.
func networks10000(isFour bool) (networks []Network, addresses []netip.Addr) {
	random := rand.New(rand.NewSource(1))
	any := func() netip.Addr {
		var octets [16]byte
		random.Read(octets[:])
		if isFour {
			return netip.AddrFrom4(*(*[4]byte)(octets[:4]))
		}
		return netip.AddrFrom16(octets)
	}
	for len(networks) < 10000 {
		address := any()
		network, _ := New(address, (20+random.Intn(9))*address.BitLen()/32)
		if random.Intn(2) == 0 {
			address = any()
		}
		networks, addresses = append(networks, network), append(addresses, address)
	}
	random.Shuffle(len(addresses), func(i, j int) { addresses[i], addresses[j] = addresses[j], addresses[i] })
	return networks, addresses
}

func benchFind(b *testing.B, isFour bool) {
	networks, addresses := networks10000(isFour)
	table, _ := NewTable(networks)
	b.ReportAllocs()
	b.ResetTimer()
	for i := 0; i < b.N; i++ {
		sink = table.Find(addresses[i%many]) < 0
	}
}

func BenchmarkFind(b *testing.B)  { benchFind(b, true) }
func BenchmarkFind6(b *testing.B) { benchFind(b, false) }

func benchContainsOfSet(b *testing.B, isFour bool) {
	networks, addresses := networks10000(isFour)
	set, _ := NewSet(networks)
	b.ReportAllocs()
	b.ResetTimer()
	for i := 0; i < b.N; i++ {
		sink = set.Contains(addresses[i%many])
	}
}

func BenchmarkContainsOfSet(b *testing.B)  { benchContainsOfSet(b, true) }
func BenchmarkContainsOfSet6(b *testing.B) { benchContainsOfSet(b, false) }

// packed10000 returns many of the addresses of networks10000, one after the other.
func packed10000(addresses []netip.Addr) (packed []byte) {
	for _, address := range addresses[:many] {
		packed = append(packed, address.AsSlice()...)
	}
	return packed
}

func BenchmarkFindColumn(b *testing.B) {
	networks, addresses := networks10000(true)
	table, _ := NewTable(networks)
	packed, numbers := packed10000(addresses), make([]int, many)
	benchRows(b, func() { _ = table.FindColumn(packed, 4, numbers) })
}

func BenchmarkFindEach(b *testing.B) {
	networks, addresses := networks10000(true)
	table, _ := NewTable(networks)
	benchRows(b, func() { sink = table.FindEach(addresses[:many])[0] < 0 })
}

func BenchmarkContainsColumnOfSet(b *testing.B) {
	networks, addresses := networks10000(true)
	set, _ := NewSet(networks)
	packed, answers := packed10000(addresses), make([]byte, many)
	benchRows(b, func() { _ = set.ContainsColumn(packed, 4, answers) })
}

// A whole table.
func BenchmarkNewTableOf10000(b *testing.B) {
	networks, _ := networks10000(true)
	b.ReportAllocs()
	b.ResetTimer()
	for i := 0; i < b.N; i++ {
		_, _ = NewTable(networks)
	}
}
