package ipnetwork

import (
	"fmt"
	"math/rand"
	"net/netip"
	"testing"
)

// shape returns random networks, all of a family or of both: few or many, at the ends of the address space or within,
// nested, adjacent or far from each other.
func shape(random *rand.Rand) (networks []Network) {
	count := []int{0, 1, 2, 7, 8, 9, 40, 300, 3000}[random.Intn(9)]
	base, kind, families := number(random), random.Intn(6), random.Intn(3)
	for row := 0; row < count; row++ {
		octets, place := number(random), random.Intn(16)
		switch kind {
		case 0: // within one network
			copy(octets[:3], base[:3])
		case 1: // adjacent
			octets = base
			octets[2], octets[3], octets[14], octets[15] = byte(row>>8), byte(row), byte(row>>8), byte(row)
		case 2: // at the ends
			for at := range octets {
				octets[at] = byte(-(row % 2))
			}
			octets[place] ^= byte(random.Intn(4))
		case 3: // nested
			octets = base
		}
		four, six := netip.AddrFrom4(*(*[4]byte)(octets[:4])), netip.AddrFrom16(octets)
		least := []int{0, 6, 8, 20}[random.Intn(4)]
		if families != 0 {
			network, _ := New(four, least+random.Intn(33-least))
			networks = append(networks, network)
		}
		if families != 1 {
			network, _ := New(six, 4*least+random.Intn(129-4*least))
			networks = append(networks, network)
		}
	}
	return networks
}

// around returns addresses of a family in and next to some networks, random ones, and the first and last of all.
func around(random *rand.Rand, networks []Network, isFour bool, count int) (addresses []netip.Addr) {
	addresses = append(addresses, netip.IPv6Unspecified(), netip.MustParseAddr("ffff:ffff:ffff:ffff:ffff:ffff:ffff:ffff"))
	if isFour {
		addresses = []netip.Addr{netip.IPv4Unspecified(), netip.MustParseAddr("255.255.255.255")}
	}
	for len(addresses) < count {
		one, other := pair(random, isFour)
		addresses = append(addresses, one, other)
		if len(networks) > 0 {
			network := networks[random.Intn(len(networks))]
			for _, end := range []netip.Addr{network.Network(), network.Broadcast()} {
				for _, address := range []netip.Addr{end, end.Prev(), end.Next()} {
					if address.IsValid() && address.Is4() == isFour {
						addresses = append(addresses, address)
					}
				}
			}
		}
	}
	return addresses
}

// searches compares the search in Go with that of the library, in a set and a table, and returns how many it did.
func searches(t *testing.T, networks []Network, addresses []netip.Addr) int {
	set, err := NewSet(networks)
	equal(t, "set", err, nil)
	table, err := NewTable(networks)
	equal(t, "table", err, nil)
	var packed []byte
	for _, address := range addresses {
		packed = append(packed, address.AsSlice()...)
	}
	has, found := make([]byte, len(addresses)), make([]int, len(addresses))
	equal(t, "column", set.ContainsColumn(packed, len(packed)/len(addresses), has), nil)
	equal(t, "column", table.FindColumn(packed, len(packed)/len(addresses), found), nil)
	for row, address := range addresses {
		if set.Contains(address) != (has[row] == 1) || table.Find(address) != found[row] || (has[row] == 1) != (found[row] >= 0) {
			t.Fatalf("%v in %v: in Go %v %v, in the library %v %v", address, networks, set.Contains(address),
				table.Find(address), has[row], found[row])
		}
	}
	return 2 * len(addresses)
}

// Ten searches for each row that the environment asks for, in sets and tables of all shapes.
func TestSearches(t *testing.T) {
	random := rand.New(rand.NewSource(93))
	done := 0
	for round := 0; done < 10*rows(); round++ {
		networks, isFour := shape(random), round%2 == 0
		done += searches(t, networks, around(random, networks, isFour, 500))
	}
	fmt.Printf("Go: %d searches as by the library\n", done)
}

// FuzzSearch makes networks and addresses of the octets that the fuzzer chooses.
func FuzzSearch(f *testing.F) {
	f.Add([]byte("12345678"), int64(1), true)
	f.Add(make([]byte, 900), int64(2), false)
	f.Fuzz(func(t *testing.T, octets []byte, seed int64, isFour bool) {
		width := map[bool]int{true: 4, false: 16}[isFour]
		var networks []Network
		for ; len(octets) > width; octets = octets[width+1:] {
			address, _ := netip.AddrFromSlice(octets[:width])
			network, _ := New(address, int(octets[width])%(8*width+1))
			networks = append(networks, network)
		}
		searches(t, networks, around(rand.New(rand.NewSource(seed)), networks, isFour, 50))
	})
}

// Questions about one network compared with the column of the library.
func TestContainsAsColumn(t *testing.T) {
	random := rand.New(rand.NewSource(94))
	for row := 0; row < rows(); row++ {
		one, other := pair(random, row%2 == 0)
		network, _ := New(one, random.Intn(one.BitLen()+1))
		answer := make([]byte, 1)
		equal(t, "column", network.ContainsColumn(other.AsSlice(), answer), nil)
		equal(t, fmt.Sprint(network, " contains ", other), network.Contains(other), answer[0] == 1)
	}
}

// Where a netip.Addr lies in memory in another way, its octets are asked.
func TestOtherLayout(t *testing.T) {
	random := rand.New(rand.NewSource(95))
	addresses := []netip.Addr{{}, netip.MustParseAddr("::1%eth0"), netip.IPv6Unspecified(), netip.IPv4Unspecified()}
	for row := 0; row < 100; row++ {
		one, other := pair(random, row%2 == 0)
		addresses = append(addresses, one, other, netip.AddrFrom16(one.As16()))
	}
	networks := []Network{MustParse("0.0.0.0/1"), MustParse("::/1")}
	set, _ := NewSet(networks)
	table, _ := NewTable(networks)
	ask := func() (answers []any) {
		for _, address := range addresses {
			number, width := numbered(address)
			answers = append(answers, number, width, number.address(width), set.Contains(address), table.Find(address),
				networks[0].Contains(address), networks[1].Contains(address))
		}
		return answers
	}
	wanted, four, six := fmt.Sprint(ask()), fourKind, sixKind
	fourKind, sixKind = kind("::1", "1.2.3.4"), kind("::1", "1.2.3.4")
	defer func() { fourKind, sixKind = four, six }()
	equal(t, "no kind", fourKind == four || sixKind == six || fourKind == nil, false)
	equal(t, "by octets", fmt.Sprint(ask()), wanted)
	for row, address := range addresses {
		number, width := numbered(address)
		if width > 0 {
			equal(t, "address", number.address(width), address)
		} else {
			equal(t, "no address", row < 2, true)
		}
	}
}
