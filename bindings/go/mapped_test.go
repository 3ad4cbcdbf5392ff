package ipnetwork

import (
	"encoding/json"
	"fmt"
	"math/rand"
	"net/netip"
	"testing"
)

// nearMapped returns random networks within, around and next to ::ffff:192.0.2.0/120 and 192.0.2.0/24, by net/netip.
func nearMapped(random *rand.Rand) (prefixes []netip.Prefix, networks []Network) {
	for row := random.Intn(9); row >= 0; row-- {
		four := netip.AddrFrom4([4]byte{192, 0, 2, byte(random.Intn(256))})
		six := netip.AddrFrom16(four.As16())
		prefix := netip.PrefixFrom(six, []int{0, 80, 95, 96, 97, 104, 120}[random.Intn(7)])
		switch kind := random.Intn(9); {
		case kind < 4:
			prefix = netip.PrefixFrom(four, 24+random.Intn(9))
		case kind < 7:
			prefix = netip.PrefixFrom(six, 120+random.Intn(9))
		case kind == 7:
			prefix = netip.MustParsePrefix([]string{"10.0.0.0/8", "2001:db8::/32", "0.0.0.0/0", "192.0.0.0/22"}[random.Intn(4)])
		}
		network, _ := FromPrefix(prefix)
		prefixes, networks = append(prefixes, prefix), append(networks, network)
	}
	return prefixes, networks
}

// longest returns the number of the last of the longest prefixes that contain an address, or -1.
func longestOf(prefixes []netip.Prefix, address netip.Addr) int {
	found := -1
	for number, prefix := range prefixes {
		if prefix.Contains(address) && (found < 0 || prefix.Bits() >= prefixes[found].Bits()) {
			found = number
		}
	}
	return found
}

// mappedLongest is the sentence on mapped addresses.
func mappedLongest(prefixes []netip.Prefix, address netip.Addr) int {
	if address.Zone() == "" {
		if found := longestOf(prefixes, address.Unmap()); found >= 0 {
			return found
		}
	}
	return longestOf(prefixes, address)
}

// Sets, tables and operations with Mapped, compared with net/netip by the sentence on mapped addresses.
func TestMapped(t *testing.T) {
	random := rand.New(rand.NewSource(1))
	others := []string{"192.0.1.255", "192.0.3.0", "10.1.2.3", "::", "::fffe:ffff:ffff", "::1:0:0:0", "::ffff:0:0", "::ffff:10.1.2.3",
		"::ffff:255.255.255.255", "2001:db8::1", "::ffff:192.0.2.1%eth0", "64:ff9b::192.0.2.1"}
	addresses := []netip.Addr{{}}
	for _, text := range others {
		addresses = append(addresses, netip.MustParseAddr(text))
	}
	for host := 0; host < 256; host += 3 {
		four := netip.AddrFrom4([4]byte{192, 0, 2, byte(host)})
		addresses = append(addresses, four, netip.AddrFrom16(four.As16()))
	}
	for round := 0; round < 500; round++ {
		prefixes, networks := nearMapped(random)
		others, second := nearMapped(random)
		plain, _ := NewSet(networks)
		other, _ := NewSet(second)
		set, table := plain.Mapped(), must(NewTable(networks)).Mapped()
		union, common, left, rest := must(set.Union(other)), must(other.Intersection(set)), must(set.Difference(other)), must(set.Complement())
		has, found := set.ContainsEach(addresses), table.FindEach(addresses)
		for row, address := range addresses {
			wanted := mappedLongest(prefixes, address)
			inOther := mappedLongest(others, address) >= 0
			own := []any{table.Find(address), found[row], set.Contains(address), has[row], union.Contains(address),
				common.Contains(address), left.Contains(address), rest.Contains(address)}
			is := wanted >= 0
			should := []any{wanted, wanted, is, is, is || inOther, is && inOther, is && !inOther, !is && address.IsValid() && address.Zone() == ""}
			for at := range own {
				if own[at] != should[at] {
					t.Fatalf("%v in %v and %v: here %v, wanted %v", address, prefixes, others, own, should)
				}
			}
			equal(t, "only adds", plain.Contains(address) && !is, false)
		}
		asColumns(t, table, set, addresses)
		equal(t, "again", set.Mapped().Equal(set), true)
	}
}

func must[Made any](made Made, err error) Made {
	if err != nil {
		panic(err)
	}
	return made
}

// Covers, with and without Mapped: each address of a network is asked, in one of its forms.
func TestCovers(t *testing.T) {
	random := rand.New(rand.NewSource(2))
	seen := map[bool]int{}
	for round := 0; round < 2000; round++ {
		prefixes, networks := nearMapped(random)
		set, _ := NewSet(networks)
		for i := 0; i < 10; i++ {
			four := netip.AddrFrom4([4]byte{192, 0, 2, byte(random.Intn(256))})
			asked := netip.PrefixFrom(four, 25+random.Intn(8))
			if i%3 > 0 {
				asked = netip.PrefixFrom(netip.AddrFrom16(four.As16()), 120+random.Intn(9))
			}
			covered, mapped := true, true
			for address := asked.Masked().Addr(); asked.Contains(address); address = address.Next() {
				covered = covered && longestOf(prefixes, address) >= 0
				mapped = mapped && mappedLongest(prefixes, address) >= 0
			}
			network, _ := FromPrefix(asked)
			equal(t, fmt.Sprint(asked, " in ", prefixes), set.Covers(network), covered)
			equal(t, fmt.Sprint(asked, " mapped in ", prefixes), set.Mapped().Covers(network), mapped)
			seen[mapped]++
		}
	}
	equal(t, "both", seen[true] > 1000 && seen[false] > 1000, true)
	for _, row := range []struct {
		list  []string
		asked string
		plain bool
		with  bool
	}{
		{[]string{"0.0.0.0/0", "::fffe:0:0/96"}, "::fffe:0:0/95", false, true},
		{[]string{"0.0.0.0/1", "::ffff:128.0.0.0/97"}, "::ffff:0:0/96", false, true},
		{[]string{"0.0.0.0/1", "::ffff:128.0.0.0/98"}, "::ffff:0:0/96", false, false},
		{[]string{"::ffff:0:0/96"}, "0.0.0.0/0", false, false},
		{[]string{"::/0"}, "::/0", true, true},
		{[]string{"::ffff:10.0.0.0/104"}, "::ffff:10.0.0.0/104", true, true},
		{[]string{"0.0.0.0/0"}, "::/0", false, false},
		{nil, "255.255.255.255/32", false, false},
	} {
		var list []Network
		for _, text := range row.list {
			list = append(list, MustParse(text))
		}
		set, _ := NewSet(list)
		network := MustParse(row.asked)
		equal(t, row.asked, fmt.Sprint(set.Covers(network), set.Mapped().Covers(network)), fmt.Sprint(row.plain, row.with))
		equal(t, "the zero Network", set.Covers(Network{}) || set.Mapped().Covers(Network{}), false)
	}
}

// JSON of a set of Mapped has its members, and a list that is read into one is Mapped too.
func TestMappedJSON(t *testing.T) {
	set := must(NewSet([]Network{MustParse("10.0.0.0/8")})).Mapped()
	text, err := json.Marshal(set)
	equal(t, "printed", fmt.Sprint(string(text), err), `["10.0.0.0/8","::ffff:10.0.0.0/104"]<nil>`)
	equal(t, "read", json.Unmarshal([]byte(`["11.0.0.0/8"]`), &set), nil)
	equal(t, "read", set.Contains(netip.MustParseAddr("::ffff:11.0.0.1")), true)
}
