package ipnetwork

import (
	"encoding/json"
	"errors"
	"fmt"
	"math/rand"
	"net/netip"
	"sync"
	"testing"
)

func TestSets(t *testing.T) {
	halves := []Network{MustParse("10.128.0.0/9"), MustParse("2001:db8::/32"), MustParse("10.0.0.0/9"), MustParse("10.1.9.32/16")}
	blocks, err := Aggregate(halves)
	equal(t, "aggregate", fmt.Sprint(blocks, err), "[10.0.0.0/8 2001:db8::/32] <nil>")
	one, _ := NewSet(halves[:1])
	other, _ := NewSet(halves[1:])
	both, err := one.Union(other)
	equal(t, "union", fmt.Sprint(both.Networks(), err), "[10.0.0.0/8 2001:db8::/32] <nil>")
	for text, wanted := range map[string]bool{"10.255.0.0": true, "11.0.0.0": false, "2001:db8::1": true, "2001:db9::": false} {
		equal(t, text, both.Contains(netip.MustParseAddr(text)), wanted)
	}
}

// blocksWithin256 returns random networks of both families within 256 addresses, and which of these they have.
func blocksWithin256(random *rand.Rand, count int) ([]Network, [256]bool) {
	var networks []Network
	var has [256]bool
	for i := 0; i < count; i++ {
		host, bits := byte(random.Intn(256)), random.Intn(7)
		four, _ := New(netip.AddrFrom4([4]byte{192, 0, 2, host}), 32-bits)
		six, _ := New(netip.AddrFrom16([16]byte{0x20, 1, 15: host}), 128-bits)
		networks = append(networks, four, six)
		low := int(host) >> bits << bits
		for address := low; address < low+1<<bits; address++ {
			has[address] = true
		}
	}
	return networks, has
}

func TestOperationsOnSets(t *testing.T) {
	random := rand.New(rand.NewSource(7))
	for round := 0; round < 300; round++ {
		first, inFirst := blocksWithin256(random, round%9)
		second, inSecond := blocksWithin256(random, round/9%9)
		one, _ := NewSet(first)
		other, _ := NewSet(second)
		union, err := one.Union(other)
		equal(t, "union", err, nil)
		common, err := one.Intersection(other)
		equal(t, "intersection", err, nil)
		left, err := one.Difference(other)
		equal(t, "difference", err, nil)
		for host := 0; host < 256; host++ {
			for _, address := range []netip.Addr{netip.AddrFrom4([4]byte{192, 0, 2, byte(host)}), netip.AddrFrom16([16]byte{0x20, 1, 15: byte(host)})} {
				equal(t, "union", union.Contains(address), inFirst[host] || inSecond[host])
				equal(t, "intersection", common.Contains(address), inFirst[host] && inSecond[host])
				equal(t, "difference", left.Contains(address), inFirst[host] && !inSecond[host])
			}
		}
		for _, set := range []Set{union, common, left} {
			again, err := Aggregate(set.Networks())
			equal(t, "fewest", fmt.Sprint(again, err), fmt.Sprint(set.Networks(), nil))
		}
	}
	var none Set
	empty, err := none.Union(none)
	equal(t, "none", fmt.Sprint(empty.Networks(), err), "[] <nil>")
}

// asColumns compares the results for a column of each family with those for single addresses.
func asColumns(t *testing.T, table Table, set Set, addresses []netip.Addr) {
	for _, length := range []int{4, 16} {
		var packed, has []byte
		var wanted []int
		for _, address := range addresses {
			if address.IsValid() && address.BitLen() == 8*length && address.Zone() == "" {
				packed, wanted = append(packed, address.AsSlice()...), append(wanted, table.Find(address))
				has = append(has, map[bool]byte{false: 0, true: 1}[set.Contains(address)])
			}
		}
		answers := append(make([]byte, len(has)), 99)
		equal(t, "column", set.ContainsColumn(packed, length, answers), nil)
		equal(t, "column", string(answers), string(append(has, 99)))
		equal(t, "no room", set.ContainsColumn(packed, length, answers[:len(has)-1]), NoRoom)
		equal(t, "a part of an address", set.ContainsColumn(packed[1:], length, answers), NoFamily)
		numbers := make([]int, len(wanted)+1)
		numbers[len(wanted)] = 99
		equal(t, "column", table.FindColumn(packed, length, numbers), nil)
		equal(t, "column", fmt.Sprint(numbers), fmt.Sprint(append(wanted, 99)))
		equal(t, "no room", table.FindColumn(packed, length, numbers[:len(wanted)-1]), NoRoom)
		equal(t, "a part of an address", table.FindColumn(packed[1:], length, numbers), NoFamily)
	}
	equal(t, "another length", table.FindColumn(nil, 8, nil), NoFamily)
	equal(t, "another length", set.ContainsColumn(nil, 0, nil), NoFamily)
	equal(t, "no rows", table.FindColumn(nil, 16, nil), nil)
	equal(t, "no rows", set.ContainsColumn(nil, 4, nil), nil)
}

// More addresses than one call takes, in a table of one network of each family, and in a set.
func TestManyRows(t *testing.T) {
	networks := []Network{MustParse("::/1"), MustParse("0.0.0.0/1")}
	table, _ := NewTable(networks)
	set, _ := NewSet(networks)
	random := rand.New(rand.NewSource(5))
	addresses := []netip.Addr{{}, netip.MustParseAddr("::1%eth0")}
	for row := 0; row < 5000; row++ {
		one, other := pair(random, row%2 == 0)
		if row%7 == 0 {
			other = addresses[row%2]
		}
		addresses = append(addresses, one, other)
	}
	found, has := table.FindEach(addresses), set.ContainsEach(addresses)
	six, four := networks[0].ContainsEach(addresses), networks[1].ContainsEach(addresses)
	for row, address := range addresses {
		wanted := -1
		if address.IsValid() && address.Zone() == "" && address.AsSlice()[0] < 128 {
			wanted = map[bool]int{false: 0, true: 1}[address.Is4()]
		}
		equal(t, address.String(), fmt.Sprint(found[row], has[row], six[row], four[row]),
			fmt.Sprint(wanted, wanted >= 0, wanted == 0, wanted == 1))
		equal(t, address.String(), fmt.Sprint(table.Find(address), set.Contains(address)), fmt.Sprint(wanted, wanted >= 0))
	}
	asColumns(t, table, set, addresses)
}

// Tables of random networks: for each address, the last of the networks with the greatest prefix length that have it.
func TestTables(t *testing.T) {
	random := rand.New(rand.NewSource(31))
	for round := 0; round < 100; round++ {
		networks, _ := blocksWithin256(random, round%20)
		table, err := NewTable(networks)
		equal(t, "table", err, nil)
		set, err := NewSet(networks)
		equal(t, "set", err, nil)
		var addresses []netip.Addr
		for host := 0; host < 256; host++ {
			addresses = append(addresses, netip.AddrFrom4([4]byte{192, 0, 2, byte(host)}), netip.AddrFrom16([16]byte{0x20, 1, 15: byte(host)}))
		}
		addresses = append(addresses, netip.Addr{}, netip.MustParseAddr("2001::1%eth0"))
		found := table.FindEach(addresses)
		for row, address := range addresses {
			wanted := -1
			for number, network := range networks {
				if network.Contains(address) && (wanted < 0 || network.Bits() >= networks[wanted].Bits()) {
					wanted = number
				}
			}
			equal(t, "found", found[row], wanted)
			equal(t, "found", table.Find(address), wanted)
		}
		asColumns(t, table, set, addresses)
	}
	_, err := NewTable([]Network{MustParse("::/0"), {}})
	equal(t, "zero", err, NoFamily)
	var none Table
	equal(t, "none", none.Find(netip.MustParseAddr("10.0.0.1")), -1)
	asColumns(t, none, Set{}, []netip.Addr{netip.MustParseAddr("10.0.0.1"), netip.MustParseAddr("::1")})
}

// Nested networks, down to one address, at both ends of the address space and within it.
func TestNested(t *testing.T) {
	for _, corner := range []string{"0.0.0.0", "255.255.255.255", "192.0.2.77", "::", "ffff:ffff:ffff:ffff:ffff:ffff:ffff:ffff", "2001:db8::77"} {
		address := netip.MustParseAddr(corner)
		var networks []Network
		for bits := 0; bits <= address.BitLen(); bits++ {
			network, _ := New(address, bits)
			networks = append(networks, network, network)
		}
		table, err := NewTable(networks)
		equal(t, corner, err, nil)
		for bits := 0; bits <= address.BitLen(); bits++ {
			for _, asked := range []netip.Addr{networks[2*bits].Network(), networks[2*bits].Broadcast()} {
				wanted := 0
				for wanted < address.BitLen() && networks[2*wanted+2].Contains(asked) {
					wanted++
				}
				equal(t, asked.String(), table.Find(asked), 2*wanted+1)
			}
		}
	}
}

// Goroutines that use one table and one set at the same time, while others are made from the same networks.
func TestAskedAtOnce(t *testing.T) {
	networks, addresses := networks10000(true)
	table, _ := NewTable(networks)
	set, _ := NewSet(networks)
	found, has := table.FindEach(addresses), set.ContainsEach(addresses)
	var wait sync.WaitGroup
	for worker := 0; worker < 8; worker++ {
		wait.Add(1)
		go func(worker int) {
			defer wait.Done()
			for row := worker; row < len(addresses); row += 3 {
				if table.Find(addresses[row]) != found[row] || set.Contains(addresses[row]) != has[row] {
					t.Errorf("%v: another answer", addresses[row])
				}
			}
			if worker%2 == 0 {
				other, _ := NewTable(networks)
				equal(t, "the same", fmt.Sprint(other.FindEach(addresses)), fmt.Sprint(found))
			}
			equal(t, "the same", fmt.Sprint(set.ContainsEach(addresses), table.FindEach(addresses)), fmt.Sprint(has, found))
		}(worker)
	}
	wait.Wait()
}

// A JSON list with a text that names no network is refused, with the number of that element.
func TestSetOfJSON(t *testing.T) {
	var rules struct{ Denied Set }
	list := `{"Denied": ["10.0.0.0/9", "2001:db8::/32", "10.128.0.0/9"]}`
	equal(t, "read", json.Unmarshal([]byte(list), &rules), nil)
	text, err := json.Marshal(rules)
	equal(t, "printed", fmt.Sprint(string(text), err), `{"Denied":["10.0.0.0/8","2001:db8::/32"]}<nil>`)
	for list, wanted := range map[string]string{
		`["10.0.0.0/8", "10/8"]`:          `element 1, "10/8": no address`,
		`["10.0.0.0/33"]`:                 `element 0, "10.0.0.0/33": no prefix length of the family`,
		`["::/0", "::/0", "::/0/0", "x"]`: `element 2, "::/0/0": more than one slash`,
		`["::/0", null]`:                  `element 1, "": no address`,
	} {
		err := json.Unmarshal([]byte(list), &rules.Denied)
		var element *ElementError
		equal(t, list, fmt.Sprint(err), wanted)
		equal(t, list, errors.As(err, &element) && errors.Is(err, element.Fault), true)
	}
	equal(t, "a number", json.Unmarshal([]byte(`[7]`), &rules.Denied) != nil, true)
	equal(t, "null", json.Unmarshal([]byte(`{"Denied": null}`), &rules), nil)
	equal(t, "as it was", fmt.Sprint(rules.Denied.Networks()), "[10.0.0.0/8 2001:db8::/32]")
	equal(t, "none", json.Unmarshal([]byte(`[]`), &rules.Denied), nil)
	text, err = json.Marshal(rules.Denied)
	equal(t, "none", fmt.Sprint(string(text), err), "[]<nil>")
	denied := rules.Denied.Mapped()
	equal(t, "mapped", json.Unmarshal([]byte(`["10.0.0.0/8"]`), &denied), nil)
	equal(t, "mapped", denied.Contains(netip.MustParseAddr("::ffff:10.1.2.3")), true)
}

// panics reports whether a question panics.
func panics(ask func()) (panicked bool) {
	defer func() { panicked = recover() != nil }()
	ask()
	return
}

// A fault that no set or table can have causes a panic, and is not taken for an answer.
func TestFaultsPanic(t *testing.T) {
	set, _ := NewSet([]Network{MustParse("10.0.0.0/8")})
	set.held.fours[0].prefix = 33
	equal(t, "a column", panics(func() { _ = set.ContainsColumn([]byte{10, 1, 2, 3}, 4, make([]byte, 1)) }), true)
	equal(t, "no address", panics(func() { set.Contains(netip.Addr{}) }), false)
}

// A table and a set of many networks of each family, compared with a linear search of all of them.
func TestManyNetworks(t *testing.T) {
	random := rand.New(rand.NewSource(9))
	var prefixes []netip.Prefix
	var networks []Network
	var addresses []netip.Addr
	for row := 0; row < 3000; row++ {
		one, other := pair(random, row%2 == 0)
		prefix := netip.PrefixFrom(one, one.BitLen()*5/8+random.Intn(one.BitLen()/4)).Masked()
		network, _ := FromPrefix(prefix)
		prefixes, networks = append(prefixes, prefix), append(networks, network)
		if row%11 == 0 {
			addresses = append(addresses, other, network.Broadcast(), one.Prev())
		}
	}
	table, err := NewTable(networks)
	equal(t, "table", err, nil)
	set, err := NewSet(networks)
	equal(t, "set", err, nil)
	// The memory that the comments of Table and Set state.
	equal(t, "ranges", len(table.held.fours) <= 3000 && len(table.held.sixes) <= 3000, true)
	equal(t, "the index of a table", len(table.held.fourIndex) <= 4*len(table.held.fours) && len(table.held.sixIndex) <= 4*len(table.held.sixes), true)
	equal(t, "the index of a set", len(set.held.fourIndex) <= 4*len(set.held.fours) && len(set.held.sixIndex) <= 4*len(set.held.sixes), true)
	found, has := table.FindEach(addresses), set.ContainsEach(addresses)
	for row, address := range addresses {
		wanted := -1
		for number, prefix := range prefixes {
			if prefix.Contains(address) && (wanted < 0 || prefix.Bits() >= prefixes[wanted].Bits()) {
				wanted = number
			}
		}
		equal(t, address.String(), fmt.Sprint(table.Find(address), found[row]), fmt.Sprint(wanted, wanted))
		equal(t, address.String(), fmt.Sprint(set.Contains(address), has[row]), fmt.Sprint(wanted >= 0, wanted >= 0))
	}
	asColumns(t, table, set, addresses)
}
