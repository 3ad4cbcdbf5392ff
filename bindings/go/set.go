//go:build cgo

package ipnetwork

// #include "calls.h"
import "C"

import "net/netip"

// A Set is a set of addresses of either family, made from networks. It does not change, so several goroutines may use
// it at the same time. The zero Set is empty.
//
// It holds the fewest networks that have these addresses, and an index of them: 21 bytes for each IPv4 network, and 33
// for each IPv6 network.
//
// An IPv4-mapped IPv6 address, such as ::ffff:10.1.9.32, is in no IPv4 network: use the set that Mapped returns.
type Set struct {
	_      [0]func() // sets are compared by Equal, not by ==
	held   *lists    // nil for the zero Set
	mapped bool
}

var noLists lists

func (set Set) lists() *lists {
	if set.held == nil {
		return &noLists
	}
	return set.held
}

// NewSet returns the set of the addresses of networks, in any order and with or without host bits. The error is an
// ElementError with the cause NoFamily if one is the zero Network.
func NewSet(networks []Network) (Set, error) {
	held, _, _, err := split(networks)
	if err != nil {
		return Set{}, err
	}
	var fours, sixes C.size_t
	if number := C.ipnetwork_v4_aggregate(start(held.fours), size(held.fours), &fours); number != C.IPNETWORK_OK {
		return Set{}, Fault(number)
	}
	if number := C.ipnetwork_v6_aggregate(start(held.sixes), size(held.sixes), &sixes); number != C.IPNETWORK_OK {
		return Set{}, Fault(number)
	}
	held.fours, held.sixes = trimmed(held.fours[:fours]), trimmed(held.sixes[:sixes])
	err = held.index()
	return Set{held: &held}, err
}

// Mapped returns the set with the IPv4-mapped IPv6 address of each of its IPv4 addresses added, so that peers of a
// socket for both families are found in lists of IPv4 networks. What is said of either form counts: an IPv4-mapped IPv6
// address is a member if the IPv4 address, or the IPv6 address itself, is one; and so for a network within
// ::ffff:0:0/96.
//
// It takes as long as Union, and 33 bytes for each IPv4 network: make it once. Networks, Ranges and JSON have the added
// addresses too. If one of the sets of an operation is of Mapped, the other one is taken as Mapped, and so is the result.
func (set Set) Mapped() Set {
	if set.mapped {
		return set
	}
	added := make([]C.ipnetwork_v6, len(set.lists().fours))
	for place, four := range set.lists().fours {
		added[place].prefix = 96 + four.prefix
		added[place].address[10], added[place].address[11] = 0xff, 0xff
		copy(added[place].address[12:], four.address[:])
	}
	made, err := set.Union(Set{held: &lists{sixes: added}})
	if err != nil {
		panic(err) // the lists are those of sets
	}
	made.mapped = true
	return made
}

// Union returns the set of the addresses in at least one of the two sets.
func (set Set) Union(other Set) (Set, error) { return set.operate(C.SET_UNION, other) }

// Intersection returns the set of the addresses in both sets.
func (set Set) Intersection(other Set) (Set, error) { return set.operate(C.SET_INTERSECTION, other) }

// Difference returns the set of the addresses that are in this set and not in the other.
func (set Set) Difference(other Set) (Set, error) { return set.operate(C.SET_DIFFERENCE, other) }

// Complement returns the set of all addresses of both families that are not in the set. So the complement of a set of
// IPv4 networks has every IPv6 address, except the IPv4-mapped ones of these networks if the set is of Mapped.
func (set Set) Complement() (Set, error) {
	whole := Set{held: &lists{fours: make([]C.ipnetwork_v4, 1), sixes: make([]C.ipnetwork_v6, 1)}}
	return whole.Difference(set)
}

// operate makes a second call if a difference has more blocks than both sets; no other operation needs one.
func (set Set) operate(operation C.int, other Set) (Set, error) {
	mapped := set.mapped || other.mapped
	if mapped {
		set, other = set.Mapped(), other.Mapped()
	}
	one, two := set.lists(), other.lists()
	var made lists
	for room := len(one.fours) + len(two.fours); ; {
		var count C.size_t
		made.fours = make([]C.ipnetwork_v4, room)
		number := C.ipnetwork_go_operate_v4(operation, start(one.fours), size(one.fours), start(two.fours),
			size(two.fours), start(made.fours), C.size_t(room), &count)
		if number == C.IPNETWORK_OK {
			made.fours = trimmed(made.fours[:count])
			break
		} else if number != C.IPNETWORK_SHORT_BUFFER {
			return Set{}, Fault(number)
		}
		room = int(count)
	}
	for room := len(one.sixes) + len(two.sixes); ; {
		var count C.size_t
		made.sixes = make([]C.ipnetwork_v6, room)
		number := C.ipnetwork_go_operate_v6(operation, start(one.sixes), size(one.sixes), start(two.sixes),
			size(two.sixes), start(made.sixes), C.size_t(room), &count)
		if number == C.IPNETWORK_OK {
			made.sixes = trimmed(made.sixes[:count])
			break
		} else if number != C.IPNETWORK_SHORT_BUFFER {
			return Set{}, Fault(number)
		}
		room = int(count)
	}
	err := made.index()
	return Set{held: &made, mapped: mapped}, err
}

// All calls yield with each of the fewest networks that have these addresses, in ascending order, IPv4 first, until it
// returns false. From Go 1.23 on, it is what a for loop ranges over: for network := range set.All().
func (set Set) All() func(yield func(Network) bool) {
	return func(yield func(Network) bool) {
		held := set.lists()
		for place := range held.fours {
			if !yield(ofFour(&held.fours[place])) {
				return
			}
		}
		for place := range held.sixes {
			if !yield(ofSix(&held.sixes[place])) {
				return
			}
		}
	}
}

// Networks returns the networks of All.
func (set Set) Networks() []Network {
	networks := make([]Network, 0, len(set.lists().fours)+len(set.lists().sixes))
	set.All()(func(network Network) bool {
		networks = append(networks, network)
		return true
	})
	return networks
}

// A Range is the addresses from the first to the last.
type Range struct{ First, Last netip.Addr }

// Ranges returns the fewest ranges that have the addresses of the set, in ascending order, IPv4 first.
func (set Set) Ranges() []Range {
	var ranges []Range
	set.All()(func(network Network) bool {
		first, last := network.Network(), network.Broadcast()
		if end := len(ranges) - 1; end >= 0 && ranges[end].Last.Next() == first {
			ranges[end].Last = last
		} else {
			ranges = append(ranges, Range{first, last})
		}
		return true
	})
	return ranges
}

// Aggregate returns the fewest networks with the same addresses, in ascending order, IPv4 first. The error is that of
// NewSet.
func Aggregate(networks []Network) ([]Network, error) {
	set, err := NewSet(networks)
	return set.Networks(), err
}

// IsEmpty reports whether no address is in the set.
func (set Set) IsEmpty() bool { return len(set.lists().fours)+len(set.lists().sixes) == 0 }

// Equal reports whether the sets have the same addresses.
func (set Set) Equal(other Set) bool {
	one, two := set.lists(), other.lists()
	return same(one.fours, two.fours) && same(one.sixes, two.sixes)
}

func same[Block comparable](blocks, others []Block) bool {
	if len(blocks) != len(others) {
		return false
	}
	for place, block := range blocks {
		if block != others[place] {
			return false
		}
	}
	return true
}

// Contains reports whether an address is in the set, by a search in a few steps. No address with a zone is.
func (set Set) Contains(address netip.Addr) bool {
	number, width := laid(address)
	if width == 0 {
		number, width = numberedByOctets(address)
	}
	held := set.lists()
	switch width {
	case 32:
		four := uint32(number.low)
		place := held.placeOfFour(four)
		return place >= 0 && (startOfFour(&held.fours[place])^four)>>(32-held.fours[place].prefix) == 0
	case 128:
		place, start := held.placeOfSix(number)
		return place >= 0 && start.shares(uint8(held.sixes[place].prefix), number)
	}
	return false
}

// Covers reports whether each address of a network is in the set; those of the zero Network are not.
func (set Set) Covers(network Network) bool { return set.lists().cover(network) }

// ContainsColumn writes 1 to answers for each address of a column that is in the set, as Contains reports, and 0 for
// each other. The column has packed addresses of one family, one after the other, of length octets each: 4 or 16. The
// error is NoFamily for any other length or if the column ends within an address, and NoRoom if there are fewer answers
// than addresses: then nothing is written.
func (set Set) ContainsColumn(packed []byte, length int, answers []byte) error {
	rows, err := packedRows(packed, length)
	if err != nil {
		return err
	}
	if len(answers) < rows {
		return NoRoom
	}
	held, addresses, out := set.lists(), bytesOf(packed), bytesOf(answers)
	if length == 4 {
		mustBe(C.ipnetwork_go_contains_column(4, bytesOf(held.fours), size(held.fours), start(held.fourIndex),
			size(held.fourIndex), addresses, C.size_t(rows), out))
	} else {
		mustBe(C.ipnetwork_go_contains_column(16, bytesOf(held.sixes), size(held.sixes), start(held.sixIndex),
			size(held.sixIndex), addresses, C.size_t(rows), out))
	}
	return nil
}

// ContainsEach reports for each address whether it is in the set, as Contains does.
func (set Set) ContainsEach(addresses []netip.Addr) []bool {
	answers := make([]bool, len(addresses))
	for row, address := range addresses {
		answers[row] = set.Contains(address)
	}
	return answers
}
