//go:build cgo

package ipnetwork

// #include "calls.h"
import "C"

import (
	"net/netip"
	"unsafe"
)

// A Table finds the longest of some networks of either family that has an address. It does not change, so several
// goroutines may use it at the same time. The zero Table has no networks. A Map has a value for each network.
//
// A table of n networks holds at most 2 n ranges of addresses, each with the number of its longest network, and an
// index of them: at most 58 n bytes for IPv4 networks, and 82 n for IPv6. NewTable makes all of it, and no question
// allocates except FindEach.
//
// An IPv4-mapped IPv6 address, such as ::ffff:10.1.9.32, is in no IPv4 network: use the table that Mapped returns.
type Table struct {
	_      [0]func() // == would compare pointers
	held   *ranges   // nil for the zero Table
	mapped bool
}

// ranges has the number of the longest network of each range, or -1.
type ranges struct {
	lists
	fourNumbers, sixNumbers []int
}

var noRanges ranges

func (table Table) ranges() *ranges {
	if table.held == nil {
		return &noRanges
	}
	return table.held
}

// NewTable returns the table of networks, in any order and with or without host bits. The error is an ElementError with
// the cause NoFamily if one is the zero Network.
func NewTable(networks []Network) (Table, error) {
	given, fourNumbers, sixNumbers, err := split(networks)
	if err != nil {
		return Table{}, err
	}
	var made ranges
	if made.fours, made.fourNumbers, made.fourIndex, err = ranged(4, given.fours, fourNumbers); err != nil {
		return Table{}, err
	}
	if made.sixes, made.sixNumbers, made.sixIndex, err = ranged(16, given.sixes, sixNumbers); err != nil {
		return Table{}, err
	}
	return Table{held: &made}, nil
}

// Mapped returns the same table, in which what is said of either form of an IPv4-mapped IPv6 address counts: its longest
// network is that of the IPv4 address, and if there is none that of the IPv6 address itself.
func (table Table) Mapped() Table {
	table.mapped = true
	return table
}

// ranged returns the ranges of the table of networks of one family, the number of the longest network of each range,
// and the index of the ranges.
func ranged[Struct any](width C.size_t, networks []Struct, numbers []int) ([]Struct, []int, []C.uint32_t, error) {
	blocks, places := make([]Struct, len(networks)), make([]C.size_t, len(networks))
	in := bytesOf(blocks)
	if number := C.ipnetwork_go_table(width, bytesOf(networks), size(networks), in, start(places)); number != C.IPNETWORK_OK {
		return nil, nil, nil, Fault(number)
	}
	blockNumbers := make([]int, len(places))
	for row, place := range places {
		blockNumbers[row] = numbers[place]
	}
	index, err := indexed(width, blocks)
	if err != nil {
		return nil, nil, nil, err
	}
	room, rangeNumbers, count := make([]Struct, 2*len(blocks)), make([]int, 2*len(blocks)), C.size_t(0)
	number := C.ipnetwork_go_ranges(width, in, size(blocks), start(index), size(index), int64s(blockNumbers), bytesOf(room),
		int64s(rangeNumbers), &count)
	if number != C.IPNETWORK_OK {
		return nil, nil, nil, Fault(number)
	}
	ranges := trimmed(room[:count])
	index, err = indexed(width, ranges)
	return ranges, trimmed(rangeNumbers[:count]), index, err
}

// int64s returns a pointer to the first of some numbers, which have 64 bits here, or nil.
func int64s(numbers []int) *C.int64_t { return (*C.int64_t)(unsafe.Pointer(start(numbers))) }

// Find returns the number, counted from 0, of the longest network that has an address, and of networks with the same
// block that of the last one. It returns -1 if no network has the address, as for an address with a zone.
func (table Table) Find(address netip.Addr) int {
	held := table.ranges()
	number, width := laid(address)
	if width == 0 {
		number, width = numberedByOctets(address)
	}
	if width == 32 || width == 128 && table.mapped && number.isMapped() {
		if found := held.findFour(number); found >= 0 {
			return found
		}
	}
	if width != 128 {
		return -1
	}
	place, _ := held.placeOfSix(number)
	if place < 0 {
		return -1
	}
	return held.sixNumbers[place]
}

// findFour is Find for the IPv4 address, or the IPv4 form of the IPv4-mapped address, of a number.
func (held *ranges) findFour(number integer) int {
	place := held.placeOfFour(uint32(number.low))
	if place < 0 {
		return -1
	}
	return held.fourNumbers[place]
}

// FindColumn writes to numbers what Find returns for each address of a column. The column has packed addresses of one
// family, one after the other, of length octets each: 4 or 16. The error is NoFamily for any other length or if the
// column ends within an address, and NoRoom if there are fewer numbers than addresses: then nothing is written.
func (table Table) FindColumn(packed []byte, length int, numbers []int) error {
	rows, err := packedRows(packed, length)
	if err != nil {
		return err
	}
	if len(numbers) < rows {
		return NoRoom
	}
	held, addresses, out := table.ranges(), bytesOf(packed), int64s(numbers)
	if length == 4 {
		mustBe(C.ipnetwork_go_find_column(4, bytesOf(held.fours), size(held.fours), start(held.fourIndex),
			size(held.fourIndex), int64s(held.fourNumbers), addresses, C.size_t(rows), out))
		return nil
	}
	mustBe(C.ipnetwork_go_find_column(16, bytesOf(held.sixes), size(held.sixes), start(held.sixIndex),
		size(held.sixIndex), int64s(held.sixNumbers), addresses, C.size_t(rows), out))
	for row := 0; table.mapped && row < rows; row++ {
		if number := ofOctets((*[16]byte)(packed[16*row:])); number.isMapped() {
			if found := held.findFour(number); found >= 0 {
				numbers[row] = found
			}
		}
	}
	return nil
}

// FindEach returns for each address what Find does.
func (table Table) FindEach(addresses []netip.Addr) []int {
	numbers := make([]int, len(addresses))
	for row, address := range addresses {
		numbers[row] = table.Find(address)
	}
	return numbers
}
