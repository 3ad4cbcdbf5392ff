//go:build cgo

package ipnetwork

// #include "calls.h"
import "C"

// The search in the list of a set or the ranges of a table, by the index that the library makes of it: its first number
// is the exponent of the size of the parts into which the addresses from the first block on are divided, and each other
// number says how many blocks begin before that part. This search is not proved, but tested against the proved one.

// few is the number of blocks, of which most parts have none or one, that are looked at one after the other.
const few = 4

// before returns a number of blocks that all begin before this part of an index.
func before(index []C.uint32_t, part uint64) int {
	if part == 0 || part >= uint64(len(index)) {
		return 0
	}
	return int(index[part])
}

// placeOfFour returns the place of the last IPv4 block that begins at or before an address, or -1.
func (held *lists) placeOfFour(address uint32) int {
	blocks, index := held.fours, held.fourIndex
	end, part := len(blocks), uint64(0)
	if len(index) > 0 {
		start := startOfFour(&blocks[0])
		if address < start {
			return -1
		}
		if part = uint64(address-start) >> (index[0] & 63); part < uint64(len(index)-1) {
			end = int(index[part+1])
		}
	}
	place := end - 1
	for ; place >= 0 && place >= end-few; place-- {
		if startOfFour(&blocks[place]) <= address {
			return place
		}
	}
	for first := before(index, part); first <= place; {
		if middle := int(uint(first+place) / 2); startOfFour(&blocks[middle]) <= address {
			first = middle + 1
		} else {
			place = middle - 1
		}
	}
	return place
}

// placeOfSix does the same for IPv6, and returns the address of the block too.
func (held *lists) placeOfSix(number integer) (int, integer) {
	blocks, index := held.sixes, held.sixIndex
	end, part := len(blocks), uint64(0)
	if len(index) > 0 {
		beyond, isLess := number.minus(startOfSix(&blocks[0]))
		if isLess {
			return -1, integer{}
		}
		if part = beyond.shifted(uint(index[0])); part < uint64(len(index)-1) {
			end = int(index[part+1])
		}
	}
	place := end - 1
	for ; place >= 0 && place >= end-few; place-- {
		if start := startOfSix(&blocks[place]); !number.isLess(start) {
			return place, start
		}
	}
	for first := before(index, part); first <= place; {
		if middle := int(uint(first+place) / 2); number.isLess(startOfSix(&blocks[middle])) {
			place = middle - 1
		} else {
			first = middle + 1
		}
	}
	if place < 0 {
		return -1, integer{}
	}
	return place, startOfSix(&blocks[place])
}

// cover reports whether each address of a network is in the set of these lists: since they have the fewest networks, it
// is within the one that has its address.
func (held *lists) cover(network Network) bool {
	switch network.width {
	case 32:
		place := held.placeOfFour(uint32(network.number.low))
		return place >= 0 && network.IsSubnetOf(ofFour(&held.fours[place]))
	case 128:
		place, _ := held.placeOfSix(network.number)
		return place >= 0 && network.IsSubnetOf(ofSix(&held.sixes[place]))
	}
	return false
}
