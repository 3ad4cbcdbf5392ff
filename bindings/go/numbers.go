//go:build cgo

package ipnetwork

// #include "calls.h"
import "C"

import (
	"encoding/binary"
	"math/bits"
	"net/netip"
	"unsafe"
)

// An integer has 128 bits. That of an address is its number; an IPv4 address has that of its IPv4-mapped address.
type integer struct{ high, low uint64 }

// A layout is how a netip.Addr lies in memory, from Go 1.18 on: its number, and which kind of address it is. To read it
// takes a third of the time of As16. No document of Go promises it: if it is another one, no kind is known, and As16 is
// called.
type layout struct {
	number integer
	kind   unsafe.Pointer
}

var _ [unsafe.Sizeof(netip.Addr{}) - unsafe.Sizeof(layout{})]byte // there is as much to read

var fourKind, sixKind = kind("1.2.3.4", "254.220.186.152"), kind("::123:4567:89ab:cdef", "fedc:ba98::1")

// kind returns the kind of two addresses, or a pointer that is that of no address.
func kind(one, other string) unsafe.Pointer {
	var kinds [2]unsafe.Pointer
	for place, text := range []string{one, other} {
		address := netip.MustParseAddr(text)
		octets, held := address.As16(), (*layout)(unsafe.Pointer(&address))
		if held.number != ofOctets(&octets) {
			return unsafe.Pointer(new(int))
		}
		kinds[place] = held.kind
	}
	if kinds[0] != kinds[1] || kinds[0] == nil {
		return unsafe.Pointer(new(int))
	}
	return kinds[0]
}

// numbered returns the number and the width of an address: 0 for the zero netip.Addr and an address with a zone.
func numbered(address netip.Addr) (number integer, width uint8) {
	if number, width = laid(address); width == 0 {
		return numberedByOctets(address)
	}
	return number, width
}

// laid is numbered for an address whose layout tells its kind; of any other the width is 0. Unlike numbered, it is short
// enough for the compiler to put it where it is called.
func laid(address netip.Addr) (number integer, width uint8) {
	held := (*layout)(unsafe.Pointer(&address))
	switch held.kind {
	case fourKind:
		return held.number, 32
	case sixKind:
		return held.number, 128
	}
	return integer{}, 0
}

func numberedByOctets(address netip.Addr) (number integer, width uint8) {
	octets := address.As16()
	if address.Is4() {
		width = 32
	} else if address == netip.AddrFrom16(octets) {
		width = 128
	}
	return ofOctets(&octets), width
}

func ofOctets(octets *[16]byte) integer {
	return integer{binary.BigEndian.Uint64(octets[:8]), binary.BigEndian.Uint64(octets[8:])}
}

// The first address of each family.
var firstFour, firstSix = netip.IPv4Unspecified(), netip.IPv6Unspecified()

// address returns the address of this number and width, or the zero netip.Addr for the width 0. Of the number of an IPv4
// address, the last 32 bits count.
func (number integer) address(width uint8) netip.Addr {
	if width == 0 {
		return netip.Addr{}
	}
	address := firstSix
	if width == 32 {
		address, number = firstFour, integer{0, 0xffff<<32 | uint64(uint32(number.low))}
	}
	if held := (*layout)(unsafe.Pointer(&address)); held.kind == fourKind || held.kind == sixKind {
		held.number = number
		return address
	}
	var octets [16]byte
	binary.BigEndian.PutUint64(octets[:8], number.high)
	binary.BigEndian.PutUint64(octets[8:], number.low)
	if width == 32 {
		return netip.AddrFrom4(*(*[4]byte)(octets[12:]))
	}
	return netip.AddrFrom16(octets)
}

// isMapped reports whether it is the number of an IPv4-mapped address.
func (number integer) isMapped() bool { return number.high == 0 && number.low>>32 == 0xffff }

// hostBits returns the integer whose last free bits are set, of at most 128.
func hostBits(free uint8) integer { return integer{^uint64(0) >> (128 - free), 1<<free - 1} }

func (number integer) or(other integer) integer {
	return integer{number.high | other.high, number.low | other.low}
}

// minus returns the difference to another number, and whether that is greater.
func (number integer) minus(other integer) (difference integer, isLess bool) {
	low, borrow := bits.Sub64(number.low, other.low, 0)
	high, borrow := bits.Sub64(number.high, other.high, borrow)
	return integer{high, low}, borrow != 0
}

func (number integer) isLess(other integer) bool {
	_, isLess := number.minus(other)
	return isLess
}

// shifted returns the number without its last bits, or the greatest one that has 64 bits if it has more.
func (number integer) shifted(by uint) uint64 {
	if by >= 64 {
		return number.high >> (by - 64)
	}
	if number.high>>by != 0 {
		return ^uint64(0)
	}
	return number.high<<(64-by) | number.low>>by
}

// shares reports whether the first bits of two integers, at most 128, are the same.
func (number integer) shares(first uint8, other integer) bool {
	high, low := number.high^other.high, number.low^other.low
	if first <= 64 {
		return first == 0 || high>>((64-first)&63) == 0
	}
	return high|low>>((128-first)&63) == 0
}

// startOfFour and startOfSix return the address of a block.
func startOfFour(block *C.ipnetwork_v4) uint32 {
	return binary.BigEndian.Uint32((*[4]byte)(unsafe.Pointer(&block.address))[:])
}

func startOfSix(block *C.ipnetwork_v6) integer {
	return ofOctets((*[16]byte)(unsafe.Pointer(&block.address)))
}
