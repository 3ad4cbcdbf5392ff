//go:build cgo

package ipnetwork

// #include "calls.h"
import "C"

import (
	"net/netip"
	"sync"
)

// portion is the maximum number of texts in one call.
const portion = 1024

// longest is the maximum length in bytes of a text that is copied into a textRoom, and kept the maximum number of bytes
// that a textRoom keeps for the next call.
const longest, kept = 4096, 1 << 17

// A textRoom has texts, one after the other, their offsets, and the network or the fault of each.
type textRoom struct {
	bytes   []byte
	offsets [portion + 1]uint32
	made    [portion]C.ipnetwork_ip
	codes   [portion]byte
}

// textRooms holds rooms for reuse.
var textRooms = sync.Pool{New: func() any { return new(textRoom) }}

// take copies the texts before the first that is too long, at most 1,024, into the room, and returns their number.
func (room *textRoom) take(texts []string) int {
	room.bytes = room.bytes[:0]
	for row, text := range texts[:least(len(texts), portion)] {
		if len(text) > longest {
			return row
		}
		room.bytes = append(room.bytes, text...)
		room.offsets[row+1] = uint32(len(room.bytes))
	}
	return least(len(texts), portion)
}

// ParseEach reads each text as Parse does, with one call of the library for every 1,024 texts. If a text names no
// network, the network is the zero Network, and the fault is the cause; the other faults are 0.
func ParseEach(texts []string) ([]Network, []Fault) {
	networks, faults := make([]Network, len(texts)), make([]Fault, len(texts))
	room := textRooms.Get().(*textRoom)
	for from := 0; from < len(texts); {
		rows := room.take(texts[from:])
		made := room.made[:rows]
		if err := readInto(room.bytes, room.offsets[:rows+1], made, room.codes[:rows]); err != nil {
			panic(err)
		}
		fill(networks[from:], made, room.codes[:])
		widen(room.codes[:rows], faults[from:])
		from += rows
		if from < len(texts) && len(texts[from]) > longest {
			networks[from], faults[from] = read(texts[from])
			from++
		}
	}
	if cap(room.bytes) <= kept {
		textRooms.Put(room)
	}
	return networks, faults
}

// widen converts the fault of each row.
func widen(codes []byte, faults []Fault) {
	faults = faults[:len(codes)]
	for row, fault := range codes {
		faults[row] = Fault(fault)
	}
}

// ContainsEach reports for each address whether it is a member of the network, as Contains does.
func (network Network) ContainsEach(addresses []netip.Addr) []bool {
	answers := make([]bool, len(addresses))
	for row, address := range addresses {
		answers[row] = network.Contains(address)
	}
	return answers
}

func least(one, other int) int {
	if one < other {
		return one
	}
	return other
}
