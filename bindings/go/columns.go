//go:build cgo

package ipnetwork

// #include "calls.h"
import "C"

import (
	"net/netip"
	"unsafe"
)

// ContainsColumn writes 1 to answers for each address of a column that is a member of the network, and 0 for each
// other. The column has packed addresses of the network's family, one after the other. The error is NoFamily for the
// zero Network or if the column ends within an address, and NoRoom if there are fewer answers than addresses.
func (network Network) ContainsColumn(packed []byte, answers []byte) error {
	if network.width == 0 || len(packed)%int(network.width/8) != 0 {
		return NoFamily
	}
	rows, addresses := C.size_t(len(packed)/int(network.width/8)), bytesOf(packed)
	out, room := bytesOf(answers), C.size_t(len(answers))
	if network.width == 32 {
		four := network.four()
		return faultOf(C.ipnetwork_v4_contains_column(&four, addresses, rows, out, room))
	}
	six := network.six()
	return faultOf(C.ipnetwork_v6_contains_column(&six, addresses, rows, out, room))
}

// own returns a copy of the offsets of a column, which is what the library checks and what it uses, whatever another
// goroutine writes meanwhile.
func own(offsets []uint32) []uint32 { return append([]uint32(nil), offsets...) }

// offsetsOf returns a pointer to the first of some offsets, or nil.
func offsetsOf(offsets []uint32) *C.uint32_t { return (*C.uint32_t)(unsafe.Pointer(start(offsets))) }

func rowsOf(offsets []uint32) int {
	if len(offsets) == 0 {
		return 0
	}
	return len(offsets) - 1
}

// ReadColumn reads a column of texts in Arrow's layout in one call, into the caller's memory: text i goes from offset i
// to the next. If text i names a network, networks[i] is that network, and faults[i] is 0; if not, networks[i] is the
// zero Network, and faults[i] is the cause, as from Parse. The error is NoOffsets if the offsets decrease or go past
// the end of the texts, and NoRoom if there are fewer networks or faults than texts: then nothing is written.
func ReadColumn(texts []byte, offsets []uint32, networks []Network, faults []byte) error {
	if len(networks) < rowsOf(offsets) {
		return NoRoom
	}
	made := make([]C.ipnetwork_ip, rowsOf(offsets))
	err := readInto(texts, own(offsets), made, faults)
	if err == nil {
		fill(networks, made, faults)
	}
	return err
}

// readInto leaves made[i] unchanged if text i names no network.
func readInto(texts []byte, offsets []uint32, made []C.ipnetwork_ip, faults []byte) error {
	return faultOf(C.ipnetwork_read_with_cause_column((*C.char)(unsafe.Pointer(start(texts))), size(texts), offsetsOf(offsets),
		size(offsets), start(made), size(made), bytesOf(faults), size(faults)))
}

// fill converts the networks that were read, and writes the zero Network where there is a fault.
func fill(networks []Network, made []C.ipnetwork_ip, faults []byte) {
	for row := range made {
		networks[row] = Network{}
		if faults[row] == C.IPNETWORK_OK {
			networks[row] = networkOf(&made[row])
		}
	}
}

// ParseColumn is like ReadColumn, but returns new slices.
func ParseColumn(texts []byte, offsets []uint32) ([]Network, []Fault, error) {
	rows := rowsOf(offsets)
	networks, codes := make([]Network, rows), make([]byte, rows)
	if err := ReadColumn(texts, offsets, networks, codes); err != nil {
		return nil, nil, err
	}
	faults := make([]Fault, rows)
	widen(codes, faults)
	return networks, faults, nil
}

// ParseAddrColumn reads a column of texts as addresses, as ParseColumn reads networks. For a text that names no
// address, it returns the zero netip.Addr, which is in no set, so not in a deny list either: ask its IsValid first.
func ParseAddrColumn(texts []byte, offsets []uint32) ([]netip.Addr, error) {
	rows := rowsOf(offsets)
	held, codes, offsets := make([]C.ipnetwork_address, rows), make([]byte, rows), own(offsets)
	number := C.ipnetwork_address_read_column((*C.char)(unsafe.Pointer(start(texts))), size(texts), offsetsOf(offsets), size(offsets),
		start(held), size(held), bytesOf(codes), size(codes))
	if number != C.IPNETWORK_OK {
		return nil, Fault(number)
	}
	addresses := make([]netip.Addr, rows)
	for row := range held {
		if codes[row] == C.IPNETWORK_OK {
			addresses[row] = taken(&held[row])
		}
	}
	return addresses, nil
}

// PrintColumn prints networks in the same layout in one call. It returns the texts, one after the other, and the
// offsets at which each begins and the last one ends. The error is NoFamily if one is the zero Network, and NoRoom if
// the texts have more than 2147483647 bytes.
func PrintColumn(networks []Network) ([]byte, []uint32, error) {
	texts, offsets := make([]byte, len(networks)*(C.IPNETWORK_V6_TEXT-1)), make([]uint32, len(networks)+1)
	var length C.size_t
	rows := make([]C.ipnetwork_ip, len(networks))
	for row, network := range networks {
		rows[row] = network.held()
	}
	number := C.ipnetwork_print_column(start(rows), size(rows), (*C.char)(unsafe.Pointer(start(texts))), size(texts),
		offsetsOf(offsets), size(offsets), &length)
	if number != C.IPNETWORK_OK {
		return nil, nil, Fault(number)
	}
	return texts[:length], offsets, nil
}

// PrintAddrColumn prints addresses, as PrintColumn prints networks. The error is NoFamily if one is the zero netip.Addr
// or has a zone.
func PrintAddrColumn(addresses []netip.Addr) ([]byte, []uint32, error) {
	texts, offsets := make([]byte, len(addresses)*(C.IPNETWORK_ADDRESS_TEXT-1)), make([]uint32, len(addresses)+1)
	rows := make([]C.ipnetwork_address, len(addresses))
	for row, address := range addresses {
		if !give(address, &rows[row]) {
			return nil, nil, NoFamily
		}
	}
	var length C.size_t
	number := C.ipnetwork_address_print_column(start(rows), size(rows), (*C.char)(unsafe.Pointer(start(texts))), size(texts),
		offsetsOf(offsets), size(offsets), &length)
	if number != C.IPNETWORK_OK {
		return nil, nil, Fault(number)
	}
	return texts[:length], offsets, nil
}
