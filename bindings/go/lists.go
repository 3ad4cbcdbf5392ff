//go:build cgo

package ipnetwork

// #include "calls.h"
import "C"

import "unsafe"

// lists has the blocks of a set, or the ranges of a table, separately for each family, with the indexes by which they
// are searched. They do not change, so several goroutines may search them at the same time.
type lists struct {
	fours               []C.ipnetwork_v4
	sixes               []C.ipnetwork_v6
	fourIndex, sixIndex []C.uint32_t
}

// start returns a pointer to the first element of a slice, or nil.
func start[Element any](elements []Element) *Element {
	if len(elements) == 0 {
		return nil
	}
	return &elements[0]
}

func size[Element any](elements []Element) C.size_t { return C.size_t(len(elements)) }

// trimmed returns a copy of a list in memory of its own length.
func trimmed[Struct any](structs []Struct) []Struct { return append([]Struct(nil), structs...) }

// bytesOf returns a pointer to the first byte of some elements, or nil.
func bytesOf[Element any](elements []Element) *C.uint8_t {
	return (*C.uint8_t)(unsafe.Pointer(start(elements)))
}

// split returns the networks of each family, and their numbers in the list. The error is an ElementError with the cause
// NoFamily if one is the zero Network.
func split(networks []Network) (held lists, fourNumbers, sixNumbers []int, err error) {
	for number, network := range networks {
		switch network.width {
		case 32:
			held.fours, fourNumbers = append(held.fours, network.four()), append(fourNumbers, number)
		case 128:
			held.sixes, sixNumbers = append(held.sixes, network.six()), append(sixNumbers, number)
		default:
			return lists{}, nil, nil, &ElementError{Index: number, Fault: NoFamily}
		}
	}
	return held, fourNumbers, sixNumbers, nil
}

// indexed returns the index of a list of structs, with addresses of width octets: four 32-bit numbers for each struct,
// at most 2^20, and none for fewer than eight structs.
func indexed[Struct any](width C.size_t, structs []Struct) ([]C.uint32_t, error) {
	index := make([]C.uint32_t, C.ipnetwork_go_index_size(size(structs)))
	number := C.ipnetwork_go_index(width, bytesOf(structs), size(structs), start(index), size(index))
	return index, faultOf(number)
}

// index makes the index of each list.
func (held *lists) index() (err error) {
	if held.fourIndex, err = indexed(4, held.fours); err == nil {
		held.sixIndex, err = indexed(16, held.sixes)
	}
	return err
}

// packedRows returns the number of addresses of 4 or 16 octets in a column. The error is NoFamily for any other length,
// or if the column ends within an address.
func packedRows(packed []byte, length int) (int, error) {
	if length != 4 && length != 16 || len(packed)%length != 0 {
		return 0, NoFamily
	}
	return len(packed) / length, nil
}
