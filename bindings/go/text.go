//go:build cgo

package ipnetwork

// #include "calls.h"
import "C"

import "unsafe"

// String returns the canonical text, which is empty for the zero Network.
func (network Network) String() string {
	var text [C.IPNETWORK_V6_TEXT]byte
	return string(network.AppendTo(text[:0]))
}

// AppendTo appends the canonical text to some bytes, as the method of netip.Prefix does, and returns the extended
// slice.
func (network Network) AppendTo(bytes []byte) []byte {
	call := C.ipnetwork_go_text(C.text_call{network: network.held()})
	if call.fault != C.IPNETWORK_OK {
		return bytes
	}
	return append(bytes, (*[C.LONGEST_TEXT]byte)(unsafe.Pointer(&call.text))[:call.length]...)
}

// MarshalText implements encoding.TextMarshaler. It returns the canonical text, which is empty for the zero Network, as
// for the zero netip.Prefix. The error is always nil.
func (network Network) MarshalText() ([]byte, error) {
	return network.AppendTo(make([]byte, 0, C.IPNETWORK_V6_TEXT)), nil
}

// UnmarshalText implements encoding.TextUnmarshaler. It reads an empty text as the zero Network, and any other as Parse
// does. If the text names no network, the network is unchanged.
func (network *Network) UnmarshalText(text []byte) error {
	if len(text) == 0 {
		*network = Network{}
		return nil
	}
	parsed, err := Parse(*(*string)(unsafe.Pointer(&text))) // the same bytes as a string, which Parse does not keep
	if err == nil {
		*network = parsed
	}
	return err
}
