//go:build cgo

// Package ipnetwork reads and prints IP networks in CIDR notation and answers questions about them, with a library that
// is proved, or is built from the proved sources as plain Rust: Build returns which. Addresses are those of net/netip.
//
// A server that listens on IPv4 and IPv6 with one socket sees the address of an IPv4 peer as an IPv4-mapped IPv6
// address, such as ::ffff:10.1.9.32, which is in no IPv4 network: such a peer gets past a list of denied networks. So
// ask the set or table that the method Mapped returns,
//
//	denied = denied.Mapped() // once
//	denied.Contains(peer.Addr())
//
// With Mapped, what is said of either form counts: an IPv4-mapped IPv6 address is a member if the IPv4 address, or the
// IPv6 address itself, is one; its longest network is that of the IPv4 address, and if there is none that of the
// IPv6 address; and so for a network within ::ffff:0:0/96.
//
// An address with a zone, such as fe80::1%eth0, is a member of nothing, as of a netip.Prefix.
//
// A network keeps the host bits of its address. Its members are the addresses that share the first bits of its address,
// as many as the prefix length says, and the questions are about the members.
//
// The library is called by cgo: to read and print texts, to make and combine sets and tables, and by the functions
// whose names end in Column. It is not called for a question about one network, nor by Contains, Covers, ContainsEach,
// Find and FindEach, which take a few nanoseconds in Go, and allocate nothing but what they return. These are not
// proved: the search in Go is tested against the proved one, which ContainsColumn and FindColumn call, and the rest
// against net/netip.
//
// While a call has a slice, no other goroutine may write it. Offsets are copied before they are checked, so that a
// program that breaks this rule still reads no memory beyond its texts.
package ipnetwork

/*
#include "calls.h"

// A text of any length, which is a network or an address.

static text_call read_long(_GoString_ text) {
    text_call call = {{0}};
    call.fault = ipnetwork_read_with_cause(_GoStringPtr(text), _GoStringLen(text), &call.network);
    return call;
}

static text_call read_long_address(_GoString_ text) {
    text_call call = {{0}};
    call.fault = ipnetwork_address_read(_GoStringPtr(text), _GoStringLen(text), &call.address);
    return call;
}
*/
import "C"

import (
	"encoding/binary"
	"fmt"
	"math/bits"
	"net/netip"
	"strings"
	"unsafe"
)

func init() {
	if C.ipnetwork_abi_version() != C.IPNETWORK_ABI_VERSION || C.ipnetwork_abi_minor_version() < C.IPNETWORK_ABI_MINOR_VERSION {
		panic("ipnetwork: the library is of another version than its header: build it again")
	}
}

// Version returns the version of the library, such as 0.2.0.
func Version() string {
	version, _, _ := strings.Cut(versionText(), " (")
	return version
}

// Build returns which build of the library it is: proved, or plain Rust, made of proved sources. The latter is tested,
// and not proved.
func Build() string {
	_, build, _ := strings.Cut(versionText(), " (")
	return strings.TrimSuffix(build, ")")
}

// versionText returns the text of the library about itself: its version, and in parentheses which build it is.
func versionText() string {
	call := C.ipnetwork_go_build()
	mustBe(call.fault)
	return C.GoStringN(&call.text[0], C.int(call.length))
}

// A Fault says why there is no network, or no result.
type Fault uint32

// The faults that calls return.
const (
	// Format: the text has two or more slashes.
	Format Fault = C.IPNETWORK_FORMAT
	// Address: the part before the slash, or the whole text if it has none, is not an address.
	Address Fault = C.IPNETWORK_ADDRESS
	// Prefix: the prefix length, or the text after the slash, is not a prefix length of the family.
	Prefix Fault = C.IPNETWORK_PREFIX
	// NoRoom: there is room for fewer results than there are rows.
	NoRoom Fault = C.IPNETWORK_SHORT_BUFFER
	// NoMask: the address is not a mask.
	NoMask Fault = C.IPNETWORK_NO_MASK
	// NoMember: the network has no member, or no block, of that number.
	NoMember Fault = C.IPNETWORK_NO_MEMBER
	// NoFamily: the zero Network, the zero netip.Addr, an address with a zone, or one of the other family.
	NoFamily Fault = C.IPNETWORK_NO_FAMILY
	// NoOffsets: the offsets of a column decrease, or go past the end of its texts.
	NoOffsets Fault = C.IPNETWORK_NO_OFFSETS
)

func (fault Fault) Error() string {
	switch fault {
	case Format:
		return "more than one slash"
	case Address:
		return "no address"
	case Prefix:
		return "no prefix length of the family"
	case NoRoom:
		return "room for fewer answers than rows"
	case NoMask:
		return "no mask"
	case NoMember:
		return "no member of this number"
	case NoFamily:
		return "no address or network of the family"
	case NoOffsets:
		return "offsets that fall, or pass the end of the texts"
	}
	return "fault of a later library"
}

func faultOf(number C.ipnetwork_fault) error {
	if number == C.IPNETWORK_OK {
		return nil
	}
	return Fault(number)
}

// mustBe panics if there is a fault, which a set or a table made by the library cannot have.
func mustBe(number C.ipnetwork_fault) {
	if number != C.IPNETWORK_OK {
		panic(Fault(number))
	}
}

// An Error says which text names no network or address, and why: it wraps the Fault, so that errors.Is tells it.
type Error struct {
	// Text is the text that was refused, or what New or PrefixOfMask refused, as a text. If it has more than 60 bytes,
	// it is the first 57 and three dots.
	Text  string
	Fault Fault
}

func (err *Error) Error() string { return fmt.Sprintf("%q: %v", err.Text, err.Fault) }

// Unwrap returns the Fault.
func (err *Error) Unwrap() error { return err.Fault }

// refused returns an error that keeps nothing of the text but a copy of its start.
func refused(text string, fault Fault) error { return &Error{shortened(text), fault} }

// shortened returns a copy of a text, of at most 60 bytes.
func shortened(text string) string {
	if len(text) > 60 {
		return text[:57] + "..."
	}
	return strings.Clone(text)
}

// A Network is an IPv4 or IPv6 network. Networks are equal by == if their addresses and prefix lengths are. The zero
// Network is not a network: it has no members, and its text is empty.
type Network struct {
	number        integer
	prefix, width uint8 // the width is 32 or 128, or 0 for the zero Network
}

// networkOf returns the zero Network if the library holds none.
func networkOf(held *C.ipnetwork_ip) Network {
	switch held.family {
	case 4:
		return ofFour(&held.v4)
	case 6:
		return ofSix(&held.v6)
	}
	return Network{}
}

func ofFour(held *C.ipnetwork_v4) Network {
	return Network{integer{0, 0xffff<<32 | uint64(startOfFour(held))}, uint8(held.prefix), 32}
}

func ofSix(held *C.ipnetwork_v6) Network { return Network{startOfSix(held), uint8(held.prefix), 128} }

// held returns the network as the library holds it.
func (network Network) held() (held C.ipnetwork_ip) {
	switch network.width {
	case 32:
		held.family, held.v4 = 4, network.four()
	case 128:
		held.family, held.v6 = 6, network.six()
	}
	return held
}

func (network Network) four() (held C.ipnetwork_v4) {
	binary.BigEndian.PutUint32((*[4]byte)(unsafe.Pointer(&held.address))[:], uint32(network.number.low))
	held.prefix = C.uint8_t(network.prefix)
	return held
}

func (network Network) six() (held C.ipnetwork_v6) {
	octets := (*[16]byte)(unsafe.Pointer(&held.address))
	binary.BigEndian.PutUint64(octets[:8], network.number.high)
	binary.BigEndian.PutUint64(octets[8:], network.number.low)
	held.prefix = C.uint8_t(network.prefix)
	return held
}

// give writes an address in the library's form. The zero netip.Addr and an address with a zone have no such form: then
// give returns false and writes nothing.
func give(address netip.Addr, held *C.ipnetwork_address) bool {
	if address.Is4() {
		*(*[4]byte)(unsafe.Pointer(&held.octets)) = address.As4()
		held.length = 4
		return true
	}
	if _, width := numbered(address); width == 0 {
		return false
	}
	*(*[16]byte)(unsafe.Pointer(&held.octets)) = address.As16()
	held.length = 16
	return true
}

func taken(held *C.ipnetwork_address) netip.Addr {
	if held.length == 4 {
		return netip.AddrFrom4(*(*[4]byte)(unsafe.Pointer(&held.octets)))
	}
	return netip.AddrFrom16(*(*[16]byte)(unsafe.Pointer(&held.octets)))
}

// giveText writes a text of at most 64 bytes.
func giveText(text string) (call C.text_call) {
	copy((*[C.LONGEST_TEXT]byte)(unsafe.Pointer(&call.text))[:], text)
	call.length = C.size_t(len(text))
	return call
}

// read returns the zero Network and the cause if a text names none.
func read(text string) (Network, Fault) {
	var call C.text_call
	if len(text) > C.LONGEST_TEXT {
		call = C.read_long(strings.Clone(text)) // so that only the copy escapes by cgo
	} else {
		call = C.ipnetwork_go_read(giveText(text))
	}
	return networkOf(&call.network), Fault(call.fault)
}

// Parse returns the network of either family that a text names. For any other text the error is an Error with the
// cause: Format if it has two or more slashes, else Address if the part before the slash, or the whole text if it has
// none, is an address of neither family, else Prefix.
func Parse(text string) (Network, error) {
	network, fault := read(text)
	if fault != 0 {
		return Network{}, refused(text, fault)
	}
	return network, nil
}

// MustParse is like Parse, but panics if the text names no network.
func MustParse(text string) Network {
	network, err := Parse(text)
	if err != nil {
		panic("ipnetwork: " + err.Error())
	}
	return network
}

// ParseAddr returns the address that a text names. For any other text, such as one with a slash or a zone, the error is
// an Error with the cause Address.
func ParseAddr(text string) (netip.Addr, error) {
	var call C.text_call
	if len(text) > C.LONGEST_TEXT {
		call = C.read_long_address(strings.Clone(text))
	} else {
		call = C.ipnetwork_go_read_address(giveText(text))
	}
	if call.fault != C.IPNETWORK_OK {
		return netip.Addr{}, refused(text, Fault(call.fault))
	}
	return taken(&call.address), nil
}

// New returns the network of this address, host bits kept, and this prefix length. The error wraps Prefix if the prefix
// length is negative or greater than the width, and NoFamily if the address is the zero netip.Addr or has a zone.
func New(address netip.Addr, prefix int) (Network, error) {
	number, width := numbered(address)
	fault := Prefix
	if width == 0 {
		fault = NoFamily
	} else if 0 <= prefix && prefix <= int(width) {
		return Network{number, uint8(prefix), width}, nil
	}
	return Network{}, refused(fmt.Sprintf("%v/%d", address, prefix), fault)
}

// FromPrefix returns the network of a netip.Prefix, host bits kept.
func FromPrefix(prefix netip.Prefix) (Network, error) { return New(prefix.Addr(), prefix.Bits()) }

// PrefixOfMask returns the prefix length of a mask. The error wraps NoMask if the address is not a mask, and NoFamily
// if it is the zero netip.Addr or has a zone.
func PrefixOfMask(mask netip.Addr) (int, error) {
	asked, width := numbered(mask)
	if width == 0 {
		return 0, refused(mask.String(), NoFamily)
	}
	if width == 32 {
		asked = integer{^uint64(0), asked.low | 0xffffffff<<32}
	}
	ones := bits.LeadingZeros64(^asked.high)
	if ones == 64 {
		ones += bits.LeadingZeros64(^asked.low)
	}
	if hosts := hostBits(128 - uint8(ones)); asked.high&hosts.high|asked.low&hosts.low != 0 {
		return 0, refused(mask.String(), NoMask)
	}
	return ones + int(width) - 128, nil
}

// Prefix returns the network as a netip.Prefix, host bits kept.
func (network Network) Prefix() netip.Prefix { return netip.PrefixFrom(network.Addr(), network.Bits()) }

// Addr returns the address, host bits included.
func (network Network) Addr() netip.Addr { return network.number.address(network.width) }

// Bits returns the prefix length, or -1 for the zero Network.
func (network Network) Bits() int {
	if network.width == 0 {
		return -1
	}
	return int(network.prefix)
}

// Is4 reports whether it is an IPv4 network.
func (network Network) Is4() bool { return network.width == 32 }
