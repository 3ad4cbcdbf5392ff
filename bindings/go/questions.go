//go:build cgo

package ipnetwork

import (
	"math/big"
	"net/netip"
)

// hosts returns the integer whose bits are the host bits of the network.
func (network Network) hosts() integer { return hostBits(network.width - network.prefix) }

// Contains reports whether an address is a member of the network. An address of the other family is not, not even an
// IPv4-mapped one whose Unmap is a member of the IPv4 network; neither is an address with a zone.
func (network Network) Contains(address netip.Addr) bool {
	number, width := laid(address)
	if width == 0 {
		number, width = numberedByOctets(address)
	}
	return width == network.width && network.has(number)
}

// has reports whether the network has the address of its family with this number.
func (network Network) has(number integer) bool {
	return network.width != 0 && network.number.shares(128-network.width+network.prefix, number)
}

// Network returns the least member: the address with its host bits cleared.
func (network Network) Network() netip.Addr { return network.least().address(network.width) }

func (network Network) least() integer {
	hosts := network.hosts()
	return integer{network.number.high &^ hosts.high, network.number.low &^ hosts.low}
}

// Broadcast returns the greatest member: the address with its host bits set.
func (network Network) Broadcast() netip.Addr {
	return network.number.or(network.hosts()).address(network.width)
}

// Mask returns the mask of the prefix length.
func (network Network) Mask() netip.Addr {
	hosts := network.hosts()
	return integer{^hosts.high, ^hosts.low}.address(network.width)
}

// Size returns the number of members, 0 for the zero Network.
func (network Network) Size() *big.Int {
	if network.width == 0 {
		return new(big.Int)
	}
	return new(big.Int).Lsh(big.NewInt(1), uint(network.width-network.prefix))
}

// Nth returns member number n in ascending order, counted from 0. The error is NoMember if there is none or n is nil,
// and NoFamily for the zero Network.
func (network Network) Nth(n *big.Int) (netip.Addr, error) {
	member, err := network.SubnetAt(int(network.width), n)
	return member.Addr(), err
}

// SubnetAt returns block number n of this prefix length within the network, counted from 0 in ascending order. The
// error is Prefix if the prefix length is less than the network's or greater than the width, NoMember if there is no
// such block or n is nil, and NoFamily for the zero Network.
func (network Network) SubnetAt(prefix int, n *big.Int) (Network, error) {
	if network.width == 0 {
		return Network{}, NoFamily
	}
	if prefix < int(network.prefix) || prefix > int(network.width) {
		return Network{}, Prefix
	}
	if n == nil || n.Sign() < 0 || n.BitLen() > prefix-int(network.prefix) {
		return Network{}, NoMember
	}
	var octets [16]byte
	new(big.Int).Lsh(n, uint(int(network.width)-prefix)).FillBytes(octets[:])
	return Network{network.least().or(ofOctets(&octets)), uint8(prefix), network.width}, nil
}

// IsSubnetOf reports whether each member of this network is a member of the other, which is false if the families
// differ.
func (network Network) IsSubnetOf(other Network) bool {
	return network.width == other.width && network.prefix >= other.prefix && other.has(network.number)
}

// Overlaps reports whether some address is a member of both networks.
func (network Network) Overlaps(other Network) bool {
	// If an address is in two networks, one of these is within the other.
	return network.width == other.width && (network.has(other.number) || other.has(network.number))
}

// Compare returns -1 if this network comes first, by family, address and prefix length, 1 if the other does, and 0 if
// they are equal or one of them is the zero Network.
func (network Network) Compare(other Network) int {
	switch {
	case network == other || network.width == 0 || other.width == 0:
		return 0
	case network.width != other.width:
		return sooner(network.width < other.width)
	case network.number != other.number:
		return sooner(network.number.isLess(other.number))
	}
	return sooner(network.prefix < other.prefix)
}

func sooner(is bool) int {
	if is {
		return -1
	}
	return 1
}
