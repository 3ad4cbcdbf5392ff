//go:build cgo

package ipnetwork

import "net/netip"

// An Entry is a network with its value.
type Entry[Value any] struct {
	Network Network
	Value   Value
}

// A Map has a value for each of some networks of either family, and finds the longest network that has an address, as a
// Table does. It does not change, so several goroutines may use it at the same time. The zero Map has no networks.
type Map[Value any] struct {
	table   Table
	entries []Entry[Value]
}

// NewMap returns the map of these entries, in any order; of entries with the same block, the last one is found. The
// error is that of NewTable.
func NewMap[Value any](entries []Entry[Value]) (Map[Value], error) {
	networks := make([]Network, len(entries))
	for number, entry := range entries {
		networks[number] = entry.Network
	}
	table, err := NewTable(networks)
	if err != nil {
		return Map[Value]{}, err
	}
	return Map[Value]{table, append([]Entry[Value](nil), entries...)}, nil
}

// Mapped returns the same map, which finds what the table that Table.Mapped returns does.
func (held Map[Value]) Mapped() Map[Value] {
	held.table = held.table.Mapped()
	return held
}

// Find returns the longest network that has an address, as it was given, with its value; false if there is none.
func (held Map[Value]) Find(address netip.Addr) (Network, Value, bool) {
	number := held.table.Find(address)
	if number < 0 {
		var none Value
		return Network{}, none, false
	}
	return held.entries[number].Network, held.entries[number].Value, true
}

// Len returns the number of entries.
func (held Map[Value]) Len() int { return len(held.entries) }

// All calls yield with each entry, in the order in which they were given, until it returns false. From Go 1.23 on, it is
// what a for loop ranges over: for network, value := range held.All().
func (held Map[Value]) All() func(yield func(Network, Value) bool) {
	return func(yield func(Network, Value) bool) {
		for _, entry := range held.entries {
			if !yield(entry.Network, entry.Value) {
				return
			}
		}
	}
}
