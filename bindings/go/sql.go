//go:build cgo

package ipnetwork

import (
	"database/sql/driver"
	"fmt"
)

// Value implements driver.Valuer of database/sql: the canonical text, or NULL for the zero Network.
func (network Network) Value() (driver.Value, error) {
	if network.Bits() < 0 {
		return nil, nil
	}
	return network.String(), nil
}

// Scan implements Scanner of database/sql. It reads a text as Parse does, and NULL as the zero Network, which NewSet and
// NewTable refuse. If there is an error, the network is unchanged.
func (network *Network) Scan(value any) error {
	var text string
	switch value := value.(type) {
	case nil:
		*network = Network{}
		return nil
	case string:
		text = value
	case []byte:
		text = string(value)
	default:
		return fmt.Errorf("ipnetwork: a network is read from a text or NULL, not from a %T", value)
	}
	scanned, err := Parse(text)
	if err == nil {
		*network = scanned
	}
	return err
}
