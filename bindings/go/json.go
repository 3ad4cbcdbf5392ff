//go:build cgo

package ipnetwork

import (
	"encoding/json"
	"fmt"
)

// An ElementError says which element of a list, counted from 0, is no network, and why: it wraps the Fault. The text is
// that of an Error, and empty for the zero Network.
type ElementError struct {
	Index int
	Text  string
	Fault Fault
}

func (err *ElementError) Error() string {
	return fmt.Sprintf("element %d, %q: %v", err.Index, err.Text, err.Fault)
}

// Unwrap returns the Fault.
func (err *ElementError) Unwrap() error { return err.Fault }

// MarshalJSON returns the fewest networks that have the addresses of the set, as Networks does, as a list of texts.
func (set Set) MarshalJSON() ([]byte, error) { return json.Marshal(set.Networks()) }

// UnmarshalJSON makes the set from a list of texts, each of which Parse reads. If one names no network, the error is an
// ElementError, and the set is unchanged.
func (set *Set) UnmarshalJSON(list []byte) error {
	if string(list) == "null" {
		return nil
	}
	var texts []string
	if err := json.Unmarshal(list, &texts); err != nil {
		return err
	}
	networks, faults := ParseEach(texts)
	for row, fault := range faults {
		if fault != 0 {
			return &ElementError{row, shortened(texts[row]), fault}
		}
	}
	made, err := NewSet(networks)
	if err == nil && set.mapped {
		made = made.Mapped()
	}
	if err == nil {
		*set = made
	}
	return err
}
