//go:build cgo && go1.24

package ipnetwork

// From Go 1.24 on, cgo knows by these lines that the functions keep no pointer and do not call back into Go, so what
// their callers pass may be on the stack.

/*
#cgo noescape ipnetwork_v4_contains_column
#cgo nocallback ipnetwork_v4_contains_column
#cgo noescape ipnetwork_v6_contains_column
#cgo nocallback ipnetwork_v6_contains_column
#cgo noescape ipnetwork_read_with_cause_column
#cgo nocallback ipnetwork_read_with_cause_column
#cgo noescape ipnetwork_address_read_column
#cgo nocallback ipnetwork_address_read_column
#cgo noescape ipnetwork_print_column
#cgo nocallback ipnetwork_print_column
#cgo noescape ipnetwork_address_print_column
#cgo nocallback ipnetwork_address_print_column
#cgo noescape ipnetwork_v4_aggregate
#cgo nocallback ipnetwork_v4_aggregate
#cgo noescape ipnetwork_v6_aggregate
#cgo nocallback ipnetwork_v6_aggregate
#cgo noescape ipnetwork_go_contains_column
#cgo nocallback ipnetwork_go_contains_column
#cgo noescape ipnetwork_go_find_column
#cgo nocallback ipnetwork_go_find_column
#cgo noescape ipnetwork_go_table
#cgo nocallback ipnetwork_go_table
#cgo noescape ipnetwork_go_ranges
#cgo nocallback ipnetwork_go_ranges
#cgo noescape ipnetwork_go_index
#cgo nocallback ipnetwork_go_index
#cgo noescape ipnetwork_go_operate_v4
#cgo nocallback ipnetwork_go_operate_v4
#cgo noescape ipnetwork_go_operate_v6
#cgo nocallback ipnetwork_go_operate_v6
#cgo noescape ipnetwork_go_read
#cgo nocallback ipnetwork_go_read
#cgo noescape ipnetwork_go_read_address
#cgo nocallback ipnetwork_go_read_address
#cgo noescape ipnetwork_go_text
#cgo nocallback ipnetwork_go_text
*/
import "C"
