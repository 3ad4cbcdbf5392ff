//go:build !cgo

package ipnetwork

// The library is C. If cgo is off (CGO_ENABLED=0, or no C compiler is found), the package cannot be built, and the
// compiler says so with this name.
var _ = the_package_ipnetwork_needs_cgo__set_CGO_ENABLED_to_1_and_install_a_C_compiler
