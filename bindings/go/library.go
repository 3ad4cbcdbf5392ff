//go:build cgo

package ipnetwork

// Where the header and the library are in the repository: on Linux on x86-64 and ARM64 the proved library, elsewhere
// the one of plain Rust. The module that `make go` writes has library_GOOS_GOARCH.go instead of this file.

/*
#cgo CFLAGS: -std=c11 -I${SRCDIR}/../c
#cgo linux,amd64 LDFLAGS: ${SRCDIR}/../../crates/ipnetwork_c/out/libipnetwork_c.a
#cgo linux,arm64 LDFLAGS: ${SRCDIR}/../out/aarch64/libipnetwork_c.a
#cgo !linux !amd64,!arm64 LDFLAGS: ${SRCDIR}/../../rust/target/release/libipnetwork_c.a

#if defined __linux__ && defined __x86_64__
#if !__has_include("../../crates/ipnetwork_c/out/libipnetwork_c.a")
#error "no crates/ipnetwork_c/out/libipnetwork_c.a is here: 'rt lib' in crates/ipnetwork_c makes it; or 'make go' a module"
#endif
#elif defined __linux__ && defined __aarch64__
#if !__has_include("../out/aarch64/libipnetwork_c.a")
#error "no bindings/out/aarch64/libipnetwork_c.a is here: 'make arm64' makes it; or 'make go' a module"
#endif
#elif !__has_include("../../rust/target/release/libipnetwork_c.a")
#error "no rust/target/release/libipnetwork_c.a is here: cargo makes it, by 'scripts/build_plain ipnetwork_c'"
#endif
*/
import "C"
