# The step of bindings/check for WebAssembly of plain Rust, which that script reads: it builds the module, and says whether
# there is one. The calculator is made of the proved module alone. wasm-opt is here, and the folder is bindings.

if wasm/build --plain > out/wasm.log 2>&1; then
    cat out/wasm.log
    module=yes
elif grep -q 'needs what is not here: std of rustc' out/wasm.log; then
    skip "WebAssembly and JavaScript" "std of rustc for wasm32-unknown-unknown" \
        "libstd-rust-dev-wasm32, which rust/unpack_rustc unpacks"
else
    cat out/wasm.log >&2
    exit 1
fi
skip "the subnet calculator" "proved library"
