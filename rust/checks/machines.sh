# The part of `rust/check --all` over other compilers and machines; that script reads this file.

# VERSION COMMAND..: a command with the compiler of this version.
by() {
    local version="$1"
    shift
    RUSTC="$rustcs/$version/rustc" CARGO_TARGET_DIR="$out/target_$version" "$@"
}
# With overflow checks, and somewhat optimised: what runs under qemu takes ten times as long.
export CARGO_PROFILE_DEV_OPT_LEVEL=1 CARGO_PROFILE_TEST_OPT_LEVEL=1 CARGO_PROFILE_DEV_DEBUG=0
export CARGO_PROFILE_RELEASE_LTO=off CARGO_PROFILE_RELEASE_CODEGEN_UNITS=16
tests="$out/with_tests"
rm -rf "$tests"
../scripts/plain --tests --to "$tests"
rm -f "$tests"/*/Cargo.lock
# They start programs, as only this machine does.
rm -f "$tests/fosibegan/tests/examples.rs"
# In tests `str` is a type, as from Rust 1.87 on, and not a module.
grep -rlE '(^|[^:])\bstr::from_utf8\(' "$tests"/*/src/tests* "$tests"/*/tests |
    xargs sed -i -E 's/(^|[^:])\bstr::from_utf8\(/\1std::str::from_utf8(/'
# MANIFEST ARGUMENT..: the unit tests of a manifest, and how many passed. The hash of an IPv6 address is the same on each
# machine, and that of a u128 is not, so that a test of both is for little-endian ones.
units() {
    local manifest="$1"
    shift
    quiet units.log cargo test --offline --config "$out/sources.toml" --manifest-path "$tests/$manifest" "$@"
    counted
}
counted() { passed=$((passed + $(awk '/^test result: ok/ { count += $4 } END { print count + 0 }' "$out/units.log"))); }
# ARGUMENT..: the tests of fosibegan and of ipnetwork over it, in their folders, where cargo needs no registry.
by_hand_units() {
    local folder
    for folder in fosibegan patched/plain; do
        IPNETWORK_ROWS=20000 quiet units.log env -C "$tests/$folder" cargo test --offline --lib --tests "$@"
        counted
    done
}
# ARGUMENT..: the unit tests of all packages.
all_units() {
    passed=0
    crates_in "$registry"
    units fosibegan_core/Cargo.toml --features serde --tests "$@"
    for package in cidr_programs cidr cidr_merge cidr_filter cidr_join cidr_info; do
        units Cargo.toml -p "$package" --lib --bins --tests "$@"
    done
    by_hand_units "$@"
}

step "other compilers"
versions="$(cd "$rustcs" 2> /dev/null && ls -d [0-9]*/rustc 2> /dev/null | sed 's|/rustc||' | sort -V || true)"
least="$(echo "$versions" | head -n 1)"
[ -n "$versions" ] || skip "other compilers and machines" "rustc in the folders of $rustcs" \
    "rustc-web, which rust/unpack_rustc unpacks"
for version in $versions; do
    by "$version" quiet compiler.log cargo check --offline --locked --workspace
    checks/with_another "$library.a" "$out" "$rustcs/$version/rustc"
    if [ "$serde" = yes ]; then
        by "$version" all_units
        echo "rustc $version: the packages are built, $passed unit tests passed"
    else
        echo "rustc $version: the packages are built"
    fi
done

# NAME TOOLS QEMU TARGET: where a `usize` has 32 bits, the casts to it, fosibegan, and the library for C. TOOLS is what
# precedes the names of gcc and ld for the machine, and QEMU the name of its qemu.
narrow() {
    local name="$1" tools="$2" qemu="$3" target="$4" variable library="$out/target_$least/$4/release/libipnetwork_c.a" test
    step "$name"
    if [ -z "$least" ] || [ ! -d "$rustcs/$least/root/usr/lib/rustlib/$target" ]; then
        skip "$name" "std of $target in $rustcs" "libstd-rust-web-dev, which rust/unpack_rustc unpacks"
        return
    fi
    here "$name" "$tools-gcc" "gcc-$tools" || return 0
    here "$name" "qemu-$qemu-static" qemu-user-static || return 0
    variable="CARGO_TARGET_$(echo "$target" | tr 'a-z-' 'A-Z_')"
    export "${variable}_LINKER=$tools-gcc" "${variable}_RUNNER=qemu-$qemu-static -L /usr/$tools"
    # Some machines' qemu-i386 does not end where a program starts a thread; x86-64 itself runs what is for i686.
    [ "$qemu:$(uname -m)" != i386:x86_64 ] ||
        export "${variable}_RUNNER=/usr/$tools/lib/ld-linux.so.2 --library-path /usr/$tools/lib"
    if [ "$serde" = yes ]; then
        passed=0
        by "$least" units fosibegan_core --test widths --target "$target"
        by "$least" by_hand_units --target "$target"
        echo "$name: $passed tests passed, of casts, fosibegan and ipnetwork over it"
    else
        skip "$name: casts" "serde_json in $registry" librust-serde-json-dev
    fi
    # Without an optimisation at the link the library would have parts of core that unwind.
    CARGO_PROFILE_RELEASE_LTO=fat CARGO_PROFILE_RELEASE_CODEGEN_UNITS=1 by "$least" quiet narrow.log \
        cargo build --offline --locked --release --target "$target" -p ipnetwork_c
    ../bindings/c/one_object "$library" "$tools-"
    ../bindings/check_exports "$library"
    for test in ../bindings/c/test.c checks/narrow.c; do
        "$tools-gcc" $strict -O2 -static -I ../bindings/c "$test" "$library" -o "$out/narrow"
        "qemu-$qemu-static" "$out/narrow"
    done
    echo "$name: tested, not proved, for this width"
}
narrow "i686, of 32 bits" i686-linux-gnu i386 i686-unknown-linux-gnu
narrow "armv7, of 32 bits" arm-linux-gnueabihf arm armv7-unknown-linux-gnueabihf

# Runs of the programs, in examples/recipes.
runs='cidr_merge union allowed.txt denied.txt
cidr_merge minus denied.txt -- today.txt
cidr_merge common denied.txt -- today.txt
cidr_merge check --strict wrong.txt
cidr_merge union --json aws.json
cidr_filter -f allowed.txt access.log
cidr_filter -v -a -f denied.txt auth.log firewall.log
cidr_filter --longest -a -f today.txt -e 203.0.113.0/24 auth.log access.log
cidr_join -f today.txt access.log
cidr_join --group 24,64 access.log
cidr_join --tally --group 24,64 access.log
cidr_info 10.1.9.32/20 2001:db8::1/47 ::/0 x
cidr_info --in 10.0.0.0/8 11.0.0.0
cidr no_argument'
# FOLDER [SUFFIX]: compares what the programs of this folder, whose names end so, print in these runs, and their status,
# with what those that are built here do.
same_answers() {
    local program words where
    while read -r program words; do
        for where in "$out/target/debug/$program" "$1/$program${2:-}"; do
            # shellcheck disable=SC2086
            (cd ../examples/recipes && "$where" $words < ../cidr/questions.txt && echo 0 || echo $?) \
                > "$out/answer_$([ "$where" = "$1/$program${2:-}" ] && echo there || echo here)" 2> "$out/errors"
        done
        diff "$out/answer_here" "$out/answer_there" > "$out/differences" ||
            { cat "$out/differences" >&2; fail "$1/$program $words answers otherwise than here"; }
    done <<< "$runs"
}
cargo build --offline --locked --quiet

# NAME ARCHITECTURE TARGET ARGUMENT..: unit tests and programs for another machine. The arguments go to the unit tests.
machine() {
    local name="$1" architecture="$2" target="$3" variable
    shift 3
    step "$name"
    if [ -z "$least" ] || [ ! -d "$rustcs/$least/root/usr/lib/rustlib/$target" ]; then
        skip "$name" "std of $target in $rustcs" "libstd-rust-web-dev, which rust/unpack_rustc unpacks"
        return
    fi
    here "$name" "$architecture-linux-gnu-gcc" "gcc-$architecture-linux-gnu" || return 0
    here "$name" "qemu-$architecture-static" qemu-user-static || return 0
    if [ "$serde" = no ]; then
        skip "$name" "serde_json in $registry" librust-serde-json-dev
        return
    fi
    variable="CARGO_TARGET_$(echo "$target" | tr 'a-z-' 'A-Z_')"
    export "${variable}_LINKER=$architecture-linux-gnu-gcc"
    export "${variable}_RUNNER=qemu-$architecture-static -L /usr/$architecture-linux-gnu"
    by "$least" all_units --target "$target" -- "$@"
    echo "$name: $passed unit tests passed, with overflow checks"
    local programs="$out/programs_$architecture" program at
    mkdir -p "$programs"
    by "$least" quiet programs.log cargo build --offline --locked --release --target "$target"
    for program in cidr cidr_merge cidr_filter cidr_join cidr_info; do
        at="$out/target_$least/$target/release/$program"
        printf '#!/bin/sh\nexec qemu-%s-static -L /usr/%s-linux-gnu %s "$@"\n' "$architecture" "$architecture" "$at" \
            > "$programs/$program"
        chmod +x "$programs/$program"
    done
    same_answers "$programs"
    echo "$name: the programs answer as here"
    # Under qemu for s390x 4 GiB of input take longer than the test waits.
    if [ "$architecture" = aarch64 ]; then
        CIDR_PROGRAMS="$programs" quiet programs.log ../tests/cidr --plain
        echo "$name: tests/cidr: $(tail -n 1 "$out/programs.log")"
    fi
}
machine arm64 aarch64 aarch64-unknown-linux-gnu
machine "s390x, big-endian" s390x s390x-unknown-linux-gnu --skip each_group_is_hashed

# Debian has Rust's std for Windows of 1.63 alone. It takes a copy in which what later Rust brought is replaced: so the
# language is that of 1.63 with `let .. else` and blocks of constants, and all else that is newer are calls of std.
step "Windows, under wine"
old="$rustcs/old/rustc"
windows=x86_64-pc-windows-gnu
if [ ! -x "$old" ]; then
    skip Windows "$old" "rustc and libstd-rust-dev-windows, which rust/unpack_rustc unpacks"
elif here Windows x86_64-w64-mingw32-gcc gcc-mingw-w64-x86-64-win32 && here Windows wine "wine, wine64"; then
    rm -rf "$out/old"
    cp -r "$tests" "$out/old"
    python3 checks/older.py "$out/old"
    # NAME ROOT ARGUMENT..: compiles a crate with Debian's rustc 1.63 for Windows.
    older() {
        local name="$1" root="$2"
        shift 2
        RUSTC_BOOTSTRAP=1 quiet old.log "$old" --edition 2021 -O -C overflow-checks=on --target "$windows" \
            "-Zcrate-attr=feature(let_else, inline_const, int_roundings, io_error_more, bench_black_box)" -C panic=unwind \
            -C linker=x86_64-w64-mingw32-gcc -L "$out/old" --crate-name "$name" "$out/old/$root" --out-dir "$out/old" "$@"
    }
    below="--extern fosibegan_core=$out/old/libfosibegan_core.rlib"
    older fosibegan_core fosibegan_core/src/lib.rs --crate-type rlib --cfg 'feature="std"'
    older cidr_programs cidr_programs/src/lib.rs --crate-type rlib $below
    for program in cidr cidr_filter cidr_join cidr_info; do
        older "$program" "$program/src/main.rs" $below --extern cidr_programs="$out/old/libcidr_programs.rlib"
    done
    older units fosibegan_core/tests/units/main.rs --test $below
    export WINEPREFIX="$out/wine" WINEDEBUG=-all
    quiet wine.log wine "$out/old/units.exe"
    echo "Windows: $(sed -n 's/^test result: ok. \([0-9]* passed\).*/\1/p' "$out/wine.log") of the unit tests of the library"
    wine "$out/old/cidr.exe" < ../examples/cidr/questions.txt 2> "$out/errors" > "$out/windows"
    "$out/target/debug/cidr" < ../examples/cidr/questions.txt | cmp - "$out/windows"
    for words in "cidr_filter -a -f today.txt access.log" "cidr_join --tally --group 24,64 access.log" "cidr_info 10.1.9.32/20 ::/0"; do
        # shellcheck disable=SC2086
        (cd ../examples/recipes && wine "$out/old/${words%% *}.exe" ${words#* } > "$out/windows" 2> "$out/errors")
        # shellcheck disable=SC2086
        (cd ../examples/recipes && "$out/target/debug/${words%% *}" ${words#* }) | cmp - "$out/windows"
    done
    echo "Windows: cidr, cidr_filter, cidr_join and cidr_info print the bytes that they print here"
fi

step "exchanged arguments of the library for C"
python3 ../bindings/c/exchanged.py cc -std=c11 -O1 "$library.a"
