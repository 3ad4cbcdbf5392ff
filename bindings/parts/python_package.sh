# What the parts of bindings/check on Python have in common.

tests_of_python="test_build test_ipnetwork test_sets test_mapped test_asked test_builder test_prefix_table test_examples"
tests_of_python="$tests_of_python test_messages test_interpreters test_memory test_allocations"
# WHAT MODULE PACKAGE: whether Python has a module; if not, WHAT is skipped, and the package of Debian that has it is named.
has() {
    if ! "$python" -c "import $2" 2> /dev/null; then
        skip "$1" "$2 in $python" "$3"
        return 1
    fi
}
# PYTHON: whether the extension can be built for it.
has_headers() {
    (cd python && "$1" -c 'import build_wheel, sys; sys.exit(not build_wheel.has_headers())')
}
# FOLDER: a copy of the package there, with the extension.
package_with_extension() {
    rm -rf "$1"
    cp -r python "$1"
    "$python" python/build_wheel.py "$1/ipnetwork" > /dev/null
}
# FILE: the library as a shared one, for ctypes.
shared_library() {
    cc -shared -Wl,--whole-archive "$library" -Wl,--no-whole-archive -o "$1"
}
# FOLDER ROWS: the tests of the package in this folder, by the core that it has.
python_tests() {
    (
        cd "$1"
        "$python" -c 'import ipnetwork; print("Python: by", ipnetwork.CORE)'
        for test in $tests_of_python test_wide_columns; do
            "$python" run_tests.py "$test"
        done
        "$python" against_ipaddress.py "$2"
    )
}
