# Python by ctypes, where the library lacks, and by pip. bindings/check reads it, in the folder bindings; what is made
# goes to $out.

step "Python, by ctypes and by pip"
. parts/python_package.sh
if here "Python: by ctypes" "$python"; then
    native=yes
    has_headers "$python" || native=no
    shared_library "$out/libipnetwork_c.so"
    # Without the extension, these are all tests of the package.
    IPNETWORK_LIBRARY="$PWD/$out/libipnetwork_c.so" python_tests python "$([ $native = yes ] && echo $((rows / 10)) || echo "$rows")"
    (cd python && "$python" -m unittest -q test_wheel)
    # By ctypes it says so, unless that was asked for.
    rm -rf "$out/package"
    mkdir "$out/package"
    cp -r python/ipnetwork "$out/libipnetwork_c.so" "$out/package"
    cp "$out/libipnetwork_c.so" "$out/package/ipnetwork"
    (cd "$out/package" && "$python" -c '
import sys, warnings
with warnings.catch_warnings(record=True) as said:
    warnings.simplefilter("always")
    import ipnetwork
assert (ipnetwork.CORE, [each.category for each in said]) == ("ctypes", [RuntimeWarning]), said
assert "by ctypes" in str(said[0].message)')
    (cd "$out/package" && IPNETWORK_LIBRARY="$PWD/libipnetwork_c.so" "$python" -W error -c 'import ipnetwork')
    # Without the library the package says what to do, and so does its wheel: where IPNETWORK_C_LIB names a folder that has
    # none, and where there is neither the proved one nor cargo.
    # FOLDER WORDS: IPNETWORK_C_LIB, and what has to be said.
    no_wheel() {
        ! PATH=/nowhere IPNETWORK_C_LIB="$1" "$("$python" -c 'import sys; print(sys.executable)')" -c '
import pathlib, sys
sys.path.insert(0, "python")
import build_wheel
build_wheel.PROVED = {name: pathlib.Path("out/none") for name in build_wheel.PROVED}
build_wheel.build_wheel("out")' 2> "$out/missing.log" && grep -q "$2" "$out/missing.log"
    }
    if (cd python && "$python" -c 'import ipnetwork' 2> "../$out/missing.log") || ! grep -q 'rt lib.* cargo' "$out/missing.log" ||
        ! no_wheel out 'out/libipnetwork_c.a is not there, which IPNETWORK_C_LIB names' ||
        ! no_wheel '' 'out/none/libipnetwork_c.a is not there.* by rt, and there is no cargo'; then
        cat "$out/missing.log" >&2
        echo "Python: it should say what to do where the library is not" >&2
        exit 1
    fi
    if "$python" -m pip --version > /dev/null 2>&1; then
        rm -rf "$out/pip"
        "$python" -m pip --disable-pip-version-check install --quiet --no-index --root-user-action=ignore --target "$out/pip" ./python
        test -e "$out/pip/ipnetwork/py.typed"
        (cd "$out" && PYTHONPATH="$PWD/pip" "$python" -c "
import ipnetwork
assert ipnetwork.__file__.endswith('$out/pip/ipnetwork/__init__.py'), ipnetwork.__file__
assert ipnetwork.CORE == ('native' if '$native' == 'yes' else 'ctypes'), ipnetwork.CORE
assert str(ipnetwork.ip_network('10.1.9.32/255.255.0.0')) == '10.1.9.32/16'")
        echo "Python: pip installs the module and the library, without the network"
    else
        skip "Python: pip" "pip in $python" "python3-pip"
    fi
fi
