# Python with more: columns, dask, the test of CPython, types. bindings/check reads it, in the folder bindings; what
# is made goes to $out.

step "Python, with more"
. parts/python_package.sh
if ! here "Python: columns, dask, CPython's test and speed" "$python"; then
    :
elif ! has_headers "$python"; then
    skip "Python: columns, dask, CPython's test and speed" "extension for Python"
else
    package_with_extension out/native_more
    shared_library "$out/libipnetwork_c.so"
    made="$PWD/$out"
    cd out/native_more
    if has "Python: columns" numpy python3-numpy; then
        has "Python: columns of pandas" pandas python3-pandas || true
        "$python" -c 'import doctest, sys, ipnetwork.columns as columns; sys.exit(doctest.testmod(columns).failed)'
        "$python" run_tests.py test_columns
        IPNETWORK_LIBRARY="$made/libipnetwork_c.so" "$python" run_tests.py test_columns
    fi
    if has "Python: dask" distributed python3-distributed; then
        if has "Python: a log filtered by dask" pandas python3-pandas; then
            PYTHONPATH="$PWD" "$python" examples/filter_by_dask.py
        fi
        if [ -x "${CIDR_PROGRAMS:-../../../crates/cidr_join/out}/cidr_join" ]; then
            echo "cidr_join by dask:"
            PYTHON="$python" ../../../tests/in_parts --dask
        else
            skip "cidr_join by dask" "${CIDR_PROGRAMS:-crates/cidr_join/out}/cidr_join"
        fi
    fi
    if has "Python: CPython's test of ipaddress" test.test_ipaddress "libpython3.11-testsuite, or the like of another version"; then
        "$python" replay_test_ipaddress.py
        IPNETWORK_LIBRARY="$made/libipnetwork_c.so" "$python" replay_test_ipaddress.py
    fi
    if command -v mypy > /dev/null; then
        mypy --strict --no-error-summary --cache-dir "$made/mypy" ipnetwork
        mypy --strict --no-error-summary --cache-dir "$made/mypy" typed_sets.py
        echo "Python: mypy --strict finds nothing, and the hints refuse other types in sets and tables"
        if has "Python: types of columns" numpy python3-numpy; then
            mypy --strict --no-error-summary --cache-dir "$made/mypy" typed_columns.py
            echo "Python: the hints refuse a str and rows of other types"
        fi
    else
        skip "Python: types" "mypy" "mypy"
    fi
    [ "$measure" = no ] || "$python" speed.py
    cd ../..
fi
