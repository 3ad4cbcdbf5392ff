# Python by the extension. bindings/check reads it, in the folder bindings; what is made goes to $out.

step "Python"
. parts/python_package.sh
if here Python "$python"; then
    if ! "$python" -c 'import _testcapi' 2> /dev/null; then
        skip "Python: refused memory" "_testcapi in $python" \
            "libpython3.11-testsuite, or the like of another version"
    fi
    if has_headers "$python"; then
        package_with_extension out/native
        python_tests out/native "$rows"
    else
        skip "Python: the extension" "Python.h" "python3-dev"
    fi
fi
