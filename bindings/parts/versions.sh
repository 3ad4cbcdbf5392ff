# Python of each version that is here. bindings/check reads it, in the folder bindings; what is made goes to $out.

step "Python, by other versions"
. parts/python_package.sh
if here "Python: other versions" "$python"; then
    # VERSION: sets `other` to a Python of this version, or of pyenv's; a t at its end is for free threads.
    named() {
        for other in "python$1" "$(pyenv root 2> /dev/null || true)/versions/${1%t}".*/bin/python3; do
            "$other" -c 'import sys, sysconfig
free = "t" if sysconfig.get_config_var("Py_GIL_DISABLED") else ""
sys.exit("%d.%d" % sys.version_info[:2] + free != sys.argv[1])' "$1" > /dev/null 2>&1 && return 0
        done
        return 1
    }
    if has_headers "$python"; then
        package_with_extension out/native_of_versions
    fi
    # Each of these builds the extension, and runs what interpreters and threads ask at the same time.
    for version in 3.11 3.12 3.13 3.13t 3.14 3.14t; do
        what="Python: two interpreters at once, and threads, by $version"
        if ! named "$version"; then
            skip "$what" "python$version" "python$version-dev, where it has that version; or pyenv"
        elif ! has_headers "$other"; then
            skip "$what" "Python.h of $other" "python$version-dev"
        else
            rm -rf "out/python$version"
            cp -r python "out/python$version"
            "$other" python/build_wheel.py "out/python$version/ipnetwork" > /dev/null
            # One file for the stable ABI serves all versions, as from one wheel.
            if [ "$version" = "${version%t}" ] && [ -e out/native_of_versions/ipnetwork/_native.abi3.so ]; then
                cp out/native_of_versions/ipnetwork/_native.abi3.so "out/python$version/ipnetwork"
            fi
            for test in $tests_of_python; do
                (cd "out/python$version" && "$other" run_tests.py "$test")
            done
            echo "$what"
        fi
    done
fi
