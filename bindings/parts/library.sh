# The library itself, of which all other parts test what is there: builds the proved one, and sees what it keeps and
# needs. bindings/check reads it, in the folder bindings; what is made goes to $out.

step "the library"
if [ "$plain" ]; then
    echo "the library is plain Rust, made of the proved sources: $(wc -c < "$library") bytes"
else
    (cd ../crates/ipnetwork_c && rt lib) > $out/rt_lib.log 2>&1 || { cat $out/rt_lib.log >&2; exit 1; }
    tail -n 1 $out/rt_lib.log
    # It keeps nothing: there is no place in it that a program could write.
    if nm "$library" | grep -E ' [BbCDdGgSs] '; then
        echo "the library has variables" >&2
        exit 1
    fi
    # What it needs of others: no allocator, no lock, no input or output.
    needs="$(nm -u "$library" | sed -n 's/^ *U //p' | grep -vxE 'mem(cpy|move|set|cmp)|bcmp' || true)"
    if [ -n "$needs" ]; then
        echo "the library needs more than copies and comparisons of memory:" $needs >&2
        exit 1
    fi
fi
