# What make install installs, and the packages. bindings/check reads it, in the folder bindings; what is made goes to
# out, from where make install takes it.

step "install"
if here install make pkg-config readelf; then
    make -s -C .. shared
    # It is installed too, if it is there; an earlier run may have left one over another library.
    rm -f out/cidr.so
    if has_sqlite_header; then make -s -C .. sqlite; fi
    ./check_install
    if here packages objdump "$python"; then
        ./check_packages ${plain:+--cargo}
    fi
    if [ "$plain" ]; then
        skip packages "proved programs"
    fi
fi
