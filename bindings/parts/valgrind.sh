# C: the test and the example under valgrind. bindings/check reads it, in the folder bindings; what is made goes to $out.

step "C, under valgrind"
if here "C: valgrind" valgrind; then
    cc $strict c/test.c "$library" -o $out/test
    cc $strict -I c c/allow.c "$library" -o $out/allow
    valgrind -q --error-exitcode=1 $out/test > /dev/null
    valgrind -q --error-exitcode=1 $out/allow ../examples/cidr/allow_list.txt < c/allowed.txt > /dev/null
    echo "C: valgrind sees no byte read or written out of place"
fi
