# C: the test, the example and the header. bindings/check reads it, in the folder bindings; what is made goes to $out.

step "C"
cc $strict c/test.c "$library" -o $out/test
$out/test "$IPNETWORK_BUILD"
# One object cannot be input and output: the header says so to the compiler, which gcc tells.
if cc --version | grep -q 'Free Software Foundation'; then
    for index in other index; do
        printf '#include "ipnetwork.h"\nuint32_t again(const ipnetwork_v6 *n, const uint8_t *other, uint8_t *index);\n%s\n' \
            "uint32_t again(const ipnetwork_v6 *n, const uint8_t *other, uint8_t *index) { (void)other; return ipnetwork_v6_nth(n, $index, index); }" > $out/same.c
        if cc $strict -I c -c $out/same.c -o $out/same.o 2> $out/same.log; then said=no; else said=yes; fi
        if [ "$index:$said" = "other:yes" ] || [ "$index:$said" = "index:no" ]; then
            echo "cc should refuse one object as input and output, and nothing else; $index: refused $said" >&2
            exit 1
        fi
    done
fi
cc $strict -I c c/allow.c "$library" -o $out/allow
printf '%s\n' 10.1.9.32 2001:db8:47::1 ::ffff:192.0.2.9 ::ffff:10.1.9.32 8.8.8.8 10.0.0.0/8 |
    $out/allow ../examples/cidr/allow_list.txt > $out/allowed.txt
diff c/allowed.txt $out/allowed.txt
# LIST ADDRESSES: of these the example has to say nothing but what is wrong, and end with status 2.
refused() {
    local status=0
    $out/allow "$1" < "$2" > $out/refused.txt 2> $out/refused.log || status=$?
    if [ "$status" -ne 2 ] || [ -s $out/refused.txt ] || [ ! -s $out/refused.log ]; then
        echo "$out/allow $1 < $2 should refuse its list or its input, but ended with status $status" >&2
        exit 1
    fi
}
refused . c/allowed.txt                        # a list that is a directory, which opens and cannot be read
refused ../examples/cidr/allow_list.txt .           # the same of standard input
refused $out/no_such_list c/allowed.txt         # a list that does not open
refused c/allowed.txt c/allowed.txt            # a list with a line that is no network
# LINE CAUSE: why a line of a list is no network.
says() {
    printf '10.0.0.0/8\n%s\n' "$1" > $out/list.txt
    refused $out/list.txt c/allowed.txt
    if [ "$(cat $out/refused.log)" != "$out/list.txt:2: $2: $1" ]; then
        echo "$out/allow should say of the line $1 that it has $2, but said: $(cat $out/refused.log)" >&2
        exit 1
    fi
}
says 10.0.0.0/8/8 "more than one slash"
says 10.0.0/8 "no address"
says 10.0.0.0/33 "no prefix length of the family"
says ::1/255.0.0.0 "no prefix length of the family"
# All lines that are no networks are reported.
printf '%s\n' 10.0.0/8 10.0.0.0/8 ::1/129 > $out/list.txt
refused $out/list.txt c/allowed.txt
if [ "$(cut -d: -f2-3 $out/refused.log | tr '\n' ';')" != "1: no address;3: no prefix length of the family;" ]; then
    echo "$out/allow should tell each line of its list that is no network, but said: $(cat $out/refused.log)" >&2
    exit 1
fi
status=0                                       # an answer that cannot be written
echo 10.1.9.32 | $out/allow ../examples/cidr/allow_list.txt > /dev/full 2> $out/refused.log || status=$?
if [ "$status" -ne 2 ] || [ ! -s $out/refused.log ]; then
    echo "$out/allow should tell that its answer could not be written, but ended with status $status" >&2
    exit 1
fi
echo "C: the example answers as it should"
cc $strict -I c c/speed.c "$library" -o $out/speed
for standard in c90 c99 c11; do
    cc -std=$standard -pedantic-errors -Wall -Wextra -Werror -x c -fsyntax-only c/ipnetwork.h
done
if here "C: the header as C++" c++; then
    for standard in c++98 c++11 c++17; do
        c++ -std=$standard -pedantic-errors -Wall -Wextra -Werror -x c++ -fsyntax-only c/ipnetwork.h
    done
fi
if sanitizers_work; then
    cc -std=c11 -O1 -g $watch c/test.c "$library" -o $out/test_watched
    $out/test_watched > /dev/null
    echo "C: the sanitizers find nothing in the code of the test; that of the library they do not see"
else
    skip "C: the sanitizers" "libasan or libubsan that works" "libgcc-12-dev, or the like of another version"
fi
