# The steps of bindings/check for SQLite, which that script reads: they build the extension into $out and run its tests.
# sqlite3, make and sqlite3ext.h are here, and the folder is bindings.

cc $strict -I c -fsyntax-only sqlite/cidr.c
make -s -C .. sqlite OUT="bindings/$out"
# Nothing of it is seen by other libraries of the process but the function by which SQLite loads it.
./check_exports $out/cidr.so sqlite3_cidr_init
# It keeps nothing but the pointer to the functions of SQLite.
cc $strict -I c -fno-pic -c sqlite/cidr.c -o $out/cidr.o
kept="$(nm $out/cidr.o | sed -n 's/.* [BbCDdGgSs] //p')"
if [ "$kept" != sqlite3_api ]; then
    echo "SQLite: the extension keeps more than it should:" $kept >&2
    exit 1
fi

cc $strict -D_DEFAULT_SOURCE -g sqlite/test.c -pthread -lsqlite3 -o $out/sqlite_test
$out/sqlite_test "$PWD/$out/cidr.so"
if here "SQLite: valgrind" valgrind; then
    valgrind -q --error-exitcode=1 --leak-check=full $out/sqlite_test "$PWD/$out/cidr.so" 100000 > /dev/null
    echo "SQLite: valgrind sees no byte read or written out of place, and none that is left in use"
fi
if sanitizers_work; then
    mkdir -p $out/watched
    cc -std=c11 -O1 -g $watch -fPIC -shared -I c sqlite/cidr.c "$library" -o $out/watched/cidr.so
    cc -std=c11 -O1 -g $watch -D_DEFAULT_SOURCE sqlite/test.c -pthread -lsqlite3 -o $out/sqlite_test_watched
    $out/sqlite_test_watched "$PWD/$out/watched/cidr.so" 100000 > /dev/null
    echo "SQLite: the sanitizers find nothing in the extension; what the library does they do not see"
else
    skip "SQLite: the sanitizers" "libasan or libubsan that works" "libgcc-12-dev, or the like of another version"
fi

# A million rows with an index.
rm -f $out/log.db
sqlite3 $out/log.db ".load $out/cidr" ".read sqlite/log.sql"
sqlite3 $out/log.db ".load $out/cidr" ".read sqlite/index.sql" > $out/index.txt
diff sqlite/index.txt $out/index.txt
# QUERY: sees that the rows between two ends are looked up in the index.
by_index() {
    plan="$(sqlite3 $out/log.db ".load $out/cidr" "EXPLAIN QUERY PLAN $1")"
    case "$plan" in
    *SEARCH*"INDEX log_address (address>? AND address<?)"*) ;;
    *)
        echo "SQLite: the index is not used by $1: $plan" >&2
        exit 1
        ;;
    esac
}
by_index "SELECT client FROM log WHERE address BETWEEN cidr_first('10.1.0.0/16') AND cidr_last('10.1.0.0/16')"
by_index "SELECT client FROM network JOIN log ON address BETWEEN cidr_first(network.text) AND cidr_last(network.text)"
by_index "SELECT client FROM network CROSS JOIN log ON address BETWEEN network.first AND network.last"
by_index "SELECT log.rowid, text, max(cidr_prefix(text))
    FROM network CROSS JOIN log ON address BETWEEN first AND last GROUP BY log.rowid"
echo "SQLite: by the index of a log of a million rows, the same rows as by a look at each"

# The example of README.md, which is run from the top.
for kind in sql text; do
    sed -n "/^\`\`\`$kind\$/,/^\`\`\`\$/p" sqlite/README.md | grep -v '^```' |
        sed "s|bindings/out/cidr|bindings/$out/cidr|" > "$out/example.$kind"
done
(cd .. && sqlite3 :memory: < "bindings/$out/example.sql") > $out/example_said.text
diff $out/example.text $out/example_said.text
echo "SQLite: the example of README.md prints what the page shows"

# PYTHON: whether its own module loads extensions.
loads() {
    "$1" -c 'import sqlite3; sqlite3.connect(":memory:").enable_load_extension(True)' > /dev/null 2>&1
}
if ! loads "$python" && loads /usr/bin/python3; then
    loading=/usr/bin/python3
else
    loading="$python"
fi
if loads "$loading"; then
    "$loading" sqlite/against_ipaddress.py "$PWD/$out/cidr.so" "$((rows / 10))"
else
    skip "SQLite: compared with ipaddress" "module sqlite3 that loads extensions in $python" "python3"
fi

if [ "$measure" = yes ]; then
    step "speed from SQLite"
    rm -f $out/log.db
    sqlite3 $out/log.db ".load $out/cidr" ".read sqlite/log.sql"
    sqlite3 $out/log.db ".load $out/cidr" ".read sqlite/speed.sql"
fi
