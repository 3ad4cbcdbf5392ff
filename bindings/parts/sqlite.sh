# The extension of SQLite. bindings/check reads it, in the folder bindings; what is made goes to $out.

step "SQLite"
if here SQLite sqlite3 make nm; then
    if has_sqlite_header; then
        . sqlite/steps.sh
    else
        skip SQLite sqlite3ext.h libsqlite3-dev
    fi
fi
