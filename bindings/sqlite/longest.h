/* cidr_longest(list, address), a table-valued function: the longest network of a list that has an address. This file is
 * part of cidr.c, whose functions for messages it uses.
 *
 * A cursor reads the list once, into a table of the library for each family, and then searches it for each address. A
 * cursor belongs to one statement, and what it keeps is freed with it. */

/* The networks of one family, V, of a list, with their row numbers, and the library's table of them. */
#define LIST(V)                                                                                            \
    struct list_##V {                                                                                      \
        ipnetwork_##V *networks, *blocks;                                                                  \
        sqlite3_int64 *rows;                                                                               \
        size_t *numbers;                                                                                   \
        uint32_t *index;                                                                                   \
        size_t count, room, index_length;                                                                  \
    };                                                                                                     \
                                                                                                           \
    static int add_##V(struct list_##V *list, const ipnetwork_##V *network, sqlite3_int64 row) {           \
        if (list->count == list->room) {                                                                   \
            size_t room = 2 * list->room + 64;                                                             \
            ipnetwork_##V *networks = sqlite3_realloc64(list->networks, room * sizeof *networks);          \
            if (networks == NULL)                                                                          \
                return SQLITE_NOMEM;                                                                       \
            list->networks = networks;                                                                     \
            sqlite3_int64 *rows = sqlite3_realloc64(list->rows, room * sizeof *rows);                      \
            if (rows == NULL)                                                                              \
                return SQLITE_NOMEM;                                                                       \
            list->rows = rows;                                                                             \
            list->room = room;                                                                             \
        }                                                                                                  \
        list->networks[list->count] = *network;                                                            \
        list->rows[list->count++] = row;                                                                   \
        return SQLITE_OK;                                                                                  \
    }                                                                                                      \
                                                                                                           \
    static int make_##V(struct list_##V *list) {                                                           \
        size_t count = list->count;                                                                        \
        if (count == 0)                                                                                    \
            return SQLITE_OK;                                                                              \
        if (ipnetwork_index_size(count, &list->index_length) != IPNETWORK_OK)                              \
            return SQLITE_ERROR;                                                                           \
        list->blocks = sqlite3_malloc64(count * sizeof *list->blocks);                                     \
        list->numbers = sqlite3_malloc64(count * sizeof *list->numbers);                                   \
        list->index = sqlite3_malloc64(list->index_length * sizeof *list->index);                          \
        if (list->blocks == NULL || list->numbers == NULL || list->index == NULL)                          \
            return SQLITE_NOMEM;                                                                           \
        ipnetwork_fault fault =                                                                            \
            ipnetwork_##V##_table_make(list->networks, count, list->blocks, count, list->numbers, count);  \
        if (fault == IPNETWORK_OK)                                                                         \
            fault = ipnetwork_##V##_table_index_make(list->blocks, count, list->index, list->index_length); \
        return fault == IPNETWORK_OK ? SQLITE_OK : SQLITE_ERROR;                                           \
    }                                                                                                      \
                                                                                                           \
    /* The longest block with an address and its row; NULL if there is none. */                            \
    static const ipnetwork_##V *find_##V(const struct list_##V *list, const uint8_t *octets,               \
                                         sqlite3_int64 *row) {                                             \
        size_t place;                                                                                      \
        if (ipnetwork_##V##_index_find(list->blocks, list->count, list->index, list->index_length, octets, \
                                       &place) != IPNETWORK_OK)                                            \
            return NULL;                                                                                   \
        *row = list->rows[list->numbers[place]];                                                           \
        return list->blocks + place;                                                                       \
    }                                                                                                      \
                                                                                                           \
    static void drop_##V(struct list_##V *list) {                                                          \
        sqlite3_free(list->networks);                                                                      \
        sqlite3_free(list->blocks);                                                                        \
        sqlite3_free(list->rows);                                                                          \
        sqlite3_free(list->numbers);                                                                       \
        sqlite3_free(list->index);                                                                         \
        memset(list, 0, sizeof *list);                                                                     \
    }

LIST(v4)
LIST(v6)

/* There is one for each connection. */
struct longest {
    sqlite3_vtab base;
    sqlite3 *database;
    int is_reading;
};

/* The size of the longest text of an address: six groups of four digits, and four octets of three. */
#define GIVEN_TEXT 45

/* The row that was found, unless the cursor is at its end; the name of the list, which is NULL before one is read; and
 * the address as it was given. */
struct cursor {
    sqlite3_vtab_cursor base;
    char *name, given[GIVEN_TEXT];
    int given_type, given_length;
    struct list_v4 v4;
    struct list_v6 v6;
    int is_end;
    sqlite3_int64 row;
    ipnetwork_ip network;
};

enum { NUMBER, NETWORK, PREFIX, LIST_GIVEN, ADDRESS_GIVEN };

/* The number of the plan that has both arguments. */
enum { BOTH_GIVEN = 1 };

static int longest_connect(sqlite3 *database, void *nothing, int count, const char *const *words, sqlite3_vtab **made,
                           char **message) {
    (void)nothing, (void)count, (void)words, (void)message;
    int status = sqlite3_declare_vtab(database, "CREATE TABLE longest(number INTEGER, network TEXT, prefix INTEGER,"
                                                " asked_list HIDDEN, asked_address HIDDEN)");
    if (status != SQLITE_OK)
        return status;
    struct longest *table = sqlite3_malloc64(sizeof *table);
    if (table == NULL)
        return SQLITE_NOMEM;
    memset(table, 0, sizeof *table);
    table->database = database;
    *made = &table->base;
    /* It reads any table that it is given, so no view or trigger may use it but TEMP ones, which are of the
     * connection. */
    return sqlite3_vtab_config(database, SQLITE_VTAB_DIRECTONLY);
}

static int longest_disconnect(sqlite3_vtab *table) {
    sqlite3_free(table);
    return SQLITE_OK;
}

/* Stops a statement with a message, which the caller makes with sqlite3_mprintf. */
static int stop(sqlite3_vtab *table, char *message) {
    sqlite3_free(table->zErrMsg);
    table->zErrMsg = message;
    return message == NULL ? SQLITE_NOMEM : SQLITE_ERROR;
}

/* SQLite also asks for plans without the arguments, such as those for the parts of an OR. They cost so much that it
 * takes one only if no plan has both: then longest_find refuses the statement. */
static int longest_plan(sqlite3_vtab *table, sqlite3_index_info *info) {
    int given[2] = {-1, -1}, is_later = 0;
    (void)table;
    for (int i = 0; i < info->nConstraint; i++) {
        int at = info->aConstraint[i].iColumn - LIST_GIVEN;
        if (at < 0 || info->aConstraint[i].op != SQLITE_INDEX_CONSTRAINT_EQ)
            continue;
        if (info->aConstraint[i].usable)
            given[at] = i;
        else
            is_later = 1;
    }
    if (given[0] < 0 || given[1] < 0) {
        info->estimatedCost = 1e99;
        return is_later ? SQLITE_CONSTRAINT : SQLITE_OK;
    }
    for (int at = 0; at < 2; at++) {
        info->aConstraintUsage[given[at]].argvIndex = at + 1;
        info->aConstraintUsage[given[at]].omit = 1;
    }
    info->idxNum = BOTH_GIVEN;
    info->estimatedCost = 1;
    info->estimatedRows = 1;
    info->idxFlags = SQLITE_INDEX_SCAN_UNIQUE;
    return SQLITE_OK;
}

static int longest_open(sqlite3_vtab *table, sqlite3_vtab_cursor **made) {
    (void)table;
    struct cursor *cursor = sqlite3_malloc64(sizeof *cursor);
    if (cursor == NULL)
        return SQLITE_NOMEM;
    memset(cursor, 0, sizeof *cursor);
    *made = &cursor->base;
    return SQLITE_OK;
}

static void drop_list(struct cursor *cursor) {
    sqlite3_free(cursor->name);
    cursor->name = NULL;
    drop_v4(&cursor->v4);
    drop_v6(&cursor->v6);
}

static int longest_close(sqlite3_vtab_cursor *base) {
    drop_list((struct cursor *)base);
    sqlite3_free(base);
    return SQLITE_OK;
}

/* Stops a statement because of the name of a list. */
static int stop_at(struct cursor *cursor, const char *cause, struct text name) {
    char shown[SHOWN_TEXT];
    show(name, shown);
    return stop(cursor->base.pVtab, sqlite3_mprintf("cidr_longest: %s: %s", cause, shown));
}

/* Adds the network in the current row of a statement. A row with NULL instead of a network is skipped. */
static int add_row(struct cursor *cursor, sqlite3_stmt *rows, struct text name) {
    sqlite3_int64 row = sqlite3_column_int64(rows, 0);
    int type = sqlite3_column_type(rows, 1);
    char words[IPNETWORK_FAULT_TEXT], list[SHOWN_TEXT], shown[SHOWN_TEXT];
    ipnetwork_ip network;
    if (type == SQLITE_NULL)
        return SQLITE_OK;
    struct text text = {NULL, 0};
    if (type == SQLITE_TEXT) {
        text.bytes = (const char *)sqlite3_column_text(rows, 1);
        if (text.bytes == NULL)
            return SQLITE_NOMEM;
        text.length = (size_t)sqlite3_column_bytes(rows, 1);
        ipnetwork_fault fault = ipnetwork_read_with_cause(text.bytes, text.length, &network);
        if (fault == IPNETWORK_OK)
            return network.family == 4 ? add_v4(&cursor->v4, &network.v4, row) : add_v6(&cursor->v6, &network.v6, row);
        tell(fault, words);
    }
    show(name, list);
    show(text, shown);
    return stop(cursor->base.pVtab,
                type != SQLITE_TEXT
                    ? sqlite3_mprintf("cidr_longest, row %lld of %s: %s, not a text", row, list, name_of_type(type))
                    : sqlite3_mprintf("cidr_longest, row %lld of %s: %s: %s", row, list, words, shown));
}

/* A table of a schema, or of the first that has it if that is NULL. */
struct place {
    char *schema;
    const char *table;
};

/* SQLITE_OK if there is this table, with this column if it is not NULL; SQLITE_ERROR if not. A view is no table. */
static int ask_table(sqlite3 *database, struct place place, const char *column) {
    return sqlite3_table_column_metadata(database, place.schema, place.table, column, NULL, NULL, NULL, NULL, NULL);
}

/* Finds the table of this name, or of the name after its first dot in the schema before it. The caller frees the
 * schema. */
static int find_list(struct cursor *cursor, struct text name, struct place *place) {
    sqlite3 *database = ((struct longest *)cursor->base.pVtab)->database;
    const char *dot = strchr(name.bytes, '.');
    int whole = ask_table(database, *place, NULL), part = SQLITE_ERROR;
    if (dot != NULL) {
        struct place other = {sqlite3_mprintf("%.*s", (int)(dot - name.bytes), name.bytes), dot + 1};
        if (other.schema == NULL)
            return SQLITE_NOMEM;
        part = ask_table(database, other, NULL);
        if (whole == SQLITE_ERROR)
            *place = other;
        else
            sqlite3_free(other.schema);
    }
    if (whole == SQLITE_OK && part == SQLITE_OK)
        return stop_at(cursor, "a table of this name, and one of the schema before its dot", name);
    if (whole == SQLITE_ERROR && part == SQLITE_ERROR)
        return stop_at(cursor, "no such table (a view is no list)", name);
    return whole == SQLITE_ERROR || part > SQLITE_ERROR ? part : whole;
}

/* Whether a column of a statement but the first has this name, or the statement has no other; or that there is no
 * memory, which is SQLITE_NOMEM. */
static int hides(sqlite3_stmt *rows, const char *rowid) {
    int count = sqlite3_column_count(rows);
    for (int column = 1; column < count; column++) {
        const char *name = sqlite3_column_name(rows, column);
        if (name == NULL)
            return SQLITE_NOMEM;
        if (sqlite3_stricmp(name, rowid) == 0)
            return 1;
    }
    return count < 2;
}

/* Prepares the statement that returns the rowid of each row of a list and its columns. The rowid has three names, and
 * not the one that a column has. */
static int prepare_rows(struct cursor *cursor, struct text name, struct place place, sqlite3_stmt **rows) {
    static const char *const rowids[] = {"rowid", "_rowid_", "oid"};
    sqlite3 *database = ((struct longest *)cursor->base.pVtab)->database;
    for (size_t i = 0; i < sizeof rowids / sizeof *rowids; i++) {
        int status = ask_table(database, place, rowids[i]);
        if (status == SQLITE_ERROR)
            break;
        if (status != SQLITE_OK)
            return status;
        char *sql = place.schema == NULL
                        ? sqlite3_mprintf("SELECT %s, * FROM \"%w\"", rowids[i], place.table)
                        : sqlite3_mprintf("SELECT %s, * FROM \"%w\".\"%w\"", rowids[i], place.schema, place.table);
        if (sql == NULL)
            return SQLITE_NOMEM;
        status = sqlite3_prepare_v2(database, sql, -1, rows, NULL);
        sqlite3_free(sql);
        if (status != SQLITE_OK)
            return status;
        int hidden = hides(*rows, rowids[i]);
        if (hidden != 1)
            return hidden;
        sqlite3_finalize(*rows);
        *rows = NULL;
    }
    return stop_at(cursor, "a table without rowids", name);
}

/* Reads the networks of a list: the first column of its table. */
static int read_list(struct cursor *cursor, struct text name) {
    struct longest *table = (struct longest *)cursor->base.pVtab;
    struct place place = {NULL, name.bytes};
    sqlite3_stmt *rows = NULL;
    drop_list(cursor);
    if (strlen(name.bytes) != name.length)
        return stop_at(cursor, "a name with a zero byte", name);
    /* A table may have a column, or a module of its own, that asks for a list again. */
    if (table->is_reading)
        return stop_at(cursor, "asked for while a list is read", name);
    table->is_reading = 1;
    int status = find_list(cursor, name, &place);
    if (status == SQLITE_OK)
        status = prepare_rows(cursor, name, place, &rows);
    while (status == SQLITE_OK) {
        status = sqlite3_step(rows);
        if (status == SQLITE_ROW)
            status = add_row(cursor, rows, name);
    }
    table->is_reading = 0;
    if (status != SQLITE_DONE && status != SQLITE_NOMEM && table->base.zErrMsg == NULL)
        stop(&table->base, sqlite3_mprintf("cidr_longest: %s", sqlite3_errmsg(table->database)));
    sqlite3_finalize(rows);
    sqlite3_free(place.schema);
    if (status != SQLITE_DONE)
        return status;
    status = make_v4(&cursor->v4);
    if (status == SQLITE_OK)
        status = make_v6(&cursor->v6);
    if (status == SQLITE_OK && (cursor->name = sqlite3_mprintf("%s", name.bytes)) == NULL)
        status = SQLITE_NOMEM;
    return status;
}

/* The address in an argument, as a text or as a blob. */
static int read_address(struct cursor *cursor, sqlite3_value *value, ipnetwork_address *address) {
    sqlite3_vtab *table = cursor->base.pVtab;
    int type = sqlite3_value_type(value);
    if (type != SQLITE_TEXT && type != SQLITE_BLOB)
        return stop(table, sqlite3_mprintf("cidr_longest, argument 2: %s, not a text or a blob", name_of_type(type)));
    struct text text = {type == SQLITE_TEXT ? (const char *)sqlite3_value_text(value) : sqlite3_value_blob(value), 0};
    text.length = (size_t)sqlite3_value_bytes(value);
    if (text.bytes == NULL && (type == SQLITE_TEXT || text.length > 0))
        return SQLITE_NOMEM;
    if ((type == SQLITE_BLOB ? address_of_blob((const uint8_t *)text.bytes, text.length, address)
                             : ipnetwork_address_read(text.bytes, text.length, address) == IPNETWORK_OK) &&
        text.length <= GIVEN_TEXT) {
        memcpy(cursor->given, text.bytes, text.length);
        cursor->given_type = type;
        cursor->given_length = (int)text.length;
        return SQLITE_OK;
    }
    char shown[SHOWN_TEXT];
    if (type == SQLITE_BLOB)
        return stop(table, sqlite3_mprintf("cidr_longest, argument 2: a blob of %d bytes that is no address",
                                           (int)text.length));
    show(text, shown);
    return stop(table, sqlite3_mprintf("cidr_longest, argument 2: no address: %s", shown));
}

/* No row if an argument is NULL, or no network of the list has the address. */
static int longest_find(sqlite3_vtab_cursor *base, int plan, const char *plan_text, int count, sqlite3_value **values) {
    (void)plan_text, (void)count;
    struct cursor *cursor = (struct cursor *)base;
    ipnetwork_address address;
    cursor->is_end = 1;
    if (plan != BOTH_GIVEN)
        return stop(base->pVtab, sqlite3_mprintf("cidr_longest takes a list and an address"));
    int type = sqlite3_value_type(values[0]);
    if (type == SQLITE_NULL || sqlite3_value_type(values[1]) == SQLITE_NULL)
        return SQLITE_OK;
    if (type != SQLITE_TEXT)
        return stop(base->pVtab, sqlite3_mprintf("cidr_longest, argument 1: %s, not a text", name_of_type(type)));
    struct text name = {(const char *)sqlite3_value_text(values[0]), 0};
    if (name.bytes == NULL)
        return SQLITE_NOMEM;
    name.length = (size_t)sqlite3_value_bytes(values[0]);
    int is_read = cursor->name != NULL && strlen(cursor->name) == name.length && strcmp(cursor->name, name.bytes) == 0;
    if (!is_read) {
        int status = read_list(cursor, name);
        if (status != SQLITE_OK)
            return status;
    }
    int status = read_address(cursor, values[1], &address);
    if (status != SQLITE_OK)
        return status;
    memset(&cursor->network, 0, sizeof cursor->network);
    if (address.length == 4) {
        const ipnetwork_v4 *block = find_v4(&cursor->v4, address.octets, &cursor->row);
        if (block != NULL)
            cursor->network.family = 4, cursor->network.v4 = *block, cursor->is_end = 0;
    } else {
        const ipnetwork_v6 *block = find_v6(&cursor->v6, address.octets, &cursor->row);
        if (block != NULL)
            cursor->network.family = 6, cursor->network.v6 = *block, cursor->is_end = 0;
    }
    return SQLITE_OK;
}

static int longest_next(sqlite3_vtab_cursor *base) {
    ((struct cursor *)base)->is_end = 1;
    return SQLITE_OK;
}

static int longest_is_end(sqlite3_vtab_cursor *base) { return ((struct cursor *)base)->is_end; }

static int longest_row(sqlite3_vtab_cursor *base, sqlite3_int64 *row) {
    *row = ((struct cursor *)base)->row;
    return SQLITE_OK;
}

/* The address as it was given. */
static void give_given(sqlite3_context *context, const struct cursor *cursor) {
    if (cursor->given_type == SQLITE_TEXT)
        sqlite3_result_text(context, cursor->given, cursor->given_length, SQLITE_TRANSIENT);
    else
        sqlite3_result_blob(context, cursor->given, cursor->given_length, SQLITE_TRANSIENT);
}

static int longest_column(sqlite3_vtab_cursor *base, sqlite3_context *context, int column) {
    const struct cursor *cursor = (const struct cursor *)base;
    const ipnetwork_ip *network = &cursor->network;
    char text[IPNETWORK_V6_TEXT];
    size_t length;
    if (column == NUMBER)
        sqlite3_result_int64(context, cursor->row);
    else if (column == PREFIX)
        sqlite3_result_int(context, network->family == 4 ? network->v4.prefix : network->v6.prefix);
    else if (column == NETWORK && ipnetwork_canonical(network, text, sizeof text, &length) == IPNETWORK_OK)
        sqlite3_result_text(context, text, (int)length, SQLITE_TRANSIENT);
    else if (column == LIST_GIVEN)
        sqlite3_result_text(context, cursor->name, -1, SQLITE_TRANSIENT);
    else if (column == ADDRESS_GIVEN)
        give_given(context, cursor);
    return SQLITE_OK;
}

static const sqlite3_module longest_module = {
    .xConnect = longest_connect, .xBestIndex = longest_plan, .xDisconnect = longest_disconnect,
    .xOpen = longest_open,       .xClose = longest_close,    .xFilter = longest_find,
    .xNext = longest_next,       .xEof = longest_is_end,     .xColumn = longest_column,
    .xRowid = longest_row,
};
