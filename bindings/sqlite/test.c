/* Tests the extension for SQLite, loaded like any other: rows with known results, in a database of each encoding; texts
 * that SQL cannot spell; schemas that use the functions; refused memory; four threads at once.
 *
 *   test PATH_OF_THE_EXTENSION [LENGTH]
 *
 * If the environment has IPNETWORK_BUILD, this is what cidr_version() should return.
 * LENGTH is the length of the longest texts in bytes, by default 10,000,000, and at most 100,000 in UTF-16. Each wrong
 * result is a line on standard error. The status is 0 if there is none. */
#include "rows.h"

#include <pthread.h>
#include <sqlite3.h>
#include <stdatomic.h>
#include <stdio.h>
#include <stdlib.h>
#include <string.h>

static const char *extension;
static size_t longest = 10000000;
static atomic_int failures;

/* Stops the test, because there is no result to check. */
static void need(int holds, const char *what) {
    if (holds)
        return;
    fprintf(stderr, "test.c: %s\n", what);
    exit(1);
}

/* A new database in memory, of this encoding, with the extension. */
static sqlite3 *open_database(const char *encoding) {
    sqlite3 *database;
    char *message = NULL, pragma[40];
    need(sqlite3_open(":memory:", &database) == SQLITE_OK, "no database");
    snprintf(pragma, sizeof pragma, "PRAGMA encoding = '%s'", encoding);
    need(sqlite3_exec(database, pragma, NULL, NULL, NULL) == SQLITE_OK, "no encoding");
    need(sqlite3_exec(database, "CREATE TABLE first(one)", NULL, NULL, NULL) == SQLITE_OK, "no table");
    need(sqlite3_db_config(database, SQLITE_DBCONFIG_ENABLE_LOAD_EXTENSION, 1, NULL) == SQLITE_OK, "no extensions");
    if (sqlite3_load_extension(database, extension, NULL, &message) != SQLITE_OK)
        need(0, message);
    return database;
}

/* The first column of the first row of a statement as quote() prints it, or NULL if there is no row; or "error: " and
 * the message. The parameter ?1 is a text of these bytes, in a block of exactly their size. */
static char *answer(sqlite3 *database, const char *sql, const char *bytes, size_t length) {
    sqlite3_stmt *statement = NULL;
    char *copy = malloc(length + 1), *said;
    need(copy != NULL, "no memory");
    if (length > 0)
        memcpy(copy, bytes, length);
    int status = sqlite3_prepare_v2(database, sql, -1, &statement, NULL);
    if (status == SQLITE_OK && bytes != NULL)
        status = sqlite3_bind_text(statement, 1, copy, (int)length, SQLITE_TRANSIENT);
    free(copy);
    if (status == SQLITE_OK)
        status = sqlite3_step(statement);
    const char *found = status == SQLITE_ROW ? (const char *)sqlite3_column_text(statement, 0) : NULL;
    if (status == SQLITE_ROW && found == NULL)
        said = sqlite3_errcode(database) == SQLITE_NOMEM ? strdup("error: out of memory") : strdup("NULL");
    else if (status == SQLITE_ROW)
        said = strdup(found);
    else if (status == SQLITE_NOMEM)
        said = strdup("error: out of memory");
    else {
        const char *message = status == SQLITE_DONE ? "no row" : sqlite3_errmsg(database);
        said = malloc(strlen(message) + 8);
        if (said != NULL)
            sprintf(said, "error: %s", message);
    }
    sqlite3_finalize(statement);
    need(said != NULL, "no memory");
    return said;
}

/* Checks the result of an expression; if the expected one ends with "..", only the part before that. */
static void expect_of(sqlite3 *database, const char *expression, const char *bytes, size_t length, const char *right) {
    char *sql = sqlite3_mprintf("SELECT quote(%s)", expression);
    need(sql != NULL, "no memory");
    char *said = answer(database, sql, bytes, length);
    size_t end = strlen(right);
    int is_front = end >= 2 && strcmp(right + end - 2, "..") == 0;
    if (is_front ? strncmp(said, right, end - 2) != 0 : strcmp(said, right) != 0) {
        fprintf(stderr, "test.c: %s: %s, and not %s\n", expression, said, right);
        failures++;
    }
    free(said);
    sqlite3_free(sql);
}

static void expect(sqlite3 *database, const char *expression, const char *right) {
    expect_of(database, expression, NULL, 0, right);
}

/* Checks that one or more statements run without an error. */
static void run(sqlite3 *database, const char *sql) {
    char *message = NULL;
    if (sqlite3_exec(database, sql, NULL, NULL, &message) != SQLITE_OK) {
        fprintf(stderr, "test.c: %s: %s\n", sql, message);
        failures++;
    }
    sqlite3_free(message);
}

static void each_row(sqlite3 *database) {
    for (size_t i = 0; i < sizeof rows / sizeof *rows; i++)
        expect(database, rows[i].expression, rows[i].answer);
}

/* Texts that name neither a network nor an address, some of which would if they were cut short, or read past the
 * error. */
static const struct {
    const char *bytes;
    size_t length;
} no_texts[] = {
#define BYTES(bytes) {bytes, sizeof bytes - 1}
    BYTES("\0"),
    BYTES("10.0.0.0\0"),
    BYTES("10.0.0.0\0/8"),
    BYTES("10.0.0.0/8\0"),
    BYTES("10.0.0.0/8\0/8"),
    BYTES("10.0.0.0/\0008"),
    BYTES("\00010.0.0.0"),
    BYTES("::\0"),
    BYTES("2001:db8::\0001/32"),
    /* Not UTF-8: a lone byte, an overlong dot, half of a pair, a character cut short, and one past the last. */
    BYTES("10.0.0.0\xff"),
    BYTES("10\xc0\xae"
          "0.0.0"),
    BYTES("\xed\xa0\x80::"),
    BYTES("::1\xe2\x82"),
    BYTES("10.0.0.0/8\x80"),
    BYTES("::/1\xf4\x90\x80\x80"),
    /* UTF-8: digits and dots of other scripts, and a mark of the order of bytes. */
    BYTES("\xd9\xa1\xd9\xa0.0.0.0"),
    BYTES("10\xe3\x80\x82"
          "0.0.0"),
    BYTES("\xef\xbb\xbf"
          "10.0.0.0"),
};

/* Checks that each function refuses a text, as a network and as an address. */
static void expect_refused(sqlite3 *database, const char *bytes, size_t length) {
    static const char *refusing[] = {"cidr_text(?1)",   "cidr_first(?1)",        "cidr_last(?1)",
                                     "cidr_prefix(?1)", "cidr_family(?1)",       "cidr_has(?1, '::')",
                                     "cidr_addr(?1)",   "cidr_covers(?1, '::')", NULL};
    for (const char **each = refusing; *each != NULL; each++)
        expect_of(database, *each, bytes, length, "error: cidr_..");
    expect_of(database, "cidr_unmapped(?1)", bytes, length, "error: cidr_unmapped, argument 1: no address: '..");
    expect_of(database, "cidr_text_or_null(?1)", bytes, length, "NULL");
    expect_of(database, "cidr_addr_or_null(?1)", bytes, length, "NULL");
    expect_of(database, "cidr_has('::/0', ?1)", bytes, length, "error: cidr_has, argument 2: no address: '..");
    expect_of(database, "cidr_covers('::/0', ?1)", bytes, length, "error: cidr_covers, argument 2: ..");
    expect_of(database, "cidr_cause(?1) IS NULL", bytes, length, "0");
}

/* One of the longest texts: a front, then one byte again and again, and an end. Without an answer it is refused. */
static void expect_long(sqlite3 *database, const char *front, char byte, const char *end, const char *right) {
    size_t before = strlen(front), after = strlen(end);
    char *text = malloc(longest);
    need(text != NULL && before + after <= longest, "no memory");
    memset(text, byte, longest);
    memcpy(text, front, before);
    memcpy(text + longest - after, end, after);
    if (right != NULL)
        expect_of(database, "cidr_text(?1)", text, longest, right);
    else
        expect_refused(database, text, longest);
    free(text);
}

static void each_text(sqlite3 *database) {
    for (size_t i = 0; i < sizeof no_texts / sizeof *no_texts; i++)
        expect_refused(database, no_texts[i].bytes, no_texts[i].length);
    expect_long(database, "", '1', "", NULL);
    expect_long(database, "10.0.0.0", ' ', "", NULL);
    expect_long(database, "10.0.0.0/8", '/', "", NULL);
    expect_long(database, "::", ':', "", NULL);
    expect_long(database, "10.0.0.0/8", '\0', "", NULL);
    expect_long(database, "10.0.0.0/", '0', "33", NULL);
    /* A prefix length may have any number of leading zeros: this text names a network, and is read to its end. */
    expect_long(database, "10.1.9.32/", '0', "16", "'10.1.9.32/16'");
}

/* Messages show what is refused as it is; those of a database in UTF-16 show what SQLite makes of it. */
static void each_message(sqlite3 *database) {
    expect_of(database, "cidr_text(?1)", "10.0.0.0\0/8", 11,
              "error: cidr_text, argument 1: no address: '10.0.0.0\\x00/8'");
    expect_of(database, "cidr_text(?1)", "10.0.0.0/8\xff", 11,
              "error: cidr_text, argument 1: no prefix length of the family: '10.0.0.0/8\\xff'");
    expect_long(database, "10.0.0.0/8", '/', "", "error: cidr_text, argument 1: more than one slash: '10.0.0.0/8"
                "//////////////////////////////////////////////////', the first 60 of ..");
    /* The longest message that there can be. */
    char zeros[200] = {0};
    expect_of(database, "cidr_covers('::', ?1)", zeros, sizeof zeros, "error: cidr_covers, argument 2: no address: '"
              "\\x00\\x00\\x00\\x00\\x00\\x00\\x00\\x00\\x00\\x00\\x00\\x00\\x00\\x00\\x00\\x00\\x00\\x00\\x00\\x00"
              "\\x00\\x00\\x00\\x00\\x00\\x00\\x00\\x00\\x00\\x00\\x00\\x00\\x00\\x00\\x00\\x00\\x00\\x00\\x00\\x00"
              "\\x00\\x00\\x00\\x00\\x00\\x00\\x00\\x00\\x00\\x00\\x00\\x00\\x00\\x00\\x00\\x00\\x00\\x00\\x00\\x00"
              "', the first 60 of 200 bytes");
}

/* The places where SQLite allows only deterministic and innocuous functions: an index, a generated column, a check, and
 * a view in a schema that is not trusted. */
static void schemas(sqlite3 *database) {
    run(database, "PRAGMA trusted_schema = 0;"
        "CREATE TABLE log(client TEXT NOT NULL, address BLOB AS (cidr_addr(client)) STORED);"
        "CREATE INDEX log_address ON log(address);"
        "CREATE INDEX log_client ON log(cidr_addr(client));"
        "CREATE TABLE network(text TEXT CHECK (cidr_cause(text) IS NULL));"
        "CREATE VIEW canonical AS SELECT cidr_text(text) AS text, cidr_has(text, '10.1.9.32') AS has,"
        " cidr_covers(text, '::/0') AS covers, cidr_first(text) AS first, cidr_last(text) AS last,"
        " cidr_prefix(text) AS prefix, cidr_family(text) AS family, cidr_cause(text) AS cause FROM network;"
        "INSERT INTO log(client) VALUES ('10.1.9.32'), ('2001:db8::1'), ('10.200.0.1');"
        "INSERT INTO network VALUES ('10.1.9.32/255.0.0.0'), (NULL);");
    expect(database, "(SELECT count(*) FROM log"
           " WHERE address BETWEEN cidr_first('10.1.0.0/16') AND cidr_last('10.1.0.0/16'))", "1");
    expect(database, "(SELECT client FROM log ORDER BY address DESC LIMIT 1)", "'2001:db8::1'");
    expect(database, "(SELECT text || has || covers || hex(first) || hex(last) || prefix || family || (cause IS NULL)"
           " FROM canonical WHERE text IS NOT NULL)", "'10.1.9.32/810040A000000040AFFFFFF841'");
    /* A list that skips texts that name no network, and a log that keeps lines without an address. */
    run(database, "CREATE TABLE list(text TEXT NOT NULL CHECK (cidr_cause(text) IS NULL),"
        " first BLOB AS (cidr_first(cidr_text_or_null(text))) STORED,"
        " last BLOB AS (cidr_last(cidr_text_or_null(text))) STORED);"
        "CREATE TABLE clients(client TEXT, address BLOB AS (cidr_unmapped(cidr_addr_or_null(client))) STORED);"
        "CREATE INDEX clients_address ON clients(address);"
        "INSERT OR IGNORE INTO list(text) VALUES ('10.0.0.0/8'), ('10/8'), ('2001:db8::/200'), (''), (NULL), ('::1');"
        "INSERT INTO clients(client) VALUES ('::ffff:10.1.9.32'), ('-'), ('10.0.0.0/8'), (NULL), ('10.1.9.32');");
    expect(database, "(SELECT group_concat(text || ' ' || hex(first)) FROM list)",
           "'10.0.0.0/8 040A000000,::1 0600000000000000000000000000000001'");
    expect(database, "(SELECT count(*) FROM clients JOIN list ON address BETWEEN first AND last)", "2");
    expect(database, "(SELECT count(*) FROM clients WHERE address IS NULL)", "3");
    expect(database, "(SELECT count(*) FROM canonical WHERE text IS NULL AND cause IS NULL AND first IS NULL)", "1");
    char *said = answer(database, "INSERT INTO network VALUES ('10/8')", NULL, 0);
    if (strncmp(said, "error: CHECK constraint failed", 30) != 0) {
        fprintf(stderr, "test.c: a check lets 10/8 in: %s\n", said);
        failures++;
    }
    free(said);
    said = answer(database, "CREATE INDEX log_version ON log(cidr_version())", NULL, 0);
    if (strncmp(said, "error: non-deterministic functions", 34) != 0) {
        fprintf(stderr, "test.c: an index keeps the version: %s\n", said);
        failures++;
    }
    free(said);
    said = answer(database, "INSERT INTO log(client) VALUES ('10/8')", NULL, 0);
    if (strcmp(said, "error: cidr_addr, argument 1: no address: '10/8'") != 0) {
        fprintf(stderr, "test.c: a generated column takes 10/8: %s\n", said);
        failures++;
    }
    free(said);
}

/* Statements with cidr_longest, in whatever order SQLite plans them, and whatever it asks of its columns. */
static void longest_in_statements(sqlite3 *database) {
#define FOUND(from) "(SELECT group_concat(client || ' ' || ifnull(number, '-')) FROM (" from " ORDER BY client))"
#define JOINED(where) FOUND("SELECT client, number FROM log JOIN cidr_longest('nets', address) AS found " where)
#define ALL "'10.1.9.32 4,10.200.0.1 1,2001:db8::1 6'"
#define TWO "'10.200.0.1 1,2001:db8::1 6'"
    static const struct row asked[] = {
        {JOINED(""), ALL},
        {JOINED("WHERE found.number = 1 OR found.prefix = 48"), TWO},
        {JOINED("WHERE (found.number = 1 AND prefix = 8) OR (prefix = 48 AND network > '2')"), TWO},
        {JOINED("WHERE found.number = 1 OR client = '2001:db8::1'"), TWO},
        {JOINED("WHERE found.number = 4 OR found.number = 1 OR found.prefix > 40"), ALL},
        {JOINED("WHERE found.number IN (1, 6)"), TWO},
        {JOINED("WHERE found.number IN (SELECT 1 UNION SELECT 6) OR found.network IN ('::/0')"), TWO},
        {JOINED("WHERE asked_list = 'nets' AND asked_address = address AND prefix <> 16"), TWO},
        {JOINED("WHERE asked_list = 'nets' OR prefix = 48"), ALL},
        {JOINED("WHERE asked_list = 'none' OR asked_address <> x'040A010920'"), TWO},
        {JOINED("JOIN nets ON nets.rowid = found.number WHERE name = 'a' OR found.prefix = 48"), TWO},
        {FOUND("SELECT client, found.number FROM cidr_longest('nets', address) AS found, log"
               " WHERE found.number = 1 OR found.prefix = 48"), TWO},
        {FOUND("SELECT client, found.number FROM nets, cidr_longest('nets', address) AS found, log"
               " WHERE nets.rowid = found.number AND (nets.name = 'a' OR found.prefix = 48)"), TWO},
        {FOUND("SELECT client, number FROM cidr_longest('nets', '10.200.0.1') CROSS JOIN log"
               " WHERE asked_address = client AND asked_list IN ('nets', client)"), "'10.200.0.1 1'"},
        {FOUND("SELECT client, number FROM log LEFT JOIN cidr_longest('nets', address) AS found"
               " ON found.number = 1 OR found.prefix = 48"), "'10.1.9.32 -,10.200.0.1 1,2001:db8::1 6'"},
        {FOUND("SELECT client, number FROM log LEFT JOIN cidr_longest('nets', address) AS found"
               " WHERE found.number = 1 OR found.number IS NULL OR found.prefix = 48"), TWO},
        {FOUND("SELECT client, 0 AS number FROM log WHERE EXISTS (SELECT 1 FROM cidr_longest('nets', address)"
               " WHERE number = 1 OR prefix = 48)"), "'10.200.0.1 0,2001:db8::1 0'"},
        {FOUND("SELECT client, (SELECT number FROM cidr_longest('nets', address) WHERE number = 1 OR prefix = 48)"
               " AS number FROM log"), "'10.1.9.32 -,10.200.0.1 1,2001:db8::1 6'"},
        {FOUND("WITH found AS (SELECT * FROM log JOIN cidr_longest('nets', address))"
               " SELECT client, number FROM found WHERE number = 1 OR prefix = 48"), TWO},
        {FOUND("WITH list(name) AS (VALUES ('nets'), ('empty')) SELECT client, number FROM list"
               " JOIN log JOIN cidr_longest(name, address) WHERE number = 1 OR prefix = 48"), TWO},
        {"(SELECT sum(number) FROM cidr_longest WHERE asked_list = 'nets'"
         " AND asked_address IN ('10.2.0.0', '10.1.0.0'))", "5"},
        {"(SELECT sum(number) FROM cidr_longest WHERE (asked_list = 'nets' AND asked_address = '10.2.0.0')"
         " OR (asked_list = 'nets' AND asked_address = '10.1.0.0'))", "5"},
        {"(SELECT sum(number) FROM cidr_longest WHERE asked_address = '::' OR asked_list = 'nets')",
         "error: cidr_longest takes a list and an address"},
        {"(SELECT 1 FROM cidr_longest)", "error: cidr_longest takes a list and an address"},
    };
    for (size_t i = 0; i < sizeof asked / sizeof *asked; i++)
        expect(database, asked[i].expression, asked[i].answer);
    /* A statement reads its list once, and sees no change of it. */
    run(database, "CREATE TABLE grown(net); INSERT INTO grown VALUES ('10.0.0.0/8');"
        "INSERT INTO grown SELECT column1 FROM (VALUES ('10.1.2.3'), ('10.1.2.3'))"
        " JOIN cidr_longest('grown', column1) WHERE prefix = 8");
    expect(database, "(SELECT count(*) FROM grown)", "3");
}

/* A column of a list that asks for its list. */
static void again(sqlite3_context *context, int count, sqlite3_value **values) {
    (void)count, (void)values;
    char *said = answer(sqlite3_context_db_handle(context), "SELECT number FROM cidr_longest('loops', '::')", NULL, 0);
    sqlite3_result_text(context, said, -1, SQLITE_TRANSIENT);
    free(said);
}

/* Views and triggers of a connection's own that use cidr_longest, and what would make it read without an end. */
static void longest_in_schemas(sqlite3 *database) {
    expect(database, "(SELECT number FROM hidden)", "error: unsafe use of virtual table \"cidr_longest\"");
    run(database, "CREATE TEMP VIEW seen AS SELECT client, number FROM log JOIN cidr_longest('nets', address);"
        "CREATE TEMP VIEW itself AS SELECT network FROM cidr_longest('itself', '::') UNION ALL SELECT '::/0';"
        "CREATE TEMP VIEW first_of_two AS SELECT network FROM cidr_longest('second_of_two', '::');"
        "CREATE TEMP VIEW second_of_two AS SELECT network FROM cidr_longest('first_of_two', '::');"
        "CREATE TEMP TABLE came(client); CREATE TEMP TABLE went(number);"
        "CREATE TEMP TRIGGER came AFTER INSERT ON came BEGIN"
        " INSERT INTO went SELECT number FROM cidr_longest('nets', new.client); END;"
        "INSERT INTO came VALUES ('10.1.2.3'), ('10.2.0.0');"
        "CREATE TEMP TRIGGER gone AFTER DELETE ON came BEGIN"
        " INSERT INTO went SELECT network FROM cidr_longest('itself', '::'); END;");
    expect(database, "(SELECT number FROM seen WHERE client = '10.200.0.1' OR number = 1)", "1");
    expect(database, "(SELECT group_concat(number) FROM went)", "'4,1'");
    expect(database, "(SELECT network FROM itself)",
           "error: cidr_longest: no such table (a view is no list): 'itself'");
    expect(database, "(SELECT network FROM first_of_two)",
           "error: cidr_longest: no such table (a view is no list): 'second_of_two'");
    char *said = answer(database, "DELETE FROM came", NULL, 0);
    if (strcmp(said, "error: cidr_longest: no such table (a view is no list): 'itself'") != 0) {
        fprintf(stderr, "test.c: a trigger over a view: %s\n", said);
        failures++;
    }
    free(said);
    need(sqlite3_create_function(database, "again", 1, SQLITE_UTF8 | SQLITE_DETERMINISTIC, NULL, again, NULL, NULL) ==
         SQLITE_OK, "no function");
    run(database, "CREATE TEMP TABLE loops(net AS (again(row)), row); INSERT INTO loops(row) VALUES (1)");
    expect(database, "(SELECT number FROM cidr_longest('loops', '::'))", "error: cidr_longest, row 1 of 'loops': "
           "no address: 'error: cidr_longest: asked for while a list is read: \\x27loops\\x27'");
    if (sqlite3_compileoption_used("ENABLE_FTS5")) {
        run(database, "CREATE VIRTUAL TABLE temp.words USING fts5(net);"
            "INSERT INTO words(rowid, net) VALUES (7, '10.0.0.0/8')");
        expect(database, "(SELECT number FROM cidr_longest('words', '10.1.2.3'))", "7");
    }
}

/* The longest network of a list: of both families, of equal ones the last, with rows that have none. */
static void longest_of_list(sqlite3 *database) {
    static const struct row asked[] = {
        {"'nets', '10.1.2.3'", "'4 10.1.0.0/16 16'"},
        {"'nets', '10.2.0.0'", "'1 10.0.0.0/8 8'"},
        {"'nets', cidr_addr('2001:db8::1')", "'6 2001:db8::/48 48'"},
        {"'nets', '2001:DB8:1::'", "'5 2001:db8::/32 32'"},
        {"'nets', '::ffff:10.1.2.3'", "'7 ::ffff:0.0.0.0/96 96'"},
        {"'nets', cidr_unmapped('::ffff:10.1.2.3')", "'4 10.1.0.0/16 16'"},
        {"'nets', '11.0.0.0'", "NULL"},
        {"'nets', '2001:db9::'", "NULL"},
        {"'nets', NULL", "NULL"},
        {"NULL, '::'", "NULL"},
        {"'no \"list\"', '10.1.2.3'", "'1 10.0.0.0/7 7'"},
        {"'empty', '10.1.2.3'", "NULL"},
        {"'none', '10.1.2.3'", "error: cidr_longest: no such table (a view is no list): 'none'"},
        {"x'6e657473', '10.1.2.3'", "error: cidr_longest, argument 1: a blob, not a text"},
        {"'nets' || char(0), '10.1.2.3'", "error: cidr_longest: a name with a zero byte: 'nets\\x00'"},
        {"'" NINES "9', '::'", "error: cidr_longest: no such table (a view is no list): '" NINES "', the first 60 of "
                               "61 bytes"},
        {"'nets', '10.1.2.3/32'", "error: cidr_longest, argument 2: no address: '10.1.2.3/32'"},
        {"'nets', 167772160", "error: cidr_longest, argument 2: an integer, not a text or a blob"},
        {"'nets', x'0a010203'", "error: cidr_longest, argument 2: a blob of 4 bytes that is no address"},
        {"'nets', x''", "error: cidr_longest, argument 2: a blob of 0 bytes that is no address"},
        {"'nets', '" NINES "9'",
         "error: cidr_longest, argument 2: no address: '" NINES "', the first 60 of 61 bytes"},
        {"'wrong', '10.1.2.3'", "error: cidr_longest, row 2 of 'wrong': no address: '10/8'"},
        {"'" NINES "8', '::'", "error: cidr_longest, row 1 of '" NINES "', the first 60 of 61 bytes: no address: "
                               "'" NINES "', the first 60 of 61 bytes"},
        {"'numbers', '10.1.2.3'", "error: cidr_longest, row 1 of 'numbers': an integer, not a text"},
        {"'nets'", "error: cidr_longest takes a list and an address"},
        {"'nets') WHERE (number = 1 OR prefix = 8", "error: cidr_longest takes a list and an address"},
        /* The schema of a list, and the dot in the name of one. */
        {"'main.nets', '10.1.2.3'", "'4 10.1.0.0/16 16'"},
        {"'MAIN.Nets', '10.1.2.3'", "'4 10.1.0.0/16 16'"},
        {"'main.no \"list\"', '10.1.2.3'", "'1 10.0.0.0/7 7'"},
        {"'other.far', '10.1.2.3'", "'3 10.0.0.0/9 9'"},
        {"'far', '10.1.2.3'", "'3 10.0.0.0/9 9'"},
        {"'main.far', '10.1.2.3'", "error: cidr_longest: no such table (a view is no list): 'main.far'"},
        {"'shade', '10.1.2.3'", "'1 10.0.0.0/11 11'"},
        {"'main.shade', '10.1.2.3'", "'1 10.0.0.0/10 10'"},
        {"'temp.shade', '10.1.2.3'", "'1 10.0.0.0/11 11'"},
        {"'dot.ted', '10.1.2.3'", "'1 10.0.0.0/12 12'"},
        {"'main.dot.ted', '10.1.2.3'", "'1 10.0.0.0/12 12'"},
        {"'other.two', '10.1.2.3'", "error: cidr_longest: a table of this name, and one of the schema before its dot: "
                                    "'other.two'"},
        {"'main.other.two', '10.1.2.3'", "'1 10.0.0.0/13 13'"},
        {"'other.other.two', '10.1.2.3'", "error: cidr_longest: no such table (a view is no list): 'other.other.two'"},
        {"'two', '10.1.2.3'", "'1 10.0.0.0/14 14'"},
        {"'.nets', '10.1.2.3'", "error: cidr_longest: no such table (a view is no list): '.nets'"},
        {"'main.', '10.1.2.3'", "error: cidr_longest: no such table (a view is no list): 'main.'"},
        {"'main.nets.nets', '10.1.2.3'", "error: cidr_longest: no such table (a view is no list): 'main.nets.nets'"},
        /* What has rowids: a table, whatever the names of its columns are, but for all three. */
        {"'hidden', '10.1.2.3'", "error: cidr_longest: no such table (a view is no list): 'hidden'"},
        {"'json_each', '10.1.2.3'", "error: cidr_longest: no such table (a view is no list): 'json_each'"},
        {"'keyed', '10.1.2.3'", "error: cidr_longest: a table without rowids: 'keyed'"},
        {"'named', '10.1.2.3'", "error: cidr_longest: a table without rowids: 'named'"},
        {"'one', '10.1.2.3'", "'1 10.0.0.0/8 8'"},
        {"'all', '10.1.2.3'", "error: cidr_longest: a table without rowids: 'all'"},
        {"'primary', '10.1.2.3'", "'40 10.0.0.0/8 8'"},
    };
    run(database, "CREATE TABLE nets(net TEXT, name TEXT);"
        "INSERT INTO nets VALUES ('10.0.0.0/8', 'a'), ('10.1.9.32/16', 'b'), (NULL, 'none'), ('10.1.0.0/16', 'c'),"
        " ('2001:db8::/32', 'd'), ('2001:db8::/48', 'e'), ('::ffff:0:0/96', 'f');"
        "CREATE TABLE \"no \"\"list\"\"\"(net); INSERT INTO \"no \"\"list\"\"\" VALUES ('10.0.0.0/7');"
        "CREATE TABLE empty(net); CREATE TABLE numbers(net); INSERT INTO numbers VALUES (10);"
        "CREATE TABLE wrong(net); INSERT INTO wrong VALUES ('::'), ('10/8');"
        "CREATE TABLE '" NINES "8'(net); INSERT INTO '" NINES "8' VALUES ('" NINES "8');"
        "CREATE VIEW hidden AS SELECT number FROM cidr_longest('nets', '::');"
        "ATTACH ':memory:' AS other; CREATE TABLE other.far(net);"
        "INSERT INTO far VALUES (NULL), (NULL), ('10.0.0.0/9');"
        "CREATE TABLE shade(net); INSERT INTO shade VALUES ('10.0.0.0/10');"
        "CREATE TEMP TABLE shade(net); INSERT INTO temp.shade VALUES ('10.0.0.0/11');"
        "CREATE TABLE 'dot.ted'(net); INSERT INTO 'dot.ted' VALUES ('10.0.0.0/12');"
        "CREATE TABLE 'other.two'(net); INSERT INTO 'other.two' VALUES ('10.0.0.0/13');"
        "CREATE TABLE other.two(net); INSERT INTO other.two VALUES ('10.0.0.0/14');"
        "CREATE TABLE keyed(net PRIMARY KEY) WITHOUT ROWID; INSERT INTO keyed VALUES ('::/0');"
        "CREATE TABLE named(net PRIMARY KEY, rowid) WITHOUT ROWID; INSERT INTO named VALUES ('::/0', 9);"
        "CREATE TABLE one(net, RowID, oid INTEGER); INSERT INTO one VALUES ('10.0.0.0/8', 5, 6);"
        "CREATE TABLE 'all'(net, rowid, _rowid_, oid); INSERT INTO 'all' VALUES ('10.0.0.0/8', 5, 6, 7);"
        "CREATE TABLE 'primary'(net, rowid INTEGER PRIMARY KEY); INSERT INTO 'primary' VALUES ('10.0.0.0/8', 40);");
    for (size_t i = 0; i < sizeof asked / sizeof *asked; i++) {
        char *expression = sqlite3_mprintf("(SELECT number || ' ' || network || ' ' || prefix FROM cidr_longest(%s))",
                                           asked[i].expression);
        need(expression != NULL, "no memory");
        expect(database, expression, asked[i].answer);
        sqlite3_free(expression);
    }
    expect(database, "(SELECT group_concat(client || ' ' || name) FROM log"
           " JOIN cidr_longest('nets', address) AS found JOIN nets ON nets.rowid = found.number)",
           "'10.1.9.32 c,2001:db8::1 e,10.200.0.1 a'");
    /* Each list is read, and read again after a change. */
    expect(database, "(SELECT group_concat(list || ' ' || number) FROM"
           " (SELECT column1 AS list FROM (VALUES ('nets'), ('empty'), ('no \"list\"'), ('nets')))"
           " JOIN cidr_longest(list, '10.1.2.3'))", "'nets 4,no \"list\" 1,nets 4'");
    run(database, "UPDATE nets SET net = '10.1.2.0/24' WHERE name = 'a'");
    expect(database, "(SELECT number FROM cidr_longest('nets', '10.1.2.3'))", "1");
    run(database, "UPDATE nets SET net = '10.0.0.0/8' WHERE name = 'a'");
    longest_in_statements(database);
    longest_in_schemas(database);
}

/* Requests for memory, of which one can be refused: the number left before it, or -1 for none. */
static sqlite3_mem_methods memory;
static _Thread_local int left = -1;

static int is_refused(void) { return left >= 0 && left-- == 0; }
static void *request(int size) { return is_refused() ? NULL : memory.xMalloc(size); }
static void *request_more(void *block, int size) { return is_refused() ? NULL : memory.xRealloc(block, size); }

/* Sees that a call, of which each request for memory is refused in turn, says so or has the right answer; without
 * memory for a message SQLite tells a status. In a database in UTF-16 SQLite asks for memory as a function asks for the
 * bytes of a text. */
static void short_of_memory(sqlite3 *database) {
    static const struct row asked[] = {
        {"cidr_text('10.1.9.32/255.255.0.0')", "'10.1.9.32/16'"},
        {"cidr_has('2001:db8::/32', '2001:db8::1')", "1"},
        {"cidr_covers('10.0.0.0/8', '10.1.0.0/16')", "1"},
        {"cidr_last('10.1.9.32/8')", "X'040AFFFFFF'"},
        {"cidr_addr('10.1.9.32')", "X'040A010920'"},
        {"cidr_cause('10/8')", "'no address'"},
        {"cidr_prefix('10/8')", "error: cidr_prefix, argument 1: no address: '10/8'"},
        {"cidr_family(4)", "error: cidr_family, argument 1: an integer, not a text"},
        {"cidr_print(X'040A010920')", "'10.1.9.32'"},
        {"cidr_print(zeroblob(5))", "error: cidr_print, argument 1: a blob of 5 bytes that is no address"},
        {"cidr_unmapped('::ffff:10.1.9.32')", "'10.1.9.32'"},
        {"cidr_unmapped(X'0600000000000000000000FFFF0A010920')", "X'040A010920'"},
        {"cidr_text_or_null('10.1.9.32/255.255.0.0')", "'10.1.9.32/16'"},
        {"cidr_addr_or_null('10.1.9.32')", "X'040A010920'"},
        {"(SELECT number || network FROM cidr_longest('nets', '10.1.2.3'))", "'410.1.0.0/16'"},
        {"(SELECT number FROM cidr_longest('nets', cidr_addr('2001:db8::')))", "6"},
        {"(SELECT number FROM cidr_longest('main.nets', '10.1.2.3') WHERE number = 4 OR prefix = 8)", "4"},
        {"(SELECT number FROM cidr_longest('one', '10.1.2.3') WHERE asked_address = '10.1.2.3')", "1"},
        {"(SELECT number FROM cidr_longest('wrong', '::'))",
         "error: cidr_longest, row 2 of 'wrong': no address: '10/8'"},
        {"(SELECT number FROM cidr_longest('none', '::'))",
         "error: cidr_longest: no such table (a view is no list): 'none'"},
    };
    for (size_t i = 0; i < sizeof asked / sizeof *asked; i++) {
        char *sql = sqlite3_mprintf("SELECT quote(%s)", asked[i].expression);
        need(sql != NULL, "no memory");
        for (int first = 0, is_all = 0; !is_all; first++) {
            left = first;
            char *said = answer(database, sql, NULL, 0);
            is_all = left >= 0;
            left = -1;
            int is_short = !is_all && (strcmp(said, "error: out of memory") == 0 ||
                                       (strncmp(asked[i].answer, "error: ", 7) == 0 &&
                                        strcmp(said, "error: SQL logic error") == 0));
            if (strcmp(said, asked[i].answer) != 0 && !is_short) {
                fprintf(stderr, "test.c: %s, where request %d is refused: %s\n", asked[i].expression, first, said);
                failures++;
            }
            free(said);
        }
        sqlite3_free(sql);
    }
}

static void *in_thread(void *nothing) {
    sqlite3 *database = open_database("UTF-8");
    each_row(database);
    sqlite3_close(database);
    return nothing;
}

static void threads(void) {
    pthread_t ids[4];
    for (int i = 0; i < 4; i++)
        need(pthread_create(&ids[i], NULL, in_thread, NULL) == 0, "no thread");
    for (int i = 0; i < 4; i++)
        need(pthread_join(ids[i], NULL) == 0, "no end of a thread");
}

int main(int count, char **words) {
    need(count == 2 || count == 3, "usage: test PATH_OF_THE_EXTENSION [LENGTH]");
    extension = words[1];
    if (count == 3)
        longest = strtoul(words[2], NULL, 10);
    need(sqlite3_config(SQLITE_CONFIG_GETMALLOC, &memory) == SQLITE_OK, "no memory to watch");
    sqlite3_mem_methods watched = memory;
    watched.xMalloc = request;
    watched.xRealloc = request_more;
    need(sqlite3_config(SQLITE_CONFIG_MALLOC, &watched) == SQLITE_OK, "no memory to watch");
    need(sqlite3_config(SQLITE_CONFIG_LOOKASIDE, 0, 0) == SQLITE_OK, "no memory to watch");
    char wanted[100];
    const char *build = getenv("IPNETWORK_BUILD");
    snprintf(wanted, sizeof wanted, "'%s'", build == NULL ? "" : build);
    static const char *encodings[] = {"UTF-8", "UTF-16le", "UTF-16be"};
    for (int i = 0; i < 3; i++) {
        sqlite3 *database = open_database(encodings[i]);
        each_row(database);
        if (build != NULL)
            expect(database, "cidr_version()", wanted);
        each_text(database);
        if (i == 0)
            each_message(database);
        longest = longest < 100000 ? longest : 100000;
        schemas(database);
        longest_of_list(database);
        short_of_memory(database);
        /* Loaded again, it answers as before. */
        need(sqlite3_load_extension(database, extension, NULL, NULL) == SQLITE_OK, "not loaded again");
        each_row(database);
        need(sqlite3_close(database) == SQLITE_OK, "a database that stays open");
    }
    threads();
    sqlite3_shutdown();
    if (sqlite3_memory_used() != 0) {
        fprintf(stderr, "test.c: %lld bytes are left in use\n", (long long)sqlite3_memory_used());
        failures++;
    }
    if (failures == 0)
        printf("SQLite: %zu rows and the texts that SQL cannot spell have their answers, by SQLite %s\n",
               sizeof rows / sizeof *rows, sqlite3_libversion());
    return failures != 0;
}
