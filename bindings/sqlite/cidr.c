/* SQL functions for IP networks in CIDR notation: a loadable extension for SQLite on top of the library for C.
 * README.md next to this file says what each function returns.
 *
 * Nothing is kept between statements, and nothing is allocated here except what longest.h keeps for one statement:
 * results and messages are made on the stack, and SQLite copies them. The only variable is the pointer to SQLite's
 * functions that sqlite3ext.h requires of each extension. */
#include "ipnetwork.h"

#include <sqlite3ext.h>
#include <string.h>
SQLITE_EXTENSION_INIT1

#ifndef SQLITE_INNOCUOUS
#error "cidr.c needs the header of SQLite 3.31 or later"
#endif

/* The number of bytes of a refused text that a message shows. */
#define SHOWN 60

/* The size of a buffer for these bytes, each as \xHH, in quotes, for how many there are, and for a zero byte. */
#define SHOWN_TEXT (4 * SHOWN + 50)

/* The size of a buffer for a message: most of it is the name of a function, the text of a fault and the bytes shown. */
#define MESSAGE (SHOWN_TEXT + IPNETWORK_FAULT_TEXT + 80)

struct text {
    const char *bytes;
    size_t length;
};

/* An SQL function: answer is called with as many values as the function has arguments, none of which is NULL. */
struct function {
    const char *name;
    int arguments;
    void (*answer)(sqlite3_context *, sqlite3_value **);
};

static const char *name_of_call(sqlite3_context *context) {
    const struct function *function = sqlite3_user_data(context);
    return function->name;
}

/* The front of a text in quotes, for a message. A byte that is not printable ASCII, a quote or a backslash is shown as
 * \xHH. */
static void show(struct text text, char shown[SHOWN_TEXT]) {
    char *end = shown;
    *end++ = '\'';
    for (size_t i = 0; i < text.length && i < SHOWN; i++) {
        unsigned char byte = (unsigned char)text.bytes[i];
        if (byte >= ' ' && byte <= '~' && byte != '\'' && byte != '\\') {
            *end++ = (char)byte;
        } else {
            sqlite3_snprintf(5, end, "\\x%02x", byte);
            end += 4;
        }
    }
    *end++ = '\'';
    *end = '\0';
    if (text.length > SHOWN)
        sqlite3_snprintf(SHOWN_TEXT - (int)(end - shown), end, ", the first %d of %llu bytes", SHOWN,
                         (unsigned long long)text.length);
}

/* The text of a fault, and a zero byte. */
static void tell(ipnetwork_fault fault, char words[IPNETWORK_FAULT_TEXT]) {
    size_t length;
    if (ipnetwork_fault_text(fault, words, IPNETWORK_FAULT_TEXT, &length) != IPNETWORK_OK)
        words[0] = '\0';
}

/* The error for an argument, counted from 0, whose text is refused. */
static void refuse(sqlite3_context *context, int argument, ipnetwork_fault fault, struct text text) {
    char words[IPNETWORK_FAULT_TEXT], shown[SHOWN_TEXT], message[MESSAGE];
    const char *name = name_of_call(context);
    tell(fault, words);
    show(text, shown);
    sqlite3_snprintf(MESSAGE, message, "%s, argument %d: %s: %s", name, argument + 1, words, shown);
    sqlite3_result_error(context, message, -1);
}

static const char *name_of_type(int type) {
    switch (type) {
    case SQLITE_INTEGER: return "an integer";
    case SQLITE_FLOAT: return "a real number";
    case SQLITE_TEXT: return "a text";
    case SQLITE_BLOB: return "a blob";
    default: return "a value of no known type";
    }
}

/* The error for an argument, counted from 0, that is not of this type. */
static void refuse_type(sqlite3_context *context, sqlite3_value **values, int argument, const char *wanted) {
    char message[MESSAGE];
    sqlite3_snprintf(MESSAGE, message, "%s, argument %d: %s, not %s", name_of_call(context), argument + 1,
                     name_of_type(sqlite3_value_type(values[argument])), wanted);
    sqlite3_result_error(context, message, -1);
}

/* Whether an argument is a text; if not, the call ends in an error. */
static int take_text(sqlite3_context *context, sqlite3_value **values, int argument, struct text *text) {
    if (sqlite3_value_type(values[argument]) != SQLITE_TEXT) {
        refuse_type(context, values, argument, "a text");
        return 0;
    }
    text->bytes = (const char *)sqlite3_value_text(values[argument]);
    if (text->bytes == NULL) {
        sqlite3_result_error_nomem(context);
        return 0;
    }
    text->length = (size_t)sqlite3_value_bytes(values[argument]);
    return 1;
}

/* Whether an argument is the text of a network; if not, the call ends in an error. */
static int take_network(sqlite3_context *context, sqlite3_value **values, int argument, ipnetwork_ip *network) {
    struct text text;
    if (!take_text(context, values, argument, &text))
        return 0;
    ipnetwork_fault fault = ipnetwork_read_with_cause(text.bytes, text.length, network);
    if (fault != IPNETWORK_OK)
        refuse(context, argument, fault, text);
    return fault == IPNETWORK_OK;
}

/* Whether an argument is the text of an address; if not, the call ends in an error. */
static int take_address(sqlite3_context *context, sqlite3_value **values, int argument, ipnetwork_address *address) {
    struct text text;
    if (!take_text(context, values, argument, &text))
        return 0;
    ipnetwork_fault fault = ipnetwork_address_read(text.bytes, text.length, address);
    if (fault != IPNETWORK_OK)
        refuse(context, argument, fault, text);
    return fault == IPNETWORK_OK;
}

/* Whether these bytes are a blob of give_address; if so, the address. */
static int address_of_blob(const uint8_t *blob, size_t length, ipnetwork_address *address) {
    if ((length != 5 || blob[0] != 4) && (length != 17 || blob[0] != 6))
        return 0;
    address->length = (uint8_t)(length - 1);
    memcpy(address->octets, blob + 1, address->length);
    return 1;
}

/* Whether an argument, which is a blob, is one of give_address; if not, the call ends in an error. */
static int take_blob(sqlite3_context *context, sqlite3_value **values, int argument, ipnetwork_address *address) {
    const uint8_t *blob = sqlite3_value_blob(values[argument]);
    int length = sqlite3_value_bytes(values[argument]);
    if (blob == NULL && length > 0) {
        sqlite3_result_error_nomem(context);
        return 0;
    }
    if (!address_of_blob(blob, (size_t)length, address)) {
        char message[MESSAGE];
        sqlite3_snprintf(MESSAGE, message, "%s, argument %d: a blob of %d bytes that is no address",
                         name_of_call(context), argument + 1, length);
        sqlite3_result_error(context, message, -1);
        return 0;
    }
    return 1;
}

/* Whether a call of the library succeeded. The library does not refuse a struct that it has read itself, so an error
 * here means that the library does not match its header. */
static int is_answered(sqlite3_context *context, ipnetwork_fault fault) {
    char words[IPNETWORK_FAULT_TEXT], message[MESSAGE];
    if (fault == IPNETWORK_OK)
        return 1;
    tell(fault, words);
    sqlite3_snprintf(MESSAGE, message, "%s: %s", name_of_call(context), words);
    sqlite3_result_error(context, message, -1);
    return 0;
}

/* An address as a blob: its family, 4 or 6, and its octets, the highest first. */
static void give_address(sqlite3_context *context, const ipnetwork_address *address) {
    uint8_t blob[1 + sizeof address->octets];
    blob[0] = address->length == 4 ? 4 : 6;
    memcpy(blob + 1, address->octets, address->length);
    sqlite3_result_blob(context, blob, 1 + address->length, SQLITE_TRANSIENT);
}

/* An address as its canonical text. */
static void give_address_text(sqlite3_context *context, const ipnetwork_address *address) {
    char text[IPNETWORK_ADDRESS_TEXT];
    size_t length;
    if (is_answered(context, ipnetwork_address_canonical(address, text, sizeof text, &length)))
        sqlite3_result_text(context, text, (int)length, SQLITE_TRANSIENT);
}

/* A network as its canonical text. */
static void give_network(sqlite3_context *context, const ipnetwork_ip *network) {
    char text[IPNETWORK_V6_TEXT];
    size_t length;
    if (is_answered(context, ipnetwork_canonical(network, text, sizeof text, &length)))
        sqlite3_result_text(context, text, (int)length, SQLITE_TRANSIENT);
}

static void answer_text(sqlite3_context *context, sqlite3_value **values) {
    ipnetwork_ip network;
    if (take_network(context, values, 0, &network))
        give_network(context, &network);
}

/* NULL, which SQLite takes as the result if none is set, for a text that names no network. */
static void answer_text_or_null(sqlite3_context *context, sqlite3_value **values) {
    struct text text;
    ipnetwork_ip network;
    if (sqlite3_value_type(values[0]) == SQLITE_TEXT && take_text(context, values, 0, &text) &&
        ipnetwork_read_with_cause(text.bytes, text.length, &network) == IPNETWORK_OK)
        give_network(context, &network);
}

static void answer_has(sqlite3_context *context, sqlite3_value **values) {
    ipnetwork_ip network;
    ipnetwork_address address;
    uint8_t answer;
    if (take_network(context, values, 0, &network) && take_address(context, values, 1, &address) &&
        is_answered(context, ipnetwork_contains(&network, address.octets, address.length, &answer)))
        sqlite3_result_int(context, answer);
}

static void answer_covers(sqlite3_context *context, sqlite3_value **values) {
    ipnetwork_ip outer, inner;
    uint8_t answer;
    if (take_network(context, values, 0, &outer) && take_network(context, values, 1, &inner) &&
        is_answered(context, ipnetwork_is_subnet_of(&inner, &outer, &answer)))
        sqlite3_result_int(context, answer);
}

static void answer_first(sqlite3_context *context, sqlite3_value **values) {
    ipnetwork_ip network;
    ipnetwork_address address;
    if (take_network(context, values, 0, &network) && is_answered(context, ipnetwork_network(&network, &address)))
        give_address(context, &address);
}

static void answer_last(sqlite3_context *context, sqlite3_value **values) {
    ipnetwork_ip network;
    ipnetwork_address address;
    if (take_network(context, values, 0, &network) && is_answered(context, ipnetwork_broadcast(&network, &address)))
        give_address(context, &address);
}

static void answer_addr(sqlite3_context *context, sqlite3_value **values) {
    ipnetwork_address address;
    if (take_address(context, values, 0, &address))
        give_address(context, &address);
}

/* NULL for a text that names no address. */
static void answer_addr_or_null(sqlite3_context *context, sqlite3_value **values) {
    struct text text;
    ipnetwork_address address;
    if (sqlite3_value_type(values[0]) == SQLITE_TEXT && take_text(context, values, 0, &text) &&
        ipnetwork_address_read(text.bytes, text.length, &address) == IPNETWORK_OK)
        give_address(context, &address);
}

static void answer_print(sqlite3_context *context, sqlite3_value **values) {
    ipnetwork_address address;
    if (sqlite3_value_type(values[0]) != SQLITE_BLOB)
        refuse_type(context, values, 0, "a blob");
    else if (take_blob(context, values, 0, &address))
        give_address_text(context, &address);
}

/* A text for a text, and a blob for a blob. */
static void answer_unmapped(sqlite3_context *context, sqlite3_value **values) {
    ipnetwork_address address, unmapped;
    int type = sqlite3_value_type(values[0]);
    if (type != SQLITE_TEXT && type != SQLITE_BLOB)
        refuse_type(context, values, 0, "a text or a blob");
    else if ((type == SQLITE_TEXT ? take_address : take_blob)(context, values, 0, &address) &&
             is_answered(context, ipnetwork_address_unmapped(&address, &unmapped)))
        (type == SQLITE_TEXT ? give_address_text : give_address)(context, &unmapped);
}

static void answer_prefix(sqlite3_context *context, sqlite3_value **values) {
    ipnetwork_ip network;
    if (take_network(context, values, 0, &network))
        sqlite3_result_int(context, network.family == 4 ? network.v4.prefix : network.v6.prefix);
}

static void answer_family(sqlite3_context *context, sqlite3_value **values) {
    ipnetwork_ip network;
    if (take_network(context, values, 0, &network))
        sqlite3_result_int(context, network.family);
}

/* NULL if the text names a network. */
static void answer_cause(sqlite3_context *context, sqlite3_value **values) {
    struct text text;
    ipnetwork_ip network;
    char words[IPNETWORK_FAULT_TEXT];
    if (!take_text(context, values, 0, &text))
        return;
    ipnetwork_fault fault = ipnetwork_read_with_cause(text.bytes, text.length, &network);
    if (fault == IPNETWORK_OK)
        return;
    tell(fault, words);
    sqlite3_result_text(context, words, -1, SQLITE_TRANSIENT);
}

/* The version of the library, and which build it is. */
static void answer_version(sqlite3_context *context, sqlite3_value **values) {
    char text[IPNETWORK_BUILD_TEXT];
    size_t length;
    (void)values;
    if (is_answered(context, ipnetwork_build(text, sizeof text, &length)))
        sqlite3_result_text(context, text, (int)length, SQLITE_TRANSIENT);
}

static const struct function functions[] = {
    {"cidr_text", 1, answer_text},     {"cidr_has", 2, answer_has},       {"cidr_covers", 2, answer_covers},
    {"cidr_first", 1, answer_first},   {"cidr_last", 1, answer_last},     {"cidr_addr", 1, answer_addr},
    {"cidr_prefix", 1, answer_prefix}, {"cidr_family", 1, answer_family}, {"cidr_cause", 1, answer_cause},
    {"cidr_print", 1, answer_print},   {"cidr_unmapped", 1, answer_unmapped},
    {"cidr_text_or_null", 1, answer_text_or_null},
    {"cidr_addr_or_null", 1, answer_addr_or_null},
    {"cidr_version", 0, answer_version},
};

#include "longest.h"

/* SQLite calls this for each function. The result is NULL if an argument is. */
static void call(sqlite3_context *context, int count, sqlite3_value **values) {
    const struct function *function = sqlite3_user_data(context);
    for (int i = 0; i < count; i++)
        if (sqlite3_value_type(values[i]) == SQLITE_NULL)
            return;
    function->answer(context, values);
}

#if defined(__GNUC__)
__attribute__((visibility("default")))
#endif
/* SQLite calls this when it loads the extension; its name is derived from the file name, cidr.so. */
int sqlite3_cidr_init(sqlite3 *database, char **message, const sqlite3_api_routines *api) {
    (void)message;
    SQLITE_EXTENSION_INIT2(api)
    for (size_t i = 0; i < sizeof functions / sizeof *functions; i++) {
        /* Without arguments it is the version: no index may keep that, since another build has another. */
        int flags = SQLITE_UTF8 | SQLITE_INNOCUOUS | (functions[i].arguments > 0 ? SQLITE_DETERMINISTIC : 0);
        int status = sqlite3_create_function(database, functions[i].name, functions[i].arguments, flags,
                                             (void *)&functions[i], call, NULL, NULL);
        if (status != SQLITE_OK)
            return status;
    }
    return sqlite3_create_module(database, "cidr_longest", &longest_module, NULL);
}
