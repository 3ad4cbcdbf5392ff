/* The tables of the extension: each is the bytes of structs, with a number of 64 bits for each. */
#ifndef IPNETWORK_TABLES_H
#define IPNETWORK_TABLES_H

#include "_columns.h"

/* table_make(version, rows): the blocks of the networks, and for each the place of its network, as a
 * size_t. */
static PyObject *table_make(PyObject *module, PyObject *arguments) {
    (void)module;
    int version;
    const char *rows;
    Py_ssize_t length;
    if (!PyArg_ParseTuple(arguments, "iy#", &version, &rows, &length)) return NULL;
    size_t step = version == 4 ? sizeof(ipnetwork_v4) : sizeof(ipnetwork_v6), count = (size_t)length / step;
    PyObject *blocks = PyBytes_FromStringAndSize(NULL, (Py_ssize_t)(count * step)), *both = NULL;
    PyObject *places = PyBytes_FromStringAndSize(NULL, (Py_ssize_t)(count * sizeof(size_t)));
    if (blocks != NULL && places != NULL) {
        void *block = PyBytes_AsString(blocks), *place = PyBytes_AsString(places);
        ipnetwork_fault fault;
        Py_BEGIN_ALLOW_THREADS
        fault = version == 4 ? ipnetwork_v4_table_make((const ipnetwork_v4 *)rows, count, block, count, place, count)
                             : ipnetwork_v6_table_make((const ipnetwork_v6 *)rows, count, block, count, place, count);
        Py_END_ALLOW_THREADS
        if (answered(fault)) both = PyTuple_Pack(2, blocks, places);
    }
    Py_XDECREF(blocks), Py_XDECREF(places);
    return both;
}

/* ---- the ranges of a table ---- */

/* The first bytes of a bytearray, as bytes. */
static PyObject *front_of(PyObject *room, size_t length) {
    return PyBytes_FromStringAndSize(PyByteArray_AsString(room), (Py_ssize_t)length);
}

/* The ranges of a table in these rooms, and their index, as a tuple. */
static PyObject *ranges_in(const searched_list *table, const char *numbers, PyObject *ranges, PyObject *range_numbers) {
    size_t step = table->width + 1, made = 0;
    uint8_t *structs = (uint8_t *)PyByteArray_AsString(ranges);
    int64_t *made_numbers = (int64_t *)PyByteArray_AsString(range_numbers);
    PyObject *index = NULL, *front = NULL, *front_numbers = NULL, *all = NULL;
    ipnetwork_fault fault;
    Py_BEGIN_ALLOW_THREADS
    fault = table_ranges(table, (const int64_t *)numbers, structs, made_numbers, &made);
    Py_END_ALLOW_THREADS
    if (answered(fault) && (index = list_index_object(table->width, (const char *)structs, made)) != NULL
        && (front = front_of(ranges, made * step)) != NULL
        && (front_numbers = front_of(range_numbers, made * sizeof(int64_t))) != NULL)
        all = PyTuple_Pack(3, front, front_numbers, index);
    Py_XDECREF(front), Py_XDECREF(front_numbers), Py_XDECREF(index);
    return all;
}

/* ranges(version, blocks, numbers): the ranges of a table, the number of the longest block of each, and their
 * index. The numbers are those of the blocks, of 64 bits. */
static PyObject *ranges(PyObject *module, PyObject *arguments) {
    (void)module;
    int version;
    const char *blocks, *numbers;
    Py_ssize_t length, numbers_length;
    if (!PyArg_ParseTuple(arguments, "iy#y#", &version, &blocks, &length, &numbers, &numbers_length)) return NULL;
    size_t width = version == 4 ? 4 : 16, step = width + 1;
    searched_list table = {width, (const uint8_t *)blocks, (size_t)length / step, NULL, 0};
    if ((size_t)numbers_length / sizeof(int64_t) < table.count)
        return PyErr_SetString(PyExc_ValueError, "there is not a number for each block"), NULL;
    PyObject *structs = PyByteArray_FromStringAndSize(NULL, (Py_ssize_t)(2 * table.count * step)), *all = NULL;
    /* One more than the maximum, because empty bytes may be at any address, and numbers must be aligned. */
    PyObject *range_numbers = PyByteArray_FromStringAndSize(NULL, (Py_ssize_t)((2 * table.count + 1) * sizeof(int64_t)));
    PyObject *index = list_index_object(width, blocks, table.count);
    if (structs != NULL && range_numbers != NULL && index != NULL) {
        table.index = (const uint32_t *)PyBytes_AsString(index);
        table.index_length = (size_t)PyBytes_Size(index) / sizeof(uint32_t);
        all = ranges_in(&table, numbers, structs, range_numbers);
    }
    Py_XDECREF(structs), Py_XDECREF(range_numbers), Py_XDECREF(index);
    return all;
}

/* A search of a table: its ranges of both families, the number of each and their indexes, as `ranges` leaves them; and
 * whether an IPv4-mapped address is found in either form, first as the IPv4 address. */
typedef struct {
    searched_list fours, sixes;
    const int64_t *four_numbers, *six_numbers;
    int mapped;
} Table;

/* The search in a tuple of bytes; 0 with an exception for any other object. */
static int parse_table(PyObject *given, Table *table) {
    const char *four_numbers, *six_numbers;
    Py_ssize_t lengths[2];
    if (!list_at(given, 0, 2, 4, &table->fours) || !list_at(given, 3, 5, 16, &table->sixes)
        || !bytes_at(given, 1, &four_numbers, &lengths[0]) || !bytes_at(given, 4, &six_numbers, &lengths[1])
        || !truth_at(given, 6, &table->mapped))
        return 0;
    table->four_numbers = (const int64_t *)four_numbers, table->six_numbers = (const int64_t *)six_numbers;
    if ((size_t)lengths[0] / sizeof(int64_t) >= table->fours.count && (size_t)lengths[1] / sizeof(int64_t) >= table->sixes.count)
        return 1;
    PyErr_SetString(PyExc_ValueError, "there is not a number for each range");
    return 0;
}

/* The number of the longest network that has an address, or -1, as for a row without an address.
 * IPNETWORK_NO_FAMILY if the length is neither 0, 4 nor 16. */
static inline ipnetwork_fault table_has(const Table *table, const ipnetwork_address *address, int64_t *number) {
    uint8_t octets[16]; /* a call that is not made takes so many */
    *number = -1;
    if (address->length == 4) *number = number_of(&table->fours, table->four_numbers, address->octets);
    else if (address->length == 16 && table->mapped && ipnetwork_v6_unmapped(address->octets, octets) == IPNETWORK_OK)
        *number = number_of(&table->fours, table->four_numbers, octets);
    if (address->length == 16 && *number < 0)
        *number = number_of(&table->sixes, table->six_numbers, address->octets);
    return address->length == 4 || address->length == 16 || address->length == 0 ? IPNETWORK_OK : IPNETWORK_NO_FAMILY;
}

/* table_find(search, address) */
static PyObject *table_find(PyObject *module, PyObject *arguments) {
    State *state = PyModule_GetState(module);
    Table table;
    PyObject *search, *given;
    ipnetwork_address address;
    int64_t number;
    if (!PyArg_UnpackTuple(arguments, "table_find", 2, 2, &search, &given) || !parse_table(search, &table)) return NULL;
    int kind = alone_of(state, given, &address);
    if (kind == NO_ADDRESS && no_member(state, given, kind) == 0)
        raise_shown(state, "%U has more than one address, and one is asked about", given);
    if (kind != IS_ADDRESS) return NULL;
    return answered(table_has(&table, &address, &number)) ? PyLong_FromLongLong(number) : NULL;
}

/* The number of rows of a column in one call of the library. */
enum { AT_ONCE = 128 };

/* The addresses of one family in some rows, one after the other, and the numbers of these rows. */
typedef struct {
    size_t count, rows[AT_ONCE];
    uint8_t octets[AT_ONCE * 16];
} Asked;

/* Adds the address of a row, of `width` octets, which is a compile-time constant. */
static inline void ask(Asked *asked, size_t row, const uint8_t *octets, size_t width) {
    memcpy(asked->octets + asked->count * width, octets, width);
    asked->rows[asked->count++] = row;
}

/* Writes to these rows the numbers of the longest networks that have their addresses, or -1, which is
 * IPNETWORK_NO_PLACE as a place. */
static ipnetwork_fault numbers_of(const searched_list *ranges, const int64_t *numbers, const Asked *asked,
                                  int64_t *answers) {
    size_t places[AT_ONCE], count = asked->count;
    uint8_t faults[AT_ONCE];
    memset(places, 0xff, sizeof places);
    const size_t *range_numbers = (const size_t *)numbers;
    ipnetwork_fault fault =
        ranges->width == 4
            ? ipnetwork_v4_ranges_find_column((const ipnetwork_v4 *)ranges->structs, ranges->count, range_numbers, ranges->count,
                                              ranges->index, ranges->index_length, asked->octets, count, places, count,
                                              faults, count)
            : ipnetwork_v6_ranges_find_column((const ipnetwork_v6 *)ranges->structs, ranges->count, range_numbers, ranges->count,
                                              ranges->index, ranges->index_length, asked->octets, count, places, count,
                                              faults, count);
    for (size_t at = 0; at < count; at++) answers[asked->rows[at]] = (int64_t)places[at];
    return fault;
}

/* Adds the addresses of `count` rows to those of their families, and writes -1 for each row; with `mapped`, a
 * compile-time constant, an IPv4-mapped one first as the IPv4 address. IPNETWORK_NO_FAMILY, with the number of the
 * row, if a length is neither 0, 4 nor 16. */
__attribute__((always_inline)) static inline ipnetwork_fault by_family(const ipnetwork_address *addresses, size_t count,
                                                                       int mapped, Asked *fours, Asked *sixes,
                                                                       int64_t *answers, size_t *row) {
    uint8_t octets[4];
    for (*row = 0; *row < count; ++*row) {
        const ipnetwork_address *address = &addresses[*row];
        answers[*row] = -1;
        if (address->length == 4) ask(fours, *row, address->octets, 4);
        else if (address->length == 16 && mapped && ipnetwork_v6_unmapped(address->octets, octets) == IPNETWORK_OK)
            ask(fours, *row, octets, 4);
        else if (address->length == 16) ask(sixes, *row, address->octets, 16);
        else if (address->length != 0) return IPNETWORK_NO_FAMILY;
    }
    return IPNETWORK_OK;
}

/* The number of the longest network of each row, for at most AT_ONCE rows, or -1, as for a row without an
 * address. */
static ipnetwork_fault table_has_rows(const Table *table, const ipnetwork_address *addresses, size_t count,
                                      int64_t *answers, size_t *row) {
    Asked fours, sixes;
    fours.count = sixes.count = 0;
    ipnetwork_fault fault = table->mapped ? by_family(addresses, count, 1, &fours, &sixes, answers, row)
                                          : by_family(addresses, count, 0, &fours, &sixes, answers, row);
    if (fault == IPNETWORK_OK) fault = numbers_of(&table->fours, table->four_numbers, &fours, answers);
    if (fault != IPNETWORK_OK) return fault;
    for (size_t at = 0; table->mapped && at < fours.count; at++) {
        const ipnetwork_address *address = &addresses[fours.rows[at]];
        if (answers[fours.rows[at]] < 0 && address->length == 16) ask(&sixes, fours.rows[at], address->octets, 16);
    }
    return numbers_of(&table->sixes, table->six_numbers, &sixes, answers);
}

/* table_find_column(search, addresses): a number for each of the addresses, which are as `read_rows` leaves them. */
static PyObject *table_find_column(PyObject *module, PyObject *arguments) {
    (void)module;
    Table table;
    PyObject *search, *given, *numbers = NULL;
    Py_buffer column;
    if (!PyArg_UnpackTuple(arguments, "table_find_column", 2, 2, &search, &given) || !parse_table(search, &table)
        || !bytes_of(given, &column))
        return NULL;
    size_t count = (size_t)column.len / sizeof(ipnetwork_address);
    if ((size_t)column.len % sizeof(ipnetwork_address) != 0) {
        PyErr_Format(PyExc_ValueError, "%zd bytes are no column of addresses of 17 bytes", column.len);
    } else if ((numbers = PyByteArray_FromStringAndSize(NULL, (Py_ssize_t)(count * sizeof(int64_t)))) != NULL) {
        const ipnetwork_address *addresses = column.buf;
        char *room = PyByteArray_AsString(numbers);
        ipnetwork_fault fault = IPNETWORK_OK;
        size_t from = 0, row = 0;
        Py_BEGIN_ALLOW_THREADS
        for (; from < count; from += AT_ONCE) {
            size_t asked = count - from < AT_ONCE ? count - from : AT_ONCE;
            int64_t answers[AT_ONCE];
            if ((fault = table_has_rows(&table, addresses + from, asked, answers, &row)) != IPNETWORK_OK) break;
            memcpy(room + from * sizeof *answers, answers, asked * sizeof *answers);
        }
        Py_END_ALLOW_THREADS
        if (fault == IPNETWORK_NO_FAMILY) no_such_row((Py_ssize_t)(from + row), addresses[from + row].length);
        if (fault == IPNETWORK_NO_FAMILY || !answered(fault)) Py_CLEAR(numbers);
    }
    PyBuffer_Release(&column);
    return numbers;
}

#endif
