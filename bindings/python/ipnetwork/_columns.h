/* The calls of the extension for many addresses, or many networks, at once. */
#ifndef IPNETWORK_COLUMNS_H
#define IPNETWORK_COLUMNS_H

#include "_asked.h"
#include "_text_columns.h"
#include "ranges.h"

static PyObject *network_column(PyObject *object, PyObject *given) {
    const ipnetwork_ip *held = &((Network *)object)->held;
    Py_ssize_t width = width_of(held);
    PyObject *answers = NULL;
    Py_buffer column;
    if (!is_made((Network *)object) || !bytes_of(given, &column)) return NULL;
    if (column.len % width != 0) {
        PyErr_Format(PyExc_ValueError, "%zd bytes are no column of addresses of %zd bytes", column.len, width);
    } else if ((answers = PyByteArray_FromStringAndSize(NULL, column.len / width)) != NULL && column.len > 0) {
        size_t count = (size_t)(column.len / width);
        uint8_t *room = (uint8_t *)PyByteArray_AsString(answers);
        ipnetwork_fault fault;
        Py_BEGIN_ALLOW_THREADS
        fault = held->family == 4 ? ipnetwork_v4_contains_column(&held->v4, column.buf, count, room, count)
                                  : ipnetwork_v6_contains_column(&held->v6, column.buf, count, room, count);
        Py_END_ALLOW_THREADS
        if (!answered(fault)) Py_CLEAR(answers);
    }
    PyBuffer_Release(&column);
    return answers;
}

/* ---- lists, each the bytes of structs, one after the other ---- */

/* aggregate(version, rows) */
static PyObject *aggregate(PyObject *module, PyObject *arguments) {
    (void)module;
    int version;
    const char *rows;
    Py_ssize_t length;
    size_t count = 0;
    if (!PyArg_ParseTuple(arguments, "iy#", &version, &rows, &length)) return NULL;
    size_t step = version == 4 ? sizeof(ipnetwork_v4) : sizeof(ipnetwork_v6);
    PyObject *room = PyByteArray_FromStringAndSize(rows, length), *blocks = NULL;
    if (room == NULL) return NULL;
    char *place = PyByteArray_AsString(room);
    ipnetwork_fault fault = version == 4 ? ipnetwork_v4_aggregate((ipnetwork_v4 *)place, (size_t)length / step, &count)
                                         : ipnetwork_v6_aggregate((ipnetwork_v6 *)place, (size_t)length / step, &count);
    if (answered(fault)) blocks = PyBytes_FromStringAndSize(place, (Py_ssize_t)(count * step));
    Py_DECREF(room);
    return blocks;
}

typedef ipnetwork_fault (*operation_v4)(const ipnetwork_v4 *, size_t, const ipnetwork_v4 *, size_t, ipnetwork_v4 *, size_t, size_t *);
typedef ipnetwork_fault (*operation_v6)(const ipnetwork_v6 *, size_t, const ipnetwork_v6 *, size_t, ipnetwork_v6 *, size_t, size_t *);

/* The operation of one family with this sign. */
static operation_v4 operation_of_v4(int sign) {
    return sign == '&'   ? ipnetwork_v4_intersection
           : sign == '-' ? ipnetwork_v4_difference
                         : ipnetwork_v4_union;
}

static operation_v6 operation_of_v6(int sign) {
    return sign == '&'   ? ipnetwork_v6_intersection
           : sign == '-' ? ipnetwork_v6_difference
                         : ipnetwork_v6_union;
}

/* Two sets of a family, given by the bytes of their blocks, and the operation on them. */
typedef struct {
    int sign, version;
    const char *first, *second;
    Py_ssize_t first_length, second_length;
} Operation;

static int parse_operation(PyObject *arguments, Operation *of) {
    return PyArg_ParseTuple(arguments, "Ciy#y#", &of->sign, &of->version, &of->first,
                            &of->first_length, &of->second, &of->second_length);
}

static size_t step_of(int version) {
    return version == 4 ? sizeof(ipnetwork_v4) : sizeof(ipnetwork_v6);
}

/* Writes the blocks of the result to memory with room for `room` blocks, and their number. */
static ipnetwork_fault operated(const Operation *of, void *place, size_t room, size_t *count) {
    size_t step = step_of(of->version);
    size_t first = (size_t)of->first_length / step, second = (size_t)of->second_length / step;
    const void *one = of->first, *other = of->second;
    ipnetwork_fault fault;
    Py_BEGIN_ALLOW_THREADS
    fault = of->version == 4
                ? operation_of_v4(of->sign)(one, first, other, second, place, room, count)
                : operation_of_v6(of->sign)(one, first, other, second, place, room, count);
    Py_END_ALLOW_THREADS
    return fault;
}

/* The blocks, if there is room for them; NULL without an exception if not, and then *count is their
 * number. */
static PyObject *operated_in(const Operation *of, size_t room, size_t *count) {
    size_t step = step_of(of->version);
    PyObject *all = PyBytes_FromStringAndSize(NULL, (Py_ssize_t)(room * step)), *blocks = NULL;
    if (all == NULL) return NULL;
    ipnetwork_fault fault = operated(of, PyBytes_AsString(all), room, count);
    if (fault == IPNETWORK_OK && *count == room) return all;
    if (fault == IPNETWORK_OK)
        blocks = PyBytes_FromStringAndSize(PyBytes_AsString(all), (Py_ssize_t)(*count * step));
    else if (fault != IPNETWORK_SHORT_BUFFER)
        answered(fault);
    Py_DECREF(all);
    return blocks;
}

/* operate(operation, version, first, second): the blocks of `|`, `&` or `-` of two sets, given by the bytes
 * of their blocks. A union has no more blocks than both sets; a difference may have more. */
static PyObject *operate(PyObject *module, PyObject *arguments) {
    (void)module;
    Operation of;
    if (!parse_operation(arguments, &of)) return NULL;
    size_t room = (size_t)(of.first_length + of.second_length) / step_of(of.version), count = 0;
    PyObject *blocks = operated_in(&of, room, &count);
    return blocks == NULL && !PyErr_Occurred() ? operated_in(&of, count, &count) : blocks;
}

/* is_empty(operation, version, first, second): whether the result has no blocks, by a call that needs no
 * memory. */
static PyObject *is_empty(PyObject *module, PyObject *arguments) {
    (void)module;
    Operation of;
    size_t count;
    if (!parse_operation(arguments, &of)) return NULL;
    ipnetwork_fault fault = operated(&of, NULL, 0, &count);
    if (fault != IPNETWORK_SHORT_BUFFER && !answered(fault)) return NULL;
    return PyBool_FromLong(count == 0);
}

/* range_rows(first, last): the blocks from one packed address to another; None if the first comes after the
 * other. */
static PyObject *range_rows(PyObject *module, PyObject *arguments) {
    (void)module;
    const char *first, *last;
    Py_ssize_t length, other;
    ipnetwork_v6 room[254];
    size_t count;
    if (!PyArg_ParseTuple(arguments, "y#y#", &first, &length, &last, &other)) return NULL;
    if (length != other || (length != 4 && length != 16))
        return PyErr_SetString(PyExc_TypeError, "no range of packed addresses of one family"), NULL;
    const uint8_t *low = (const uint8_t *)first, *high = (const uint8_t *)last;
    ipnetwork_fault fault =
        length == 4 ? ipnetwork_v4_range_to_blocks(low, high, (ipnetwork_v4 *)room, 62, &count)
                    : ipnetwork_v6_range_to_blocks(low, high, room, 254, &count);
    if (fault == IPNETWORK_NO_RANGE) return again(Py_None);
    if (!answered(fault)) return NULL;
    return PyBytes_FromStringAndSize((const char *)room, (Py_ssize_t)count * (length + 1));
}

/* ---- lists that are searched, each with its index ---- */

/* The bytes at a place of a tuple; 0 with TypeError if there are none. */
static int bytes_at(PyObject *given, Py_ssize_t place, const char **bytes, Py_ssize_t *length) {
    PyObject *item = PyTuple_Check(given) ? PyTuple_GetItem(given, place) : NULL;
    char *found;
    if (item == NULL || PyBytes_AsStringAndSize(item, &found, length) < 0) {
        if (!PyErr_Occurred()) PyErr_SetString(PyExc_TypeError, "a search is a tuple of bytes");
        return 0;
    }
    *bytes = found;
    return 1;
}

/* The list of one family at two places of a tuple: its structs, and its index. */
static int list_at(PyObject *given, Py_ssize_t structs, Py_ssize_t index, size_t width, searched_list *list) {
    const char *bytes, *indexed;
    Py_ssize_t length, index_length;
    if (!bytes_at(given, structs, &bytes, &length) || !bytes_at(given, index, &indexed, &index_length)) return 0;
    *list = (searched_list){width, (const uint8_t *)bytes, (size_t)length / (width + 1), (const uint32_t *)indexed,
                            (size_t)index_length / sizeof(uint32_t)};
    return 1;
}

/* The index of a list, as bytes. */
static PyObject *list_index_object(size_t width, const char *structs, size_t count) {
    size_t length = list_index_size(count);
    PyObject *index = PyBytes_FromStringAndSize(NULL, (Py_ssize_t)(length * sizeof(uint32_t)));
    if (index == NULL || length == 0) return index;
    uint32_t *room = (uint32_t *)PyBytes_AsString(index);
    ipnetwork_fault fault;
    Py_BEGIN_ALLOW_THREADS
    fault = list_index(width, (const uint8_t *)structs, count, room, length);
    Py_END_ALLOW_THREADS
    if (!answered(fault)) Py_CLEAR(index);
    return index;
}

/* index(version, blocks) */
static PyObject *index_of(PyObject *module, PyObject *arguments) {
    (void)module;
    int version;
    const char *blocks;
    Py_ssize_t length;
    if (!PyArg_ParseTuple(arguments, "iy#", &version, &blocks, &length)) return NULL;
    size_t width = version == 4 ? 4 : 16;
    return list_index_object(width, blocks, (size_t)length / (width + 1));
}

/* Writes whether the element at this index of a tuple is True through the last argument; 0 with IndexError if
 * there is none. */
static int truth_at(PyObject *given, Py_ssize_t place, int *truth) {
    PyObject *item = PyTuple_GetItem(given, place);
    *truth = item == Py_True;
    return item != NULL;
}

/* The blocks of a set of addresses of both families, as `aggregate` and `operate` leave them, with their indexes; and
 * whether an IPv4-mapped address is a member in either form. */
typedef struct {
    searched_list fours, sixes;
    int mapped;
} Set;

/* The set in a tuple of bytes; 0 with TypeError for any other object. */
static int parse_set(PyObject *given, Set *set) {
    return list_at(given, 0, 1, 4, &set->fours) && list_at(given, 2, 3, 16, &set->sixes) && truth_at(given, 4, &set->mapped);
}

/* Raises an error for a row of a column that is not an address as `read_rows` leaves it; for a row without an
 * address the length is 0. */
static void no_such_row(Py_ssize_t row, uint8_t length) {
    PyErr_Format(PyExc_ValueError, "row %zd is no address of 17 bytes as read_address_column gives "
                 "it: its last byte is %d", row, (int)length);
}

/* A row without an address is no member. IPNETWORK_NO_FAMILY if the length is neither 0, 4 nor 16. */
static inline ipnetwork_fault set_has(const Set *set, const ipnetwork_address *address, uint8_t *answer) {
    uint8_t octets[16]; /* a call that is not made takes so many */
    *answer = 0;
    if (address->length == 4) return list_contains(&set->fours, address->octets, answer);
    if (address->length != 16) return address->length == 0 ? IPNETWORK_OK : IPNETWORK_NO_FAMILY;
    if (set->mapped && ipnetwork_v6_unmapped(address->octets, octets) == IPNETWORK_OK) {
        ipnetwork_fault fault = list_contains(&set->fours, octets, answer);
        if (fault != IPNETWORK_OK || *answer != 0) return fault;
    }
    return list_contains(&set->sixes, address->octets, answer);
}

/* The answer for each row, up to the first that is no address; the rows are copied, a part at a time. */
static ipnetwork_fault set_has_rows(const Set *set, const ipnetwork_address *addresses, Py_ssize_t count,
                                    uint8_t *answers, Py_ssize_t *row) {
    ipnetwork_address part[PART];
    for (*row = 0; *row < count; ++*row) {
        Py_ssize_t at = *row % PART, rest = count - *row;
        if (at == 0) memcpy(part, addresses + *row, (size_t)(rest < PART ? rest : PART) * sizeof *part);
        ipnetwork_fault fault = set_has(set, &part[at], &answers[*row]);
        if (fault != IPNETWORK_OK) return fault;
    }
    return IPNETWORK_OK;
}

/* Whether the set has all members of a network, that is, whether one of its blocks has, because they are the
 * fewest with their addresses. */
static ipnetwork_fault set_covers(const Set *set, const ipnetwork_ip *asked, uint8_t *answer) {
    const searched_list *list = asked->family == 4 ? &set->fours : &set->sixes;
    size_t at;
    *answer = 0;
    ipnetwork_fault fault = list_contains(list, octets_of(asked), answer);
    if (fault != IPNETWORK_OK || *answer == 0) return fault;
    *answer = 0;
    if ((fault = list_find(list, octets_of(asked), &at)) != IPNETWORK_OK) return fault;
    const uint8_t *block = list->structs + at * (list->width + 1);
    if (asked->family == 4) return ipnetwork_v4_is_subnet_of(&asked->v4, (const ipnetwork_v4 *)block, answer);
    return ipnetwork_v6_is_subnet_of(&asked->v6, (const ipnetwork_v6 *)block, answer);
}

/* set_contains(search, asked): an address, or each address of a network, as it is. */
static PyObject *set_contains(PyObject *module, PyObject *arguments) {
    State *state = PyModule_GetState(module);
    PyObject *search, *given;
    Set set;
    ipnetwork_address address;
    ipnetwork_ip asked;
    uint8_t answer;
    if (!PyArg_UnpackTuple(arguments, "set_contains", 2, 2, &search, &given) || !parse_set(search, &set)) return NULL;
    int kind = address_of(state, given, &address);
    if (kind == IS_ADDRESS)
        return answered(set_has(&set, &address, &answer)) ? PyBool_FromLong(answer) : NULL;
    if (kind == NO_ADDRESS) kind = asked_of(state, given, &asked);
    if (kind != IS_ADDRESS || !answered(set_covers(&set, &asked, &answer))) return NULL;
    return PyBool_FromLong(answer);
}

/* set_contains_column(search, addresses): a byte for each of the addresses, which are as `read_rows` leaves them. */
static PyObject *set_contains_column(PyObject *module, PyObject *arguments) {
    (void)module;
    PyObject *search, *given, *answers = NULL;
    Set set;
    Py_buffer column;
    if (!PyArg_UnpackTuple(arguments, "set_contains_column", 2, 2, &search, &given) || !parse_set(search, &set)
        || !bytes_of(given, &column))
        return NULL;
    Py_ssize_t count = column.len / (Py_ssize_t)sizeof(ipnetwork_address);
    if (column.len % (Py_ssize_t)sizeof(ipnetwork_address) != 0) {
        PyErr_Format(PyExc_ValueError, "%zd bytes are no column of addresses of 17 bytes", column.len);
    } else if ((answers = PyByteArray_FromStringAndSize(NULL, count)) != NULL) {
        const ipnetwork_address *addresses = column.buf;
        uint8_t *room = (uint8_t *)PyByteArray_AsString(answers);
        ipnetwork_fault fault;
        Py_ssize_t row;
        Py_BEGIN_ALLOW_THREADS
        fault = set_has_rows(&set, addresses, count, room, &row);
        Py_END_ALLOW_THREADS
        if (fault == IPNETWORK_NO_FAMILY) no_such_row(row, addresses[row].length);
        if (fault == IPNETWORK_NO_FAMILY || !answered(fault)) Py_CLEAR(answers);
    }
    PyBuffer_Release(&column);
    return answers;
}

/* ---- IPv4-mapped addresses ---- */

/* unmapped(address): the IPv4 address in an IPv4-mapped one, which may have a zone; any other address as it is. */
static PyObject *unmapped(PyObject *module, PyObject *given) {
    State *state = PyModule_GetState(module);
    ipnetwork_address address;
    uint8_t octets[4];
    int kind = address_of(state, given, &address);
    if (kind == HAS_RAISED) return NULL;
    if (kind == NO_ADDRESS) return no_address(given), NULL;
    if (kind == IS_ADDRESS && address.length == 16 && ipnetwork_v6_unmapped(address.octets, octets) == IPNETWORK_OK)
        return address_object(state, octets, 4);
    return again(given);
}

/* Replaces the addresses of a column by themselves unmapped; 0 at the first row that is neither an address nor
 * without one. */
static int unmap_rows(ipnetwork_address *rows, size_t count, size_t *row) {
    for (*row = 0; *row < count; ++*row) {
        ipnetwork_address address = rows[*row];
        if (address.length != 0 && ipnetwork_address_unmapped(&address, &rows[*row]) != IPNETWORK_OK)
            return 0;
    }
    return 1;
}

/* unmapped_rows(addresses): the same for a column of addresses, as `read_rows` leaves them. */
static PyObject *unmapped_rows(PyObject *module, PyObject *given) {
    (void)module;
    PyObject *rows = NULL;
    Py_buffer column;
    if (!bytes_of(given, &column)) return NULL;
    size_t count = (size_t)column.len / sizeof(ipnetwork_address), row;
    if ((size_t)column.len % sizeof(ipnetwork_address) != 0) {
        PyErr_Format(PyExc_ValueError, "%zd bytes are no column of addresses of 17 bytes", column.len);
    } else if ((rows = PyByteArray_FromStringAndSize(column.buf, column.len)) != NULL) {
        ipnetwork_address *room = (ipnetwork_address *)PyByteArray_AsString(rows);
        int all;
        Py_BEGIN_ALLOW_THREADS
        all = unmap_rows(room, count, &row);
        Py_END_ALLOW_THREADS
        if (!all) {
            no_such_row((Py_ssize_t)row, room[row].length);
            Py_CLEAR(rows);
        }
    }
    PyBuffer_Release(&column);
    return rows;
}

#endif
