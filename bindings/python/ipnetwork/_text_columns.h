/* Columns of texts in Arrow's layout: reading and printing. */
#ifndef IPNETWORK_TEXT_COLUMNS_H
#define IPNETWORK_TEXT_COLUMNS_H

#include <stdlib.h>
#include "_networks.h"

/* The bytes of a contiguous buffer, to be released; 0 with TypeError if its items are longer than a byte,
 * because the bytes of such numbers are in the order of the machine, not in that of addresses. */
static int bytes_of(PyObject *given, Py_buffer *column) {
    if (PyObject_GetBuffer(given, column, PyBUF_ND) < 0) return 0;
    if (column->itemsize == 1) return 1;
    PyErr_Format(PyExc_TypeError,
                 "a column is a buffer of bytes, and the items of this %R have %zd bytes each",
                 (PyObject *)Py_TYPE(given), column->itemsize);
    PyBuffer_Release(column);
    return 0;
}

/* The kind of the rows of a column: networks of family 4 or 6, or addresses of either family. */
enum { OF_ADDRESSES = 0, OF_V4 = 4, OF_V6 = 6 };

static size_t row_size(int kind) {
    return kind == OF_V4 ? sizeof(ipnetwork_v4)
           : kind == OF_V6 ? sizeof(ipnetwork_v6)
                           : sizeof(ipnetwork_address);
}

/* What the library reads of a buffer is copied first, because another thread may write to the buffer meanwhile:
 * so many texts, and so many bytes of texts or of rows, at a time. */
enum { PART = 256, PART_BYTES = PART * IPNETWORK_V6_TEXT };

typedef struct {
    union {
        uint32_t narrow[PART + 1];
        uint64_t wide[PART + 1];
    } given;                    /* offsets as they are in the buffer */
    uint32_t offsets[PART + 1]; /* from the first of the part */
    char bytes[PART_BYTES];
} Part;

/* ---- read ---- */

/* Reads the texts with these offsets, one more than texts. */
static ipnetwork_fault read_part(int kind, const char *texts, size_t length,
                                 const uint32_t *offsets, size_t count, void *rows,
                                 uint8_t *faults) {
    size_t starts = count + 1;
    if (kind == OF_V4)
        return ipnetwork_v4_read_column(texts, length, offsets, starts, rows, count, faults, count);
    if (kind == OF_V6)
        return ipnetwork_v6_read_column(texts, length, offsets, starts, rows, count, faults, count);
    return ipnetwork_address_read_column(texts, length, offsets, starts, rows, count, faults,
                                         count);
}

/* Not a fault of the library: no memory for a copy of a long text. */
enum { NO_MEMORY = 255 };

/* Reads one text that is longer than a part; it may be too long for an offset of 32 bits. */
static ipnetwork_fault read_long(int kind, const char *given, size_t length, void *row,
                                 uint8_t *fault) {
    char *text = malloc(length);
    if (text == NULL) return NO_MEMORY;
    memcpy(text, given, length);
    *fault = (uint8_t)(kind == OF_V4   ? ipnetwork_v4_read(text, length, row)
                       : kind == OF_V6 ? ipnetwork_v6_read(text, length, row)
                                       : ipnetwork_address_read(text, length, row));
    free(text);
    return IPNETWORK_OK;
}

static uint64_t given_at(const Part *part, int wide, size_t row) {
    return wide ? part->given.wide[row] : part->given.narrow[row];
}

/* Counts the copied offsets from the first of them; 0 if one is not of 32 bits then. */
static int count_offsets(Part *part, int wide, size_t last) {
    const uint32_t *narrow = part->given.narrow;
    const uint64_t *whole = part->given.wide;
    uint64_t high = 0;
    for (size_t row = 0; !wide && row <= last; row++) part->offsets[row] = narrow[row] - narrow[0];
    for (size_t row = 0; wide && row <= last; row++) {
        part->offsets[row] = (uint32_t)(whole[row] - whole[0]);
        high |= (whole[row] - whole[0]) >> 32;
    }
    return high == 0;
}

/* Copies the offsets of at most `count` texts. How many of these texts fit in a part is written to *taken: 0 if
 * not even the first one does. IPNETWORK_NO_OFFSETS if they go past the length of all texts; whether the offsets
 * within them decrease is for the library to see. */
static ipnetwork_fault take(Part *part, const char *offsets, int wide, size_t count, size_t length,
                            size_t *taken) {
    memcpy(&part->given, offsets, (count + 1) * (wide ? sizeof(uint64_t) : sizeof(uint32_t)));
    uint64_t base = given_at(part, wide, 0), end;
    while ((end = given_at(part, wide, count)) < base || end - base > PART_BYTES) {
        if (count == 1) break;
        count /= 2;
    }
    if (end < base || end > length) return IPNETWORK_NO_OFFSETS;
    *taken = end - base > PART_BYTES ? 0 : count;
    return count_offsets(part, wide, *taken) ? IPNETWORK_OK : IPNETWORK_NO_OFFSETS;
}

/* The bytes of the texts of a part: themselves if they are those of a `bytes`, which do not change, else a
 * copy. */
static const char *bytes_in(Part *part, int fixed, const char *bytes, size_t length) {
    return fixed ? bytes : memcpy(part->bytes, bytes, length);
}

/* Reads the texts with these offsets, one more than texts, or none. */
static ipnetwork_fault read_texts(int kind, const Py_buffer *texts, const Py_buffer *offsets,
                                  char *rows, uint8_t *faults) {
    Part part;
    size_t width = (size_t)offsets->itemsize, starts = (size_t)offsets->len / width;
    size_t step = row_size(kind), length = (size_t)texts->len, row = 0, taken;
    int wide = width == sizeof(uint64_t), fixed = texts->obj != NULL && PyBytes_Check(texts->obj);
    if (starts == 0) return IPNETWORK_OK;
    do {
        size_t count = starts - 1 - row < PART ? starts - 1 - row : PART;
        ipnetwork_fault fault = take(&part, (const char *)offsets->buf + row * width, wide, count,
                                     length, &taken);
        if (fault != IPNETWORK_OK) return fault;
        const char *from = (const char *)texts->buf + given_at(&part, wide, 0);
        char *into = rows + row * step;
        if (count > 0 && taken == 0) {
            size_t whole = (size_t)(given_at(&part, wide, 1) - given_at(&part, wide, 0));
            fault = read_long(kind, from, whole, into, faults + row);
            taken = 1;
        } else {
            from = bytes_in(&part, fixed, from, part.offsets[taken]);
            fault = read_part(kind, from, part.offsets[taken], part.offsets, taken, into,
                              faults + row);
        }
        if (fault != IPNETWORK_OK) return fault;
        row += taken;
    } while (row + 1 < starts);
    return IPNETWORK_OK;
}

/* The buffer of offsets, to be released; 0 with an exception if they are not integers of 32 or 64 bits in the
 * byte order of the machine. */
static int offsets_of(PyObject *given, Py_buffer *offsets) {
    if (PyObject_GetBuffer(given, offsets, PyBUF_ND | PyBUF_FORMAT) < 0) return 0;
    const char *format = offsets->format == NULL ? "B" : offsets->format;
    if (*format == '@' || *format == '=' || (*format == '<' && PY_LITTLE_ENDIAN)) format++;
    if (offsets->itemsize != 4 && offsets->itemsize != 8)
        PyErr_Format(PyExc_ValueError, "offsets are numbers of 32 or of 64 bits, not of %zd",
                     offsets->itemsize * 8);
    else if (strlen(format) != 1 || strchr("iIlLqQnN", *format) == NULL)
        PyErr_Format(PyExc_TypeError, "offsets are whole numbers in the order of the machine, not "
                     "of the format %.60s", offsets->format);
    else
        return 1;
    PyBuffer_Release(offsets);
    return 0;
}

/* Reads a column into as many rows and faults as texts; 0 with an exception. */
static int read_into(int kind, const Py_buffer *texts, const Py_buffer *offsets, char *rows,
                     uint8_t *faults) {
    ipnetwork_fault fault;
    Py_BEGIN_ALLOW_THREADS
    fault = read_texts(kind, texts, offsets, rows, faults);
    Py_END_ALLOW_THREADS
    if (fault == NO_MEMORY) return PyErr_NoMemory(), 0;
    if (fault != IPNETWORK_NO_OFFSETS) return answered(fault);
    PyErr_SetString(PyExc_ValueError, "the offsets fall, or pass the end of the texts");
    return 0;
}

/* read_rows(kind, texts, offsets): kind 4 or 6 for networks of a family, 0 for addresses. */
static PyObject *read_rows(PyObject *module, PyObject *arguments) {
    (void)module;
    int kind;
    PyObject *given_texts, *given_offsets, *both = NULL;
    Py_buffer texts, offsets;
    if (!PyArg_ParseTuple(arguments, "iOO", &kind, &given_texts, &given_offsets)) return NULL;
    if (!bytes_of(given_texts, &texts)) return NULL;
    if (!offsets_of(given_offsets, &offsets)) return PyBuffer_Release(&texts), NULL;
    size_t starts = (size_t)(offsets.len / offsets.itemsize), count = starts == 0 ? 0 : starts - 1;
    size_t size = count * row_size(kind);
    PyObject *rows = PyByteArray_FromStringAndSize(NULL, (Py_ssize_t)size);
    PyObject *faults = PyByteArray_FromStringAndSize(NULL, (Py_ssize_t)count);
    if (rows != NULL && faults != NULL) {
        char *room = PyByteArray_AsString(rows);
        memset(room, 0, size);
        if (read_into(kind, &texts, &offsets, room, (uint8_t *)PyByteArray_AsString(faults)))
            both = PyTuple_Pack(2, rows, faults);
    }
    Py_XDECREF(rows), Py_XDECREF(faults);
    PyBuffer_Release(&texts), PyBuffer_Release(&offsets);
    return both;
}

/* ---- printed ---- */

/* The length in bytes of the longest text of a row. */
static size_t text_size(int kind) {
    return kind == OF_V4   ? IPNETWORK_V4_TEXT - 1
           : kind == OF_V6 ? IPNETWORK_V6_TEXT - 1
                           : IPNETWORK_ADDRESS_TEXT - 1;
}

static ipnetwork_fault print_part(int kind, const void *rows, size_t count, char *texts,
                                  size_t room, void *offsets, size_t *length) {
    size_t starts = count + 1;
    if (kind == OF_V4)
        return ipnetwork_v4_print_column(rows, count, texts, room, offsets, starts, length);
    if (kind == OF_V6)
        return ipnetwork_v6_print_column(rows, count, texts, room, offsets, starts, length);
    return ipnetwork_address_print_column(rows, count, texts, room, offsets, starts, length);
}

/* Writes the offset of a row, of 64 bits or of 32. */
static void put_offset(char *offsets, int wide, size_t row, uint64_t offset) {
    uint32_t narrow = (uint32_t)offset;
    if (wide) memcpy(offsets + row * sizeof offset, &offset, sizeof offset);
    else memcpy(offsets + row * sizeof narrow, &narrow, sizeof narrow);
}

/* Prints rows, a part at a time. IPNETWORK_SHORT_BUFFER if the texts go past offsets of 32 bits. */
static ipnetwork_fault print_parts(int kind, const char *rows, size_t count, char *texts,
                                   size_t room, char *offsets, int wide, size_t *length) {
    Part part;
    size_t step = row_size(kind), most = PART_BYTES / step, taken, more;
    if (most > PART) most = PART;
    *length = 0;
    put_offset(offsets, wide, 0, 0);
    for (size_t row = 0; row < count; row += taken) {
        taken = count - row < most ? count - row : most;
        memcpy(part.bytes, rows + row * step, taken * step);
        ipnetwork_fault fault = print_part(kind, part.bytes, taken, texts + *length,
                                           room - *length, part.offsets, &more);
        if (fault != IPNETWORK_OK) return fault;
        for (size_t place = 1; place <= taken; place++)
            put_offset(offsets, wide, row + place, *length + part.offsets[place]);
        *length += more;
        if (!wide && *length > INT32_MAX) return IPNETWORK_SHORT_BUFFER;
    }
    return IPNETWORK_OK;
}

/* Prints rows, and tells how many bytes their texts have; 0 with an exception. */
static int print_into(State *state, int kind, PyObject *given, const Py_buffer *rows, int wide,
                      char *texts, size_t room, char *offsets, size_t *length) {
    ipnetwork_fault fault;
    Py_BEGIN_ALLOW_THREADS
    fault = print_parts(kind, rows->buf, (size_t)rows->len / row_size(kind), texts, room, offsets,
                        wide, length);
    Py_END_ALLOW_THREADS
    if (fault == IPNETWORK_SHORT_BUFFER)
        PyErr_SetString(PyExc_ValueError, "the texts have more than 2147483647 bytes, which is "
                        "past offsets of 32 bits: ask for those of 64");
    else if (fault != IPNETWORK_OK)
        raise_fault(state, kind == OF_ADDRESSES ? IPNETWORK_ADDRESS : fault, given);
    return fault == IPNETWORK_OK;
}

/* print_rows(kind, rows, bits): the texts of the networks of family 4 or 6, or of addresses if kind is 0,
 * with these structs, and their offsets, of 32 or 64 bits. */
static PyObject *print_rows(PyObject *module, PyObject *arguments) {
    State *state = PyModule_GetState(module);
    int kind, bits;
    PyObject *given, *texts = NULL, *offsets = NULL, *both = NULL;
    Py_buffer rows;
    if (!PyArg_ParseTuple(arguments, "iOi", &kind, &given, &bits)) return NULL;
    if (bits != 32 && bits != 64)
        return PyErr_Format(PyExc_ValueError, "offset_bits is 32 or 64, not %d", bits);
    if (!bytes_of(given, &rows)) return NULL;
    size_t step = row_size(kind), count = (size_t)rows.len / step;
    size_t room = count * text_size(kind), length;
    if ((size_t)rows.len % step != 0) {
        PyErr_Format(PyExc_ValueError, "%zd bytes are no column of %s of %zu bytes", rows.len,
                     kind == OF_ADDRESSES ? "addresses" : "networks", step);
    } else {
        texts = PyByteArray_FromStringAndSize(NULL, (Py_ssize_t)room);
        offsets = PyByteArray_FromStringAndSize(NULL, (Py_ssize_t)(count + 1) * (bits / 8));
    }
    if (texts != NULL && offsets != NULL
        && print_into(state, kind, given, &rows, bits == 64, PyByteArray_AsString(texts), room,
                      PyByteArray_AsString(offsets), &length)
        && PyByteArray_Resize(texts, (Py_ssize_t)length) == 0)
        both = PyTuple_Pack(2, texts, offsets);
    Py_XDECREF(texts), Py_XDECREF(offsets);
    PyBuffer_Release(&rows);
    return both;
}

#endif
