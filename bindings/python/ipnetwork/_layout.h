/* The rows of a Python list in Arrow's layout. */
#ifndef IPNETWORK_LAYOUT_H
#define IPNETWORK_LAYOUT_H

#include "_addresses.h"

/* Whether each of eight bytes is printable ASCII: the first to carry into its highest bit is one that is not. */
static int is_printable(const char *bytes) {
    const uint64_t ones = UINT64_C(0x0101010101010101);
    uint64_t eight;
    memcpy(&eight, bytes, sizeof eight);
    return ((eight | (eight - ones * ' ') | (eight + ones)) & ones * 0x80) == 0;
}

/* Whether these are at most 17 bytes, and one of them is not printable ASCII. */
static int is_short_and_no_text(const char *bytes, Py_ssize_t length) {
    char padded[9] = "        ";
    if (length > 17) return 0;
    if (length >= 8)
        return !is_printable(bytes) || !is_printable(bytes + length - 8)
               || (length == 17 && !is_printable(bytes + 8));
    for (Py_ssize_t at = 0; at < length; at++) padded[at] = bytes[at];
    return !is_printable(padded);
}

/* Whether bytes may be a packed address, of which NumPy drops the zeros at the end, or a row of 17 bytes with one: they
 * are not the text of an address, and have its length of 4 or 16, or at most 17 and are not printable ASCII. */
static int may_be_packed(const char *bytes, Py_ssize_t length) {
    ipnetwork_address address;
    return (length == 4 || length == 16 || is_short_and_no_text(bytes, length))
           && ipnetwork_address_read(bytes, (size_t)length, &address) != IPNETWORK_OK;
}

/* The bytes of a row without a text. */
static const char NO_TEXT[] = "";

/* The bytes of a row that is not a str: those of bytes, and NO_TEXT for None, NaN and the value for a missing
 * row; NULL for any other, and for bytes that may be a packed address. */
static const char *other_bytes(PyObject *row, PyObject *missing, Py_ssize_t *length) {
    char *bytes;
    *length = 0;
    if (row == Py_None || row == missing) return NO_TEXT;
    if (PyBytes_Check(row)) {
        if (PyBytes_AsStringAndSize(row, &bytes, length) < 0) return NULL;
        return may_be_packed(bytes, *length) ? NULL : bytes;
    }
    if (!PyFloat_Check(row)) return NULL;
    double number = PyFloat_AsDouble(row);
    return number != number ? NO_TEXT : NULL;
}

/* Clears the exception for a str that cannot be encoded in UTF-8, because such a row is not refused. */
static const char *no_utf_8(void) {
    if (PyErr_ExceptionMatches(PyExc_UnicodeEncodeError)) PyErr_Clear();
    return NULL;
}

/* The bytes of a row, for a str in UTF-8; NULL if it cannot be encoded, or is neither a str nor what
 * `other_bytes` takes, with an exception only if memory runs out. */
static inline const char *row_bytes(PyObject *row, PyObject *missing, Py_ssize_t *length) {
    if (!PyUnicode_Check(row)) return other_bytes(row, missing, length);
    const char *text = PyUnicode_AsUTF8AndSize(row, length);
    return text != NULL ? text : no_utf_8();
}

/* The offsets of the rows of a list, and the bytes of each row, which live as long as the row; NULL if `row_bytes`
 * does not take a row. The fault of a row without a text is written to *faults, and 0 for the others. */
static PyObject *row_offsets(PyObject *rows, PyObject *missing, const char **texts, char *faults) {
    Py_ssize_t count = PyList_Size(rows), length;
    Py_ssize_t size = (count + 1) * (Py_ssize_t)sizeof(uint32_t);
    PyObject *offsets = PyByteArray_FromStringAndSize(NULL, size);
    if (offsets == NULL) return NULL;
    char *offset = PyByteArray_AsString(offsets);
    size_t end = 0;
    for (Py_ssize_t row = 0; row <= count; row++) {
        uint32_t start = (uint32_t)end;
        if (end > INT32_MAX) {
            PyErr_SetString(PyExc_ValueError, "the texts have more than 2147483647 bytes, which is "
                                              "past the offsets: give them in parts");
            return Py_DECREF(offsets), NULL;
        }
        memcpy(offset + (size_t)row * sizeof start, &start, sizeof start);
        if (row == count) break;
        texts[row] = row_bytes(PyList_GetItem(rows, row), missing, &length);
        if (texts[row] == NULL) return Py_DECREF(offsets), NULL;
        faults[row] = texts[row] == NO_TEXT ? IPNETWORK_ADDRESS : IPNETWORK_OK;
        end += (size_t)length;
    }
    return offsets;
}

/* These bytes of `count` rows, one after the other, as long as the offsets say. */
static PyObject *joined(const char **texts, Py_ssize_t count, const char *offsets) {
    uint32_t start = 0, end;
    memcpy(&end, offsets + (size_t)count * sizeof end, sizeof end);
    PyObject *whole = PyBytes_FromStringAndSize(NULL, (Py_ssize_t)end);
    if (whole == NULL) return NULL;
    char *text = PyBytes_AsString(whole);
    for (Py_ssize_t row = 0; row < count; row++, start = end) {
        memcpy(&end, offsets + ((size_t)row + 1) * sizeof end, sizeof end);
        memcpy(text + start, texts[row], end - start);
    }
    return whole;
}

/* The bytes of the rows, their offsets, and the faults; None if `row_bytes` does not take a row. */
static PyObject *laid_out(PyObject *rows, PyObject *missing) {
    Py_ssize_t count = PyList_Size(rows);
    PyObject *faults = PyByteArray_FromStringAndSize(NULL, count), *offsets = NULL, *whole = NULL, *all = NULL;
    const char **texts = PyMem_Malloc((size_t)count * sizeof *texts);
    if (texts == NULL) PyErr_NoMemory();
    else if (faults != NULL) offsets = row_offsets(rows, missing, texts, PyByteArray_AsString(faults));
    if (offsets != NULL) whole = joined(texts, count, PyByteArray_AsString(offsets));
    if (whole != NULL) all = PyTuple_Pack(3, whole, offsets, faults);
    else if (!PyErr_Occurred()) all = again(Py_None);
    PyMem_Free(texts);
    Py_XDECREF(whole), Py_XDECREF(offsets), Py_XDECREF(faults);
    return all;
}

/* layout(rows, missing): the rows of a list in Arrow's layout, the bytes and the offsets, and for each row a byte: the
 * fault of a text without an address if it has no text, else 0. None if a row is neither str, bytes, None, NaN nor
 * `missing`, or is bytes that may be a packed address, or a str that cannot be encoded in UTF-8. */
static PyObject *layout(PyObject *module, PyObject *arguments) {
    (void)module;
    PyObject *rows, *missing, *all;
    if (!PyArg_ParseTuple(arguments, "O!O", &PyList_Type, &rows, &missing)) return NULL;
#ifdef Py_GIL_DISABLED
    Py_BEGIN_CRITICAL_SECTION(rows);
    all = laid_out(rows, missing);
    Py_END_CRITICAL_SECTION();
#else
    all = laid_out(rows, missing);
#endif
    return all;
}

#endif
