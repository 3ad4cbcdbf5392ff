/* The objects that hold a network, and the conversion of errors and addresses to and from Python. */
#ifndef IPNETWORK_ADDRESSES_H
#define IPNETWORK_ADDRESSES_H

#define PY_SSIZE_T_CLEAN
#include <Python.h>
#include <structmember.h>
#include <stddef.h>
#include <string.h>
#include "ipnetwork.h"

/* The state of a module. Each interpreter that imports the extension has its own module, and nothing here is
 * shared. */
typedef struct {
    PyTypeObject *network_type, *v4_type, *v6_type;    /* the types of this module */
    PyObject *v4_class, *v6_class;                     /* the classes given to `register` */
    PyObject *v4_address, *v6_address, *base_network;  /* those of ipaddress */
    PyObject *make_error, *shown, *map_of, *range_of;
    PyObject *name_ip, *name_scope, *zero, *one;
    PyObject *masks[2][129];  /* those that were asked for, by prefix length */
    int plain;                /* whether an address of ipaddress is only its number: see `is_plain` */
} State;

/* A network keeps its class, which keeps the module of its base, so the state lives as long as the
 * network. */
typedef struct {
    PyObject_HEAD
    State *state;
    /* Its family is 0 until the network is made, so that the library refuses questions about one whose `__init__` a
     * subclass did not call. */
    ipnetwork_ip held;
    /* What the library returned already, or NULL. */
    PyObject *least, *text, *ip, *greatest, *size;
} Network;

/* Whether a network was made; else 0 with an exception. */
static int is_made(const Network *self) {
    if (self->held.family != 0) return 1;
    PyErr_SetString(PyExc_AttributeError, "the network is not made yet: its class does not call super().__init__");
    return 0;
}

static PyObject *again(PyObject *value) { Py_INCREF(value); return value; }

/* The object kept at a place, or NULL. Each place is filled once, and by one thread only. */
static PyObject *kept_at(PyObject **place) { return __atomic_load_n(place, __ATOMIC_ACQUIRE); }

/* Keeps an object, unless another thread was first, and returns a new reference to the one that is kept. */
static PyObject *kept(PyObject **place, PyObject *made) {
    PyObject *first = NULL;
    if (made == NULL) return NULL;
    if (__atomic_compare_exchange_n(place, &first, made, 0, __ATOMIC_ACQ_REL, __ATOMIC_ACQUIRE))
        return again(made);
    Py_DECREF(made);
    return again(first);
}

/* Raises the error that `_errors.error` makes from a fault and the given object. */
static void raise_fault(State *state, ipnetwork_fault fault, PyObject *given) {
    PyObject *error = PyObject_CallFunction(state->make_error, "IO", (unsigned int)fault, given);
    if (error != NULL) {
        PyErr_SetObject((PyObject *)Py_TYPE(error), error);
        Py_DECREF(error);
    }
}

/* Raises TypeError with these words, which have a %U for what `_errors.shown` shows of the given object. */
static void raise_shown(State *state, const char *words, PyObject *given) {
    PyObject *shown = PyObject_CallFunctionObjArgs(state->shown, given, NULL);
    if (shown != NULL) PyErr_Format(PyExc_TypeError, words, shown);
    Py_XDECREF(shown);
}

/* Checks that there is no fault: a question about a network made by the library has none. */
static int answered(ipnetwork_fault fault) {
    if (fault == IPNETWORK_OK) return 1;
    PyErr_Format(PyExc_RuntimeError, "the library returned fault %u for a question about a network", (unsigned int)fault);
    return 0;
}

/* The number as 16 octets, the highest first; 0 with OverflowError if it is negative or has more than 128
 * bits. */
static int octets_of_number(PyObject *number, uint8_t octets[16]) {
#if defined(Py_LIMITED_API)
    unsigned long long low = PyLong_AsUnsignedLongLongMask(number);
    if (low == (unsigned long long)-1 && PyErr_Occurred()) return 0;
    PyObject *width = PyLong_FromLong(64), *shifted = width == NULL ? NULL : PyNumber_Rshift(number, width);
    unsigned long long high = shifted == NULL ? 0 : PyLong_AsUnsignedLongLong(shifted);
    Py_XDECREF(width), Py_XDECREF(shifted);
    if (shifted == NULL || (high == (unsigned long long)-1 && PyErr_Occurred())) return 0;
    for (int place = 7; place >= 0; place--, high >>= 8, low >>= 8) {
        octets[place] = (uint8_t)high;
        octets[place + 8] = (uint8_t)low;
    }
    return 1;
#elif PY_VERSION_HEX >= 0x030D0000
    const int how = Py_ASNATIVEBYTES_BIG_ENDIAN | Py_ASNATIVEBYTES_UNSIGNED_BUFFER | Py_ASNATIVEBYTES_REJECT_NEGATIVE;
    Py_ssize_t needed = PyLong_AsNativeBytes(number, octets, 16, how);
    if (needed > 16) PyErr_SetString(PyExc_OverflowError, "the number of an address has at most 128 bits");
    return 0 <= needed && needed <= 16;
#else
    if (!PyLong_Check(number)) return PyErr_SetString(PyExc_TypeError, "the number of an address is an int"), 0;
    return _PyLong_AsByteArray((PyLongObject *)number, octets, 16, 0, 0) == 0;
#endif
}

#if defined(Py_LIMITED_API)
/* A number times 2^64 plus that of these 8 octets; releases the first. */
static PyObject *number_on(PyObject *upper, const uint8_t *octets) {
    uint64_t low = 0;
    for (int place = 0; place < 8; place++) low = low << 8 | octets[place];
    PyObject *lower = upper == NULL ? NULL : PyLong_FromUnsignedLongLong(low), *width = NULL, *shifted = NULL, *number = NULL;
    if (lower != NULL && (width = PyLong_FromLong(64)) != NULL) shifted = PyNumber_Lshift(upper, width);
    if (shifted != NULL) number = PyNumber_Or(shifted, lower);
    Py_XDECREF(upper), Py_XDECREF(lower), Py_XDECREF(width), Py_XDECREF(shifted);
    return number;
}
#endif

/* The number of 4, 16 or 17 octets, the highest first. */
static PyObject *number_of_octets(const uint8_t *octets, Py_ssize_t count) {
    if (count == 4)
        return PyLong_FromUnsignedLong((unsigned long)octets[0] << 24 | (unsigned long)octets[1] << 16 | (unsigned long)octets[2] << 8 | octets[3]);
#if defined(Py_LIMITED_API)
    PyObject *upper = number_on(PyLong_FromLong(count == 17 ? octets[0] : 0), octets + count - 16);
    return number_on(upper, octets + count - 8);
#elif PY_VERSION_HEX >= 0x030D0000
    return PyLong_FromUnsignedNativeBytes(octets, (size_t)count, Py_ASNATIVEBYTES_BIG_ENDIAN);
#else
    return _PyLong_FromByteArray(octets, (size_t)count, 0, 0);
#endif
}

/* Whether the slots of an address are its number, and of IPv6 its zone, and nothing else: then one is made by setting
 * them, which takes a fraction of the time of its constructor. */
static int is_plain(PyObject *type, const char *slots) {
    PyObject *names = PyObject_GetAttrString(type, "__slots__"), *sorted = names == NULL ? NULL : PySequence_List(names), *shown = NULL;
    int same = -1;
    if (sorted != NULL && PyList_Sort(sorted) == 0 && (shown = PyObject_Repr(sorted)) != NULL)
        same = PyUnicode_CompareWithASCIIString(shown, slots) == 0;
    Py_XDECREF(names), Py_XDECREF(sorted), Py_XDECREF(shown);
    return same;
}

/* The address of ipaddress with these 4 or 16 octets. */
static PyObject *address_object(State *state, const uint8_t *octets, uint8_t length) {
    PyObject *number = number_of_octets(octets, length), *address = NULL;
    PyObject *type = length == 4 ? state->v4_address : state->v6_address;
    if (number == NULL) return NULL;
    if (!state->plain) {
        address = PyObject_CallFunctionObjArgs(type, number, NULL);
    } else if ((address = PyType_GenericAlloc((PyTypeObject *)type, 0)) != NULL
               && (PyObject_SetAttr(address, state->name_ip, number) < 0
                   || (length == 16 && PyObject_SetAttr(address, state->name_scope, Py_None) < 0))) {
        Py_CLEAR(address);
    }
    Py_DECREF(number);
    return address;
}

/* The kind of an object: an address, whose octets are written through the last argument, without its zone if it has
 * one; or another object. */
enum { IS_ADDRESS, NO_ADDRESS, HAS_RAISED };

static int address_of(State *state, PyObject *object, ipnetwork_address *address) {
    int is_six = Py_TYPE(object) == (PyTypeObject *)state->v6_address;
    if (!is_six && PyObject_TypeCheck(object, (PyTypeObject *)state->v4_address)) {
        PyObject *number = PyObject_GetAttr(object, state->name_ip);
        if (number == NULL) return HAS_RAISED;
        unsigned long bits = PyLong_AsUnsignedLong(number);
        Py_DECREF(number);
        if (bits == (unsigned long)-1 && PyErr_Occurred()) return HAS_RAISED;
        for (int place = 3; place >= 0; place--, bits >>= 8) address->octets[place] = (uint8_t)bits;
        address->length = 4;
        return IS_ADDRESS;
    }
    if (is_six || PyObject_TypeCheck(object, (PyTypeObject *)state->v6_address)) {
        PyObject *number = PyObject_GetAttr(object, state->name_ip);
        if (number == NULL) return HAS_RAISED;
        int whole = octets_of_number(number, address->octets);
        Py_DECREF(number);
        address->length = 16;
        return whole ? IS_ADDRESS : HAS_RAISED;
    }
    return NO_ADDRESS;
}

/* The name of the type of an object, with that of its module unless that is `builtins`. */
static PyObject *type_name(PyObject *object) {
    PyObject *type = (PyObject *)Py_TYPE(object), *name = PyObject_GetAttrString(type, "__qualname__"), *whole = NULL;
    PyObject *module = name == NULL ? NULL : PyObject_GetAttrString(type, "__module__");
    if (module != NULL)
        whole = PyUnicode_Check(module) && PyUnicode_CompareWithASCIIString(module, "builtins") != 0
                    ? PyUnicode_FromFormat("%U.%U", module, name)
                    : again(name);
    Py_XDECREF(name), Py_XDECREF(module);
    return whole;
}

/* Raises a TypeError with the name of the type of an object, for `%U`. */
static void wrong_type(const char *words, PyObject *object) {
    PyObject *name = type_name(object);
    if (name != NULL) PyErr_Format(PyExc_TypeError, words, name);
    Py_XDECREF(name);
}

/* Raises the TypeError for an object that is not an address. */
static void no_address(PyObject *object) {
    wrong_type("an address is IPv4Address or IPv6Address of ipaddress, not %U"
               ": read_address reads a text", object);
}

/* The same as `address_of`, but a network of one address is that address, and any other network is
 * NO_ADDRESS. */
static int alone_of(State *state, PyObject *object, ipnetwork_address *address) {
    int kind = address_of(state, object, address);
    if (kind != NO_ADDRESS) return kind;
    if (PyObject_TypeCheck(object, state->network_type)) {
        const ipnetwork_ip *held = &((Network *)object)->held;
        uint8_t width = held->family == 4 ? 4 : 16;
        if ((held->family == 4 ? held->v4.prefix : held->v6.prefix) != width * 8) return NO_ADDRESS;
        memcpy(address->octets, held->family == 4 ? held->v4.address : held->v6.address, width);
        address->length = width;
        return IS_ADDRESS;
    }
    int network = PyObject_IsInstance(object, state->base_network);
    if (network <= 0) return network < 0 ? HAS_RAISED : NO_ADDRESS;
    PyObject *least = PyObject_GetAttrString(object, "network_address");
    PyObject *length = least == NULL ? NULL : PyObject_GetAttrString(object, "prefixlen");
    long prefix = length == NULL ? -1 : PyLong_AsLong(length);
    kind = prefix == -1 ? HAS_RAISED : address_of(state, least, address);
    Py_XDECREF(least), Py_XDECREF(length);
    if (kind == IS_ADDRESS && prefix != address->length * 8) return NO_ADDRESS;
    return kind == HAS_RAISED && !PyErr_Occurred() ? NO_ADDRESS : kind;
}

/* The result of `in` for an object without octets: a network is no member; anything else is a TypeError. */
static int no_member(State *state, PyObject *object, int kind) {
    if (kind == HAS_RAISED) return -1;
    if (PyObject_TypeCheck(object, state->network_type)) return 0;
    int network = PyObject_IsInstance(object, state->base_network);
    if (network != 0) return network < 0 ? -1 : 0;
    no_address(object);
    return -1;
}

/* read_address(text) */
static PyObject *read_address(PyObject *module, PyObject *text) {
    State *state = PyModule_GetState(module);
    ipnetwork_address address;
    ipnetwork_fault fault;
    Py_ssize_t length;
    if (!PyUnicode_Check(text))
        return wrong_type("the text of an address is str, not %U", text), NULL;
    const char *bytes = PyUnicode_AsUTF8AndSize(text, &length);
    if (bytes == NULL) {
        if (!PyErr_ExceptionMatches(PyExc_UnicodeEncodeError)) return NULL;
        PyErr_Clear(); /* half a surrogate pair, which is not in an address */
    }
    fault = bytes == NULL ? IPNETWORK_ADDRESS : ipnetwork_address_read(bytes, (size_t)length, &address);
    if (fault != IPNETWORK_OK) return raise_fault(state, fault, text), NULL;
    return address_object(state, address.octets, address.length);
}

#endif
