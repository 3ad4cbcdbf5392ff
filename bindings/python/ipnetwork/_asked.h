/* The objects that a set or a table can be asked about: an address, or a network of this package or of
 * ipaddress. */
#ifndef IPNETWORK_ASKED_H
#define IPNETWORK_ASKED_H

#include "_networks.h"

/* Writes the network of an address and a prefix length through the last argument. */
static int put_asked(const ipnetwork_address *address, long prefix, ipnetwork_ip *held) {
    memset(held, 0, sizeof *held);
    held->family = address->length == 4 ? 4 : 6;
    return answered(prefix < 0 || prefix > 128 ? IPNETWORK_PREFIX
                                               : put(held, address->octets, (uint8_t)prefix));
}

/* The same for a network of ipaddress, whose address may have a zone, which is left out. */
static int asked_of_theirs(State *state, PyObject *given, ipnetwork_ip *held) {
    ipnetwork_address address;
    PyObject *least = PyObject_GetAttrString(given, "network_address"), *length = NULL;
    int kind = least == NULL ? HAS_RAISED : address_of(state, least, &address);
    Py_XDECREF(least);
    if (kind != IS_ADDRESS) return kind;
    if ((length = PyObject_GetAttrString(given, "prefixlen")) == NULL) return HAS_RAISED;
    long prefix = PyLong_AsLong(length);
    Py_DECREF(length);
    if (prefix == -1 && PyErr_Occurred()) return HAS_RAISED;
    return put_asked(&address, prefix, held) ? IS_ADDRESS : HAS_RAISED;
}

/* Writes the network that is asked about, or the network of only an address, through the last argument.
 * HAS_RAISED with TypeError for any other object. */
static int asked_of(State *state, PyObject *given, ipnetwork_ip *held) {
    ipnetwork_address address;
    if (PyObject_TypeCheck(given, state->network_type)) {
        *held = ((Network *)given)->held;
        return is_made((Network *)given) ? IS_ADDRESS : HAS_RAISED;
    }
    int kind = address_of(state, given, &address);
    if (kind == IS_ADDRESS)
        return put_asked(&address, address.length * 8, held) ? IS_ADDRESS : HAS_RAISED;
    if (kind != NO_ADDRESS) return kind;
    int network = PyObject_IsInstance(given, state->base_network);
    if (network > 0) return asked_of_theirs(state, given, held);
    if (network == 0)
        wrong_type("what is asked about is an address of ipaddress, or a network, not %U"
                   ": read_address and ip_network read a text", given);
    return HAS_RAISED;
}

/* The bytes of the block with this prefix length that has the address of a network. */
static int block_at(const ipnetwork_ip *held, uint8_t prefix, uint8_t row[17]) {
    uint8_t width = width_of(held);
    ipnetwork_ip whole = {.family = held->family};
    row[width] = prefix;
    return answered(put(&whole, octets_of(held), prefix))
           && answered(width == 4 ? ipnetwork_v4_network(&whole.v4, row)
                                  : ipnetwork_v6_network(&whole.v6, row));
}

/* block_row(network): the bytes of its struct without host bits. */
static PyObject *block_row(PyObject *module, PyObject *given) {
    State *state = PyModule_GetState(module);
    ipnetwork_ip held;
    uint8_t row[17];
    if (asked_of(state, given, &held) != IS_ADDRESS || !block_at(&held, prefix_of(&held), row)) return NULL;
    return PyBytes_FromStringAndSize((const char *)row, width_of(&held) + 1);
}

/* longest_key(keys, fours, sixes, asked): the key in a dict, whose keys are the bytes of structs without host
 * bits, of the longest network that has all that is asked about; None if there is none. fours and sixes are
 * the prefix lengths of the keys, in descending order. */
static PyObject *longest_key(PyObject *module, PyObject *arguments) {
    State *state = PyModule_GetState(module);
    PyObject *keys, *given;
    const char *lengths[2];
    Py_ssize_t counts[2];
    ipnetwork_ip held;
    uint8_t row[17];
    if (!PyArg_ParseTuple(arguments, "O!y#y#O", &PyDict_Type, &keys, &lengths[0], &counts[0],
                          &lengths[1], &counts[1], &given))
        return NULL;
    if (asked_of(state, given, &held) != IS_ADDRESS) return NULL;
    int six = held.family == 6;
    for (Py_ssize_t place = 0; place < counts[six]; place++) {
        uint8_t prefix = (uint8_t)lengths[six][place];
        if (prefix > prefix_of(&held)) continue;
        if (!block_at(&held, prefix, row)) return NULL;
        PyObject *key = PyBytes_FromStringAndSize((const char *)row, width_of(&held) + 1);
        int found = key == NULL ? -1 : PyDict_Contains(keys, key);
        if (found == 1) return key;
        Py_XDECREF(key);
        if (found < 0) return NULL;
    }
    return again(Py_None);
}

#endif
