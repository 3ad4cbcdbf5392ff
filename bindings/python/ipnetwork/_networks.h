/* The networks of the extension: creation, questions, printing, comparison. */
#ifndef IPNETWORK_NETWORKS_H
#define IPNETWORK_NETWORKS_H

#include "_addresses.h"

static void network_dealloc(PyObject *object) {
    PyTypeObject *type = Py_TYPE(object);
    freefunc release = (freefunc)PyType_GetSlot(type, Py_tp_free);
    Network *self = (Network *)object;
    PyObject **places[] = {&self->least, &self->text, &self->ip, &self->greatest, &self->size};
    for (size_t place = 0; place < sizeof places / sizeof *places; place++) Py_CLEAR(*places[place]);
    release(object);
    Py_DECREF(type);
}

/* The state of the module of a class: that of its first base that is a type of the module. */
static State *state_of(PyTypeObject *type) {
    while ((destructor)PyType_GetSlot(type, Py_tp_dealloc) != network_dealloc)
        type = (PyTypeObject *)PyType_GetSlot(type, Py_tp_base);
    return PyType_GetModuleState(type);
}

static PyObject *allocated(State *state, PyTypeObject *type) {
    PyObject *made = PyType_GenericAlloc(type, 0);
    if (made == NULL) return NULL;
    /* Nothing that a network keeps refers to it, so the collector need not track it; a subclass may keep
     * more. */
    if ((PyObject *)type == state->v4_class || (PyObject *)type == state->v6_class) PyObject_GC_UnTrack(made);
    ((Network *)made)->state = state;
    return made;
}

static uint8_t family_of(State *state, PyTypeObject *type) { return PyType_IsSubtype(type, state->v6_type) ? 6 : 4; }

static PyObject *network_new(PyTypeObject *type, PyObject *arguments, PyObject *names) {
    (void)arguments, (void)names;
    State *state = state_of(type);
    return state == NULL ? NULL : allocated(state, type);
}

static const uint8_t *octets_of(const ipnetwork_ip *held) { return held->family == 4 ? held->v4.address : held->v6.address; }
static uint8_t width_of(const ipnetwork_ip *held) { return held->family == 4 ? 4 : 16; }
static uint8_t prefix_of(const ipnetwork_ip *held) { return held->family == 4 ? held->v4.prefix : held->v6.prefix; }

/* The network of these octets and this prefix length. */
static ipnetwork_fault put(ipnetwork_ip *held, const uint8_t *octets, uint8_t prefix) {
    return held->family == 4 ? ipnetwork_v4_new(octets, prefix, &held->v4) : ipnetwork_v6_new(octets, prefix, &held->v6);
}

/* The bytes of a str, as the library reads them: those that the str keeps or, where it has half a surrogate pair, those
 * of an object that the caller releases. NULL with an exception. */
static const char *bytes_of_text(PyObject *text, Py_ssize_t *length, PyObject **encoded) {
    char *bytes;
    *encoded = NULL;
    if (PyUnicode_Check(text)) {
        const char *own = PyUnicode_AsUTF8AndSize(text, length);
        if (own != NULL || !PyErr_ExceptionMatches(PyExc_UnicodeEncodeError)) return own;
        PyErr_Clear();
        *encoded = PyUnicode_AsEncodedString(text, "utf-8", "surrogatepass");
        return *encoded == NULL || PyBytes_AsStringAndSize(*encoded, &bytes, length) < 0 ? NULL : bytes;
    }
#define WORDS "a network is given as str, or as bytes of a packed address, not as %U"
    int theirs = PyObject_HasAttrString(text, "network_address") || PyObject_HasAttrString(text, "network");
    wrong_type(theirs                                     ? WORDS ": from_ipaddress takes it"
               : PyObject_HasAttrString(text, "packed") ? WORDS ": str of it is one"
                                                          : WORDS, text);
    return NULL;
}

typedef ipnetwork_fault (*ask_end)(const ipnetwork_ip *, ipnetwork_address *);

static PyObject *end_of(const Network *self, ask_end ask) {
    ipnetwork_address address;
    if (!answered(ask(&self->held, &address))) return NULL;
    return address_object(self->state, address.octets, address.length);
}

static int network_init(PyObject *object, PyObject *arguments, PyObject *names) {
    static char *keywords[] = {"text", NULL};
    Network *self = (Network *)object;
    PyObject *text, *encoded = NULL;
    ipnetwork_fault fault;
    if (names == NULL && PyTuple_Size(arguments) == 1) text = PyTuple_GetItem(arguments, 0);
    else if (!PyArg_ParseTupleAndKeywords(arguments, names, "O", keywords, &text)) return -1;
    Py_ssize_t length;
    if (self->held.family != 0) {
        PyErr_SetString(PyExc_TypeError, "a network is made once, and does not change");
        return -1;
    }
    ipnetwork_ip held = {.family = family_of(self->state, Py_TYPE(object))};
    if (PyBytes_Check(text)) {
        char *bytes;
        if (PyBytes_AsStringAndSize(text, &bytes, &length) < 0) return -1;
        uint8_t width = width_of(&held);
        fault = length == width ? put(&held, (const uint8_t *)bytes, (uint8_t)(width * 8)) : IPNETWORK_ADDRESS;
    } else {
        const char *bytes = bytes_of_text(text, &length, &encoded);
        if (bytes == NULL) return Py_XDECREF(encoded), -1;
        fault = held.family == 4 ? ipnetwork_v4_read(bytes, (size_t)length, &held.v4)
                                 : ipnetwork_v6_read(bytes, (size_t)length, &held.v6);
        Py_XDECREF(encoded);
    }
    if (fault != IPNETWORK_OK) return raise_fault(self->state, fault, text), -1;
    self->held = held;
    return 0;
}

/* A network of a class from the bytes of its struct. */
static PyObject *network_of_row(State *state, PyObject *type, const uint8_t *row) {
    if (!PyType_Check(type) || !PyType_IsSubtype((PyTypeObject *)type, state->network_type)) {
        PyErr_SetString(PyExc_TypeError, "no class of networks");
        return NULL;
    }
    PyObject *made = allocated(state, (PyTypeObject *)type);
    if (made == NULL) return NULL;
    ipnetwork_ip *held = &((Network *)made)->held;
    held->family = family_of(state, (PyTypeObject *)type);
    uint8_t width = width_of(held);
    if (!answered(put(held, row, row[width]))) return Py_DECREF(made), NULL;
    return made;
}

/* The bytes of the struct that a network holds. */
static PyObject *row_of(const ipnetwork_ip *held) {
    return held->family == 4 ? PyBytes_FromStringAndSize((const char *)&held->v4, sizeof held->v4)
                             : PyBytes_FromStringAndSize((const char *)&held->v6, sizeof held->v6);
}

static PyObject *get_least(PyObject *object, void *none) {
    (void)none;
    Network *self = (Network *)object;
    PyObject *value = kept_at(&self->least);
    if (value != NULL) return again(value);
    return is_made(self) ? kept(&self->least, end_of(self, ipnetwork_network)) : NULL;
}

/* The networks of one prefix length share their mask. */
static PyObject *get_mask(PyObject *object, void *none) {
    (void)none;
    Network *self = (Network *)object;
    if (!is_made(self)) return NULL;
    PyObject **place = &self->state->masks[self->held.family == 6][prefix_of(&self->held)];
    PyObject *value = kept_at(place);
    return value != NULL ? again(value) : kept(place, end_of(self, ipnetwork_mask));
}

static PyObject *get_ip(PyObject *object, void *none) {
    (void)none;
    Network *self = (Network *)object;
    PyObject *value = kept_at(&self->ip);
    if (value != NULL) return again(value);
    if (!is_made(self)) return NULL;
    return kept(&self->ip, address_object(self->state, octets_of(&self->held), width_of(&self->held)));
}

static PyObject *get_greatest(PyObject *object, void *none) {
    (void)none;
    Network *self = (Network *)object;
    PyObject *value = kept_at(&self->greatest);
    if (value != NULL) return again(value);
    return is_made(self) ? kept(&self->greatest, end_of(self, ipnetwork_broadcast)) : NULL;
}

static PyObject *get_prefix(PyObject *object, void *none) {
    (void)none;
    const Network *self = (const Network *)object;
    return is_made(self) ? PyLong_FromLong(prefix_of(&self->held)) : NULL;
}

static PyObject *get_size(PyObject *object, void *none) {
    (void)none;
    Network *self = (Network *)object;
    PyObject *value = kept_at(&self->size);
    if (value != NULL) return again(value);
    if (!is_made(self)) return NULL;
    if (self->held.family == 4) {
        uint64_t size;
        return answered(ipnetwork_v4_size(&self->held.v4, &size)) ? kept(&self->size, PyLong_FromUnsignedLongLong(size)) : NULL;
    }
    uint8_t octets[17];
    if (!answered(ipnetwork_v6_size(&self->held.v6, octets))) return NULL;
    return kept(&self->size, number_of_octets(octets, 17));
}

static PyObject *get_row(PyObject *object, void *none) {
    (void)none;
    const Network *self = (const Network *)object;
    return is_made(self) ? row_of(&self->held) : NULL;
}

static PyObject *network_text(PyObject *object) {
    Network *self = (Network *)object;
    PyObject *value = kept_at(&self->text);
    if (value != NULL) return again(value);
    char buffer[IPNETWORK_V6_TEXT];
    size_t length;
    if (!is_made(self) || !answered(ipnetwork_canonical(&self->held, buffer, sizeof buffer, &length))) return NULL;
    return kept(&self->text, PyUnicode_FromStringAndSize(buffer, (Py_ssize_t)length));
}

static int network_contains(PyObject *object, PyObject *given) {
    ipnetwork_address address;
    uint8_t answer;
    State *state = ((Network *)object)->state;
    if (!is_made((Network *)object)) return -1;
    int kind = alone_of(state, given, &address);
    if (kind != IS_ADDRESS) return no_member(state, given, kind);
    if (!answered(ipnetwork_contains(&((Network *)object)->held, address.octets, address.length, &answer))) return -1;
    return answer;
}

/* The range of the numbers of the members. */
static PyObject *members(Network *self) {
    State *state = self->state;
    PyObject *range = NULL;
    ipnetwork_address least, greatest;
    if (!is_made(self) || !answered(ipnetwork_network(&self->held, &least))) return NULL;
    if (!answered(ipnetwork_broadcast(&self->held, &greatest))) return NULL;
    PyObject *low = number_of_octets(least.octets, least.length);
    PyObject *high = number_of_octets(greatest.octets, greatest.length);
    PyObject *past = high == NULL ? NULL : PyNumber_Add(high, state->one);
    if (low != NULL && past != NULL)
        range = PyObject_CallFunctionObjArgs(state->range_of, low, past, NULL);
    Py_XDECREF(low), Py_XDECREF(high), Py_XDECREF(past);
    return range;
}

static PyObject *network_iter(PyObject *object) {
    State *state = ((Network *)object)->state;
    PyObject *range = members((Network *)object), *made = NULL;
    PyObject *type = ((Network *)object)->held.family == 4 ? state->v4_address : state->v6_address;
    if (range != NULL) made = PyObject_CallFunctionObjArgs(state->map_of, type, range, NULL);
    Py_XDECREF(range);
    return made;
}

/* The member with this number, counted from the end if it is negative. */
static PyObject *network_nth(PyObject *object, PyObject *index) {
    Network *self = (Network *)object;
    uint8_t n[16], address[16];
    PyObject *number = is_made(self) ? PyNumber_Index(index) : NULL, *size, *counted;
    if (number == NULL) return NULL;
    if (PyObject_RichCompareBool(number, self->state->zero, Py_LT) == 1) {
        size = get_size(object, NULL);
        counted = size == NULL ? NULL : PyNumber_Add(number, size);
        Py_XDECREF(size), Py_DECREF(number);
        if (counted == NULL) return NULL;
        number = counted;
    }
    int whole = octets_of_number(number, n);
    Py_DECREF(number);
    if (!whole && !PyErr_ExceptionMatches(PyExc_OverflowError)) return NULL;
    PyErr_Clear();
    ipnetwork_fault fault = IPNETWORK_NO_MEMBER;
    if (whole && self->held.family == 6) fault = ipnetwork_v6_nth(&self->held.v6, n, address);
    static const uint8_t zeros[12];
    if (whole && self->held.family == 4 && memcmp(n, zeros, 12) == 0)
        fault = ipnetwork_v4_nth(&self->held.v4, (uint32_t)n[12] << 24 | (uint32_t)n[13] << 16 | (uint32_t)n[14] << 8 | n[15], address);
    if (fault == IPNETWORK_NO_MEMBER) return PyErr_SetString(PyExc_IndexError, "no member of this number"), NULL;
    return answered(fault) ? address_object(self->state, address, width_of(&self->held)) : NULL;
}

/* Networks of one family are ordered; those of different families are not equal, and not ordered. */
static PyObject *network_compare(PyObject *one_object, PyObject *other_object, int operation) {
    if (PyObject_TypeCheck(other_object, ((Network *)one_object)->state->network_type)) {
        const ipnetwork_ip *one_held = &((Network *)one_object)->held, *other_held = &((Network *)other_object)->held;
        if (!is_made((Network *)one_object) || !is_made((Network *)other_object)) return NULL;
        if (one_held->family == other_held->family || operation == Py_EQ || operation == Py_NE) {
            int32_t order;
            if (!answered(ipnetwork_compare(one_held, other_held, &order))) return NULL;
            int truth = operation == Py_EQ   ? order == 0
                        : operation == Py_NE ? order != 0
                        : operation == Py_LT ? order < 0
                        : operation == Py_LE ? order <= 0
                        : operation == Py_GT ? order > 0
                                             : order >= 0;
            return PyBool_FromLong(truth);
        }
    }
    return again(Py_NotImplemented);
}

/* The hash of the octets and the prefix length, mixed so that consecutive networks do not collide. */
static Py_hash_t network_hash(PyObject *object) {
    if (!is_made((Network *)object)) return -1;
    const ipnetwork_ip *held = &((Network *)object)->held;
    const uint8_t *octets = octets_of(held);
    uint64_t mixed = prefix_of(held) + UINT64_C(0x9e3779b97f4a7c15);
    for (int place = 0; place < width_of(held); place += 4) {
        uint32_t word;
        memcpy(&word, octets + place, sizeof word);
        mixed = (mixed ^ word) * UINT64_C(0xbf58476d1ce4e5b9);
        mixed ^= mixed >> 29;
    }
    return (Py_hash_t)mixed == -1 ? -2 : (Py_hash_t)mixed;
}

/* Another network, of the same family if `same` is set; NULL with TypeError if it is not one. */
static Network *another(PyObject *self, PyObject *other, int same) {
    Network *one = (Network *)self;
    if (PyObject_TypeCheck(other, one->state->network_type)) {
        Network *two = (Network *)other;
        if (!is_made(one) || !is_made(two)) return NULL;
        if (!same || two->held.family == one->held.family) return two;
    }
    raise_shown(one->state, "%U is no network of this package, or of another family", other);
    return NULL;
}

typedef ipnetwork_fault (*ask_two)(const ipnetwork_ip *, const ipnetwork_ip *, uint8_t *);

static PyObject *question(Network *inner, Network *outer, ask_two ask) {
    uint8_t answer;
    if (inner == NULL || outer == NULL || !answered(ask(&inner->held, &outer->held, &answer))) return NULL;
    return PyBool_FromLong(answer);
}

static PyObject *network_subnet_of(PyObject *self, PyObject *other) {
    return question((Network *)self, another(self, other, 1), ipnetwork_is_subnet_of);
}

static PyObject *network_supernet_of(PyObject *self, PyObject *other) {
    return question(another(self, other, 1), (Network *)self, ipnetwork_is_subnet_of);
}

static PyObject *network_overlaps(PyObject *self, PyObject *other) {
    return question((Network *)self, another(self, other, 0), ipnetwork_overlaps);
}

#endif
