/* The core of the package as an extension of CPython: the networks of both families, each of which holds the struct of the
 * library, and the calls over columns. It has no rule of its own about texts, prefix lengths or members: each answer is one
 * of the library's. What a network has answered once is kept.
 *
 * Each interpreter of a process has a module of its own, with its types and all that it keeps in
 * the module's state, so that several interpreters may import it and run at the same time.
 *
 * From Python 3.11 on it is compiled for the stable ABI, so that one file serves all later versions. `_by_ctypes.py` has
 * the same names without a compiler. */
#include "_columns.h"
#include "_layout.h"
#include "_tables.h"

/* ip_network(text), with the classes given to `register`. */
static PyObject *either_network(PyObject *module, PyObject *text) {
    State *state = PyModule_GetState(module);
    PyObject *encoded;
    Py_ssize_t length;
    if (PyBytes_Check(text))
        return PyObject_CallFunctionObjArgs(
            PyBytes_Size(text) == 16 ? state->v6_class : state->v4_class, text, NULL);
    const char *bytes = bytes_of_text(text, &length, &encoded);
    if (bytes == NULL) return Py_XDECREF(encoded), NULL;
    ipnetwork_ip held;
    ipnetwork_fault fault = ipnetwork_read_with_cause(bytes, (size_t)length, &held);
    Py_XDECREF(encoded);
    if (fault != IPNETWORK_OK) return raise_fault(state, fault, text), NULL;
    PyObject *type = held.family == 4 ? state->v4_class : state->v6_class;
    PyObject *made = allocated(state, (PyTypeObject *)type);
    if (made == NULL) return NULL;
    ((Network *)made)->held = held;
    return made;
}

/* of_packed(class, packed, prefixlen) */
static PyObject *of_packed(PyObject *module, PyObject *arguments) {
    State *state = PyModule_GetState(module);
    PyObject *type, *given;
    const char *packed;
    Py_ssize_t length;
    uint8_t row[17];
    if (!PyArg_ParseTuple(arguments, "Oy#O", &type, &packed, &length, &given)) return NULL;
    PyObject *number = PyNumber_Index(given);
    if (number == NULL) return NULL;
    long prefix = PyLong_AsLong(number);
    Py_DECREF(number);
    if (prefix == -1 && PyErr_Occurred()) {
        if (!PyErr_ExceptionMatches(PyExc_OverflowError)) return NULL;
        PyErr_Clear();
    }
    if (length > 16 || prefix < 0 || prefix > length * 8)
        return raise_fault(state, IPNETWORK_PREFIX, given), NULL;
    memcpy(row, packed, (size_t)length);
    row[length] = (uint8_t)prefix;
    return network_of_row(state, type, row);
}

/* of_rows(class, rows): a list of networks. */
static PyObject *of_rows(PyObject *module, PyObject *arguments) {
    State *state = PyModule_GetState(module);
    PyObject *type;
    const char *rows;
    Py_ssize_t length;
    if (!PyArg_ParseTuple(arguments, "Oy#", &type, &rows, &length)) return NULL;
    int six = PyType_Check(type) && PyType_IsSubtype((PyTypeObject *)type, state->v6_type);
    Py_ssize_t step = six ? (Py_ssize_t)sizeof(ipnetwork_v6) : (Py_ssize_t)sizeof(ipnetwork_v4), count = length / step;
    PyObject *list = PyList_New(count);
    for (Py_ssize_t row = 0; list != NULL && row < count; row++) {
        PyObject *network = network_of_row(state, type, (const uint8_t *)rows + row * step);
        if (network == NULL || PyList_SetItem(list, row, network) < 0) Py_CLEAR(list);
    }
    return list;
}

/* subnet_at(network, prefixlen, number): the block with this number, as a network of its class; None if there
 * is none. */
static PyObject *subnet_at(PyObject *module, PyObject *arguments) {
    State *state = PyModule_GetState(module);
    PyObject *object, *number;
    uint8_t prefix, n[16], row[17];
    if (!PyArg_ParseTuple(arguments, "O!bO", state->network_type, &object, &prefix, &number)) return NULL;
    const ipnetwork_ip *held = &((Network *)object)->held;
    if (!is_made((Network *)object) || !octets_of_number(number, n)) return NULL;
    static const uint8_t zeros[12];
    ipnetwork_fault fault = IPNETWORK_NO_MEMBER;
    if (held->family == 6) fault = ipnetwork_v6_subnet_at(&held->v6, prefix, n, (ipnetwork_v6 *)row);
    else if (memcmp(n, zeros, 12) == 0)
        fault = ipnetwork_v4_subnet_at(&held->v4, prefix, (uint32_t)n[12] << 24 | (uint32_t)n[13] << 16 | (uint32_t)n[14] << 8 | n[15], (ipnetwork_v4 *)row);
    if (fault == IPNETWORK_NO_MEMBER) return again(Py_None);
    return answered(fault) ? network_of_row(state, (PyObject *)Py_TYPE(object), row) : NULL;
}

/* prefix_of_mask(packed) */
static PyObject *prefix_of_mask(PyObject *module, PyObject *packed) {
    State *state = PyModule_GetState(module);
    char *bytes;
    Py_ssize_t length;
    uint8_t prefix = 0;
    if (PyBytes_AsStringAndSize(packed, &bytes, &length) < 0) return NULL;
    ipnetwork_fault fault = length == 4    ? ipnetwork_v4_prefix_of_mask((const uint8_t *)bytes, &prefix)
                            : length == 16 ? ipnetwork_v6_prefix_of_mask((const uint8_t *)bytes, &prefix)
                                           : IPNETWORK_NO_MASK;
    if (fault != IPNETWORK_OK) return raise_fault(state, fault, packed), NULL;
    return PyLong_FromLong(prefix);
}

/* build() */
static PyObject *build(PyObject *module, PyObject *nothing) {
    char text[IPNETWORK_BUILD_TEXT];
    size_t length;
    (void)module, (void)nothing;
    if (!answered(ipnetwork_build(text, sizeof text, &length))) return NULL;
    return PyUnicode_FromStringAndSize(text, (Py_ssize_t)length);
}

/* register(IPv4Network, IPv6Network) */
static PyObject *register_classes(PyObject *module, PyObject *arguments) {
    State *state = PyModule_GetState(module);
    PyObject *four, *six;
    if (!PyArg_ParseTuple(arguments, "OO", &four, &six)) return NULL;
    if (!PyType_Check(four) || !PyType_IsSubtype((PyTypeObject *)four, state->v4_type)
        || !PyType_Check(six) || !PyType_IsSubtype((PyTypeObject *)six, state->v6_type))
        return PyErr_SetString(PyExc_TypeError, "no classes of networks"), NULL;
    Py_CLEAR(state->v4_class);
    Py_CLEAR(state->v6_class);
    state->v4_class = again(four), state->v6_class = again(six);
    return again(Py_None);
}

/* The line from which Python takes a signature, and the text after it. */
#define TEXT(signature, text) signature "\n--\n\n" text
#define OF_MODULE(name, arguments, text) TEXT(name "($module, " arguments ", /)", text)
#define OF_NETWORK(name, arguments, text) TEXT(name "($self, " arguments ", /)", text)

static PyMethodDef calls[] = {
    {"ip_network", either_network, METH_O,
     OF_MODULE("ip_network", "text",
               "The network of either family that a text names, or that of a single address, given as its\n"
               "4 or 16 packed bytes. FormatError if the text has two or more slashes; else\n"
               "AddressError if the part before the slash is an address of neither family; else\n"
               "PrefixError.")},
    {"build", build, METH_NOARGS,
     TEXT("build($module, /)", "The version of the library and how it was made, such as ``0.2.0 (proved)``.")},
    {"read_address", read_address, METH_O,
     OF_MODULE("read_address", "text",
               "The address of either family that a text names, as an IPv4Address or an IPv6Address of\n"
               "``ipaddress``. AddressError for any other text, such as one with a zone.")},
    {"of_packed", of_packed, METH_VARARGS,
     OF_MODULE("of_packed", "kind, packed, prefixlen",
               "The network of a packed address and a prefix length, as an object of this class.")},
    {"of_rows", of_rows, METH_VARARGS,
     OF_MODULE("of_rows", "kind, rows",
               "The networks with these structs, as objects of this class.")},
    {"prefix_of_mask", prefix_of_mask, METH_O,
     OF_MODULE("prefix_of_mask", "packed",
               "The prefix length of a packed mask; MaskError if it is not a mask.")},
    {"block_row", block_row, METH_O,
     OF_MODULE("block_row", "network",
               "The bytes of a network's struct, without host bits.")},
    {"read_rows", read_rows, METH_VARARGS,
     OF_MODULE("read_rows", "kind, texts, offsets",
               "Reads a column of texts: networks of family 4 or 6, or addresses if kind is 0.")},
    {"print_rows", print_rows, METH_VARARGS,
     OF_MODULE("print_rows", "kind, rows, bits",
               "The texts of such a column, and their offsets, of 32 or 64 bits.")},
    {"layout", layout, METH_VARARGS,
     OF_MODULE("layout", "rows, missing",
               "The rows of a list in Arrow's layout, and a byte that is not 0 for each without a text;\n"
               "None if one is neither a text nor missing.")},
    {"aggregate", aggregate, METH_VARARGS,
     OF_MODULE("aggregate", "version, rows",
               "The fewest blocks that have the addresses of these networks.")},
    {"operate", operate, METH_VARARGS,
     OF_MODULE("operate", "operation, version, first, second",
               "The blocks of the union (|), intersection (&) or difference (-) of two sets.")},
    {"is_empty", is_empty, METH_VARARGS,
     OF_MODULE("is_empty", "operation, version, first, second",
               "Whether the result of such an operation is empty.")},
    {"range_rows", range_rows, METH_VARARGS,
     OF_MODULE("range_rows", "first, last",
               "The blocks from one packed address to another; None if the first comes after the other.")},
    {"index", index_of, METH_VARARGS,
     OF_MODULE("index", "version, blocks",
               "The index by which such blocks are searched: empty if there are only few.")},
    {"set_contains", set_contains, METH_VARARGS,
     OF_MODULE("set_contains", "search, asked",
               "Whether a set has an address, or each address of a network, as it is. ``search``\n"
               "is the IPv4 blocks and their index, the same for IPv6, and whether an IPv4-mapped\n"
               "address is a member in either form.")},
    {"set_contains_column", set_contains_column, METH_VARARGS,
     OF_MODULE("set_contains_column", "search, addresses",
               "For each address of a column a byte: 1 if a set has it, else 0.")},
    {"table_make", table_make, METH_VARARGS,
     OF_MODULE("table_make", "version, rows",
               "The blocks of these networks in the order of a table, and the place of each.")},
    {"ranges", ranges, METH_VARARGS,
     OF_MODULE("ranges", "version, blocks, numbers",
               "The ranges of addresses that have the same longest block of a table, the number\n"
               "of that block or -1, and an index of the ranges.")},
    {"table_find", table_find, METH_VARARGS,
     OF_MODULE("table_find", "search, address",
               "The number of the longest network that has an address, or -1. ``search`` is what\n"
               "``ranges`` returns for IPv4 and for IPv6, and whether an IPv4-mapped address is\n"
               "found in either form, first as the IPv4 address.")},
    {"table_find_column", table_find_column, METH_VARARGS,
     OF_MODULE("table_find_column", "search, addresses",
               "The same for each address of a column.")},
    {"unmapped", unmapped, METH_O,
     OF_MODULE("unmapped", "address",
               "The IPv4 address in an IPv4-mapped IPv6 address, one of ``::ffff:0:0/96``, with or\n"
               "without a zone. Any other address is returned as it is.")},
    {"unmapped_rows", unmapped_rows, METH_O,
     OF_MODULE("unmapped_rows", "addresses", "The same for each address of a column.")},
    {"longest_key", longest_key, METH_VARARGS,
     OF_MODULE("longest_key", "keys, fours, sixes, asked",
               "The key in a dict of the longest network that has all that is asked about, or None.")},
    {"subnet_at", subnet_at, METH_VARARGS,
     OF_MODULE("subnet_at", "network, prefixlen, number",
               "The block of this number within a network; None if there is none.")},
    {"register", register_classes, METH_VARARGS,
     OF_MODULE("register", "four, six",
               "Sets the classes of the networks that ``ip_network`` makes.")},
    {NULL, NULL, 0, NULL},
};

static PyMethodDef methods[] = {
    {"subnet_of", network_subnet_of, METH_O,
     OF_NETWORK("subnet_of", "other",
                "Whether each member of this network is a member of ``other``, another of its family.\n"
                "Host bits make no difference. TypeError for a network of the other family.")},
    {"supernet_of", network_supernet_of, METH_O,
     OF_NETWORK("supernet_of", "other",
                "Whether each member of ``other``, another network of the family, is a member of this\n"
                "one. Host bits make no difference. TypeError for a network of the other family.")},
    {"overlaps", network_overlaps, METH_O,
     OF_NETWORK("overlaps", "other",
                "Whether some address is a member of both networks; False if the families differ.")},
    {"contains_column", network_column, METH_O,
     OF_NETWORK("contains_column", "packed",
                "For each packed address of a column of the family a byte: 1 if it is a member, else 0.\n"
                "A column is such addresses, one after the other, in any contiguous buffer of bytes.\n"
                "ValueError if it ends within an address.")},
    {NULL, NULL, 0, NULL},
};

static PyGetSetDef parts[] = {
    {"network_address", get_least, NULL, "The least member: the address with its host bits cleared.", NULL},
    {"netmask", get_mask, NULL, "The mask of the prefix length.", NULL},
    {"ip", get_ip, NULL, "The address, host bits included.", NULL},
    {"prefixlen", get_prefix, NULL, "The prefix length.", NULL},
    {"broadcast_address", get_greatest, NULL, "The greatest member: the address with its host bits set.", NULL},
    {"num_addresses", get_size, NULL, "The number of members.", NULL},
    {"_row", get_row, NULL, NULL, NULL},
    {NULL, NULL, NULL, NULL, NULL},
};

static PyType_Slot network_slots[] = {
    {Py_tp_new, network_new},          {Py_tp_init, network_init},  {Py_tp_dealloc, network_dealloc},
    {Py_tp_richcompare, network_compare}, {Py_tp_hash, network_hash}, {Py_tp_str, network_text},
    {Py_tp_iter, network_iter},        {Py_tp_methods, methods},    {Py_tp_getset, parts},
    {Py_sq_contains, network_contains}, {Py_mp_subscript, network_nth},
    {Py_tp_doc, "What the networks of both families have."}, {0, NULL},
};
/* `state_of` distinguishes the types of a module from Python classes by their deallocator. */
#define OF_TEXT \
    "The network that a text names, or that of a single address, given as its packed bytes.\n" \
    "FormatError, AddressError or PrefixError, the first that applies."
static PyType_Slot v4_slots[] = {
    {Py_tp_dealloc, network_dealloc}, {Py_tp_doc, TEXT("V4(text)", OF_TEXT)}, {0, NULL}};
static PyType_Slot v6_slots[] = {
    {Py_tp_dealloc, network_dealloc}, {Py_tp_doc, TEXT("V6(text)", OF_TEXT)}, {0, NULL}};
#define FLAGS (Py_TPFLAGS_DEFAULT | Py_TPFLAGS_BASETYPE)
static PyType_Spec network_spec = {"ipnetwork._native.Network", sizeof(Network), 0, FLAGS, network_slots};
static PyType_Spec v4_spec = {"ipnetwork._native.V4", sizeof(Network), 0, FLAGS, v4_slots};
static PyType_Spec v6_spec = {"ipnetwork._native.V6", sizeof(Network), 0, FLAGS, v6_slots};

/* The attribute of a module, as a new reference. */
static PyObject *imported(const char *module, const char *name) {
    PyObject *found = PyImport_ImportModule(module), *attribute = NULL;
    if (found != NULL) {
        attribute = PyObject_GetAttrString(found, name);
        Py_DECREF(found);
    }
    return attribute;
}

static PyTypeObject *derived(PyObject *module, PyType_Spec *spec, PyTypeObject *base) {
    PyObject *bases = PyTuple_Pack(1, (PyObject *)base), *made = NULL;
    if (bases != NULL) {
        made = PyType_FromModuleAndSpec(module, spec, bases);
        Py_DECREF(bases);
    }
    return (PyTypeObject *)made;
}

/* Imports what the calls need from Python; 0 with an exception on failure. */
static int import_into(State *state) {
    return (state->v4_address = imported("ipaddress", "IPv4Address")) != NULL
           && (state->v6_address = imported("ipaddress", "IPv6Address")) != NULL
           && (state->base_network = imported("ipaddress", "_BaseNetwork")) != NULL
           && (state->make_error = imported("ipnetwork._errors", "error")) != NULL
           && (state->shown = imported("ipnetwork._errors", "shown")) != NULL
           && (state->map_of = imported("builtins", "map")) != NULL
           && (state->range_of = imported("builtins", "range")) != NULL
           && (state->name_ip = PyUnicode_InternFromString("_ip")) != NULL
           && (state->name_scope = PyUnicode_InternFromString("_scope_id")) != NULL
           && (state->zero = PyLong_FromLong(0)) != NULL
           && (state->one = PyLong_FromLong(1)) != NULL;
}

/* Fills an empty module. */
static int execute(PyObject *module) {
    State *state = PyModule_GetState(module);
    if (ipnetwork_abi_version() != IPNETWORK_ABI_VERSION
        || (int)ipnetwork_abi_minor_version() < IPNETWORK_ABI_MINOR_VERSION) {
        PyErr_SetString(PyExc_ImportError, "the library is of another version than this module");
        return -1;
    }
    if (!import_into(state)) return -1;
    state->network_type = (PyTypeObject *)PyType_FromModuleAndSpec(module, &network_spec, NULL);
    if (state->network_type == NULL
        || (state->v4_type = derived(module, &v4_spec, state->network_type)) == NULL
        || (state->v6_type = derived(module, &v6_spec, state->network_type)) == NULL)
        return -1;
    int four = is_plain(state->v4_address, "['__weakref__', '_ip']");
    int six = is_plain(state->v6_address, "['__weakref__', '_ip', '_scope_id']");
    if (four < 0 || six < 0) return -1;
    state->plain = four && six;
    if (PyObject_SetAttrString(module, "V4", (PyObject *)state->v4_type) < 0) return -1;
    return PyObject_SetAttrString(module, "V6", (PyObject *)state->v6_type);
}

/* The objects in a module's state, except the masks. */
#define EACH_KEPT(DO)                                                                         \
    DO(network_type) DO(v4_type) DO(v6_type) DO(v4_class) DO(v6_class) DO(v4_address)         \
    DO(v6_address) DO(base_network) DO(make_error) DO(shown) DO(map_of) DO(range_of)          \
    DO(name_ip) DO(name_scope) DO(zero) DO(one)

static int traverse(PyObject *module, visitproc visit, void *arg) {
    State *state = PyModule_GetState(module);
#define VISIT(name) Py_VISIT(state->name);
    EACH_KEPT(VISIT)
    for (int prefix = 0; prefix <= 128; prefix++) {
        Py_VISIT(state->masks[0][prefix]);
        Py_VISIT(state->masks[1][prefix]);
    }
    return 0;
}

static int clear(PyObject *module) {
    State *state = PyModule_GetState(module);
#define CLEAR(name) Py_CLEAR(state->name);
    EACH_KEPT(CLEAR)
    for (int prefix = 0; prefix <= 128; prefix++) {
        Py_CLEAR(state->masks[0][prefix]);
        Py_CLEAR(state->masks[1][prefix]);
    }
    return 0;
}

static void release(void *module) { clear(module); }

/* Versions before 3.12, and their headers, do not know interpreters with a lock of their own. */
#ifndef Py_mod_multiple_interpreters
#define Py_mod_multiple_interpreters 3
#define Py_MOD_PER_INTERPRETER_GIL_SUPPORTED ((void *)2)
#endif
static PyModuleDef_Slot before_3_12[] = {{Py_mod_exec, execute}, {0, NULL}};
static PyModuleDef_Slot since_3_12[] = {
    {Py_mod_exec, execute},
    {Py_mod_multiple_interpreters, Py_MOD_PER_INTERPRETER_GIL_SUPPORTED},
#ifdef Py_GIL_DISABLED
    {Py_mod_gil, Py_MOD_GIL_NOT_USED},
#endif
    {0, NULL},
};

#define DEFINITION(slots) \
    {PyModuleDef_HEAD_INIT, "ipnetwork._native", NULL, sizeof(State), calls, slots, traverse, clear, release}
static struct PyModuleDef of_3_11 = DEFINITION(before_3_12), of_3_12 = DEFINITION(since_3_12);

/* The running version, which may be later than that of the headers. */
static unsigned long running_version(void) {
#if PY_VERSION_HEX >= 0x030B0000
    return Py_Version;
#else
    return PY_VERSION_HEX;
#endif
}

PyMODINIT_FUNC PyInit__native(void) {
    return PyModuleDef_Init(running_version() >= 0x030C0000 ? &of_3_12 : &of_3_11);
}
