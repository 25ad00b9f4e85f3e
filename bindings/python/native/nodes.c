/* From values of Python to nodes, as the library takes them: the values of each type as _plain.py says, those of the frequent ones
 * without it. What is refused is left to Python, which says why. */
#include "native.h"

enum { MOST_NESTED = 64, FEW_ENTRIES = 32 };

/* An entry of a table: its key's bytes, and its value. */
typedef struct entry {
    PyObject *octets, *value;
} entry;

/* Where bytes lie in the pool. */
typedef struct span {
    uint32_t start, length;
} span;

native_status native_left(void) {
    PyObject *const refusals[] = {PyExc_TypeError, PyExc_ValueError, PyExc_OverflowError, PyExc_AttributeError};
    for (size_t k = 0; k < sizeof refusals / sizeof refusals[0]; k++) {
        if (PyErr_ExceptionMatches(refusals[k])) {
            PyErr_Clear();
            return NATIVE_LEFT;
        }
    }
    return NATIVE_RAISED;
}

static native_status out_of_memory(void) {
    PyErr_NoMemory();
    return NATIVE_RAISED;
}

void native_begin(native_list *list) {
    list->nodes = list->few;
    list->pool = list->little;
    list->count = list->length = 0;
    list->room = NATIVE_FEW_NODES;
    list->bytes = NATIVE_FEW_BYTES;
}

void native_end(native_list *list) {
    if (list->nodes != list->few) {
        PyMem_Free(list->nodes);
    }
    if (list->pool != list->little) {
        PyMem_Free(list->pool);
    }
}

/* A node more, of zeros but for its kind. */
static feksroum_node *one_more(native_list *list, uint8_t kind) {
    if (list->count == list->room) {
        feksroum_node *more = PyMem_Realloc(list->nodes == list->few ? NULL : list->nodes, 2 * list->room * sizeof *more);
        if (more == NULL) {
            return NULL;
        }
        if (list->nodes == list->few) {
            memcpy(more, list->few, sizeof list->few);
        }
        list->nodes = more;
        list->room *= 2;
    }
    feksroum_node *node = &list->nodes[list->count++];
    memset(node, 0, sizeof *node);
    node->kind = kind;
    return node;
}

/* Puts the bytes of an object into the pool. */
static native_status keep(native_list *list, PyObject *octets, span *at) {
    size_t length = (size_t)PyBytes_Size(octets);
    if (length > UINT32_MAX - list->length) {
        return NATIVE_LEFT;
    }
    if (length > list->bytes - list->length) {
        size_t room = 2 * list->bytes + length;
        uint8_t *more = PyMem_Realloc(list->pool == list->little ? NULL : list->pool, room);
        if (more == NULL) {
            return out_of_memory();
        }
        if (list->pool == list->little) {
            memcpy(more, list->little, list->length);
        }
        list->pool = more;
        list->bytes = room;
    }
    memcpy(list->pool + list->length, PyBytes_AsString(octets), length);
    at->start = length == 0 ? 0 : (uint32_t)list->length;
    at->length = (uint32_t)length;
    list->length += length;
    return NATIVE_DONE;
}

/* The same of a str, as UTF-8. */
static native_status keep_text(native_list *list, PyObject *text, span *at) {
    PyObject *octets = PyUnicode_AsUTF8String(text);
    if (octets == NULL) {
        return native_left();
    }
    native_status status = keep(list, octets, at);
    Py_DECREF(octets);
    return status;
}

static native_status add_nested(native_list *list, PyObject *value, uint8_t kind, int depth, size_t *index);

/* A node of a number. */
static native_status add_number(native_list *list, uint8_t kind, uint64_t number) {
    feksroum_node *node = one_more(list, kind);
    if (node == NULL) {
        return out_of_memory();
    }
    node->number = number;
    return NATIVE_DONE;
}

/* A node of bytes. */
static native_status add_bytes(native_list *list, uint8_t kind, PyObject *value, bool is_text) {
    span at;
    native_status status = is_text ? keep_text(list, value, &at) : keep(list, value, &at);
    if (status != NATIVE_DONE) {
        return status;
    }
    feksroum_node *node = one_more(list, kind);
    if (node == NULL) {
        return out_of_memory();
    }
    node->start = at.start;
    node->length = at.length;
    return NATIVE_DONE;
}

static native_status add_int(native_list *list, PyObject *value) {
    int overflow;
    int64_t number = PyLong_AsLongLongAndOverflow(value, &overflow);
    if (overflow != 0) {
        return NATIVE_LEFT;
    }
    return add_number(list, number >= INT32_MIN && number <= INT32_MAX ? 'I' : 'l', (uint64_t)number);
}

static native_status add_float(native_list *list, PyObject *value) {
    double number = PyFloat_AsDouble(value);
    uint64_t bits;
    memcpy(&bits, &number, sizeof bits);
    return add_number(list, 'd', bits);
}

/* A value of a type that is not frequent, by what Python says of it. */
static native_status add_plain(native_list *list, PyObject *value) {
    PyObject *made = PyObject_CallFunctionObjArgs(native_module.plain, value, NULL);
    if (made == NULL) {
        return native_left();
    }
    int kind, scale;
    PyObject *number, *octets;
    native_status status = NATIVE_LEFT;
    if (made != Py_None) {
        status = !PyArg_ParseTuple(made, "iO!O!i", &kind, &PyLong_Type, &number, &PyBytes_Type, &octets, &scale) ? native_left()
                 : kind == 'S' || kind == 'x' ? add_bytes(list, (uint8_t)kind, octets, false)
                                              : add_number(list, (uint8_t)kind, PyLong_AsUnsignedLongLongMask(number));
    }
    if (status == NATIVE_DONE) {
        list->nodes[list->count - 1].scale = (uint8_t)scale;
    }
    Py_DECREF(made);
    return status;
}

/* The nodes of a value in a table or array that is nested so deep, and the index of the first. */
static native_status add_value(native_list *list, PyObject *value, int depth, size_t *index) {
    PyTypeObject *type = Py_TYPE(value);
    *index = list->count;
    if (type == &PyUnicode_Type) {
        return add_bytes(list, 'S', value, true);
    }
    if (type == &PyLong_Type) {
        return add_int(list, value);
    }
    if (type == &PyBool_Type) {
        return add_number(list, 't', value == Py_True);
    }
    if (type == &PyDict_Type) {
        return add_nested(list, value, 'F', depth + 1, index);
    }
    if (type == &PyList_Type) {
        return add_nested(list, value, 'A', depth + 1, index);
    }
    if (type == &PyFloat_Type) {
        return add_float(list, value);
    }
    if (type == &PyBytes_Type) {
        return add_bytes(list, 'x', value, false);
    }
    return value == Py_None ? add_number(list, 'V', 0) : add_plain(list, value);
}

static int compare(const void *one, const void *other) {
    PyObject *left = ((const entry *)one)->octets, *right = ((const entry *)other)->octets;
    size_t left_length = (size_t)PyBytes_Size(left), right_length = (size_t)PyBytes_Size(right);
    int order = memcmp(PyBytes_AsString(left), PyBytes_AsString(right), left_length < right_length ? left_length : right_length);
    return order != 0 ? order : (left_length > right_length) - (left_length < right_length);
}

/* The entries of a table, by ascending keys. Keys that are no plain str are left: two of them may have the same bytes. */
static native_status entries_of(PyObject *table, entry *entries, size_t *count) {
    PyObject *key, *value;
    Py_ssize_t at = 0;
    bool is_sorted = true;
    while (PyDict_Next(table, &at, &key, &value)) {
        PyObject *octets = Py_TYPE(key) == &PyUnicode_Type ? PyUnicode_AsUTF8String(key) : NULL;
        if (octets == NULL) {
            return PyErr_Occurred() ? native_left() : NATIVE_LEFT;
        }
        Py_INCREF(value);
        entries[*count] = (entry){octets, value};
        *count += 1;
        is_sorted = is_sorted && (*count < 2 || compare(&entries[*count - 2], &entries[*count - 1]) < 0);
        if (PyBytes_Size(octets) > UINT8_MAX) {
            return NATIVE_LEFT;
        }
    }
    if (!is_sorted) {
        qsort(entries, *count, sizeof *entries, compare);
    }
    return NATIVE_DONE;
}

/* The nodes of entries, in a table that is nested so deep. */
static native_status add_sorted(native_list *list, const entry *entries, size_t count, int depth) {
    for (size_t k = 0; k < count; k++) {
        span key;
        size_t index;
        native_status status = keep(list, entries[k].octets, &key);
        if (status == NATIVE_DONE) {
            status = add_value(list, entries[k].value, depth, &index);
        }
        if (status != NATIVE_DONE) {
            return status;
        }
        list->nodes[index].key_start = key.start;
        list->nodes[index].key_length = (uint8_t)key.length;
    }
    return NATIVE_DONE;
}

/* The nodes of what lies in a table. */
static native_status add_table(native_list *list, PyObject *table, int depth) {
    entry few[FEW_ENTRIES], *entries = few;
    size_t room = (size_t)PyDict_Size(table), count = 0;
    if (room > FEW_ENTRIES && (entries = PyMem_Malloc(room * sizeof *entries)) == NULL) {
        return out_of_memory();
    }
    native_status status = entries_of(table, entries, &count);
    if (status == NATIVE_DONE) {
        status = add_sorted(list, entries, count, depth);
    }
    for (size_t k = 0; k < count; k++) {
        Py_DECREF(entries[k].octets);
        Py_DECREF(entries[k].value);
    }
    if (entries != few) {
        PyMem_Free(entries);
    }
    return status;
}

/* The nodes of what lies in an array. A list may change while its values are asked what they are. */
static native_status add_array(native_list *list, PyObject *values, int depth) {
    for (Py_ssize_t at = 0; at < PyList_Size(values); at++) {
        size_t index;
        PyObject *value = PyList_GetItem(values, at);
        Py_INCREF(value);
        native_status status = add_value(list, value, depth, &index);
        Py_DECREF(value);
        if (status != NATIVE_DONE) {
            return status;
        }
    }
    return NATIVE_DONE;
}

/* The node of a table or array and those of what lies in it, where it is nested so deep. */
static native_status add_nested(native_list *list, PyObject *value, uint8_t kind, int depth, size_t *index) {
    if (depth > MOST_NESTED) {
        return NATIVE_LEFT;
    }
    *index = list->count;
    if (one_more(list, kind) == NULL) {
        return out_of_memory();
    }
    bool is_table = Py_TYPE(value) == &PyDict_Type;
    native_status status = is_table ? add_table(list, value, depth) : add_array(list, value, depth);
    size_t inside = list->count - *index - 1;
    if (status != NATIVE_DONE || inside > UINT32_MAX) {
        return status == NATIVE_DONE ? NATIVE_LEFT : status;
    }
    list->nodes[*index].inside = (uint32_t)inside;
    return NATIVE_DONE;
}

/* A number in a field; of a time its seconds. */
static native_status add_whole(native_list *list, uint8_t kind, PyObject *value, bool is_time) {
    PyObject *seconds = NULL;
    if (is_time && Py_TYPE(value) != &PyLong_Type) {
        seconds = PyObject_CallFunctionObjArgs(native_module.seconds, value, NULL);
        if (seconds == NULL) {
            return native_left();
        }
        value = seconds;
    }
    native_status status = NATIVE_LEFT;
    if (PyLong_Check(value)) {
        unsigned long long number = PyLong_AsUnsignedLongLong(value);
        status = number == ULLONG_MAX && PyErr_Occurred() ? native_left() : add_number(list, kind, number);
    }
    Py_XDECREF(seconds);
    return status;
}

/* The nodes of a field. */
static native_status add_field(native_list *list, uint8_t kind, PyObject *value, bool is_time) {
    size_t index;
    PyTypeObject *type = Py_TYPE(value);
    switch (kind) {
    case FEKSROUM_FLAG:
        return type == &PyBool_Type ? add_number(list, kind, value == Py_True) : NATIVE_LEFT;
    case FEKSROUM_SHORT_STRING:
        return type == &PyUnicode_Type ? add_bytes(list, kind, value, true) : NATIVE_LEFT;
    case FEKSROUM_LONG_STRING:
        return type == &PyBytes_Type || type == &PyUnicode_Type ? add_bytes(list, kind, value, type == &PyUnicode_Type) : NATIVE_LEFT;
    case FEKSROUM_TABLE:
        return type == &PyDict_Type ? add_nested(list, value, kind, 1, &index) : NATIVE_LEFT;
    default:
        return add_whole(list, kind, value, is_time);
    }
}

/* The nodes of the fields of a method, or of the properties that are set. */
native_status native_add_fields(native_list *list, const native_class *of, PyObject *item) {
    bool has_all = of != &native_module.properties;
    for (int place = 0; place < of->count; place++) {
        size_t index = list->count;
        PyObject *value = PyObject_GetAttr(item, of->fields[place].name);
        if (value == NULL) {
            return native_left();
        }
        native_status status = NATIVE_DONE;
        if (has_all || value != Py_None) {
            status = add_field(list, of->fields[place].kind, value, of->fields[place].is_time);
        }
        Py_DECREF(value);
        if (status != NATIVE_DONE) {
            return status;
        }
        if (index < list->count) {
            list->nodes[index].place = (uint8_t)place;
        }
    }
    return NATIVE_DONE;
}

native_status native_add_entries(native_list *list, PyObject *table) {
    return Py_TYPE(table) == &PyDict_Type ? add_table(list, table, 1) : NATIVE_LEFT;
}
