/* From nodes, as the library lists them, to values of Python: as the loops of _reading.py.
 *
 * Nothing is trusted: each span and each number of nodes is tested against what was passed. */
#include "native.h"

/* As many tables and arrays are nested at most. */
enum { MOST_NESTED = 64 };

/* Keys and other short strings that were met, since most frames have the same ones: the last of each slot. */
enum { TEXT_SLOTS = 1024, TEXT_LONGEST = 31 };
static struct {
    PyObject *text;
    uint8_t length;
    char bytes[TEXT_LONGEST];
} texts[TEXT_SLOTS];

static PyObject *content(const native_source *from, size_t first, size_t end, bool is_table, int room);

/* The node at an index, which lies in the list. */
static feksroum_node node_at(const native_source *from, size_t index) {
    feksroum_node found;
    memcpy(&found, from->nodes + index, sizeof found);
    return found;
}

static bool is_within(const native_source *from, uint32_t start, uint32_t length) {
    return (uint64_t)start + length <= (uint64_t)from->length;
}

static PyObject *outside(void) {
    PyErr_SetString(PyExc_ValueError, "a node lies outside");
    return NULL;
}

/* The text of a span; NULL, and an exception, where it is no UTF-8. */
static PyObject *text(const native_source *from, uint32_t start, uint32_t length) {
    return is_within(from, start, length) ? PyUnicode_DecodeUTF8(from->bytes + start, length, NULL) : outside();
}

/* The slot of a text, by its first and its last bytes. */
static uint32_t slot_of(const char *bytes, uint32_t length) {
    uint64_t front = 0, back = 0;
    size_t some = length < sizeof front ? length : sizeof front;
    memcpy(&front, bytes, some);
    memcpy(&back, bytes + length - some, some);
    return (uint32_t)(((front * 31 + back + length) * UINT64_C(0x9E3779B97F4A7C15)) >> 40) % TEXT_SLOTS;
}

/* A key, or the text of a short string: one that was met is not made again. */
static PyObject *short_text(const native_source *from, uint32_t start, uint32_t length) {
    if (length > TEXT_LONGEST || !is_within(from, start, length)) {
        return text(from, start, length);
    }
    const char *bytes = from->bytes + start;
    uint32_t slot = slot_of(bytes, length);
    if (texts[slot].text == NULL || texts[slot].length != length || memcmp(texts[slot].bytes, bytes, length) != 0) {
        PyObject *made = text(from, start, length), *last = texts[slot].text;
        if (made == NULL) {
            return NULL;
        }
        texts[slot].text = made;
        texts[slot].length = (uint8_t)length;
        memcpy(texts[slot].bytes, bytes, length);
        Py_XDECREF(last);
    }
    Py_INCREF(texts[slot].text);
    return texts[slot].text;
}

static PyObject *rare(const native_source *from, const feksroum_node *of) {
    return PyObject_CallFunction(native_module.rare, "OLnIii", from->object, (long long)of->number, from->skipped + (Py_ssize_t)of->start,
                                 of->length, (int)of->kind, (int)of->scale);
}

/* A long string: a str where it is UTF-8. */
static PyObject *string(const native_source *from, const feksroum_node *of) {
    PyObject *made = text(from, of->start, of->length);
    if (made == NULL && PyErr_ExceptionMatches(PyExc_UnicodeDecodeError)) {
        PyErr_Clear();
        return rare(from, of);
    }
    return made;
}

/* A number of another kind than a plain int is written as: one of the class of its kind. */
static PyObject *wrapped(const feksroum_node *of) {
    PyObject *kind = PyLong_FromLong(of->kind);
    PyObject *class = kind == NULL ? NULL : PyDict_GetItemWithError(native_module.numbers, kind);
    PyObject *made = class == NULL ? NULL : PyObject_CallFunction(class, "L", (long long)of->number);
    if (made == NULL && !PyErr_Occurred()) {
        PyErr_SetString(PyExc_ValueError, "a kind has no class");
    }
    Py_XDECREF(kind);
    return made;
}

/* A time. */
static PyObject *moment(const feksroum_node *of) {
    return PyObject_CallFunction(native_module.time, "K", (unsigned long long)of->number);
}

/* A fraction of 8 bytes: a float where it is a number. */
static PyObject *fraction(const native_source *from, const feksroum_node *of) {
    double number;
    memcpy(&number, &of->number, sizeof number);
    return number == number ? PyFloat_FromDouble(number) : rare(from, of);
}

/* The value of the node at an index, in which so many levels may still be nested. */
static PyObject *value(const native_source *from, const feksroum_node *of, size_t index, int room) {
    int64_t number = (int64_t)of->number;
    switch (of->kind) {
    case 'S':
        return string(from, of);
    case 'I':
        return PyLong_FromLongLong(number);
    case 't':
        return PyBool_FromLong(number == 1);
    case 'l':
        return number < INT32_MIN || number > INT32_MAX ? PyLong_FromLongLong(number) : wrapped(of);
    case 'b':
    case 'B':
    case 's':
    case 'u':
    case 'i':
        return wrapped(of);
    case 'T':
        return moment(of);
    case 'd':
        return fraction(from, of);
    case 'F':
    case 'A':
        return content(from, index + 1, index + 1 + of->inside, of->kind == 'F', room - 1);
    case 'V':
        Py_INCREF(Py_None);
        return Py_None;
    default:
        return rare(from, of);
    }
}

/* Adds the value of a node to a dict or list; -1, and an exception, where that fails. */
static int add(const native_source *from, const feksroum_node *of, size_t index, PyObject *to, bool is_table, int room) {
    PyObject *key = is_table ? short_text(from, of->key_start, of->key_length) : NULL;
    if (is_table && key == NULL) {
        return -1;
    }
    PyObject *made = value(from, of, index, room);
    int status = made == NULL ? -1 : is_table ? PyDict_SetItem(to, key, made) : PyList_Append(to, made);
    Py_XDECREF(key);
    Py_XDECREF(made);
    return status;
}

/* The table or array whose nodes stand from `first` to `end`. */
static PyObject *content(const native_source *from, size_t first, size_t end, bool is_table, int room) {
    if (room < 0 || first > end || end > from->count) {
        return outside();
    }
    PyObject *made = is_table ? PyDict_New() : PyList_New(0);
    while (made != NULL && first < end) {
        feksroum_node of = node_at(from, first);
        if (of.inside > end - first - 1) {
            Py_CLEAR(made);
            return outside();
        }
        if (add(from, &of, first, made, is_table, room) < 0) {
            Py_CLEAR(made);
        }
        first += 1 + (size_t)of.inside;
    }
    return made;
}

PyObject *native_table(const native_source *from, size_t first, size_t end) {
    return content(from, first, end, true, MOST_NESTED - 1);
}

PyObject *native_field(const native_source *from, size_t index, uint8_t kind) {
    feksroum_node of = node_at(from, index);
    switch (kind) {
    case FEKSROUM_FLAG:
        return PyBool_FromLong(of.number == 1);
    case FEKSROUM_SHORT_STRING:
        return short_text(from, of.start, of.length);
    case FEKSROUM_LONG_STRING:
        return is_within(from, of.start, of.length) ? PyBytes_FromStringAndSize(from->bytes + of.start, of.length) : outside();
    case FEKSROUM_TABLE:
        return native_table(from, index + 1, index + 1 + of.inside);
    default:
        return PyLong_FromUnsignedLongLong(of.number);
    }
}

/* read_table(content, nodes) */
PyObject *native_read_table(PyObject *self, PyObject *arguments) {
    (void)self;
    PyObject *octets, *nodes;
    if (!PyArg_ParseTuple(arguments, "SS", &octets, &nodes)) {
        return NULL;
    }
    native_source from = {
        octets, PyBytes_AsString(octets), PyBytes_Size(octets), 0, (const feksroum_node *)(const void *)PyBytes_AsString(nodes),
        (size_t)PyBytes_Size(nodes) / sizeof(feksroum_node)};
    return native_table(&from, 0, from.count);
}
