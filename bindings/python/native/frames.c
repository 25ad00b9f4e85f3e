/* Frames out of bytes: the library finds them and lists their fields, and each becomes an object as _frames.py makes it. */
#include "native.h"

/* So many frames are read by one call at most, and so many nodes where no frame has more. So a call is short, and keeps the interpreter's
 * lock. */
enum { HEADS = 64, NODES = 1024 };

static int set(PyObject *object, PyObject *name, PyObject *value) {
    int status = value == NULL ? -1 : PyObject_SetAttr(object, name, value);
    Py_XDECREF(value);
    return status;
}

static PyObject *blank(PyObject *type) {
    return PyType_GenericAlloc((PyTypeObject *)type, 0);
}

/* The method whose fields' nodes begin at an index. */
static PyObject *method(const native_source *from, const native_class *of, size_t index, size_t end) {
    PyObject *made = blank(of->type);
    for (int place = 0; made != NULL && place < of->count; place++) {
        if (index >= end) {
            PyErr_SetString(PyExc_ValueError, "a field misses");
            Py_CLEAR(made);
        } else if (set(made, of->fields[place].name, native_field(from, index, of->fields[place].kind)) < 0) {
            Py_CLEAR(made);
        } else {
            index += 1 + (size_t)from->nodes[index].inside;
        }
    }
    return made;
}

/* The properties whose nodes stand from one index to another: None for those that are not there. */
static PyObject *properties(const native_source *from, size_t index, size_t end) {
    const native_class *of = &native_module.properties;
    PyObject *made = blank(of->type);
    for (int place = 0; made != NULL && place < of->count; place++) {
        PyObject *found = Py_None;
        if (index >= end || from->nodes[index].place != place) {
            Py_INCREF(found);
        } else {
            found = of->fields[place].is_time
                        ? PyObject_CallFunction(native_module.time, "K", (unsigned long long)from->nodes[index].number)
                        : native_field(from, index, of->fields[place].kind);
            index += 1 + (size_t)from->nodes[index].inside;
        }
        if (set(made, of->fields[place].name, found) < 0) {
            Py_CLEAR(made);
        }
    }
    return made;
}

/* What stands in a frame: a method or properties; None where it is no frame of this type. */
static PyObject *item(const native_source *from, const feksroum_head *head, uint8_t type) {
    size_t first = head->first, end = first + head->nodes;
    if (head->type != type) {
        Py_RETURN_NONE;
    }
    const native_class *of = type == FEKSROUM_METHOD ? native_method(head->class_id, head->method_id) : &native_module.properties;
    if (of == NULL || end > from->count) {
        PyErr_SetString(PyExc_ValueError, "a head lies outside");
        return NULL;
    }
    return type == FEKSROUM_METHOD ? method(from, of, first, end) : properties(from, first, end);
}

/* The names of a frame's slots. */
static PyObject *slot_names[7];

static bool has_slot_names(void) {
    static const char *const spelled[7] = {"type", "channel", "method", "properties", "_head", "_source", "_start"};
    for (int k = 0; k < 7; k++) {
        if (slot_names[k] == NULL && (slot_names[k] = PyUnicode_InternFromString(spelled[k])) == NULL) {
            return false;
        }
    }
    return true;
}

/* A frame's type, by the byte that names it. */
static PyObject *type_of(uint8_t byte) {
    static PyObject *types[256];
    if (types[byte] == NULL) {
        PyObject *key = PyLong_FromLong(byte);
        types[byte] = key == NULL ? NULL : PyDict_GetItemWithError(native_module.types, key);
        Py_XDECREF(key);
        Py_XINCREF(types[byte]);
    }
    if (types[byte] == NULL && !PyErr_Occurred()) {
        PyErr_SetString(PyExc_ValueError, "a byte names no type");
    }
    Py_XINCREF(types[byte]);
    return types[byte];
}

/* A head as a _library.Head: a tuple of its numbers, made without a call of that class. */
static PyObject *numbers(const feksroum_head *head) {
    unsigned long long found[10] = {head->body_size, head->start, head->length, head->first, head->nodes,
                                    head->channel, head->class_id, head->method_id, head->type, head->form};
    PyObject *made = PyType_GenericAlloc((PyTypeObject *)native_module.head, 10);
    for (Py_ssize_t k = 0; made != NULL && k < 10; k++) {
        PyObject *number = PyLong_FromUnsignedLongLong(found[k]);
        if (number == NULL || PyTuple_SetItem(made, k, number) < 0) {
            Py_CLEAR(made);
        }
    }
    return made;
}

/* A frame, whose spans count from a place in the source. */
static PyObject *frame(const native_source *from, const feksroum_head *head) {
    PyObject *made = blank(native_module.frame);
    Py_INCREF(from->object);
    PyObject *source = from->object;
    if (made != NULL && set(made, slot_names[0], type_of(head->type)) == 0 &&
        set(made, slot_names[1], PyLong_FromLong(head->channel)) == 0 && set(made, slot_names[2], item(from, head, FEKSROUM_METHOD)) == 0 &&
        set(made, slot_names[3], item(from, head, FEKSROUM_HEADER)) == 0 && set(made, slot_names[4], numbers(head)) == 0 &&
        PyObject_SetAttr(made, slot_names[5], source) == 0 &&
        set(made, slot_names[6], PyLong_FromSsize_t(from->skipped + (Py_ssize_t)head->start)) == 0) {
        Py_DECREF(source);
        return made;
    }
    Py_DECREF(source);
    Py_XDECREF(made);
    return NULL;
}

/* Lists of heads and of nodes: few need no memory. */
typedef struct lists {
    feksroum_head heads[HEADS];
    feksroum_node few[NODES], *many;
    const feksroum_node *nodes;
} lists;

/* As many frames as there is room for, and one at least where one is in front. */
static feksroum_batch call(const uint8_t *bytes, size_t size, uint32_t limit, lists *to) {
    feksroum_batch end = native_library.frames(bytes, size, limit, FEKSROUM_DEEP, to->heads, HEADS, to->few, NODES);
    to->many = NULL;
    to->nodes = to->few;
    if (end.status != FEKSROUM_BUFFER_TOO_SMALL || end.heads != 0) {
        return end;
    }
    size_t room = (size_t)end.needed;
    to->nodes = to->many = PyMem_Malloc(room * sizeof *to->many);
    if (to->many == NULL) {
        end.status = FEKSROUM_NO_MEMORY;
        return end;
    }
    return native_library.frames(bytes, size, limit, FEKSROUM_DEEP, to->heads, HEADS, to->many, room);
}

/* Adds frames to a list; -1, and an exception, where that fails. */
static int add_all(PyObject *found, const native_source *from, const feksroum_head *heads, size_t count) {
    for (size_t k = 0; k < count; k++) {
        PyObject *made = frame(from, &heads[k]);
        int status = made == NULL ? -1 : PyList_Append(found, made);
        Py_XDECREF(made);
        if (status < 0) {
            return -1;
        }
    }
    return 0;
}

/* How far the frames go: (used, needed, status). */
static PyObject *ended(const feksroum_batch *end) {
    PyObject *used = PyLong_FromUnsignedLongLong(end->used), *needed = PyLong_FromUnsignedLongLong(end->needed);
    PyObject *status = PyLong_FromUnsignedLong(end->status), *made = NULL;
    if (used != NULL && needed != NULL && status != NULL) {
        made = PyTuple_Pack(3, used, needed, status);
    }
    Py_XDECREF(used);
    Py_XDECREF(needed);
    Py_XDECREF(status);
    return made;
}

/* What is read: bytes, a window of them, and the longest payload. */
typedef struct window {
    PyObject *data, *found;
    Py_ssize_t at, size;
    uint32_t limit;
} window;

/* Takes the arguments in by hand, which is quicker than by a format; false, and an exception, where they are none. */
static bool take(window *to, PyObject *arguments) {
    if (PyTuple_Size(arguments) != 5 || !PyBytes_Check(PyTuple_GetItem(arguments, 0)) || !PyList_Check(PyTuple_GetItem(arguments, 4))) {
        PyErr_SetString(PyExc_TypeError, "read(data, at, size, limit, found) is wanted");
        return false;
    }
    to->data = PyTuple_GetItem(arguments, 0);
    to->found = PyTuple_GetItem(arguments, 4);
    to->at = PyLong_AsSsize_t(PyTuple_GetItem(arguments, 1));
    to->size = PyErr_Occurred() ? -1 : PyLong_AsSsize_t(PyTuple_GetItem(arguments, 2));
    unsigned long limit = PyErr_Occurred() ? 0 : PyLong_AsUnsignedLong(PyTuple_GetItem(arguments, 3));
    to->limit = limit < UINT32_MAX ? (uint32_t)limit : UINT32_MAX;
    if (PyErr_Occurred()) {
        return false;
    }
    Py_ssize_t length = PyBytes_Size(to->data);
    if (to->at < 0 || to->size < 0 || to->at > length) {
        PyErr_SetString(PyExc_ValueError, "a window lies outside");
        return false;
    }
    to->size = to->size < length - to->at ? to->size : length - to->at;
    return true;
}

/* read(data, at, size, limit, found) */
PyObject *native_read(PyObject *self, PyObject *arguments) {
    (void)self;
    window what;
    lists to;
    if (!has_slot_names() || !take(&what, arguments)) {
        return NULL;
    }
    const char *bytes = PyBytes_AsString(what.data) + what.at;
    feksroum_batch end = call((const uint8_t *)bytes, (size_t)what.size, what.limit, &to);
    native_source from = {what.data, bytes, what.size, what.at, to.nodes, end.nodes};
    int status = add_all(what.found, &from, to.heads, end.heads);
    PyMem_Free(to.many);
    return status < 0 ? NULL : ended(&end);
}
