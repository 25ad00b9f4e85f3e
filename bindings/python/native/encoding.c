/* Frames into bytes: the fields of methods and properties become nodes, of which the library writes the frame; bodies are cut. Where
 * anything is refused, or is of a type that is not frequent, the result is None, and Python does it or says why not. */
#include "native.h"

/* So many bytes are written without asking first how many they are. */
enum { FEW_BYTES = 2048, AROUND = 8 };

/* What is sent, as it was given. */
typedef struct sent {
    uint16_t channel, class_id;
    uint32_t limit;
    PyObject *item, *body;
    uint64_t size;
} sent;

/* Writes the one frame of fields at the front of a buffer, as the library does. */
static feksroum_written write_fields(const sent *what, const native_class *of, const native_list *list, uint8_t *out, size_t room) {
    feksroum_head head = {0};
    head.channel = what->channel;
    head.nodes = (uint32_t)list->count;
    if (of == &native_module.properties) {
        head.type = FEKSROUM_HEADER;
        head.class_id = what->class_id;
        head.body_size = what->size;
    } else {
        head.type = FEKSROUM_METHOD;
        head.class_id = of->class_id;
        head.method_id = of->method_id;
    }
    return native_library.write(&head, 1, list->nodes, list->count, list->pool, list->length, what->limit, out, room);
}

/* How many bytes the frames of a body have. */
static uint64_t bodies_length(size_t length, uint32_t limit) {
    return length + (uint64_t)AROUND * (length / limit + (length % limit != 0));
}

/* Writes the frames of a body, each as long as it may be. */
static void write_bodies(uint16_t channel, const uint8_t *bytes, size_t length, uint32_t limit, uint8_t *out) {
    while (length > 0) {
        uint32_t some = length < limit ? (uint32_t)length : limit;
        size_t front = native_library.body_head(channel, some, out, FEKSROUM_BODY_HEAD);
        memcpy(out + front, bytes, some);
        out[front + some] = FEKSROUM_FRAME_END;
        out += front + some + 1;
        bytes += some;
        length -= some;
    }
}

/* The frame of fields, and those of a body after it. */
static PyObject *with_body(const sent *what, const native_class *of, const native_list *list) {
    uint8_t few[FEW_BYTES];
    feksroum_written written = write_fields(what, of, list, few, sizeof few);
    if (written.status != FEKSROUM_OK && written.status != FEKSROUM_BUFFER_TOO_SMALL) {
        Py_RETURN_NONE;
    }
    size_t length = what->body == Py_None ? 0 : (size_t)PyBytes_Size(what->body);
    uint64_t whole = written.length + bodies_length(length, what->limit);
    PyObject *made = whole > PY_SSIZE_T_MAX ? PyErr_NoMemory() : PyBytes_FromStringAndSize(NULL, (Py_ssize_t)whole);
    if (made == NULL) {
        return NULL;
    }
    uint8_t *out = (uint8_t *)PyBytes_AsString(made);
    if (written.status == FEKSROUM_OK) {
        memcpy(out, few, (size_t)written.length);
    } else if (write_fields(what, of, list, out, (size_t)written.length).status != FEKSROUM_OK) {
        Py_DECREF(made);
        Py_RETURN_NONE;
    }
    if (length > 0) {
        write_bodies(what->channel, (const uint8_t *)PyBytes_AsString(what->body), length, what->limit, out + written.length);
    }
    return made;
}

static PyObject *encode_fields(const sent *what, const native_class *of) {
    native_list list;
    native_begin(&list);
    native_status status = native_add_fields(&list, of, what->item);
    PyObject *made = NULL;
    if (status == NATIVE_DONE) {
        made = with_body(what, of, &list);
    } else if (status == NATIVE_LEFT) {
        Py_INCREF(Py_None);
        made = Py_None;
    }
    native_end(&list);
    return made;
}

/* A whole number of so many bits, of the type int itself; false where it is none. */
static bool whole(PyObject *value, int bits, uint64_t *number) {
    if (Py_TYPE(value) != &PyLong_Type) {
        return false;
    }
    *number = PyLong_AsUnsignedLongLong(value);
    if (*number == UINT64_MAX && PyErr_Occurred()) {
        PyErr_Clear();
        return false;
    }
    return bits == 64 || *number >> bits == 0;
}

/* encode(channel, item, body, frame_max, body_size, class_id) */
PyObject *native_encode(PyObject *self, PyObject *arguments) {
    (void)self;
    PyObject *channel, *item, *body, *frame_max, *body_size, *class_id;
    uint64_t number, most, class_number;
    if (!PyArg_ParseTuple(arguments, "OOOOOO", &channel, &item, &body, &frame_max, &body_size, &class_id)) {
        return NULL;
    }
    const native_class *of = native_class_of((PyObject *)Py_TYPE(item));
    if (of == NULL || !whole(channel, 16, &number) || !whole(frame_max, 32, &most) || !whole(class_id, 16, &class_number)) {
        Py_RETURN_NONE;
    }
    sent what = {(uint16_t)number, (uint16_t)class_number, native_library.max_payload((uint32_t)most), item, body, 0};
    bool is_header = of == &native_module.properties;
    bool has_body = body != Py_None && is_header && Py_TYPE(body) == &PyBytes_Type && body_size == Py_None;
    if (what.limit == 0 || (body != Py_None && !has_body) || (body_size != Py_None && !(is_header && whole(body_size, 64, &what.size)))) {
        Py_RETURN_NONE;
    }
    what.size = has_body ? (uint64_t)PyBytes_Size(body) : what.size;
    return encode_fields(&what, of);
}

/* write_table(table) */
PyObject *native_write_table(PyObject *self, PyObject *arguments) {
    (void)self;
    PyObject *table, *made = NULL;
    native_list list;
    if (!PyArg_ParseTuple(arguments, "O", &table)) {
        return NULL;
    }
    native_begin(&list);
    native_status status = native_add_entries(&list, table);
    feksroum_written written = {0};
    if (status == NATIVE_DONE) {
        written = native_library.write_content('F', list.nodes, list.count, list.pool, list.length, NULL, 0);
        bool is_long = written.status == FEKSROUM_BUFFER_TOO_SMALL;
        status = is_long || written.status == FEKSROUM_OK ? NATIVE_DONE : NATIVE_LEFT;
    }
    if (status == NATIVE_DONE) {
        made = PyBytes_FromStringAndSize(NULL, (Py_ssize_t)written.length);
    } else if (status == NATIVE_LEFT) {
        Py_INCREF(Py_None);
        made = Py_None;
    }
    if (status == NATIVE_DONE && made != NULL && written.length > 0) {
        uint8_t *out = (uint8_t *)PyBytes_AsString(made);
        written = native_library.write_content('F', list.nodes, list.count, list.pool, list.length, out, (size_t)written.length);
        if (written.status != FEKSROUM_OK) {
            PyErr_SetString(PyExc_AssertionError, "the library writes a table by one of two calls");
            Py_CLEAR(made);
        }
    }
    native_end(&list);
    return made;
}
