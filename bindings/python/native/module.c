/* The compiled part as Python sees it: its calls, and what it is told of the module. */
#include "native.h"

native_calls native_library;
native_names native_module;

/* The methods by their ids: those of classes are multiples of 5 below 100, those of methods are below 128. */
enum { CLASS_STEP = 5, CLASSES = 20, METHOD_IDS = 128, TYPE_SLOTS = 256 };
static const native_class *by_ids[CLASSES][METHOD_IDS];
static const native_class *by_type[TYPE_SLOTS];

static bool has_place(uint16_t class_id, uint16_t method_id) {
    return class_id % CLASS_STEP == 0 && class_id / CLASS_STEP < CLASSES && method_id < METHOD_IDS;
}

const native_class *native_method(uint16_t class_id, uint16_t method_id) {
    return has_place(class_id, method_id) ? by_ids[class_id / CLASS_STEP][method_id] : NULL;
}

static uint32_t type_slot(const PyObject *type) {
    return (uint32_t)(((uintptr_t)type >> 4) * UINT64_C(0x9E3779B97F4A7C15) >> 56);
}

const native_class *native_class_of(PyObject *type) {
    uint32_t slot = type_slot(type);
    for (; by_type[slot] != NULL; slot = (slot + 1) % TYPE_SLOTS) {
        if (by_type[slot]->type == type) {
            return by_type[slot];
        }
    }
    return NULL;
}

static void keep_type(const native_class *of) {
    uint32_t slot = type_slot(of->type);
    while (by_type[slot] != NULL) {
        slot = (slot + 1) % TYPE_SLOTS;
    }
    by_type[slot] = of;
}

/* Takes a class in from its type, ids, and the names and kinds of its fields. */
static bool take_class(native_class *to, PyObject *row) {
    PyObject *fields;
    unsigned int class_id, method_id;
    if (!PyArg_ParseTuple(row, "OIIO!", &to->type, &class_id, &method_id, &PyTuple_Type, &fields)) {
        return false;
    }
    to->class_id = (uint16_t)class_id;
    to->method_id = (uint16_t)method_id;
    to->count = (int)PyTuple_Size(fields);
    if (to->count > FEKSROUM_PROPERTIES) {
        PyErr_SetString(PyExc_ValueError, "a class has too many fields");
        return false;
    }
    for (int place = 0; place < to->count; place++) {
        int kind, is_time;
        PyObject **name = &to->fields[place].name;
        if (!PyArg_ParseTuple(PyTuple_GetItem(fields, place), "Uip", name, &kind, &is_time)) {
            return false;
        }
        Py_INCREF(*name);
        PyUnicode_InternInPlace(name);
        to->fields[place].kind = (uint8_t)kind;
        to->fields[place].is_time = is_time;
    }
    Py_INCREF(to->type);
    keep_type(to);
    return true;
}

static bool take_methods(PyObject *rows) {
    if (PyTuple_Size(rows) != FEKSROUM_METHODS) {
        PyErr_SetString(PyExc_ValueError, "there are other methods");
        return false;
    }
    for (int k = 0; k < FEKSROUM_METHODS; k++) {
        native_class *of = &native_module.methods[k];
        if (!take_class(of, PyTuple_GetItem(rows, k))) {
            return false;
        }
        if (!has_place(of->class_id, of->method_id)) {
            PyErr_SetString(PyExc_ValueError, "a method has other ids");
            return false;
        }
        by_ids[of->class_id / CLASS_STEP][of->method_id] = of;
    }
    return true;
}

/* bind(addresses, methods, properties, names): once, before any other call. */
PyObject *native_bind(PyObject *self, PyObject *arguments) {
    (void)self;
    static bool is_bound;
    native_names *names = &native_module;
    PyObject *methods, *properties;
    unsigned long long at[5];
    if (is_bound) {
        PyErr_SetString(PyExc_RuntimeError, "it is bound already");
        return NULL;
    }
    if (!PyArg_ParseTuple(arguments, "(KKKKK)O!O!(OOOOOOOO)", &at[0], &at[1], &at[2], &at[3], &at[4], &PyTuple_Type, &methods,
                          &PyTuple_Type, &properties, &names->frame, &names->head, &names->types, &names->numbers, &names->rare,
                          &names->plain, &names->time, &names->seconds)) {
        return NULL;
    }
    native_library.frames = (__typeof__(native_library.frames))(uintptr_t)at[0];
    native_library.write = (__typeof__(native_library.write))(uintptr_t)at[1];
    native_library.write_content = (__typeof__(native_library.write_content))(uintptr_t)at[2];
    native_library.body_head = (__typeof__(native_library.body_head))(uintptr_t)at[3];
    native_library.max_payload = (__typeof__(native_library.max_payload))(uintptr_t)at[4];
    PyObject *kept[] = {names->frame, names->head, names->types, names->numbers, names->rare, names->plain, names->time, names->seconds};
    for (size_t k = 0; k < sizeof kept / sizeof kept[0]; k++) {
        Py_INCREF(kept[k]);
    }
    if (!take_methods(methods) || !take_class(&names->properties, properties)) {
        return NULL;
    }
    is_bound = true;
    Py_RETURN_NONE;
}

static PyMethodDef calls[] = {
    {"bind", native_bind, METH_VARARGS, "Takes in the library's calls and the module's classes, once."},
    {"read", native_read, METH_VARARGS,
     "read(data, at, size, limit, found): adds some frames in front of a window to a list: (used, needed, status)."},
    {"read_table", native_read_table, METH_VARARGS, "read_table(content, nodes): the table of nodes that the library gave."},
    {"encode", native_encode, METH_VARARGS,
     "encode(channel, item, body, frame_max, body_size, class_id): the bytes of frames; None where Python is to do it."},
    {"write_table", native_write_table, METH_VARARGS, "write_table(table): the content of a table; None where Python is to do it."},
    {NULL, NULL, 0, NULL},
};

static struct PyModuleDef module = {
    PyModuleDef_HEAD_INIT, "_native", "The compiled part of feksroum.", -1, calls, NULL, NULL, NULL, NULL};

PyMODINIT_FUNC PyInit__native(void) {
    return PyModule_Create(&module);
}
