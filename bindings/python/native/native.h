/* The compiled part of the module: what its files share. It is built for the stable interface of Python 3.8, so one library serves all
 * later ones, and calls the same library as the rest of the module. It is not proved, and nothing of it is needed: where it is not built,
 * the module does the same in Python. Whatever is refused is refused by that code, which says why.
 *
 * The interpreter's lock guards all that is kept between calls. */
#ifndef FEKSROUM_NATIVE_H
#define FEKSROUM_NATIVE_H

#define PY_SSIZE_T_CLEAN
#ifndef Py_LIMITED_API
#define Py_LIMITED_API 0x03080000
#endif
#include <Python.h>
#include <feksroum.h>
#include <stdbool.h>
#include <stdint.h>
#include <string.h>

/* The calls of the library, by the addresses that the module has found. */
typedef struct native_calls {
    __typeof__(feksroum_frames) *frames;
    __typeof__(feksroum_write) *write;
    __typeof__(feksroum_write_content) *write_content;
    __typeof__(feksroum_body_head) *body_head;
    __typeof__(feksroum_max_payload) *max_payload;
} native_calls;
extern native_calls native_library;

/* A class of fields: a method, or the properties. */
typedef struct native_class {
    PyObject *type;
    uint16_t class_id, method_id; /* of a method */
    int count;
    struct {
        PyObject *name;
        uint8_t kind;
        bool is_time; /* a number that is read and written as a time */
    } fields[FEKSROUM_PROPERTIES];
} native_class;

/* What is called and made of the module in Python. */
typedef struct native_names {
    native_class methods[FEKSROUM_METHODS], properties;
    PyObject *frame, *head; /* the classes of frames and of their heads */
    PyObject *types; /* a frame's type by the byte that names it: a dict */
    PyObject *numbers; /* the class of each kind of whole numbers: a dict */
    PyObject *rare; /* makes the values that no loop makes */
    PyObject *plain; /* says what is written for such a value */
    PyObject *time; /* makes a time of seconds */
    PyObject *seconds; /* makes seconds of a time */
} native_names;
extern native_names native_module;

/* The method of some ids, and what a type is the class of; NULL where there is none. */
const native_class *native_method(uint16_t class_id, uint16_t method_id);
const native_class *native_class_of(PyObject *type);

/* What is read from: the bytes, and nodes whose spans count from their front. */
typedef struct native_source {
    PyObject *object; /* the bytes as an object, which begin `skipped` bytes before */
    const char *bytes;
    Py_ssize_t length, skipped;
    const feksroum_node *nodes;
    size_t count;
} native_source;

/* The table whose nodes stand from `first` to `end`; the value of a field whose node stands at an index. */
PyObject *native_table(const native_source *from, size_t first, size_t end);
PyObject *native_field(const native_source *from, size_t index, uint8_t kind);

/* How a call went: done; not done, and Python is to do it or to say why not; or an exception is set. */
typedef enum native_status { NATIVE_DONE, NATIVE_LEFT, NATIVE_RAISED } native_status;

/* Nodes that are made one after another, and the pool in which their strings lie. A few need no memory. */
enum { NATIVE_FEW_NODES = 64, NATIVE_FEW_BYTES = 1024 };
typedef struct native_list {
    feksroum_node *nodes;
    uint8_t *pool;
    size_t count, room, length, bytes;
    feksroum_node few[NATIVE_FEW_NODES];
    uint8_t little[NATIVE_FEW_BYTES];
} native_list;

void native_begin(native_list *list);
void native_end(native_list *list);
native_status native_add_fields(native_list *list, const native_class *of, PyObject *item);
native_status native_add_entries(native_list *list, PyObject *table);

/* What to do where an exception is set: a refusal is left to Python, all else is raised. */
native_status native_left(void);

/* The calls of this module. */
PyObject *native_bind(PyObject *self, PyObject *arguments);
PyObject *native_read(PyObject *self, PyObject *arguments);
PyObject *native_read_table(PyObject *self, PyObject *arguments);
PyObject *native_encode(PyObject *self, PyObject *arguments);
PyObject *native_write_table(PyObject *self, PyObject *arguments);

#endif
