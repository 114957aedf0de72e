/* The answers of lookups, as _plain.py has them, for CPython of 3.10 and later (stable ABI). It calls no other functions of
 * the library than smap_trace and smap_compiled_trace, whose addresses it is given, and holds the lock of the interpreter throughout. */
#define PY_SSIZE_T_CLEAN
#define Py_LIMITED_API 0x030A0000
#include <Python.h>

#include "oxc_sourcemap.h"

typedef uint32_t trace_call(const smap_map *, uint32_t, uint32_t, uint32_t, smap_original *, smap_fault *);
typedef uint32_t compiled_call(const smap_compiled *, uint32_t, uint32_t, uint32_t, smap_original *);

typedef struct {
    trace_call *call;
    compiled_call *compiled;
    newfunc new_tuple;
    PyObject *original;
    PyObject *token;
} state;

static state *of(PyObject *module) { return (state *)PyModule_GetState(module); }

/* A tuple with named fields of this type, of fields that are taken; one of them may be null after an error. */
static PyObject *made(const state *my, PyObject *type, PyObject **fields, Py_ssize_t count) {
    PyObject *made = NULL, *all = PyTuple_New(count), *arguments = PyTuple_New(1);
    int is_whole = all && arguments;
    for (Py_ssize_t i = 0; i < count; i++) {
        if (!fields[i]) is_whole = 0;
        else if (!all) Py_DECREF(fields[i]);
        else PyTuple_SetItem(all, i, fields[i]);
    }
    if (is_whole) {
        PyTuple_SetItem(arguments, 0, all);
        all = NULL;
        made = my->new_tuple((PyTypeObject *)type, arguments, NULL);
    }
    Py_XDECREF(all);
    Py_XDECREF(arguments);
    return made;
}

static PyObject *none(void) {
    Py_INCREF(Py_None);
    return Py_None;
}

static PyObject *number(uint32_t value) { return PyLong_FromUnsignedLong(value); }

static PyObject *id(uint32_t value) { return value == SMAP_NO_ID ? none() : number(value); }

static PyObject *text(smap_text it) { return PyUnicode_DecodeUTF8(it.len ? it.at : "", (Py_ssize_t)it.len, NULL); }

static PyObject *token_of(const state *my, const smap_token *it) {
    PyObject *fields[] = {number(it->dst_line), number(it->dst_col), number(it->src_line),
                          number(it->src_col),  id(it->source_id),   id(it->name_id)};
    return made(my, my->token, fields, 6);
}

static PyObject *original_of(const state *my, const smap_original *it) {
    if (it->kind == SMAP_NOTHING) return none();
    int has_place = it->kind != SMAP_UNMAPPED;
    PyObject *fields[] = {has_place ? text(it->source) : none(),
                          has_place ? number(it->token.src_line) : none(),
                          has_place ? number(it->token.src_col) : none(),
                          it->kind == SMAP_NAMED ? text(it->name) : none(),
                          number(it->index),
                          token_of(my, &it->token)};
    return made(my, my->original, fields, 6);
}

/* Reads an unsigned 32-bit number, and returns 0 after an error. */
static int read_number(PyObject *it, uint32_t *out) {
    PyObject *index = PyNumber_Index(it);
    if (!index) return 0;
    unsigned long value = PyLong_AsUnsignedLong(index);
    Py_DECREF(index);
    int is_read = !PyErr_Occurred();
    if (is_read && value <= UINT32_MAX) {
        *out = (uint32_t)value;
        return 1;
    }
    if (is_read || PyErr_ExceptionMatches(PyExc_OverflowError)) PyErr_Format(PyExc_OverflowError, "%S is not from 0 to 4294967295", it);
    return 0;
}

static PyObject *bind(PyObject *module, PyObject *const *arguments, Py_ssize_t count) {
    state *my = of(module);
    if (count != 4) return PyErr_Format(PyExc_TypeError, "bind takes 4 arguments");
    void *call = PyLong_AsVoidPtr(arguments[0]), *compiled = call ? PyLong_AsVoidPtr(arguments[1]) : NULL;
    if (!compiled) return PyErr_Occurred() ? NULL : PyErr_Format(PyExc_ValueError, "no address");
    for (int i = 2; i < 4; i++)
        if (!PyType_Check(arguments[i]) || !PyType_IsSubtype((PyTypeObject *)arguments[i], &PyTuple_Type))
            return PyErr_Format(PyExc_TypeError, "answers are tuples");
    Py_INCREF(arguments[2]);
    Py_INCREF(arguments[3]);
    Py_XDECREF(my->original);
    Py_XDECREF(my->token);
    my->original = arguments[2];
    my->token = arguments[3];
    memcpy(&my->call, &call, sizeof call);
    memcpy(&my->compiled, &compiled, sizeof compiled);
    return none();
}

/* What this thread may read a map by, of what threads may: its address and a lease. Null without an error where there is none. */
static PyObject *held_in(PyObject *leases) {
    PyObject *thread = PyLong_FromUnsignedLong(PyThread_get_thread_ident());
    if (!thread) return NULL;
    PyObject *held = PyDict_GetItemWithError(leases, thread);
    Py_XINCREF(held);
    Py_DECREF(thread);
    return held;
}

/* A lookup, in a compiled map or another one. The caller holds the lease: what runs meanwhile, as __index__ or the collector may,
 * finds that it is held. */
static PyObject *traced(const state *my, int is_compiled, PyObject *held, PyObject *const *numbers) {
    uint32_t line, column, bias;
    if (!read_number(numbers[0], &line) || !read_number(numbers[1], &column) || !read_number(numbers[2], &bias)) return NULL;
    PyObject *address = PyTuple_GetItem(held, 0);
    const void *map = address ? PyLong_AsVoidPtr(address) : NULL;
    if (!map && PyErr_Occurred()) return NULL;
    smap_original found;
    uint32_t code =
        is_compiled ? my->compiled(map, line, column, bias, &found) : my->call(map, line, column, bias, &found, NULL);
    return code ? number(code) : original_of(my, &found);
}

static PyObject *trace_in(const state *my, int is_compiled, PyObject *const *arguments, Py_ssize_t count) {
    if (count != 4 || !my->call) return PyErr_Format(PyExc_TypeError, "trace takes 4 arguments, after bind");
    PyObject *held = held_in(arguments[0]);
    if (!held) return PyErr_Occurred() ? NULL : number(SMAP_NULL_HANDLE);
    PyObject *answer = traced(my, is_compiled, held, arguments + 1);
    Py_DECREF(held);
    return answer;
}

static PyObject *trace(PyObject *module, PyObject *const *arguments, Py_ssize_t count) {
    return trace_in(of(module), 0, arguments, count);
}

static PyObject *trace_compiled(PyObject *module, PyObject *const *arguments, Py_ssize_t count) {
    return trace_in(of(module), 1, arguments, count);
}

static PyObject *originals(PyObject *module, PyObject *const *arguments, Py_ssize_t count) {
    const state *my = of(module);
    if (count != 2 || !my->call) return PyErr_Format(PyExc_TypeError, "originals takes 2 arguments, after bind");
    const smap_original *all = PyLong_AsVoidPtr(arguments[0]);
    Py_ssize_t len = PyLong_AsSsize_t(arguments[1]);
    if (PyErr_Occurred()) return NULL;
    PyObject *list = PyList_New(len);
    for (Py_ssize_t i = 0; list && i < len; i++) {
        PyObject *it = original_of(my, &all[i]);
        if (it) PyList_SetItem(list, i, it);
        else Py_CLEAR(list);
    }
    return list;
}

static int traverse(PyObject *module, visitproc visit, void *arg) {
    state *my = of(module);
    Py_VISIT(my->original);
    Py_VISIT(my->token);
    return 0;
}

static int clear(PyObject *module) {
    state *my = of(module);
    my->call = NULL;
    Py_CLEAR(my->original);
    Py_CLEAR(my->token);
    return 0;
}

static void freed(void *module) { clear((PyObject *)module); }

static int begin(PyObject *module) {
    state *my = of(module);
    my->new_tuple = (newfunc)PyType_GetSlot(&PyTuple_Type, Py_tp_new);
    return my->new_tuple ? 0 : -1;
}

static PyMethodDef calls[] = {{"bind", (PyCFunction)(void (*)(void))bind, METH_FASTCALL, NULL},
                              {"trace", (PyCFunction)(void (*)(void))trace, METH_FASTCALL, NULL},
                              {"trace_compiled", (PyCFunction)(void (*)(void))trace_compiled, METH_FASTCALL, NULL},
                              {"originals", (PyCFunction)(void (*)(void))originals, METH_FASTCALL, NULL},
                              {NULL, NULL, 0, NULL}};

static PyModuleDef_Slot slots[] = {{Py_mod_exec, (void *)begin}, {0, NULL}};

static PyModuleDef definition = {PyModuleDef_HEAD_INIT, "_fast", NULL, sizeof(state), calls, slots, traverse, clear, freed};

PyMODINIT_FUNC PyInit__fast(void) { return PyModuleDef_Init(&definition); }
