/* What a server calls for each request, without ctypes, which takes longer than the library does.
 * `bind` makes of a handle what the others are given, with an index and two texts. For a match they return True, or what is written of it, or
 * its index with that; and else False, as `allows` of a policy. For what is left to ctypes they return None, with nothing done: a text that is
 * no plain str, or long, as the interpreter's lock is held, or without UTF-8; a match that needs more room; and each error. */
#define Py_LIMITED_API 0x030A0000
#include <Python.h>
#include "urlpattern.h"

#define NAME "urlpattern._quick"
enum { TEST, CAPTURES, FIRST, DECIDE, CALLS, SPANS = 14, ROOM = 4096, LONGEST = 4096 };

/* A handle, which its owner frees, and the addresses of its calls, each of which may be 0. Of a
 * router the first match is that of `urlpattern_router_at`: its texts are a method and a path. */
typedef struct { PyObject *owner; Py_ssize_t handle, calls[CALLS]; } bound;
#define CALL(name, ...) ((__typeof__(urlpattern_##name) *)it->calls[which])((void *)it->handle, __VA_ARGS__)

/* A match as _library.py reads it, with as many spans. */
typedef struct {
    urlpattern_sizes sizes;
    urlpattern_span spans[SPANS];
    char text[ROOM];
} match;
#define IN(it) it.text, ROOM, it.spans, SPANS, &it.sizes

static void release(PyObject *capsule) {
    bound *it = PyCapsule_GetPointer(capsule, NAME);
    Py_DECREF(it->owner);
    PyMem_Free(it);
}

static PyObject *bind(PyObject *module, PyObject *given) {
    PyObject *made = NULL;
    bound *it = PyMem_Calloc(1, sizeof *it);
    if (!it) return PyErr_NoMemory();
    Py_ssize_t *to = it->calls;
    if (PyArg_ParseTuple(given, "Onnnnn", &it->owner, &it->handle, to, to + 1, to + 2, to + 3)) made = PyCapsule_New(it, NAME, release);
    if (made) Py_INCREF(it->owner); else PyMem_Free(it);
    return made;
}

static const char *text_of(PyObject *given, Py_ssize_t *size) {
    int is_short = PyUnicode_CheckExact(given) && PyUnicode_GetLength(given) <= LONGEST;
    const char *text = is_short ? PyUnicode_AsUTF8AndSize(given, size) : NULL;
    if (!text) PyErr_Clear();
    return text;
}

static PyObject *call(int which, PyObject *const *given, Py_ssize_t count) {
    if (count != 4) return PyErr_Format(PyExc_TypeError, "a call has 4 arguments, not %zd", count);
    bound *it = PyCapsule_GetPointer(given[0], NAME);
    size_t index = it ? PyLong_AsSize_t(given[1]) : 0;
    if (PyErr_Occurred()) return NULL;
    Py_ssize_t size, rest;
    const char *url = text_of(given[2], &size), *base = text_of(given[3], &rest);
    if (!url || !base || !it->calls[which]) Py_RETURN_NONE;
    if (which == DECIDE) return PyBool_FromLong(CALL(policy_decide, url, size, base, rest, &index) == URLPATTERN_ALLOW);
    match found;
    memset(&found, 0, offsetof(match, text));
    urlpattern_status status =
        which == TEST ? CALL(test, index, url, size, base, rest)
        : which == CAPTURES ? CALL(captures, index, url, size, base, rest, IN(found))
        : CALL(first_captures, url, size, base, rest, &index, IN(found));
    if (status > URLPATTERN_NO_URL) Py_RETURN_NONE;
    if (which == TEST || status != URLPATTERN_DONE) return PyBool_FromLong(status == URLPATTERN_DONE);
    PyObject *data = PyBytes_FromStringAndSize((char *)&found, offsetof(match, text) + found.sizes.bytes);
    return data && which == FIRST ? Py_BuildValue("nN", (Py_ssize_t)index, data) : data;
}

#define METHOD(name, which) static PyObject *name(PyObject *of, PyObject *const *given, Py_ssize_t count) { return call(which, given, count); }
METHOD(test, TEST) METHOD(captures, CAPTURES) METHOD(first, FIRST) METHOD(allows, DECIDE)
#define NAMED(name) { #name, (PyCFunction)(void (*)(void))name, METH_FASTCALL, NULL }
static PyMethodDef methods[] = { NAMED(test), NAMED(captures), NAMED(first), NAMED(allows), { "bind", bind, METH_VARARGS, NULL }, { 0 } };
static PyModuleDef definition = { PyModuleDef_HEAD_INIT, .m_name = "_quick", .m_methods = methods };

PyMODINIT_FUNC PyInit__quick(void) {
    return PyModuleDef_Init(&definition);
}
