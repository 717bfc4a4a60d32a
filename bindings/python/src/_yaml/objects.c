#include "loader.h"

PyObject *call(PyObject *callable, Py_ssize_t count, PyObject *const *arguments)
{
    PyObject *tuple = PyTuple_New(count), *made = NULL;
    Py_ssize_t i;
    int all = tuple != NULL;

    for (i = 0; i < count; i++) {
        all = all && arguments[i] != NULL;
        if (tuple == NULL)
            Py_XDECREF(arguments[i]);
        else if (arguments[i] != NULL)
            PyTuple_SetItem(tuple, i, arguments[i]); /* a new tuple, and in range: this doesn't fail */
    }
    if (all)
        made = PyObject_Call(callable, tuple, NULL);
    Py_XDECREF(tuple);
    return made;
}

PyObject *attribute_if_any(PyObject *object, PyObject *name)
{
    PyObject *value = PyObject_GetAttr(object, name);

    if (value == NULL && PyErr_ExceptionMatches(PyExc_AttributeError))
        PyErr_Clear();
    return value;
}

PyObject *give_none(PyObject *object, PyObject *nothing)
{
    (void)object;
    (void)nothing;
    return shared(Py_None); /* Py_RETURN_NONE of later headers counts on an immortal None */
}

int grow(void *array, void *first, size_t *room, size_t least, size_t size)
{
    size_t wanted = 2 * *room < least ? least : 2 * *room;
    void *old, *made;

    memcpy(&old, array, sizeof old);
    made = wanted > PY_SSIZE_T_MAX / size ? NULL : PyMem_Realloc(old == first ? NULL : old, wanted * size);
    if (made == NULL) {
        PyErr_NoMemory();
        return -1;
    }
    if (old == first && first != NULL)
        memcpy(made, first, *room * size);
    memcpy(array, &made, sizeof made);
    *room = wanted;
    return 0;
}
