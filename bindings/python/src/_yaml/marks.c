/* The type Mark: a place in a text, which may be copied and pickled. It is none of the collector's: the name of
 * a stream is a text or a number. */
#include "loader.h"
#include <structmember.h>

typedef struct {
    PyObject_HEAD
    PyObject *name;
    yaml_mark_t at;
} mark_object;

PyObject *make_mark(PyObject *name, const yaml_mark_t *at)
{
    mark_object *mark = PyObject_New(mark_object, its.mark);

    if (mark == NULL)
        return NULL;
    mark->name = shared(name);
    mark->at = *at;
    return (PyObject *)mark;
}

yaml_mark_t place_of_mark(PyObject *mark)
{
    return Py_TYPE(mark) == its.mark ? ((mark_object *)mark)->at : (yaml_mark_t){0, 0, 0};
}

PyObject *name_of(PyObject *given)
{
    PyObject *text, *name;

    if (PyUnicode_CheckExact(given) || PyLong_CheckExact(given))
        return shared(given);
    text = PyObject_Str(given);
    name = text == NULL ? NULL : PyUnicode_FromObject(text); /* the text may be of a class of its own */
    Py_XDECREF(text);
    return name;
}

/* Puts a number of a place; 0 where it is none, or too large. */
static int take_number(PyObject *given, void *place)
{
    PyObject *number = PyNumber_Index(given);
    uint64_t value = number == NULL ? 0 : PyLong_AsUnsignedLongLong(number);

    Py_XDECREF(number);
    if (PyErr_Occurred())
        return 0;
    memcpy(place, &value, sizeof value);
    return 1;
}

static PyObject *mark_new(PyTypeObject *type, PyObject *arguments, PyObject *keywords)
{
    static char *names[] = {"name", "index", "line", "column", "buffer", "pointer", NULL};
    PyObject *given, *buffer = NULL, *pointer = NULL, *name, *mark;
    yaml_mark_t at;

    (void)type; /* it has no subclass */
    if (!PyArg_ParseTupleAndKeywords(arguments, keywords, "OO&O&O&|OO:Mark", names, &given, take_number,
                                     &at.index, take_number, &at.line, take_number, &at.column, &buffer,
                                     &pointer))
        return NULL;
    name = name_of(given);
    mark = name == NULL ? NULL : make_mark(name, &at);
    Py_XDECREF(name);
    return mark;
}

static void mark_dealloc(PyObject *object)
{
    PyTypeObject *type = Py_TYPE(object);

    Py_DECREF(((mark_object *)object)->name);
    PyObject_Free(object);
    Py_DECREF(type);
}

static PyObject *mark_str(PyObject *object)
{
    const mark_object *mark = (mark_object *)object;

    return PyUnicode_FromFormat("  in \"%S\", line %zu, column %zu", mark->name, (size_t)mark->at.line + 1,
                                (size_t)mark->at.column + 1);
}

static PyObject *mark_reduce(PyObject *object, PyObject *nothing)
{
    const mark_object *mark = (mark_object *)object;

    (void)nothing;
    return Py_BuildValue("O(OKKK)", its.mark, mark->name, (unsigned long long)mark->at.index,
                         (unsigned long long)mark->at.line, (unsigned long long)mark->at.column);
}

static PyMemberDef mark_members[] = {
    {"name", T_OBJECT_EX, offsetof(mark_object, name), READONLY, "Of the stream."},
    {"index", T_ULONGLONG, offsetof(mark_object, at.index), READONLY, "In characters, from 0."},
    {"line", T_ULONGLONG, offsetof(mark_object, at.line), READONLY, "From 0."},
    {"column", T_ULONGLONG, offsetof(mark_object, at.column), READONLY, "In characters, from 0."},
    {NULL, 0, 0, 0, NULL},
};

static PyMethodDef mark_methods[] = {
    {"get_snippet", give_none, METH_NOARGS, "Returns None: no text is kept."},
    {"__reduce__", mark_reduce, METH_NOARGS, NULL},
    {NULL, NULL, 0, NULL},
};

static PyType_Slot mark_slots[] = {
    {Py_tp_doc, "A place in a text."},
    {Py_tp_new, mark_new},
    {Py_tp_dealloc, mark_dealloc},
    {Py_tp_str, mark_str},
    {Py_tp_members, mark_members},
    {Py_tp_methods, mark_methods},
    {0, NULL},
};

PyType_Spec mark_spec = {"pokhvizi._yaml.Mark", sizeof(mark_object), 0, Py_TPFLAGS_DEFAULT, mark_slots};
