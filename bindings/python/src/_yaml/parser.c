/* The type CParser: its methods, and its life. */
#include "loader.h"

/* ---- Calls ---- */

/* Begins a call, beside which no other may use the parser, nor after an error. */
static int enter(parser_object *parser)
{
    switch (parser->standing) {
    case READY:
        parser->standing = BUSY;
        return 0;
    case BUSY:
        PyErr_SetString(PyExc_RuntimeError, "the loader is in use");
        return -1;
    case BROKEN:
        if (parser->scanner.error != YAML_NO_ERROR)
            return raise_fault(parser);
        PyErr_SetString(its.yaml_error, "an earlier call of this loader failed");
        return -1;
    default:
        PyErr_SetString(PyExc_ValueError, "the loader has no stream");
        return -1;
    }
}

static PyObject *during(PyObject *object, PyObject *(*act)(parser_object *))
{
    parser_object *parser = (parser_object *)object;
    PyObject *made;

    if (enter(parser) < 0)
        return NULL;
    made = act(parser);
    parser->standing = made == NULL ? BROKEN : READY;
    return made;
}

/* Whether something comes, of one of these classes where some are named. */
static PyObject *check(PyObject *object, PyObject *classes, PyObject *(*peek)(parser_object *))
{
    PyObject *next = during(object, peek);
    Py_ssize_t count = PyTuple_Size(classes), i; /* as METH_VARARGS has them, so this doesn't fail */
    int is_one = next != NULL && next != Py_None && count == 0;

    if (next == NULL)
        return NULL;
    for (i = 0; next != Py_None && i < count; i++)
        is_one |= PyTuple_GetItem(classes, i) == (PyObject *)Py_TYPE(next);
    Py_DECREF(next);
    return PyBool_FromLong(is_one);
}

/* ---- Tokens and events ---- */

static PyObject *next_token(parser_object *parser)
{
    PyObject *token = parser->current_token;

    parser->current_token = NULL;
    if (token != NULL)
        return token;
    if (parser->event.type != YAML_NO_EVENT) { /* a document was asked for */
        PyErr_SetString(PyExc_RuntimeError, "a token is asked for where a document comes next");
        return NULL;
    }
    return take_token(parser);
}

static PyObject *peeked_token(parser_object *parser)
{
    parser->current_token = next_token(parser);
    return parser->current_token == NULL ? NULL : shared(parser->current_token);
}

static PyObject *next_event(parser_object *parser)
{
    PyObject *event = parser->current_event;

    parser->current_event = NULL;
    if (event != NULL || take_event(parser, 1) < 0)
        return event;
    event = event_object(parser);
    leave_event(parser);
    return event;
}

static PyObject *peeked_event(parser_object *parser)
{
    parser->current_event = next_event(parser);
    return parser->current_event == NULL ? NULL : shared(parser->current_event);
}

/* ---- Documents ---- */

/* Passes the stream's start, and has the event after it at hand: whether a document comes. */
static int has_document(parser_object *parser)
{
    if (take_event(parser, 1) < 0)
        return -1;
    if (parser->event.type == YAML_STREAM_START_EVENT) {
        leave_event(parser);
        if (take_event(parser, 1) < 0)
            return -1;
    }
    return parser->event.type != YAML_NO_EVENT && parser->event.type != YAML_STREAM_END_EVENT;
}

static PyObject *checked_node(parser_object *parser)
{
    int comes = has_document(parser);

    return comes < 0 ? NULL : PyBool_FromLong(comes);
}

static PyObject *next_node(parser_object *parser)
{
    int comes = has_document(parser);

    if (comes < 0)
        return NULL;
    return comes ? compose_document(parser) : shared(Py_None);
}

static PyObject *single_node(parser_object *parser)
{
    PyObject *root = next_node(parser);
    int comes = root == NULL ? -1 : has_document(parser);

    if (comes > 0)
        refuse_event(parser, root, "expected a single document in the stream", "but found another document");
    if (comes != 0)
        Py_CLEAR(root);
    return root;
}

/* ---- Methods ---- */

static PyObject *check_token(PyObject *object, PyObject *classes)
{
    return check(object, classes, peeked_token);
}

static PyObject *check_event(PyObject *object, PyObject *classes)
{
    return check(object, classes, peeked_event);
}

#define METHOD(name, act) \
    static PyObject *name(PyObject *object, PyObject *nothing) \
    { \
        (void)nothing; \
        return during(object, act); \
    }

METHOD(get_token, next_token)
METHOD(peek_token, peeked_token)
METHOD(get_event, next_event)
METHOD(peek_event, peeked_event)
METHOD(check_node, checked_node)
METHOD(get_node, next_node)
METHOD(get_single_node, single_node)

/* ---- Life ---- */

/* Gives back what the stream takes. What others wrote may run as the last lets its objects go, so all is in
 * order by then. */
static int parser_clear(PyObject *object)
{
    parser_object *parser = (parser_object *)object;
    PyObject *objects[] = {
        parser->stream.source, parser->stream.name, parser->stream.rest, parser->current_token,
        parser->current_event,
    };
    size_t i;

    parser->stream.source = parser->stream.name = parser->stream.rest = NULL;
    parser->current_token = parser->current_event = NULL;
    if (parser->standing != UNBORN) {
        parser->standing = UNBORN;
        yaml_event_delete(&parser->event);
        yaml_parser_delete(&parser->scanner);
    }
    for (i = 0; i < LENGTH(objects); i++)
        Py_XDECREF(objects[i]);
    return 0;
}

static int parser_traverse(PyObject *object, visitproc visit, void *arg)
{
    parser_object *parser = (parser_object *)object;

    if (its.is_new) /* 3.8 does so by itself */
        Py_VISIT(Py_TYPE(object));
    Py_VISIT(parser->stream.source);
    Py_VISIT(parser->stream.name);
    Py_VISIT(parser->current_token);
    Py_VISIT(parser->current_event);
    return 0; /* the others are texts, and a dict of texts and numbers */
}

static void parser_dealloc(PyObject *object)
{
    PyTypeObject *type = Py_TYPE(object);

    PyObject_GC_UnTrack(object);
    parser_clear(object);
    ((freefunc)PyType_GetSlot(type, Py_tp_free))(object);
    if (its.is_new || Py_REFCNT(type) > 1) /* 3.8 looks at a class after its last instance has let it go */
        Py_DECREF(type);
}

/* Puts the loader's bound of this name; `most` if it is None or a larger number. */
static int find_bound(parser_object *parser, PyObject *name, size_t most, size_t *bound)
{
    PyObject *found = PyObject_GetAttr((PyObject *)parser, name);
    int is_larger = found == Py_None, done = found == NULL ? -1 : 0;
    long long number = 0;

    if (found != NULL && found != Py_None)
        number = PyLong_Check(found) && !PyBool_Check(found) ? PyLong_AsLongLongAndOverflow(found, &is_larger) : -1;
    if (number < 0 && is_larger <= 0) {
        PyErr_Format(PyExc_ValueError, "%U has to be None or a whole number from 0 on, and is %R", name,
                     found);
        done = -1;
    }
    *bound = is_larger > 0 || (unsigned long long)number > most ? most : (size_t)number;
    Py_XDECREF(found);
    return done;
}

static int find_bounds(parser_object *parser)
{
    if (find_bound(parser, its.names.max_depth, PY_SSIZE_T_MAX, &parser->max_depth) < 0 ||
        find_bound(parser, its.names.max_nodes, INT32_MAX, &parser->max_nodes) < 0 ||
        find_bound(parser, its.names.max_expanded, PY_SSIZE_T_MAX, &parser->max_expanded) < 0)
        return -1;
    return 0;
}

/* Whether an attribute of the loader is there and true. */
static int find_flag(parser_object *parser, PyObject *name, int *flag)
{
    PyObject *found = attribute_if_any((PyObject *)parser, name);

    if (found == NULL && PyErr_Occurred())
        return -1;
    *flag = found == NULL ? 0 : PyObject_IsTrue(found);
    Py_XDECREF(found);
    return *flag < 0 ? -1 : 0;
}

static int find_flags(parser_object *parser)
{
    if (find_flag(parser, its.names.fixes, &parser->has_fixes) < 0)
        return -1;
    return find_flag(parser, its.names.unique_keys, &parser->has_unique_keys);
}

/* Begins a stream, of which nothing is there yet. */
static int begin(parser_object *parser)
{
    if (!yaml_parser_initialize(&parser->scanner)) {
        PyErr_NoMemory();
        return -1;
    }
    parser->standing = BUSY;
    parser->stream.rest_place = 0;
    parser->stream.is_text = 0;
    memset(&parser->event, 0, sizeof parser->event);
    return find_bounds(parser) < 0 || find_flags(parser) < 0 ? -1 : begin_events(parser);
}

static int parser_init(PyObject *object, PyObject *arguments, PyObject *keywords)
{
    static char *names[] = {"stream", NULL};
    parser_object *parser = (parser_object *)object;
    PyObject *stream;

    if (!PyArg_ParseTupleAndKeywords(arguments, keywords, "O:CParser", names, &stream))
        return -1;
    if (!its.is_known) {
        PyErr_SetString(PyExc_RuntimeError, "pokhvizi.cyaml isn't imported");
        return -1;
    }
    if (parser->standing != BUSY)
        parser_clear(object);
    if (parser->standing != UNBORN) {
        PyErr_SetString(PyExc_RuntimeError, "the loader is in use");
        return -1;
    }
    if (begin(parser) == 0 && take_stream(parser, stream) == 0) {
        parser->standing = READY;
        return 0;
    }
    parser_clear(object);
    return -1;
}

static PyMethodDef parser_methods[] = {
    {"get_token", get_token, METH_NOARGS,
     "get_token($self, /)\n--\n\nReturns the next token, or None after the last."},
    {"peek_token", peek_token, METH_NOARGS,
     "peek_token($self, /)\n--\n\nReturns the next token and leaves it, or None after the last."},
    {"check_token", check_token, METH_VARARGS,
     "check_token($self, /, *choices)\n--\n\nReturns whether there is a next token, of one of these classes where some are named."},
    {"get_event", get_event, METH_NOARGS,
     "get_event($self, /)\n--\n\nReturns the next event, or None after the last."},
    {"peek_event", peek_event, METH_NOARGS,
     "peek_event($self, /)\n--\n\nReturns the next event and leaves it, or None after the last."},
    {"check_event", check_event, METH_VARARGS,
     "check_event($self, /, *choices)\n--\n\nReturns whether there is a next event, of one of these classes where some are named."},
    {"check_node", check_node, METH_NOARGS,
     "check_node($self, /)\n--\n\nReturns whether there is a next document."},
    {"get_node", get_node, METH_NOARGS,
     "get_node($self, /)\n--\n\nReturns the root of the next document, or None after the last."},
    {"get_single_node", get_single_node, METH_NOARGS,
     "get_single_node($self, /)\n--\n\nReturns the root of the stream's only document, or None where it has none."},
    {"dispose", give_none, METH_NOARGS,
     "dispose($self, /)\n--\n\nDoes nothing: what a loader holds goes with it."},
    {NULL, NULL, 0, NULL},
};

static PyType_Slot parser_slots[] = {
    {Py_tp_doc,
     "CParser(stream)\n--\n\nTokens, events and documents of a text, of bytes, or of a file, as PyYAML's CParser.\n\n"
     "`max_depth`, `max_nodes` and `max_expanded` of its class bound what it reads. If `fixes` is true,\n"
     "events are of this project's own grammar; if `unique_keys` is, a repeated key is an error."},
    {Py_tp_new, PyType_GenericNew},
    {Py_tp_init, parser_init},
    {Py_tp_dealloc, parser_dealloc},
    {Py_tp_traverse, parser_traverse},
    {Py_tp_clear, parser_clear},
    {Py_tp_methods, parser_methods},
    {0, NULL},
};

PyType_Spec parser_spec = {"pokhvizi._yaml.CParser", sizeof(parser_object), 0,
                           Py_TPFLAGS_DEFAULT | Py_TPFLAGS_BASETYPE | Py_TPFLAGS_HAVE_GC, parser_slots};
