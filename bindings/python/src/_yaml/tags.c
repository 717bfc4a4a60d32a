/* The tags of nodes that have none: those of the loader's own `resolve`. PyYAML's own is done here: a plain scalar
 * has the tag of the loader's first rule that matches, of those for its first character and then of those for any;
 * of what is left the kind decides, so it is asked once a document. */
#include "loader.h"

/* ---- Hooks ---- */

/* Whether a loader's method is this function of PyYAML's, of the loader itself. */
static int is_own(parser_object *parser, PyObject *method, PyObject *own)
{
    PyObject *function, *self;
    int same;

    if ((PyObject *)Py_TYPE(method) != its.method)
        return 0;
    function = PyObject_GetAttr(method, its.names.function);
    self = PyObject_GetAttr(method, its.names.self);
    same = function == NULL || self == NULL ? -1 : function == own && self == (PyObject *)parser;
    Py_XDECREF(function);
    Py_XDECREF(self);
    return same;
}

/* Finds the loader's method of this name, unless it is PyYAML's own and has nothing to do. */
static int find_hook(parser_object *parser, PyObject *name, PyObject *own, int is_idle, PyObject **place)
{
    int is_left = 0;

    *place = PyObject_GetAttr((PyObject *)parser, name);
    if (*place == NULL || (is_idle && (is_left = is_own(parser, *place, own)) < 0))
        return -1;
    if (is_left)
        Py_CLEAR(*place);
    return 0;
}

/* Whether the loader may have resolvers of paths. */
static int has_paths(parser_object *parser)
{
    PyObject *paths = attribute_if_any((PyObject *)parser, its.names.yaml_path_resolvers);
    int any;

    if (paths == NULL)
        return PyErr_Occurred() ? -1 : 1;
    any = PyObject_IsTrue(paths);
    Py_DECREF(paths);
    return any;
}

/* Puts the loader's rules, if its `resolve` is PyYAML's own and they are a dict. */
static int find_rules(parser_object *parser, struct hooks *hooks)
{
    int is_ours = is_own(parser, hooks->resolve, its.resolve);

    if (is_ours <= 0)
        return is_ours;
    hooks->rules = attribute_if_any((PyObject *)parser, its.names.yaml_implicit_resolvers);
    if (hooks->rules == NULL)
        return PyErr_Occurred() ? -1 : 0;
    if (!PyDict_CheckExact(hooks->rules))
        Py_CLEAR(hooks->rules);
    return 0;
}

int find_hooks(struct document *document)
{
    parser_object *parser = document->parser;
    struct hooks *hooks = &document->hooks;
    int any = has_paths(parser);

    if (any < 0 || find_hook(parser, its.names.resolve, NULL, 0, &hooks->resolve) < 0 ||
        find_hook(parser, its.names.descend_resolver, its.descend_resolver, !any, &hooks->descend) < 0 ||
        find_hook(parser, its.names.ascend_resolver, its.ascend_resolver, !any, &hooks->ascend) < 0)
        return -1;
    return any ? 0 : find_rules(parser, hooks);
}

void forget_hooks(struct hooks *hooks)
{
    size_t i;

    Py_XDECREF(hooks->resolve);
    Py_XDECREF(hooks->descend);
    Py_XDECREF(hooks->ascend);
    Py_XDECREF(hooks->rules);
    for (i = 0; i < EVENTS; i++)
        Py_XDECREF(hooks->tags[i]);
}

/* ---- Rules ---- */

/* What the rules for a character, or for any, say of a value. */
enum said { FAILED = -1, NOTHING, FOUND, OTHER };

static int is_plain_rule(PyObject *rule)
{
    return PyTuple_CheckExact(rule) && PyTuple_Size(rule) == 2 &&
           (PyObject *)Py_TYPE(PyTuple_GetItem(rule, 1)) == its.pattern;
}

/* Asks one rule, and puts its tag if it matches. */
static enum said ask_rule(PyObject *rule, PyObject *value, PyObject **tag)
{
    PyObject *match;

    if (!is_plain_rule(rule))
        return OTHER;
    match = PyObject_CallMethodObjArgs(PyTuple_GetItem(rule, 1), its.names.match, value, NULL);
    Py_XDECREF(match);
    if (match == NULL || match == Py_None)
        return match == NULL ? FAILED : NOTHING;
    *tag = shared(PyTuple_GetItem(rule, 0));
    return FOUND;
}

/* Asks those for a character, or None, up to the first that matches. A match may let the collector run, and so the
 * code of others. */
static enum said ask(const struct hooks *hooks, PyObject *character, PyObject *value, PyObject **tag)
{
    PyObject *list = PyDict_GetItemWithError(hooks->rules, character), *rule;
    enum said said = NOTHING;
    Py_ssize_t i;

    if (list == NULL)
        return PyErr_Occurred() ? FAILED : NOTHING;
    if (!PyList_CheckExact(list))
        return OTHER;
    Py_INCREF(list);
    for (i = 0; said == NOTHING && i < PyList_Size(list); i++) {
        rule = shared(PyList_GetItem(list, i));
        said = ask_rule(rule, value, tag);
        Py_DECREF(rule);
    }
    Py_DECREF(list);
    return said;
}

/* ---- Tags ---- */

static PyObject *resolve(const struct hooks *hooks, PyObject *class, PyObject *value, PyObject *implicit)
{
    return CALL(hooks->resolve, shared(class), shared(value), shared(implicit));
}

/* What PyYAML's `resolve` says of a node to which no rule applies: its kind decides. */
static PyObject *default_tag(struct hooks *hooks, yaml_event_type_t kind, PyObject *class, PyObject *value)
{
    if (hooks->tags[kind] == NULL)
        hooks->tags[kind] = resolve(hooks, class, value, its.implicits[0][0]);
    return hooks->tags[kind] == NULL ? NULL : shared(hooks->tags[kind]);
}

static PyObject *plain_tag(struct hooks *hooks, PyObject *value, PyObject *implicit)
{
    PyObject *first = PyUnicode_Substring(value, 0, 1), *tag = NULL;
    enum said said = first == NULL ? FAILED : ask(hooks, first, value, &tag);

    Py_XDECREF(first);
    if (said == NOTHING)
        said = ask(hooks, Py_None, value, &tag);
    if (said == NOTHING)
        return default_tag(hooks, YAML_SCALAR_EVENT, its.scalar_node, value);
    return said == OTHER ? resolve(hooks, its.scalar_node, value, implicit) : tag;
}

PyObject *tag_of_node(struct document *document, PyObject *class, PyObject *value)
{
    const yaml_event_t *event = &document->parser->event;
    const yaml_char_t *tag = tag_of(event);
    struct hooks *hooks = &document->hooks;
    int is_scalar = event->type == YAML_SCALAR_EVENT;

    if (tag != NULL && (tag[0] != '!' || tag[1] != '\0'))
        return text_of(tag);
    if (hooks->rules == NULL)
        return resolve(hooks, class, value,
                       is_scalar ? implicits_of(event) : is_implicit(event) ? Py_True : Py_False);
    if (is_scalar && event->data.scalar.plain_implicit)
        return plain_tag(hooks, value, implicits_of(event));
    return default_tag(hooks, event->type, class, value);
}
