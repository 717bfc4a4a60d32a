/* PyYAML's nodes. Each is made by a call of its class, so that Python handles signals and lets other threads run, however many a
 * document has; what documents.c does without a node sees to that by itself. */
#include "loader.h"

static PyObject *make_scalar(struct document *document)
{
    const parser_object *parser = document->parser;
    PyObject *value = value_of(&parser->event);
    PyObject *tag = value == NULL ? NULL : tag_of_node(document, its.scalar_node, value);

    return tag == NULL ? dropped(value)
                       : CALL(its.scalar_node, tag, value, start_of(parser), end_of(parser),
                              shared(its.styles[parser->event.data.scalar.style]));
}

static PyObject *make_collection(struct document *document, PyObject *class, PyObject **children)
{
    const parser_object *parser = document->parser;
    PyObject *tag = tag_of_node(document, class, Py_None);

    if (tag == NULL)
        return NULL;
    *children = PyList_New(0);
    if (*children == NULL)
        return dropped(tag);
    return CALL(class, tag, shared(*children), start_of(parser), shared(Py_None),
                PyBool_FromLong(is_flow(&parser->event)));
}

PyObject *make_node(struct document *document, PyObject **children)
{
    *children = NULL;
    switch (document->parser->event.type) {
    case YAML_SCALAR_EVENT:
        return make_scalar(document);
    case YAML_SEQUENCE_START_EVENT:
        return make_collection(document, its.sequence_node, children);
    default:
        return make_collection(document, its.mapping_node, children);
    }
}
