/* Events by the steps, and PyYAML's objects. */
#include "loader.h"
#define WITH_EXPECTED
#include "libyaml_events.h"

int begin_events(parser_object *parser)
{
    const struct bounds bounds = {parser->max_depth, parser->max_nodes, parser->max_expanded, 0};

    if (begin(&parser->scanner, &bounds, parser->has_fixes))
        return 0;
    PyErr_NoMemory();
    return -1;
}

int take_event(parser_object *parser, int is_counted)
{
    struct held held = {0};

    if (parser->event.type != YAML_NO_EVENT || has_stopped(&parser->scanner))
        return 0;
    if (parse(&parser->scanner, &held, &parser->event, is_counted && kept_of(&parser->scanner)->is_counted))
        return 0;
    parser->event.type = YAML_NO_EVENT;
    forget(&held);
    return raise_failure(parser);
}

PyObject *expected_words(const parser_object *parser)
{
    const char *told[22];
    size_t count = pokhvizi_expected_list(expected_in(&parser->scanner), told);
    PyObject *made = PyTuple_New((Py_ssize_t)count), *word;

    for (size_t i = 0; i < count && made != NULL; i++) {
        if ((word = PyUnicode_FromString(told[i])) != NULL)
            PyTuple_SetItem(made, (Py_ssize_t)i, word);
        else
            Py_CLEAR(made);
    }
    return made;
}

PyObject *error_name(const parser_object *parser)
{
    return text_or_none(name_in(&parser->scanner));
}

void name_event(parser_object *parser)
{
    kept_of(&parser->scanner)->name = anchor_of(&parser->event);
}

void leave_event(parser_object *parser)
{
    yaml_event_delete(&parser->event);
}

/* ---- What is in an event ---- */

const yaml_char_t *anchor_of(const yaml_event_t *event)
{
    switch (event->type) {
    case YAML_ALIAS_EVENT:
        return event->data.alias.anchor;
    case YAML_SCALAR_EVENT:
        return event->data.scalar.anchor;
    case YAML_SEQUENCE_START_EVENT:
        return event->data.sequence_start.anchor;
    case YAML_MAPPING_START_EVENT:
        return event->data.mapping_start.anchor;
    default:
        return NULL;
    }
}

const yaml_char_t *tag_of(const yaml_event_t *event)
{
    switch (event->type) {
    case YAML_SCALAR_EVENT:
        return event->data.scalar.tag;
    case YAML_SEQUENCE_START_EVENT:
        return event->data.sequence_start.tag;
    default:
        return event->data.mapping_start.tag;
    }
}

PyObject *implicits_of(const yaml_event_t *event)
{
    return its.implicits[event->data.scalar.plain_implicit != 0][event->data.scalar.quoted_implicit != 0];
}

PyObject *value_of(const yaml_event_t *event)
{
    return text_of_bytes(event->data.scalar.value, event->data.scalar.length);
}

int is_flow(const yaml_event_t *event)
{
    return event->type == YAML_SEQUENCE_START_EVENT
               ? event->data.sequence_start.style == YAML_FLOW_SEQUENCE_STYLE
               : event->data.mapping_start.style == YAML_FLOW_MAPPING_STYLE;
}

int is_implicit(const yaml_event_t *event)
{
    return event->type == YAML_SEQUENCE_START_EVENT ? event->data.sequence_start.implicit
                                                    : event->data.mapping_start.implicit;
}

static PyObject *version_of(const yaml_version_directive_t *version)
{
    return version == NULL ? shared(Py_None) : Py_BuildValue("(ii)", version->major, version->minor);
}

/* The directives of a document, or None. */
static PyObject *directives_of_event(const yaml_event_t *event)
{
    const yaml_tag_directive_t *at = event->data.document_start.tag_directives.start,
                               *end = event->data.document_start.tag_directives.end;
    PyObject *all = at == end ? shared(Py_None) : PyDict_New(), *handle, *prefix;
    int done = 0;

    for (; all != NULL && done == 0 && at != end; at++) {
        handle = text_of(at->handle);
        prefix = text_of(at->prefix);
        done = handle == NULL || prefix == NULL ? -1 : PyDict_SetItem(all, handle, prefix);
        Py_XDECREF(handle);
        Py_XDECREF(prefix);
    }
    return done < 0 ? dropped(all) : all;
}

/* ---- Objects ---- */

PyObject *event_object(const parser_object *parser)
{
    const yaml_event_t *event = &parser->event;
    PyObject *class = its.events[event->type], *start, *end;

    if (event->type == YAML_NO_EVENT)
        return shared(Py_None);
    start = start_of(parser);
    end = end_of(parser);
    switch (event->type) {
    case YAML_STREAM_START_EVENT:
        return CALL(class, start, end, encoding_of(parser, event->data.stream_start.encoding));
    case YAML_DOCUMENT_START_EVENT:
        return CALL(class, start, end, PyBool_FromLong(!event->data.document_start.implicit),
                    version_of(event->data.document_start.version_directive), directives_of_event(event));
    case YAML_DOCUMENT_END_EVENT:
        return CALL(class, start, end, PyBool_FromLong(!event->data.document_end.implicit));
    case YAML_ALIAS_EVENT:
        return CALL(class, text_of(anchor_of(event)), start, end);
    case YAML_SCALAR_EVENT:
        return CALL(class, text_or_none(anchor_of(event)), text_or_none(tag_of(event)), shared(implicits_of(event)),
                    value_of(event), start, end, shared(its.styles[event->data.scalar.style]));
    case YAML_SEQUENCE_START_EVENT:
    case YAML_MAPPING_START_EVENT:
        return CALL(class, text_or_none(anchor_of(event)), text_or_none(tag_of(event)),
                    PyBool_FromLong(is_implicit(event)), start, end, PyBool_FromLong(is_flow(event)));
    default:
        return CALL(class, start, end);
    }
}
