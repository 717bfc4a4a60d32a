/* PyYAML's errors, of what stands in the scanner's record. */
#include "loader.h"

static PyObject *mark_or_none(const parser_object *parser, const yaml_mark_t *mark, int is_there)
{
    return is_there ? make_mark(parser->stream.name, mark) : shared(Py_None);
}

static PyObject *message(const char *text)
{
    return text_or_none((const yaml_char_t *)text);
}

static PyObject *reader_error(const parser_object *parser)
{
    const yaml_parser_t *at = &parser->scanner;

    return CALL(its.reader_error, shared(parser->stream.name), PyLong_FromSize_t(at->problem_offset),
                PyLong_FromLong(at->problem_value), PyUnicode_FromString("?"), message(at->problem));
}

static PyObject *marked_error(const parser_object *parser, PyObject *class)
{
    const yaml_parser_t *at = &parser->scanner;

    return CALL(class, message(at->context),
                mark_or_none(parser, &at->context_mark, at->context != NULL), message(at->problem),
                mark_or_none(parser, &at->problem_mark, at->problem != NULL));
}

/* An error with an attribute, both of which it takes. A value that is NULL is an error that is set. */
static PyObject *with(PyObject *error, const char *name, PyObject *value)
{
    if (value == NULL || PyObject_SetAttrString(error, name, value) < 0)
        Py_CLEAR(error);
    Py_XDECREF(value);
    return error;
}

/* An error of the parser or the composer: it has the name that it is about, if any. */
static PyObject *named_error(const parser_object *parser, PyObject *class)
{
    PyObject *error = marked_error(parser, class);

    return error == NULL ? NULL : with(error, "name", error_name(parser));
}

/* The error of the parser: it says what was expected in the place of a token that was refused for its kind. */
static PyObject *parser_error(const parser_object *parser)
{
    PyObject *error = named_error(parser, its.parser_error);

    return error == NULL ? NULL : with(error, "expected", expected_words(parser));
}

/* Raises an error of a class, which it takes; one that is NULL is an error that is set. */
static int raise(PyObject *class, PyObject *error)
{
    if (error != NULL) {
        PyErr_SetObject(class, error);
        Py_DECREF(error);
    }
    return -1;
}

int raise_fault(const parser_object *parser)
{
    switch (parser->scanner.error) {
    case YAML_MEMORY_ERROR:
        PyErr_NoMemory();
        return -1;
    case YAML_READER_ERROR:
        return raise(its.reader_error, reader_error(parser));
    case YAML_SCANNER_ERROR:
        return raise(its.scanner_error, marked_error(parser, its.scanner_error));
    case YAML_PARSER_ERROR:
        return raise(its.parser_error, parser_error(parser));
    default:
        return raise(its.composer_error, named_error(parser, its.composer_error));
    }
}

int raise_failure(parser_object *parser)
{
    if (PyErr_Occurred()) { /* in the stream's `read` */
        parser->scanner.error = YAML_NO_ERROR;
        return -1;
    }
    /* libyaml doesn't say of each refused allocation that it was one. */
    if (parser->scanner.error == YAML_NO_ERROR)
        parser->scanner.error = YAML_MEMORY_ERROR;
    return raise_fault(parser);
}

int refuse_event(parser_object *parser, PyObject *first, const char *context, const char *problem)
{
    yaml_parser_t *at = &parser->scanner;
    PyObject *mark = first == NULL ? NULL : attribute_if_any(first, its.names.start_mark);

    if (mark == NULL && PyErr_Occurred())
        return -1;
    at->error = YAML_COMPOSER_ERROR;
    at->context = context;
    at->problem = problem;
    at->context_mark = mark == NULL ? (yaml_mark_t){0, 0, 0} : place_of_mark(mark);
    at->problem_mark = parser->event.start_mark;
    Py_XDECREF(mark);
    return raise_fault(parser);
}
