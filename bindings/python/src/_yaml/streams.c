/* Texts, bytes and files, for libyaml's reader. */
#include "loader.h"

/* What a file's `read` returns of so many bytes or characters. */
static PyObject *call_read(PyObject *source, size_t size)
{
    PyObject *count = PyLong_FromSize_t(size), *said;

    if (count == NULL)
        return NULL;
    said = PyObject_CallMethodObjArgs(source, its.names.read, count, NULL);
    Py_DECREF(count);
    return said;
}

/* Has a file's next bytes at hand, those of a text where it gives one. */
static int read_more(struct stream *stream, size_t size)
{
    PyObject *said = call_read(stream->source, size), *bytes = said;

    if (said != NULL && PyUnicode_CheckExact(said)) {
        bytes = PyUnicode_AsUTF8String(said);
        Py_DECREF(said);
        stream->is_text = 1;
    }
    if (bytes != NULL && !PyBytes_CheckExact(bytes)) {
        PyErr_SetString(PyExc_TypeError, "a string value is expected");
        Py_CLEAR(bytes);
    }
    stream->rest = bytes;
    stream->rest_place = 0;
    return bytes == NULL ? -1 : 0;
}

/* libyaml's handler: copies what is there of the next `size` bytes; 0 where there is an error. */
static int read_stream(void *data, unsigned char *buffer, size_t size, size_t *size_read)
{
    struct stream *stream = data;
    size_t left;

    if (stream->rest == NULL && read_more(stream, size) < 0)
        return 0;
    left = (size_t)(PyBytes_Size(stream->rest) - stream->rest_place);
    *size_read = size < left ? size : left;
    memcpy(buffer, PyBytes_AsString(stream->rest) + stream->rest_place, *size_read);
    stream->rest_place += (Py_ssize_t)*size_read;
    if (*size_read == left)
        Py_CLEAR(stream->rest);
    return 1;
}

/* Takes a file, which may say its name. */
static int take_file(parser_object *parser, PyObject *source)
{
    PyObject *given = attribute_if_any(source, its.names.name), *name = NULL;

    if (given != NULL)
        name = name_of(given);
    else if (!PyErr_Occurred())
        name = PyUnicode_FromString("<file>");
    Py_XDECREF(given);
    if (name == NULL)
        return -1;
    parser->stream.name = name;
    parser->stream.source = shared(source);
    yaml_parser_set_input(&parser->scanner, read_stream, &parser->stream);
    return 0;
}

static int take_text(parser_object *parser, PyObject *source)
{
    struct stream *stream = &parser->stream;

    stream->is_text = PyUnicode_CheckExact(source);
    if (!stream->is_text && !PyBytes_CheckExact(source)) {
        PyErr_SetString(PyExc_TypeError, "a string or stream input is required");
        return -1;
    }
    stream->name = PyUnicode_FromString(stream->is_text ? "<unicode string>" : "<byte string>");
    if (stream->name == NULL)
        return -1;
    stream->source = stream->is_text ? PyUnicode_AsUTF8String(source) : shared(source);
    if (stream->source == NULL)
        return -1;
    yaml_parser_set_input_string(&parser->scanner, (unsigned char *)PyBytes_AsString(stream->source),
                                 (size_t)PyBytes_Size(stream->source));
    return 0;
}

int take_stream(parser_object *parser, PyObject *source)
{
    PyObject *read = attribute_if_any(source, its.names.read);

    if (read == NULL)
        return PyErr_Occurred() ? -1 : take_text(parser, source);
    Py_DECREF(read);
    return take_file(parser, source);
}
