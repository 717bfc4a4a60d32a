/* PyYAML's objects of libyaml's tokens. */
#include "loader.h"

PyObject *encoding_of(const parser_object *parser, yaml_encoding_t encoding)
{
    switch (encoding) {
    case YAML_UTF8_ENCODING:
        return parser->stream.is_text ? shared(Py_None) : PyUnicode_FromString("utf-8");
    case YAML_UTF16LE_ENCODING:
        return PyUnicode_FromString("utf-16-le");
    case YAML_UTF16BE_ENCODING:
        return PyUnicode_FromString("utf-16-be");
    default:
        return shared(Py_None);
    }
}

/* ---- Objects: each takes its marks ---- */

static PyObject *version_token(const yaml_token_t *token, PyObject *start, PyObject *end)
{
    return CALL(its.tokens[token->type], PyUnicode_FromString("YAML"),
                Py_BuildValue("(ii)", token->data.version_directive.major,
                              token->data.version_directive.minor),
                start, end);
}

static PyObject *directive_token(const yaml_token_t *token, PyObject *start, PyObject *end)
{
    return CALL(its.tokens[token->type], PyUnicode_FromString("TAG"),
                Py_BuildValue("(ss)", token->data.tag_directive.handle, token->data.tag_directive.prefix),
                start, end);
}

static PyObject *tag_token(const yaml_token_t *token, PyObject *start, PyObject *end)
{
    const char *handle = (const char *)token->data.tag.handle;

    return CALL(its.tokens[token->type],
                Py_BuildValue("(zs)", *handle == '\0' ? NULL : handle, token->data.tag.suffix), start, end);
}

static PyObject *scalar_token(const yaml_token_t *token, PyObject *start, PyObject *end)
{
    return CALL(its.tokens[token->type], text_of_bytes(token->data.scalar.value, token->data.scalar.length),
                PyBool_FromLong(token->data.scalar.style == YAML_PLAIN_SCALAR_STYLE), start, end,
                shared(its.styles[token->data.scalar.style]));
}

static PyObject *token_object(const parser_object *parser, const yaml_token_t *token)
{
    PyObject *class = its.tokens[token->type], *start, *end;

    if (token->type == YAML_NO_TOKEN)
        return shared(Py_None);
    start = make_mark(parser->stream.name, &token->start_mark);
    end = make_mark(parser->stream.name, &token->end_mark);
    switch (token->type) {
    case YAML_STREAM_START_TOKEN:
        return CALL(class, start, end, encoding_of(parser, token->data.stream_start.encoding));
    case YAML_VERSION_DIRECTIVE_TOKEN:
        return version_token(token, start, end);
    case YAML_TAG_DIRECTIVE_TOKEN:
        return directive_token(token, start, end);
    case YAML_ALIAS_TOKEN:
        return CALL(class, text_of(token->data.alias.value), start, end);
    case YAML_ANCHOR_TOKEN:
        return CALL(class, text_of(token->data.anchor.value), start, end);
    case YAML_TAG_TOKEN:
        return tag_token(token, start, end);
    case YAML_SCALAR_TOKEN:
        return scalar_token(token, start, end);
    default:
        return CALL(class, start, end);
    }
}

PyObject *take_token(parser_object *parser)
{
    yaml_token_t token;
    PyObject *made;

    if (!yaml_parser_scan(&parser->scanner, &token)) {
        raise_failure(parser);
        return NULL;
    }
    made = token_object(parser, &token);
    yaml_token_delete(&token);
    return made;
}
