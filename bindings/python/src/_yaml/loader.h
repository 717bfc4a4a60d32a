/* What the files of pokhvizi._yaml share: PyYAML's CParser over libyaml's scanner, with proved events
 * (pokhvizi/steps.h) and documents composed as is proved (pokhvizi/compose.h).
 *
 *     module.c     the module, and what it takes from PyYAML
 *     parser.c     the type CParser: its methods, its life
 *     streams.c    texts, bytes and files, for libyaml's reader
 *     tokens.c     PyYAML's objects of libyaml's tokens
 *     events.c     events by the steps that bindings/c has over libyaml's scanner, and PyYAML's objects
 *     documents.c  events composed to a document
 *     nodes.c      PyYAML's nodes
 *     tags.c       their tags, where a text has none
 *     marks.c      the type Mark
 *     faults.c     PyYAML's errors
 *     objects.c    what the C API of Python takes more than a line for
 *
 * CPython's limited API of 3.8, so that one library serves each later version. An event is at
 * hand until something is made of it; what a document takes while it is composed is there for one call alone. Events, nodes and errors are PyYAML's own classes, and tags are the
 * loader's own `resolve`, as with PyYAML. No function calls itself, however deep a text nests.
 *
 * A function that returns a PyObject * or an int has set Python's error where it returns NULL or -1, unless
 * it says otherwise. A PyObject * that is returned is the caller's. */
#ifndef LOADER_H
#define LOADER_H
#define PY_SSIZE_T_CLEAN
#define Py_LIMITED_API 0x03080000
#include <Python.h>
#include <pokhvizi/compose.h>
#include <stddef.h>
#include <string.h>
#include <yaml.h>

/* How many entries a stack has room for at first. A test makes it one. */
#ifndef FIRST_ROOM
#define FIRST_ROOM(usual) (usual)
#endif

#define LENGTH(array) (sizeof(array) / sizeof *(array))

/* ---- The module ---- */

enum {
    TOKENS = YAML_SCALAR_TOKEN + 1,
    EVENTS = YAML_MAPPING_END_EVENT + 1,
    STYLES = YAML_FOLDED_SCALAR_STYLE + 1
};

/* What is of PyYAML, and what is made once. Nothing of it is let go. */
struct pyyaml {
    PyTypeObject *mark;
    PyObject *yaml_error, *reader_error, *scanner_error, *parser_error, *composer_error;
    PyObject *scalar_node, *sequence_node, *mapping_node;
    PyObject *tokens[TOKENS], *events[EVENTS]; /* classes, by libyaml's numbers */
    PyObject *resolve, *descend_resolver, *ascend_resolver; /* BaseResolver's; the first as _known.py has it, or None */
    PyObject *pattern, *method; /* re.Pattern, types.MethodType */
    PyObject *styles[STYLES]; /* texts, by yaml_scalar_style_t */
    PyObject *implicits[2][2]; /* pairs of truth values: plain, quoted */
    /* Names of attributes, made once, since Python's cache of attributes goes by their addresses. */
    struct {
        PyObject *read, *name, *resolve, *descend_resolver, *ascend_resolver, *yaml_path_resolvers, *function,
            *self, *start_mark, *end_mark, *max_depth, *max_nodes, *max_expanded, *fixes,
            *unique_keys, *tag, *value, *match, *yaml_implicit_resolvers;
    } names;
    int is_new; /* Python is 3.9 or later */
    int is_known; /* PyYAML's classes are there */
};

extern struct pyyaml its;

/* ---- Objects ---- */

static inline PyObject *shared(PyObject *object)
{
    Py_INCREF(object);
    return object;
}

/* An object that is there, or None. */
static inline PyObject *shared_or_none(PyObject *object)
{
    return shared(object == NULL ? Py_None : object);
}

static inline PyObject *text_of(const yaml_char_t *text)
{
    return PyUnicode_FromString((const char *)text);
}

static inline PyObject *text_or_none(const yaml_char_t *text)
{
    return text == NULL ? shared(Py_None) : text_of(text);
}

static inline PyObject *text_of_bytes(const void *bytes, size_t length)
{
    return PyUnicode_DecodeUTF8(bytes, (Py_ssize_t)length, "strict");
}

/* Lets go of what is there; NULL. */
static inline PyObject *dropped(PyObject *object)
{
    Py_XDECREF(object);
    return NULL;
}

/* Calls with these arguments, which it takes. One that is NULL is an error that is set. */
PyObject *call(PyObject *callable, Py_ssize_t count, PyObject *const *arguments);

#define CALL(callable, ...) call(callable, LENGTH(((PyObject *[]){__VA_ARGS__})), (PyObject *[]){__VA_ARGS__})

/* An attribute, or NULL without an error where there is none. */
PyObject *attribute_if_any(PyObject *object, PyObject *name);

/* A method of an object, without arguments, that returns None. */
PyObject *give_none(PyObject *object, PyObject *nothing);

/* Makes an array twice as large, and as large as `least`. It is PyMem's, or `first`, within another object,
 * or NULL. */
int grow(void *array, void *first, size_t *room, size_t least, size_t size);

/* ---- The parser ---- */

/* A text, bytes, or a file. */
struct stream {
    PyObject *source, *name;
    PyObject *rest; /* bytes that a file gave and nobody has taken yet, or NULL */
    Py_ssize_t rest_place;
    int is_text;
};

/* Whether a call may begin: no stream yet; yes; another call is at work; one has failed. */
enum standing { UNBORN, READY, BUSY, BROKEN };

typedef struct {
    PyObject_HEAD
    enum standing standing;
    struct stream stream;
    PyObject *current_token, *current_event; /* what was peeked at, or NULL */
    yaml_parser_t scanner; /* whose events are those of the steps */
    yaml_event_t event; /* at hand, unless it is of no type */
    int has_fixes; /* events are of this project's own grammar, not libyaml's */
    int has_unique_keys; /* two keys of a mapping have to differ */
    size_t max_depth, max_nodes; /* what may be open at once; what each list of a document may have */
    size_t max_expanded; /* how many nodes a document may have with its aliases written out */
} parser_object;

extern PyType_Spec parser_spec;

/* ---- Marks ---- */

extern PyType_Spec mark_spec;

/* A mark of a name that is `name_of` another. */
PyObject *make_mark(PyObject *name, const yaml_mark_t *at);

/* A name as marks have it: itself if it is a text or a number and refers to nothing, else a text of it. */
PyObject *name_of(PyObject *given);

/* The place of a mark, or zeros where it is none of these. */
yaml_mark_t place_of_mark(PyObject *mark);

static inline PyObject *start_of(const parser_object *parser)
{
    return make_mark(parser->stream.name, &parser->event.start_mark);
}

static inline PyObject *end_of(const parser_object *parser)
{
    return make_mark(parser->stream.name, &parser->event.end_mark);
}

/* ---- Faults: each returns -1 ---- */

/* Raises the error that stands in the scanner's record, each time anew. */
int raise_fault(const parser_object *parser);

/* The event at hand can't be composed. `first` is the node that the context is about, or NULL. */
int refuse_event(parser_object *parser, PyObject *first, const char *context, const char *problem);

/* Raises what a call of libyaml's failed by. */
int raise_failure(parser_object *parser);

/* ---- Streams ---- */

int take_stream(parser_object *parser, PyObject *source);

/* ---- Tokens ---- */

/* The next token, as PyYAML has it, or None. */
PyObject *take_token(parser_object *parser);

/* The name of a stream's encoding, or None. */
PyObject *encoding_of(const parser_object *parser, yaml_encoding_t encoding);

/* ---- Events ---- */

/* Begins the events of a stream. */
int begin_events(parser_object *parser);

/* Has an event at hand, unless the stream has ended: then it is of no type. Bounds on nodes end it, unless the caller counts them. */
int take_event(parser_object *parser, int is_counted);

/* Lets the event go that is at hand. */
void leave_event(parser_object *parser);

/* What was expected in the place of a token that was refused for its kind, in words; for another error nothing. */
PyObject *expected_words(const parser_object *parser);

/* The anchor, alias or tag handle that an error is about, or None. */
PyObject *error_name(const parser_object *parser);

/* Has the next error be about the anchor or the alias of the event at hand, which stays there. */
void name_event(parser_object *parser);

/* The event that is at hand, as PyYAML has it, or None. */
PyObject *event_object(const parser_object *parser);

/* Of the event at hand: the anchor or the tag of a node, or NULL; whether a scalar's tag is left out where it is plain,
 * and where it is quoted (of `its`); a scalar's value; whether a collection is in flow style, and whether its tag is left out. */
const yaml_char_t *anchor_of(const yaml_event_t *event);
const yaml_char_t *tag_of(const yaml_event_t *event);
PyObject *implicits_of(const yaml_event_t *event);
PyObject *value_of(const yaml_event_t *event);
int is_flow(const yaml_event_t *event);
int is_implicit(const yaml_event_t *event);

/* ---- Documents ---- */

/* A node, and the list of its children where it is a collection. */
struct entry {
    PyObject *node, *children, *keys; /* keys: nodes by what tells keys apart, of a mapping whose keys have to differ, or NULL */
};

/* What the loader does about nodes. */
struct hooks {
    PyObject *resolve;
    PyObject *descend, *ascend; /* NULL where they have nothing to do */
    PyObject *rules; /* a dict of `resolve`'s rules; NULL if that has to be called */
    PyObject *tags[EVENTS]; /* of nodes to which no rule applies, by kinds of events; NULL before the first */
};

/* What is kept while a document is composed. */
struct document {
    parser_object *parser;
    pokhvizi_composer_t composer;
    pokhvizi_open_t *stack, first_stack[FIRST_ROOM(24)];
    struct entry *entries, first_entries[FIRST_ROOM(32)]; /* by ids, from 1 */
    size_t stack_room, entries_room, count;
    pokhvizi_size_t size; /* of the nodes so far, with their aliases written out, if that is bounded */
    uint64_t *sizes, first_sizes[FIRST_ROOM(32)];
    size_t sizes_room;
    PyObject *anchors; /* ids by texts, or NULL before the first */
    struct hooks hooks;
};

/* Composes the events up to a document's end, or the stream's. Returns the document's root, or None. */
PyObject *compose_document(parser_object *parser);

/* ---- Nodes ---- */

/* The node of the event at hand; of a collection without children, and their list. */
PyObject *make_node(struct document *document, PyObject **children);

/* ---- Tags ---- */

/* Finds the loader's hooks. PyYAML's own ones go by its resolvers of paths, if it has any. */
int find_hooks(struct document *document);

/* Lets them go. */
void forget_hooks(struct hooks *hooks);

/* The tag of the node at hand, of this class and value. */
PyObject *tag_of_node(struct document *document, PyObject *class, PyObject *value);

#endif
