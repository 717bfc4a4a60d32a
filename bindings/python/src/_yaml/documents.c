/* Events composed to a document: the composer says where each node goes, and the nodes are PyYAML's. */
#include "loader.h"

static struct entry *entry_of(const struct document *document, int32_t id)
{
    return &document->entries[id - 1];
}

/* Forgets nodes and anchors. */
static void forget_nodes(struct document *document)
{
    size_t i;

    Py_CLEAR(document->anchors);
    for (i = 0; i < document->count; i++) {
        Py_DECREF(document->entries[i].node);
        Py_XDECREF(document->entries[i].children);
        Py_XDECREF(document->entries[i].keys);
    }
    document->count = 0;
}

/* ---- Resolvers of paths ---- */

/* Says where the next node stands: its parent, and its index in a sequence, its key, or None. */
static int descend(const struct document *document, int deed, const pokhvizi_place_t *place)
{
    PyObject *parent = Py_None, *index, *done;

    if (document->hooks.descend == NULL)
        return 0;
    if (deed != POKHVIZI_ROOT)
        parent = entry_of(document, place->parent)->node;
    if (deed == POKHVIZI_ITEM)
        index = PyLong_FromSsize_t(PyList_Size(entry_of(document, place->parent)->children));
    else
        index = shared(deed == POKHVIZI_VALUE ? entry_of(document, place->key)->node : Py_None);
    done = CALL(document->hooks.descend, shared(parent), index);
    Py_XDECREF(done);
    return done == NULL ? -1 : 0;
}

static int ascend(const struct document *document)
{
    PyObject *done = document->hooks.ascend == NULL ? shared(Py_None)
                                                    : PyObject_CallObject(document->hooks.ascend, NULL);

    Py_XDECREF(done);
    return done == NULL ? -1 : 0;
}

/* ---- Anchors ---- */

/* Has the anchor at hand name a node. */
static int carry(struct document *document, int32_t id)
{
    PyObject *anchor = text_of(anchor_of(&document->parser->event)), *number = PyLong_FromLong(id);
    int done = -1;

    if (document->anchors == NULL)
        document->anchors = PyDict_New();
    if (anchor != NULL && number != NULL && document->anchors != NULL)
        done = PyDict_SetItem(document->anchors, anchor, number);
    Py_XDECREF(anchor);
    Py_XDECREF(number);
    return done;
}

/* The id of the node that has the anchor of the event at hand, or 0. */
static int find_anchored_node(const struct document *document, int32_t *fact)
{
    const yaml_char_t *text = document->anchors == NULL ? NULL : anchor_of(&document->parser->event);
    PyObject *anchor, *number;

    *fact = 0;
    if (text == NULL)
        return 0;
    anchor = text_of(text);
    if (anchor == NULL)
        return -1;
    number = PyDict_GetItemWithError(document->anchors, anchor); /* borrowed */
    Py_DECREF(anchor);
    if (number == NULL)
        return PyErr_Occurred() ? -1 : 0;
    *fact = (int32_t)PyLong_AsLong(number); /* as `carry` made it: this doesn't fail */
    return 0;
}

/* ---- Nodes at their places ---- */

/* Makes the node of the event at hand, and puts it last. */
static int put_node(struct document *document, int deed, const pokhvizi_place_t *place)
{
    PyObject *node, *children;

    if (document->count == document->entries_room &&
        grow(&document->entries, document->first_entries, &document->entries_room, 0,
             sizeof *document->entries) < 0)
        return -1;
    if (descend(document, deed, place) < 0)
        return -1;
    node = make_node(document, &children);
    if (node == NULL) {
        Py_XDECREF(children);
        return -1;
    }
    document->entries[document->count++] = (struct entry){node, children, NULL};
    if (anchor_of(&document->parser->event) != NULL && carry(document, place->node) < 0)
        return -1;
    return children == NULL ? ascend(document) : 0;
}

static int put_pair(const struct document *document, const pokhvizi_place_t *place)
{
    PyObject *pair =
        PyTuple_Pack(2, entry_of(document, place->key)->node, entry_of(document, place->child)->node);
    int done;

    if (pair == NULL)
        return -1;
    done = PyList_Append(entry_of(document, place->parent)->children, pair);
    Py_DECREF(pair);
    return done;
}

/* Puts the node of the event at hand, if it has one, and then the child at its place. */
static int put(struct document *document, int deed, const pokhvizi_place_t *place)
{
    if (place->node != 0 && put_node(document, deed, place) < 0)
        return -1;
    switch (deed) {
    case POKHVIZI_ITEM:
        return PyList_Append(entry_of(document, place->parent)->children,
                             entry_of(document, place->child)->node);
    case POKHVIZI_VALUE:
        return put_pair(document, place);
    default:
        return 0;
    }
}

/* ---- Keys ---- */

/* What tells a key apart: of a scalar its tag and its text, of a collection which node it is. */
static PyObject *name_of_key(const struct entry *key)
{
    PyObject *tag, *value, *name;

    if (key->children != NULL)
        return PyLong_FromVoidPtr(key->node);
    tag = PyObject_GetAttr(key->node, its.names.tag);
    value = tag == NULL ? NULL : PyObject_GetAttr(key->node, its.names.value);
    name = value == NULL ? NULL : PyTuple_Pack(2, tag, value);
    Py_XDECREF(tag);
    Py_XDECREF(value);
    return name;
}

/* Adds a key to those of its mapping, unless it is there. */
static int add_key(const struct document *document, PyObject *keys, PyObject *name, PyObject *node)
{
    PyObject *first = PyDict_GetItemWithError(keys, name); /* borrowed */

    if (first != NULL)
        return refuse_event(document->parser, first, "first occurrence", "found duplicate key");
    return PyErr_Occurred() ? -1 : PyDict_SetItem(keys, name, node);
}

/* Refuses a key that its mapping has, if keys have to differ. */
static int put_key(struct document *document, const pokhvizi_place_t *place)
{
    struct entry *mapping = entry_of(document, place->parent);
    PyObject *name;
    int done;

    if (!document->parser->has_unique_keys)
        return 0;
    if (mapping->keys == NULL && (mapping->keys = PyDict_New()) == NULL)
        return -1;
    name = name_of_key(entry_of(document, place->child));
    done = name == NULL ? -1 : add_key(document, mapping->keys, name, entry_of(document, place->child)->node);
    Py_XDECREF(name);
    return done;
}

/* ---- Ends ---- */

/* A collection ends where the event at hand ends. */
static int close_node(const struct document *document, int32_t id)
{
    PyObject *end = end_of(document->parser);
    int done = end == NULL ? -1 : PyObject_SetAttr(entry_of(document, id)->node, its.names.end_mark, end);

    Py_XDECREF(end);
    return done < 0 ? -1 : ascend(document);
}

/* ---- Deeds ---- */

/* Says why the event at hand can't be composed. */
static int refuse(const struct document *document, int deed, int32_t fact)
{
    const char *context, *problem = pokhvizi_refusal((uint32_t)deed, &context);

    if (deed == POKHVIZI_UNDEFINED_ALIAS || deed == POKHVIZI_REPEATED_ANCHOR || deed == POKHVIZI_ENDLESS)
        name_event(document->parser);
    return refuse_event(document->parser, context == NULL ? NULL : entry_of(document, fact)->node, context, problem);
}

/* Does to the document what the composer says. */
static int follow(struct document *document, int deed, int32_t fact, const pokhvizi_place_t *place)
{
    switch (deed) {
    case POKHVIZI_PASSES:
    case POKHVIZI_ENDS:
        return 0;
    case POKHVIZI_BEGINS:
        forget_nodes(document);
        return 0;
    case POKHVIZI_ROOT:
    case POKHVIZI_ITEM:
    case POKHVIZI_VALUE:
        return put(document, deed, place);
    case POKHVIZI_KEY:
        return put(document, deed, place) < 0 ? -1 : put_key(document, place);
    case POKHVIZI_CLOSES:
        return close_node(document, place->parent);
    default:
        return refuse(document, deed, fact);
    }
}

static int ask(struct document *document, int32_t fact, pokhvizi_place_t *place)
{
    return (int)pokhvizi_compose(&document->composer, document->stack, document->stack_room,
                                 (uint8_t)document->parser->event.type, fact, place);
}

static int grow_stack(struct document *document)
{
    return grow(&document->stack, document->first_stack, &document->stack_room, 0, sizeof *document->stack);
}

/* Counts what was done, and returns it; or that the document is too large with its aliases written out. */
static int count(struct document *document, int deed, const pokhvizi_place_t *place)
{
    uint32_t counted;

    if (document->parser->max_expanded == PY_SSIZE_T_MAX)
        return deed;
    while ((counted = pokhvizi_count(&document->size, document->sizes, document->sizes_room, (uint32_t)deed,
                                     (uint8_t)document->parser->event.type, place)) == POKHVIZI_FULL_SIZES)
        if (grow(&document->sizes, document->first_sizes, &document->sizes_room, 0, sizeof *document->sizes) < 0)
            return -1;
    return counted == POKHVIZI_COUNTED ? deed : (int)counted;
}

/* Composes the event at hand, and returns what was done. */
static int compose_event(struct document *document)
{
    pokhvizi_place_t place = {0, 0, 0, 0};
    int32_t fact;
    int deed;

    if (find_anchored_node(document, &fact) < 0)
        return -1;
    while ((deed = ask(document, fact, &place)) == POKHVIZI_FULL_STACK)
        if (grow_stack(document) < 0)
            return -1;
    deed = count(document, deed, &place);
    return deed < 0 || follow(document, deed, fact, &place) < 0 ? -1 : deed;
}

/* ---- Documents ---- */

static void begin_document(struct document *document, parser_object *parser)
{
    document->parser = parser;
    document->stack = document->first_stack;
    document->stack_room = LENGTH(document->first_stack);
    document->entries = document->first_entries;
    document->entries_room = LENGTH(document->first_entries);
    document->sizes = document->first_sizes;
    document->sizes_room = LENGTH(document->first_sizes);
    document->count = 0;
    document->anchors = NULL;
    document->hooks = (struct hooks){0};
    pokhvizi_composer_new(&document->composer, (uint32_t)parser->max_nodes);
    pokhvizi_size_new(&document->size, parser->max_expanded);
}

/* Gives back what a document has taken. */
static void end_document(struct document *document)
{
    forget_nodes(document);
    if (document->stack != document->first_stack)
        PyMem_Free(document->stack);
    if (document->entries != document->first_entries)
        PyMem_Free(document->entries);
    if (document->sizes != document->first_sizes)
        PyMem_Free(document->sizes);
    forget_hooks(&document->hooks);
}

/* Has Python handle signals and other threads run, as a call of its code does. Only a node is such a call: of the ends of collections,
 * aliases, and events that are passed over there may be seconds without one. */
static int let_others_run(void)
{
    PyThreadState *state;

    if (PyErr_CheckSignals() < 0)
        return -1;
    state = PyEval_SaveThread();
    PyEval_RestoreThread(state);
    return 0;
}

static PyObject *compose_events(struct document *document)
{
    enum { EVENTS_ALONE = 32 };
    parser_object *parser = document->parser;
    int deed = POKHVIZI_PASSES;
    size_t count = 0, events = 0; /* nodes, and events since the last one */

    if (find_hooks(document) < 0)
        return NULL;
    while (deed != POKHVIZI_ENDS) {
        if (take_event(parser, 0) < 0)
            return NULL;
        if (parser->event.type == YAML_NO_EVENT)
            break;
        if ((deed = compose_event(document)) < 0)
            return NULL;
        leave_event(parser);
        events = count == document->count ? events + 1 : 0;
        count = document->count;
        if (events == EVENTS_ALONE) {
            if (let_others_run() < 0)
                return NULL;
            events = 0;
        }
    }
    return shared(document->count == 0 ? Py_None : document->entries[0].node);
}

PyObject *compose_document(parser_object *parser)
{
    struct document document;
    PyObject *root;

    begin_document(&document, parser);
    root = compose_events(&document);
    end_document(&document);
    return root;
}
