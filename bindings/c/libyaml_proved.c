/* libyaml's parser and loader, in the place of its parser.c and loader.c:
 *
 *     sh bindings/c/build_libyaml.sh DIR
 *
 * makes a whole libyaml of it and of libyaml's other objects, shared and static. DIR is that of scripts/build_c.sh. libyaml's scanner gives
 * the tokens, and its `yaml_event_delete`, `yaml_document_delete` and `yaml_parser_delete` free all there is.
 *
 * A call reads no token past those that its event needs, and moves their texts into the event. What is kept between two
 * calls stands in the yaml_parser_t, in the place of what libyaml's own parser keeps there: its states, the marks of open
 * collections, and the tag directives of the document. So a parser may be moved and deleted as with libyaml, at any time,
 * and two parsers share nothing. A load composes the next document of the events that it parses, and keeps nothing after it.
 * Hash tables find an alias's node and a tag's handle, where libyaml looks at each anchor and handle of the document. A failed
 * allocation is the error YAML_MEMORY_ERROR, after which a call gives no event and no document.
 *
 * The environment's POKHVIZI_MAX_DEPTH, POKHVIZI_MAX_NODES and POKHVIZI_MAX_EXPANDED are the most collections that may be open at
 * once, the most nodes of a document, items or pairs of a node, and the most nodes of a document with its aliases written out.
 * What exceeds them is a parser error, "found too many levels", at the token that opens one more, and "found too many nodes" or
 * "found too many nodes, with aliases written out" at the node or alias: a composer error of a load, a parser error of a parse, which
 * counts for that, and keeps the anchors of its document. With the third, an alias within the node that it names is such an error,
 * "found an alias within the node that it names". A name that begins so and is unknown ends the program, like a bound that is no number.
 *
 * With POKHVIZI_UNIQUE_KEYS=1 a key that its mapping has is refused: the same node, or a scalar of the same tag and text, where an alias
 * is the node that it names. A scalar without a tag is a string if it is quoted, or if it is plain and no loader takes it for anything
 * else (is_string); other plain scalars are the same among themselves alone. That is the error "found duplicate key", a composer error of
 * a load, a parser error of a parse, with the mark of the first, "first occurrence".
 *
 * Events and errors are libyaml's. With POKHVIZI_FIXES=1 in the environment they are those of this project's own grammar, which
 * differs at three places (docs/DIFFERENCES.md). */
#include "libyaml_events.h"
#include <stdio.h>
#include <sys/auxv.h>

extern char **environ;

/* ---- The environment ---- */

static struct bounds bounds;
static int has_fixes;
static const char *check_file;
static int is_read;  /* whether the environment was read */

/* The number that a variable of the environment has, or `most` if it isn't set. Another text, an empty one too, ends the process: it would
 * run without the bound that is asked for. */
static size_t bound_of(const char *name, size_t most)
{
    const char *text = getenv(name);
    size_t bound = 0;

    if (text == NULL)
        return most;
    if (*text == '\0' || text[strspn(text, "0123456789")] != '\0') {
        fprintf(stderr, "libyaml-0.so.2, proved: %s is no number: %s\n", name, text);
        _exit(2);
    }
    for (; *text != '\0'; text++)
        bound = bound > most / 10 ? most : 10 * bound + (size_t)(*text - '0');
    return bound < most ? bound : most;
}

/* Ends the process where a variable of the environment begins as these do and is none of them: a bound may be misspelt. The last two
 * are of the package for Python and of the crate. */
static void look_for_others(void)
{
    static const char *const names[] = {"MAX_DEPTH", "MAX_NODES", "MAX_EXPANDED", "UNIQUE_KEYS", "FIXES",
                                        "CHECK", "LIBRARY", "DIR"};
    enum { PREFIX = sizeof "POKHVIZI_" - 1, COUNT = sizeof names / sizeof *names };
    size_t length, i;

    for (char **at = environ; at != NULL && *at != NULL; at++) {
        if (strncmp(*at, "POKHVIZI_", PREFIX) != 0)
            continue;
        length = strcspn(*at + PREFIX, "=");
        for (i = 0; i < COUNT && (strlen(names[i]) != length || strncmp(*at + PREFIX, names[i], length) != 0); i++)
            ;
        if (i == COUNT) {
            fprintf(stderr, "libyaml-0.so.2, proved: the environment's %.*s is unknown\n", (int)(PREFIX + length), *at);
            _exit(2);
        }
    }
}

/* Whether a variable of the environment is set, to something else than 0. */
static int is_set(const char *name)
{
    const char *text = getenv(name);

    return text != NULL && *text != '\0' && strcmp(text, "0") != 0;
}

/* As the program begins, or at the first call, if the constructor of another library parses before. No later call looks at what the
 * program may be changing. */
__attribute__((constructor)) SELDOM void read_environment(void)
{
    const char *check = getenv("POKHVIZI_CHECK");

    if (is_read)
        return;
    bounds = (struct bounds){ANY_DEPTH, ANY_NODES, ANY_EXPANDED, 0};
    is_read = 1;
    /* A set-user-ID program may have been started by anyone, with any environment. */
    if (getauxval(AT_SECURE))
        return;
    look_for_others();
    check_file = check == NULL ? NULL : strdup(check);
    has_fixes = is_set("POKHVIZI_FIXES");
    bounds.depth = bound_of("POKHVIZI_MAX_DEPTH", ANY_DEPTH);
    bounds.nodes = bound_of("POKHVIZI_MAX_NODES", ANY_NODES);
    bounds.expanded = bound_of("POKHVIZI_MAX_EXPANDED", ANY_EXPANDED);
    bounds.unique_keys = is_set("POKHVIZI_UNIQUE_KEYS");
}

/* The version of Pokhvizi, which a program finds by this name where libyaml is this one. */
__attribute__((visibility("default"))) const char *pokhvizi_libyaml_version(void)
{
    return POKHVIZI_VERSION;
}

/* The anchor, alias or tag handle that a parser's error is about; of another error, or without one, NULL. It is the parser's, and lasts
 * until yaml_parser_delete. A program finds this call by its name, like the version. */
__attribute__((visibility("default"))) const char *pokhvizi_libyaml_name(const yaml_parser_t *parser)
{
    return (const char *)name_in(parser);
}

/* Notes in the file that the environment's POKHVIZI_CHECK names that a stream is parsed here, for proved-libyaml. */
static void note_use(void)
{
    FILE *file = check_file == NULL ? NULL : fopen(check_file, "r+");

    if (file != NULL) {
        fputs(POKHVIZI_VERSION "\n", file);
        fclose(file);
    }
}

/* A stream isn't begun. */
static int is_new(const yaml_parser_t *parser)
{
    return parser->state == YAML_PARSE_STREAM_START_STATE;
}

/* Begins a stream within the environment's bounds; 0 where memory is refused. */
static int begin_here(yaml_parser_t *parser)
{
    if (!is_read)
        read_environment();
    if (!begin(parser, &bounds, has_fixes))
        return 0;
    note_use();
    return 1;
}

/* ---- What libyaml's parser leaves ---- */

/* The tokens of collections' starts, a bit for each. libyaml takes one with the call after its event. */
enum {
    STARTS = 1 << YAML_BLOCK_SEQUENCE_START_TOKEN | 1 << YAML_BLOCK_MAPPING_START_TOKEN | 1 << YAML_FLOW_SEQUENCE_START_TOKEN |
             1 << YAML_FLOW_MAPPING_START_TOKEN
};

/* The states of entries of block collections, a bit for each. libyaml has another state for the first entry, the one before it. The steps
 * have only those of flow collections, whose first is also that after a comma. */
enum {
    ENTRIES = 1 << YAML_PARSE_BLOCK_SEQUENCE_ENTRY_STATE | 1 << YAML_PARSE_BLOCK_MAPPING_KEY_STATE,
    FIRST_ENTRIES = 1 << YAML_PARSE_FLOW_SEQUENCE_FIRST_ENTRY_STATE | 1 << YAML_PARSE_FLOW_MAPPING_FIRST_KEY_STATE
};

/* libyaml's state after an event. After an explicit end of a document it no longer takes one without a start. */
static yaml_parser_state_t state_of(const struct kept *kept, int is_first)
{
    uint8_t state = kept->steps.machine.state;

    if (state == YAML_PARSE_IMPLICIT_DOCUMENT_START_STATE && kept->steps.machine.behind_document_end)
        return YAML_PARSE_DOCUMENT_START_STATE;
    return (yaml_parser_state_t)(state - (is_first && ENTRIES >> state & 1));
}

/* Leaves the token of a collection's start, if it has one of its own. */
APART void leave_start(yaml_parser_t *parser, struct kept *kept)
{
    kept->is_left = !parser->token_available && parser->tokens.head != parser->tokens.start && STARTS >> parser->tokens.head[-1].type & 1;
    if (kept->is_left) {
        parser->token_available = 1;
        parser->tokens_parsed--;
        parser->tokens.head--;
    }
    parser->state = state_of(kept, (int)kept->is_left);
}

/* Some programs read the parser's fields: after each event its state, and the token in hand, are those of libyaml. After an error the
 * state is that after the last event. */
OFTEN void leave(yaml_parser_t *parser, yaml_event_type_t type)
{
    struct kept *kept = kept_of(parser);

    if (type == YAML_SCALAR_EVENT)
        parser->state = (yaml_parser_state_t)kept->steps.machine.state;
    else if (type == YAML_SEQUENCE_START_EVENT || type == YAML_MAPPING_START_EVENT)
        leave_start(parser, kept);
    else if (type != YAML_STREAM_END_EVENT)
        parser->state = state_of(kept, 0);
}

/* Takes the token that the last event has left; 0 where a scan has taken it, and the scanner has an error. */
APART int take_left_now(yaml_parser_t *parser)
{
    kept_of(parser)->is_left = 0;
    if (!parser->token_available && !yaml_parser_fetch_more_tokens(parser))
        return stop(parser);
    if (!(STARTS >> parser->tokens.head->type & 1))
        yaml_token_delete(parser->tokens.head);
    skip(parser);
    return 1;
}

OFTEN int take_left(yaml_parser_t *parser)
{
    return !kept_of(parser)->is_left || take_left_now(parser);
}

/* In the place of libyaml's function of this name. */
__attribute__((visibility("default"))) int yaml_parser_parse(yaml_parser_t *parser, yaml_event_t *event)
{
    struct held held = {0};
    int stopped;

    assert(parser);
    assert(event);
    stopped = has_stopped(parser);
    if (!stopped && (is_new(parser) ? begin_here(parser) || out_of_memory(parser) : take_left(parser)) &&
        parse(parser, &held, event, (int)kept_of(parser)->is_counted)) {
        leave(parser, event->type);
        return 1;
    }
    memset(event, 0, sizeof *event);
    forget(&held);
    return stopped;
}

/* ---- The loader ---- */

/* A node's anchor, in a table where it has a place by its hash; without an anchor the place is free. */
struct carrier {
    yaml_char_t *anchor;
    uint32_t hash;
    int32_t node;
};

/* What is kept while a document is composed. Its first stack and its first sizes are its own. The table has places for twice as
 * many anchors as there are, and a power of two, or none. */
struct loading {
    pokhvizi_composer_t composer;
    pokhvizi_open_t first[FIRST_ROOM(24)];
    pokhvizi_open_t *stack;
    size_t stack_room;
    struct carrier *carriers;
    size_t carriers_count, carriers_room;
    pokhvizi_size_t size;
    uint64_t first_sizes[FIRST_ROOM(24)];
    uint64_t *sizes;
    size_t sizes_room;
};

/* An array of twice as many bytes, in the place of one that is the loading's own or isn't; NULL where memory is refused. */
static void *twice(void *array, int is_own, size_t used)
{
    void *made = realloc(is_own ? NULL : array, 2 * used);

    return made == NULL || !is_own ? made : memcpy(made, array, used);
}

static int grow_stack(struct loading *loading)
{
    size_t used = loading->stack_room * sizeof *loading->stack;
    pokhvizi_open_t *made = twice(loading->stack, loading->stack == loading->first, used);

    if (made == NULL)
        return 0;
    loading->stack = made;
    loading->stack_room *= 2;
    return 1;
}

static int grow_sizes(struct loading *loading)
{
    size_t used = loading->sizes_room * sizeof *loading->sizes;
    uint64_t *made = twice(loading->sizes, loading->sizes == loading->first_sizes, used);

    if (made == NULL)
        return 0;
    loading->sizes = made;
    loading->sizes_room *= 2;
    return 1;
}

/* The place of an anchor in a table, or the one that is free for it. */
static struct carrier *place_of(struct carrier *table, size_t room, const yaml_char_t *anchor, uint32_t hash)
{
    size_t at = hash & (room - 1);

    while (table[at].anchor != NULL &&
           (table[at].hash != hash || strcmp((const char *)table[at].anchor, (const char *)anchor) != 0))
        at = (at + 1) & (room - 1);
    return &table[at];
}

/* The node of the document that carries an anchor, or 0. */
APART int32_t anchored_node_of(yaml_parser_t *parser, const struct loading *loading, const yaml_char_t *anchor)
{
    if (loading->carriers_count == 0)
        return 0;
    return place_of(loading->carriers, loading->carriers_room, anchor, hash_of(anchor, key_of(parser)))->node;
}

static int grow_carriers(struct loading *loading)
{
    size_t room = loading->carriers_room == 0 ? 2 * FIRST_ROOM(8) : 2 * loading->carriers_room;
    struct carrier *made = calloc(room, sizeof *made);

    if (made == NULL)
        return 0;
    for (size_t i = 0; i < loading->carriers_room; i++) {
        struct carrier *old = &loading->carriers[i];
        if (old->anchor != NULL)
            *place_of(made, room, old->anchor, old->hash) = *old;
    }
    free(loading->carriers);
    loading->carriers = made;
    loading->carriers_room = room;
    return 1;
}

/* Makes a node the anchored node of its anchor, which no other has, and takes the anchor; 0 where memory is refused. */
static int carry(yaml_parser_t *parser, struct loading *loading, yaml_char_t **anchor, int32_t node)
{
    uint32_t hash = hash_of(*anchor, key_of(parser));

    if (2 * loading->carriers_count == loading->carriers_room && !grow_carriers(loading))
        return 0;
    *place_of(loading->carriers, loading->carriers_room, *anchor, hash) = (struct carrier){*anchor, hash, node};
    loading->carriers_count++;
    *anchor = NULL;
    return 1;
}

static void begin_loading(struct loading *loading)
{
    pokhvizi_composer_new(&loading->composer, (uint32_t)bounds.nodes);
    loading->stack = loading->first;
    loading->stack_room = sizeof loading->first / sizeof *loading->first;
    loading->carriers = NULL;
    loading->carriers_count = loading->carriers_room = 0;
    pokhvizi_size_new(&loading->size, bounds.expanded);
    loading->sizes = loading->first_sizes;
    loading->sizes_room = sizeof loading->first_sizes / sizeof *loading->first_sizes;
}

static void end_loading(struct loading *loading)
{
    if (loading->stack != loading->first)
        free(loading->stack);
    if (loading->sizes != loading->first_sizes)
        free(loading->sizes);
    for (size_t i = 0; i < loading->carriers_room; i++)
        free(loading->carriers[i].anchor);
    free(loading->carriers);
}

/* ---- Documents ---- */

/* Makes room for one entry more of one of libyaml's stacks, which are three pointers; 0 where memory is refused. */
#define ROOM(stack) ((stack).top < (stack).end || more_room(&(stack).start, &(stack).top, &(stack).end, sizeof *(stack).start))

static int more_room(void *start, void *top, void *end, size_t size)
{
    char *from, *to, *made;
    size_t used, room;

    memcpy(&from, start, sizeof from);
    memcpy(&to, top, sizeof to);
    used = to - from;
    room = used == 0 ? FIRST_ROOM(16) * size : 2 * used;
    if ((made = realloc(from, room)) == NULL)
        return 0;
    to = made + used;
    memcpy(start, &made, sizeof made);
    memcpy(top, &to, sizeof to);
    made += room;
    memcpy(end, &made, sizeof made);
    return 1;
}

static yaml_node_t *node_of(const yaml_document_t *document, int32_t id)
{
    return document->nodes.start + id - 1;
}

/* Takes the tag of a node; NULL if it is `!`. */
APART yaml_char_t *own_tag_of(struct held *held)
{
    yaml_char_t *tag = held->tag;

    held->tag = NULL;
    if (strcmp((const char *)tag, "!") != 0)
        return tag;
    free(tag);
    return NULL;
}

/* The tag of a node: a missing one, or `!`, is its kind's. NULL where memory is refused. */
OFTEN yaml_char_t *tag_of(const pokhvizi_event_t *made, struct held *held, const char *by_kind, size_t size)
{
    yaml_char_t *tag = made->has_tag ? own_tag_of(held) : NULL;

    if (tag != NULL)
        return tag;
    return (tag = malloc(size)) == NULL ? NULL : memcpy(tag, by_kind, size);
}

#define TAG_OF(made, held, by_kind) tag_of(made, held, by_kind, sizeof(by_kind))

/* A scalar has the value and style of its token, or is empty where the token isn't its own. */
OFTEN int make_scalar(const pokhvizi_event_t *made, yaml_token_t *token, struct held *held, yaml_node_t *node)
{
    node->type = YAML_SCALAR_NODE;
    node->data.scalar.value = NULL;
    if ((node->tag = TAG_OF(made, held, YAML_DEFAULT_SCALAR_TAG)) == NULL)
        return 0;
    if (token == NULL || token->type != YAML_SCALAR_TOKEN) {
        node->data.scalar.style = YAML_PLAIN_SCALAR_STYLE;
        node->data.scalar.length = 0;
        return (node->data.scalar.value = calloc(1, 1)) != NULL;
    }
    node->data.scalar.value = token->data.scalar.value;
    node->data.scalar.length = token->data.scalar.length;
    node->data.scalar.style = token->data.scalar.style;
    token->data.scalar.value = NULL;
    return 1;
}

/* Makes a node of an event, without children; 0 where memory is refused. */
OFTEN int make_node(const pokhvizi_event_t *made, yaml_token_t *token, struct held *held, yaml_node_t *node)
{
    memcpy(&node->start_mark, &made->start_mark, sizeof(pokhvizi_span_t));
    if (made->kind == YAML_SCALAR_EVENT)
        return make_scalar(made, token, held, node);
    memset(node, 0, offsetof(yaml_node_t, start_mark));
    switch (made->kind) {
    case YAML_SEQUENCE_START_EVENT:
        node->type = YAML_SEQUENCE_NODE;
        node->data.sequence.style = made->is_flow ? YAML_FLOW_SEQUENCE_STYLE : YAML_BLOCK_SEQUENCE_STYLE;
        return ROOM(node->data.sequence.items) && (node->tag = TAG_OF(made, held, YAML_DEFAULT_SEQUENCE_TAG)) != NULL;
    default:
        node->type = YAML_MAPPING_NODE;
        node->data.mapping.style = made->is_flow ? YAML_FLOW_MAPPING_STYLE : YAML_BLOCK_MAPPING_STYLE;
        return ROOM(node->data.mapping.pairs) && (node->tag = TAG_OF(made, held, YAML_DEFAULT_MAPPING_TAG)) != NULL;
    }
}

/* Puts the node or alias of an event at its place; 0 where memory is refused. */
OFTEN int put(yaml_parser_t *parser, struct loading *loading, uint32_t deed, const pokhvizi_place_t *place,
              const pokhvizi_event_t *made, yaml_token_t *token, struct held *held, yaml_document_t *document)
{
    yaml_node_t *parent;

    if (place->node == 0) {
        free(token->data.alias.value);
        token->data.alias.value = NULL;
    } else if (!ROOM(document->nodes) || !make_node(made, token, held, document->nodes.top++) ||
               (made->has_anchor && !carry(parser, loading, &held->anchor, place->node))) {
        return 0;
    }
    if (deed == POKHVIZI_ITEM) {
        parent = node_of(document, place->parent);
        if (!ROOM(parent->data.sequence.items))
            return 0;
        *parent->data.sequence.items.top++ = place->child;
    } else if (deed == POKHVIZI_VALUE) {
        parent = node_of(document, place->parent);
        if (!ROOM(parent->data.mapping.pairs))
            return 0;
        parent->data.mapping.pairs.top->key = place->key;
        parent->data.mapping.pairs.top++->value = place->child;
    }
    return 1;
}

/* Puts the node or alias of an event at its place, where keys may have to differ; 0 where there is an error, or memory is refused. */
APART int put_checked(yaml_parser_t *parser, struct loading *loading, uint32_t deed, const pokhvizi_place_t *place,
                      const pokhvizi_event_t *made, yaml_token_t *token, struct held *held, yaml_document_t *document)
{
    if (bounds.unique_keys && !look_at_keys(parser, deed, place, made, token, held)) {
        if (parser->error == YAML_NO_ERROR)
            parser->error = YAML_COMPOSER_ERROR;
        return 0;
    }
    return put(parser, loading, deed, place, made, token, held, document);
}

/* ---- Events of documents ---- */

static int begin_document(const yaml_parser_t *parser, const pokhvizi_event_t *made, const struct held *held,
                          yaml_document_t *document)
{
    yaml_event_t event = {0};
    int done = document_start(parser, held, &event);

    document->version_directive = event.data.document_start.version_directive;
    document->tag_directives.start = event.data.document_start.tag_directives.start;
    document->tag_directives.end = event.data.document_start.tag_directives.end;
    document->start_implicit = made->implicit;
    memcpy(&document->start_mark, &made->start_mark, sizeof document->start_mark);
    return done;
}

/* Names what a composer's error is about: an anchor that is held, or the alias in hand, which stays there. */
static void name_anchor(yaml_parser_t *parser, uint32_t deed, const yaml_token_t *token, struct held *held)
{
    if (deed == POKHVIZI_REPEATED_ANCHOR)
        keep_name(parser, &held->anchor);
    else if (deed == POKHVIZI_UNDEFINED_ALIAS || deed == POKHVIZI_ENDLESS)
        kept_of(parser)->name = token->data.alias.value;
}

static int give_composer_fault(yaml_parser_t *parser, uint32_t deed, const pokhvizi_event_t *made,
                               const yaml_document_t *document, int32_t first)
{
    parser->error = YAML_COMPOSER_ERROR;
    parser->problem = pokhvizi_refusal(deed, &parser->context);
    memcpy(&parser->problem_mark, &made->start_mark, sizeof parser->problem_mark);
    if (parser->context != NULL)
        parser->context_mark = node_of(document, first)->start_mark;
    return 0;
}

/* Passes over an event that is no part of the document: of the stream, or of one that was begun by yaml_parser_parse. */
static void pass(yaml_parser_t *parser, const pokhvizi_event_t *made, yaml_token_t *token, struct held *held)
{
    if (token != NULL && (token->type == YAML_ALIAS_TOKEN || token->type == YAML_SCALAR_TOKEN)) {
        free(token->data.scalar.value);  /* where an alias has its text, too */
        token->data.scalar.value = NULL;
    }
    forget(held);
    if (made->kind == YAML_DOCUMENT_END_EVENT)
        forget_directives(parser);
    else if (made->kind == YAML_STREAM_END_EVENT)
        end_stream(parser);
}

/* Takes the alias or scalar that a composer refuses, as libyaml's parser has done by then: some programs look at `token_available`. */
static void take_refused(yaml_parser_t *parser, yaml_token_t *token)
{
    if (token == NULL || (token->type != YAML_ALIAS_TOKEN && token->type != YAML_SCALAR_TOKEN))
        return;
    if (kept_of(parser)->name == token->data.scalar.value && token->type == YAML_ALIAS_TOKEN)
        keep_name(parser, &token->data.alias.value);
    free(token->data.scalar.value);  /* where an alias has its text, too */
    token->data.scalar.value = NULL;
    skip(parser);
}

/* Does what is said of an event that neither puts nor closes a node; 0 where there is an error. */
SELDOM int follow_event(yaml_parser_t *parser, uint32_t deed, int32_t fact, const pokhvizi_event_t *made, yaml_token_t *token,
                        struct held *held, yaml_document_t *document)
{
    switch (deed) {
    case POKHVIZI_BEGINS:
        forget_names(kept_of(parser));
        return begin_document(parser, made, held, document) || out_of_memory(parser);
    case POKHVIZI_ENDS:
        document->end_implicit = made->implicit;
        memcpy(&document->end_mark, &made->end_mark, sizeof document->end_mark);
        forget_directives(parser);
        return 1;
    case POKHVIZI_PASSES:
        pass(parser, made, token, held);
        return 1;
    case POKHVIZI_UNDEFINED_ALIAS:
    case POKHVIZI_REPEATED_ANCHOR:
    case POKHVIZI_FULL_LIST:
    case POKHVIZI_TOO_LARGE:
    case POKHVIZI_ENDLESS:
        name_anchor(parser, deed, token, held);
        give_composer_fault(parser, deed, made, document, fact);
        take_refused(parser, token);
        return 0;
    default:
        return out_of_memory(parser);
    }
}

/* Counts what is to be done, and returns it; or that the document is too large with its aliases written out. */
APART uint32_t count(struct loading *loading, uint32_t deed, uint8_t kind, const pokhvizi_place_t *place)
{
    uint32_t counted;

    while ((counted = pokhvizi_count(&loading->size, loading->sizes, loading->sizes_room, deed, kind, place)) ==
           POKHVIZI_FULL_SIZES)
        if (!grow_sizes(loading))
            break;
    return counted == POKHVIZI_COUNTED ? deed : counted;
}

/* What is to be done with an event for which the stack had no room. */
SELDOM uint32_t compose_with_room(struct loading *loading, uint8_t kind, int32_t fact, pokhvizi_place_t *place)
{
    uint32_t deed = POKHVIZI_FULL_STACK;

    while (deed == POKHVIZI_FULL_STACK && grow_stack(loading))
        deed = pokhvizi_compose(&loading->composer, loading->stack, loading->stack_room, kind, fact, place);
    return deed;
}

/* The node that carries the anchor of an event's node or alias, or 0. */
OFTEN int32_t named_by(yaml_parser_t *parser, const struct loading *loading, const pokhvizi_event_t *made,
                       const yaml_token_t *token, const struct held *held)
{
    if (made->has_anchor)
        return anchored_node_of(parser, loading, held->anchor);
    return made->kind == YAML_ALIAS_EVENT ? anchored_node_of(parser, loading, token->data.alias.value) : 0;
}

/* Loads the next document, of which nothing is there yet; 0 where there is an error. At the stream's end there is none. Its nodes are
 * counted with aliases written out, and its keys compared, if the environment says so. */
OFTEN int load(yaml_parser_t *parser, struct loading *loading, struct held *held, yaml_document_t *document, int is_checked)
{
    pokhvizi_event_t made;
    pokhvizi_place_t place = {0, 0, 0, 0};
    yaml_token_t *token = at_hand(parser);
    uint32_t did;

    while ((did = advance(parser, &token, held, &made)) != 0) {
        yaml_token_t *given = did == POKHVIZI_GAVE ? token : NULL;
        int32_t fact = named_by(parser, loading, &made, given, held);
        uint32_t deed = pokhvizi_compose(&loading->composer, loading->stack, loading->stack_room, made.kind, fact, &place);
        int is_over = 0;
        if (deed == POKHVIZI_FULL_STACK)
            deed = compose_with_room(loading, made.kind, fact, &place);
        if (is_checked && bounds.expanded < ANY_EXPANDED)
            deed = count(loading, deed, made.kind, &place);
        if (deed >= POKHVIZI_ROOT && deed <= POKHVIZI_VALUE) {
            if (!(is_checked ? put_checked : put)(parser, loading, deed, &place, &made, given, held, document))
                return stop(parser);
        } else if (deed == POKHVIZI_CLOSES) {
            memcpy(&node_of(document, place.parent)->end_mark, &made.end_mark, sizeof(yaml_mark_t));
            if (is_checked)
                forget_keys(kept_of(parser), place.parent);
        } else {
            if (!follow_event(parser, deed, fact, &made, given, held, document))
                return 0;
            is_over = deed == POKHVIZI_ENDS || made.kind == YAML_STREAM_END_EVENT;
        }
        token = given == NULL ? parser->tokens.head : NULL;
        if (given != NULL)
            skip(parser);
        if (is_over)
            return 1;
    }
    return 0;
}

static int load_unchecked(yaml_parser_t *parser, struct loading *loading, struct held *held, yaml_document_t *document)
{
    return load(parser, loading, held, document, 0);
}

static int load_checked(yaml_parser_t *parser, struct loading *loading, struct held *held, yaml_document_t *document)
{
    return load(parser, loading, held, document, 1);
}

/* Whether the last event of a load with an error was a collection's start with a token of its own: the composer has refused it, or
 * nothing has come after it. */
static int was_start(const yaml_parser_t *parser, const struct loading *loading)
{
    const pokhvizi_open_t *after = loading->stack + loading->composer.depth;

    if (parser->error == YAML_COMPOSER_ERROR)
        return parser->token_available && STARTS >> parser->tokens.head->type & 1;
    return after != loading->stack && after[-1].children == 0 && after[-1].key == 0;
}

/* After an error in a load: the state after the last event. */
SELDOM void leave_fault(yaml_parser_t *parser, const struct loading *loading)
{
    int is_first;

    if (parser->error == YAML_MEMORY_ERROR)
        return;
    is_first = was_start(parser, loading);
    parser->state = state_of(kept_of(parser), is_first);
    if (!is_first && FIRST_ENTRIES >> parser->state & 1)
        parser->state++;
}

/* In the place of libyaml's function of this name. */
__attribute__((visibility("default"))) int yaml_parser_load(yaml_parser_t *parser, yaml_document_t *document)
{
    struct loading loading;
    struct held held = {0};
    int loaded;

    assert(parser);
    assert(document);
    memset(document, 0, sizeof *document);
    if (!is_read)
        read_environment();
    begin_loading(&loading);
    if (!ROOM(document->nodes))
        loaded = out_of_memory(parser);
    else if (has_stopped(parser))
        loaded = parser->error == YAML_NO_ERROR;
    else if (is_new(parser) && !begin_here(parser))
        loaded = out_of_memory(parser);
    else if (!take_left(parser))
        loaded = 0;
    else if (!(loaded = (bounds.expanded == ANY_EXPANDED && !bounds.unique_keys ? load_unchecked : load_checked)(parser, &loading, &held,
                                                                                                                 document)))
        leave_fault(parser, &loading);
    forget(&held);
    if (!loaded)
        yaml_document_delete(document);
    else if (!has_stopped(parser))
        parser->state = state_of(kept_of(parser), 0);
    end_loading(&loading);
    return loaded;
}
