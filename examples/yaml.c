/* Prints the tokens, the events or the nodes of a YAML file in lines, by libyaml's scanner (Debian: libyaml-dev) and the steps of
 * our static library: a token in, an event out; an event in, and where its node goes. `scripts/build_c.sh DIR` builds it; USAGE
 * below says how to call it. */
#include <pokhvizi/compose.h>
#include <pokhvizi/steps.h>
#include <errno.h>
#include <signal.h>
#include <stdio.h>
#include <stdlib.h>
#include <string.h>
#include <yaml.h>

static const char USAGE[] =
    "usage: yaml tokens|events|nodes FILE\n"
    "Writes the lines of a YAML file's tokens, events, or documents and nodes; FILE may be -, for standard input.\n"
    "A fault of the YAML is the last of the events or nodes: FAULT, who found it, its mark and its words, and maybe a\n"
    "line CONTEXT. Marks are index:line:column, counted in characters from 0. A fault is told on standard error too,\n"
    "with what was expected where it is a token's kind, or the anchor, alias or tag handle that it is about.\n"
    "Exit status: 0 the file was read to its end, 1 it has a fault, 2 wrong words, 3 the file can't be read, the\n"
    "output can't be written, or there is no memory.\n";

enum { ENDED = 0, FAULTED = 1, WRONG_WORDS = 2, FAILED = 3 };

/* Bytes that grow. Once `failed` is set, memory was refused, and they are not to be used. */
struct text {
    unsigned char *bytes;
    size_t length, room;
    int failed;
};

static int fail(const char *what, const char *why)
{
    fprintf(stderr, "yaml: %s: %s\n", what, why);
    return FAILED;
}

static int out_of_memory(void)
{
    fputs("yaml: out of memory\n", stderr);
    return FAILED;
}

/* Makes room for so many bytes more; 0 where memory is refused. */
static int reserve(struct text *text, size_t more)
{
    if (text->failed || more > SIZE_MAX / 2 - text->length)
        return !(text->failed = 1);
    if (text->length + more <= text->room)
        return 1;
    size_t room = 2 * (text->length + more);
    unsigned char *bytes = realloc(text->bytes, room);
    if (bytes == NULL)
        return !(text->failed = 1);
    text->bytes = bytes;
    text->room = room;
    return 1;
}

static void put(struct text *text, const void *bytes, size_t length)
{
    if (!reserve(text, length))
        return;
    if (length > 0)
        memcpy(text->bytes + text->length, bytes, length);
    text->length += length;
}

static void put_words(struct text *text, const char *words)
{
    put(text, words, strlen(words));
}

/* More room for a stack of entries of this size. */
static void widen(struct text *stack, size_t size)
{
    stack->length = stack->room;
    reserve(stack, size);
}

static void put_mark(struct text *text, yaml_mark_t mark)
{
    char digits[80];

    snprintf(digits, sizeof digits, " %zu:%zu:%zu", mark.index, mark.line, mark.column);
    put_words(text, digits);
}

/* ---- Token lines ---- */

static const char *const NAMES[] = {
    "NO-TOKEN", "STREAM-START", "STREAM-END", "VERSION-DIRECTIVE", "TAG-DIRECTIVE", "DOCUMENT-START",
    "DOCUMENT-END", "BLOCK-SEQUENCE-START", "BLOCK-MAPPING-START", "BLOCK-END", "FLOW-SEQUENCE-START",
    "FLOW-SEQUENCE-END", "FLOW-MAPPING-START", "FLOW-MAPPING-END", "BLOCK-ENTRY", "FLOW-ENTRY", "KEY",
    "VALUE", "ALIAS", "ANCHOR", "TAG", "SCALAR",
};
static const char *const ENCODINGS[] = {" any", " utf8", " utf16le", " utf16be"};
static const char *const STYLES[] = {" any", " plain", " single", " double", " literal", " folded"};

/* A text field: `=` and the bytes, those that need it as `%` and two digits. */
static void put_bytes(struct text *text, const yaml_char_t *bytes, size_t length)
{
    char escape[4];

    put_words(text, " =");
    for (size_t i = 0; i < length; i++) {
        if (bytes[i] > 0x20 && bytes[i] < 0x7F && bytes[i] != '%') {
            put(text, bytes + i, 1);
        } else {
            snprintf(escape, sizeof escape, "%%%02X", bytes[i]);
            put(text, escape, 3);
        }
    }
}

static void put_string(struct text *text, const yaml_char_t *string)
{
    put_bytes(text, string, strlen((const char *)string));
}

/* What follows a token's marks. */
static void put_fields(struct text *text, const yaml_token_t *token)
{
    char version[32];

    switch (token->type) {
    case YAML_STREAM_START_TOKEN:
        put_words(text, ENCODINGS[token->data.stream_start.encoding]);
        break;
    case YAML_VERSION_DIRECTIVE_TOKEN:
        snprintf(version, sizeof version, " %d.%d", token->data.version_directive.major,
                 token->data.version_directive.minor);
        put_words(text, version);
        break;
    case YAML_TAG_DIRECTIVE_TOKEN:
        put_string(text, token->data.tag_directive.handle);
        put_string(text, token->data.tag_directive.prefix);
        break;
    case YAML_ALIAS_TOKEN:
        put_string(text, token->data.alias.value);
        break;
    case YAML_ANCHOR_TOKEN:
        put_string(text, token->data.anchor.value);
        break;
    case YAML_TAG_TOKEN:
        put_string(text, token->data.tag.handle);
        put_string(text, token->data.tag.suffix);
        break;
    case YAML_SCALAR_TOKEN:
        put_bytes(text, token->data.scalar.value, token->data.scalar.length);
        put_words(text, STYLES[token->data.scalar.style]);
        break;
    default:
        break;
    }
}

static void put_token(struct text *text, const yaml_token_t *token)
{
    put_words(text, NAMES[token->type]);
    put_mark(text, token->start_mark);
    put_mark(text, token->end_mark);
    put_fields(text, token);
    put_words(text, "\n");
}

/* ---- The scanner's errors ---- */

/* The character at a place, and how many bytes it has; the text is valid up to there. */
static unsigned long character_at(const struct text *yaml, yaml_encoding_t encoding, size_t at, size_t *width)
{
    const unsigned char *b = yaml->bytes + at;
    size_t left = yaml->length - at;

    if (encoding == YAML_UTF16LE_ENCODING || encoding == YAML_UTF16BE_ENCODING) {
        int low = encoding == YAML_UTF16BE_ENCODING;
        unsigned long unit = left < 2 ? 0 : b[low] | (unsigned long)b[1 - low] << 8;
        *width = (unit & 0xFC00) == 0xD800 ? 4 : 2;
        return unit;
    }
    *width = b[0] < 0xC0 ? 1 : b[0] < 0xE0 ? 2 : b[0] < 0xF0 ? 3 : 4;
    if (*width == 2 && left >= 2)
        return (b[0] & 0x1FUL) << 6 | (b[1] & 0x3F);
    if (*width == 3 && left >= 3)
        return (b[0] & 0x0FUL) << 12 | (b[1] & 0x3FUL) << 6 | (b[2] & 0x3F);
    return b[0];
}

static size_t byte_order_mark(const struct text *yaml, yaml_encoding_t encoding)
{
    if (encoding != YAML_UTF8_ENCODING)
        return yaml->length < 2 ? yaml->length : 2;
    return yaml->length >= 3 && memcmp(yaml->bytes, "\xEF\xBB\xBF", 3) == 0 ? 3 : 0;
}

/* The mark of the character at a byte's offset: libyaml's reader tells the offset alone. */
static yaml_mark_t mark_at(const struct text *yaml, yaml_encoding_t encoding, size_t offset)
{
    yaml_mark_t mark = {0, 0, 0};
    size_t at = byte_order_mark(yaml, encoding), width;

    while (at < yaml->length) {
        unsigned long c = character_at(yaml, encoding, at, &width);
        size_t next = at + width, unused;
        if (next > offset)
            break;
        int before_lf = c == '\r' && next < yaml->length && character_at(yaml, encoding, next, &unused) == '\n';
        mark.index++;
        mark.column++;
        if ((c == '\r' && !before_lf) || c == '\n' || c == 0x85 || c == 0x2028 || c == 0x2029) {
            mark.line++;
            mark.column = 0;
        }
        at = next;
    }
    return mark;
}

/* A line of an error: who found it, its mark and its words, and maybe a line of its context. */
static void put_fault(struct text *text, const char *finder, yaml_mark_t mark, const char *problem, yaml_mark_t context_mark,
                      const char *context)
{
    put_words(text, finder);
    put_mark(text, mark);
    put_words(text, " ");
    put_words(text, problem != NULL ? problem : "-");
    put_words(text, "\n");
    if (context != NULL) {
        put_words(text, "CONTEXT");
        put_mark(text, context_mark);
        put_words(text, " ");
        put_words(text, context);
        put_words(text, "\n");
    }
}

static void put_scanner_fault(struct text *text, const yaml_parser_t *parser, const struct text *yaml)
{
    int reader = parser->error == YAML_READER_ERROR;

    put_fault(text, reader ? "FAULT reader" : "FAULT scanner",
              reader ? mark_at(yaml, parser->encoding, parser->problem_offset) : parser->problem_mark, parser->problem,
              parser->context_mark, parser->context);
}

/* ---- A run: events by steps of tokens, documents by steps of events ---- */

/* A text of the document: a range of `texts`. */
struct range {
    size_t place, length;
};

struct node {
    uint8_t kind, is_flow;
    int style;
    yaml_mark_t start, end;
    struct range tag, value;
    struct text children; /* ids */
};

struct run {
    int wants_nodes;
    struct text out;
    pokhvizi_steps_t steps;
    pokhvizi_composer_t composer;
    struct text states, marks, stack;
    struct text handles, handle_texts;  /* of the document */
    struct text anchor, tag;            /* since the last event; the tag in full */
    struct text next_tag;               /* the tag in full whose fact was asked for last, or a handle that isn't declared */
    char version[32];                   /* of the next document; "-" where it has none */
    struct text nodes, anchors, texts;  /* of the document */
    struct text start;                  /* the rest of its line */
    pokhvizi_event_t opening;
    uint32_t expected;                  /* in the place of the token that was refused, or 0 */
    struct text name;                   /* what the error is about: an anchor, an alias or a tag handle; or nothing */
};

#define ENTRIES(type, text) ((type *)(void *)(text).bytes)
#define COUNT(type, text) ((text).length / sizeof(type))
#define ROOM(type, text) ((text).room / sizeof(type))

static yaml_mark_t mark_of(pokhvizi_mark_t mark)
{
    yaml_mark_t made = {mark.index, mark.line, mark.column};
    return made;
}

static void put_flag(struct text *text, int flag)
{
    put_words(text, flag ? " 1" : " 0");
}

static void put_number(struct text *text, const char *before, size_t number)
{
    char digits[32];

    snprintf(digits, sizeof digits, "%s%zu", before, number);
    put_words(text, digits);
}

/* ---- What the steps have to know of texts ---- */

static uint8_t tag_fact(struct run *run, const yaml_char_t *handle, const yaml_char_t *suffix)
{
    size_t suffix_length = strlen((const char *)suffix), size = 0;

    run->next_tag.length = 0;
    if (!reserve(&run->next_tag, run->handle_texts.length + suffix_length + 32)) /* no default prefix has more */
        return 0;
    uint8_t fact = pokhvizi_tag(ENTRIES(pokhvizi_handle_t, run->handles), COUNT(pokhvizi_handle_t, run->handles),
                                run->handle_texts.bytes, run->handle_texts.length, handle, strlen((const char *)handle), suffix,
                                suffix_length, run->next_tag.bytes, run->next_tag.room, &size);
    run->next_tag.length = fact < 4 ? size : 0;
    if (fact == 4)
        put_words(&run->next_tag, (const char *)handle);
    return fact;
}

static uint8_t fact_of(struct run *run, const yaml_token_t *token)
{
    const yaml_char_t *handle;

    switch (token->type) {
    case YAML_SCALAR_TOKEN:
        return token->data.scalar.style == YAML_PLAIN_SCALAR_STYLE;
    case YAML_VERSION_DIRECTIVE_TOKEN:
        return pokhvizi_version_fact(token->data.version_directive.major, token->data.version_directive.minor);
    case YAML_TAG_DIRECTIVE_TOKEN:
        handle = token->data.tag_directive.handle;
        return pokhvizi_directive_fact(ENTRIES(pokhvizi_handle_t, run->handles), COUNT(pokhvizi_handle_t, run->handles),
                                       run->handle_texts.bytes, run->handle_texts.length, handle, strlen((const char *)handle));
    case YAML_TAG_TOKEN:
        return tag_fact(run, token->data.tag.handle, token->data.tag.suffix);
    default:
        return 0;
    }
}

static pokhvizi_text_t kept(struct text *texts, const yaml_char_t *text)
{
    pokhvizi_text_t range = {texts->length, strlen((const char *)text)};

    put(texts, text, range.length);
    return range;
}

/* Keeps the texts of a token that was taken without an event. */
static void keep(struct run *run, const yaml_token_t *token)
{
    pokhvizi_handle_t handle;
    struct text tag = run->tag;

    switch (token->type) {
    case YAML_ANCHOR_TOKEN:
        run->anchor.length = 0;
        put_words(&run->anchor, (const char *)token->data.anchor.value);
        break;
    case YAML_TAG_TOKEN:
        run->tag = run->next_tag;
        run->next_tag = tag;
        break;
    case YAML_VERSION_DIRECTIVE_TOKEN:
        snprintf(run->version, sizeof run->version, "%d.%d", token->data.version_directive.major,
                 token->data.version_directive.minor);
        break;
    case YAML_TAG_DIRECTIVE_TOKEN:
        handle.handle = kept(&run->handle_texts, token->data.tag_directive.handle);
        handle.prefix = kept(&run->handle_texts, token->data.tag_directive.prefix);
        put(&run->handles, &handle, sizeof handle);
        break;
    default:
        break;
    }
}

/* The version and the tag directives of the document that begins. */
static void put_directives(struct run *run, struct text *text)
{
    const pokhvizi_handle_t *handles = ENTRIES(pokhvizi_handle_t, run->handles);
    size_t count = COUNT(pokhvizi_handle_t, run->handles);

    put_words(text, " ");
    put_words(text, run->version);
    put_number(text, " ", count);
    for (size_t i = 0; i < count && !run->handle_texts.failed; i++) {
        put_bytes(text, run->handle_texts.bytes + handles[i].handle.place, handles[i].handle.length);
        put_bytes(text, run->handle_texts.bytes + handles[i].prefix.place, handles[i].prefix.length);
    }
    strcpy(run->version, "-");
}

/* ---- Event lines ---- */

static const char *const EVENTS[] = {
    "NO-EVENT", "STREAM-START", "STREAM-END", "DOCUMENT-START", "DOCUMENT-END", "ALIAS", "SCALAR", "SEQUENCE-START",
    "SEQUENCE-END", "MAPPING-START", "MAPPING-END",
};

static void put_property(struct text *text, int has, const struct text *property)
{
    if (has)
        put_bytes(text, property->bytes, property->length);
    else
        put_words(text, " -");
}

/* The line of an event. A scalar whose token stays is an empty one. */
static void put_event(struct run *run, const pokhvizi_event_t *event, const yaml_token_t *token, int stays)
{
    struct text *out = &run->out;

    put_words(out, EVENTS[event->kind]);
    put_mark(out, mark_of(event->start_mark));
    put_mark(out, mark_of(event->end_mark));
    if (event->kind == YAML_SCALAR_EVENT || event->kind == YAML_SEQUENCE_START_EVENT || event->kind == YAML_MAPPING_START_EVENT) {
        put_property(out, event->has_anchor, &run->anchor);
        put_property(out, event->has_tag, &run->tag);
    }
    switch (event->kind) {
    case YAML_STREAM_START_EVENT:
        put_words(out, ENCODINGS[token->data.stream_start.encoding]);
        break;
    case YAML_DOCUMENT_START_EVENT:
        put_flag(out, event->implicit);
        put_directives(run, out);
        break;
    case YAML_DOCUMENT_END_EVENT:
        put_flag(out, event->implicit);
        break;
    case YAML_ALIAS_EVENT:
        put_string(out, token->data.alias.value);
        break;
    case YAML_SCALAR_EVENT:
        put_bytes(out, stays ? (const yaml_char_t *)"" : token->data.scalar.value, stays ? 0 : token->data.scalar.length);
        put_flag(out, event->implicit);
        put_flag(out, event->quoted_implicit);
        put_words(out, STYLES[stays ? YAML_PLAIN_SCALAR_STYLE : token->data.scalar.style]);
        break;
    case YAML_SEQUENCE_START_EVENT:
    case YAML_MAPPING_START_EVENT:
        put_flag(out, event->implicit);
        put_words(out, event->is_flow ? " flow" : " block");
        break;
    default:
        break;
    }
    put_words(out, "\n");
}

/* ---- Documents ---- */

static struct range put_text(struct run *run, const void *text, size_t length)
{
    struct range range = {run->texts.length, length};

    put(&run->texts, text, length);
    return range;
}

/* A node's tag, which is its kind's where none is given, or `!`. */
static struct range put_tag(struct run *run, const pokhvizi_event_t *event)
{
    const char *kind = event->kind == YAML_SCALAR_EVENT ? YAML_STR_TAG
                       : event->kind == YAML_SEQUENCE_START_EVENT ? YAML_SEQ_TAG : YAML_MAP_TAG;

    if (!event->has_tag || (run->tag.length == 1 && run->tag.bytes[0] == '!'))
        return put_text(run, kind, strlen(kind));
    return put_text(run, run->tag.bytes, run->tag.length);
}

static void put_node(struct run *run, const pokhvizi_event_t *event, const yaml_token_t *token, int stays, int32_t id)
{
    struct node node = {.kind = event->kind, .is_flow = event->is_flow, .style = YAML_PLAIN_SCALAR_STYLE};

    node.start = mark_of(event->start_mark);
    node.end = mark_of(event->end_mark);
    node.tag = put_tag(run, event);
    if (event->kind == YAML_SCALAR_EVENT && !stays) {
        node.style = token->data.scalar.style;
        node.value = put_text(run, token->data.scalar.value, token->data.scalar.length);
    }
    put(&run->nodes, &node, sizeof node);
    if (event->has_anchor) {
        struct range anchor = put_text(run, run->anchor.bytes, run->anchor.length);
        pokhvizi_anchor_t entry = {anchor.place, anchor.length, id};
        put(&run->anchors, &entry, sizeof entry);
    }
}

static struct node *node_of(const struct run *run, int32_t id)
{
    return ENTRIES(struct node, run->nodes) + (id - 1);
}

static void put_child(struct node *parent, int32_t child)
{
    put(&parent->children, &child, sizeof child);
}

/* Leaves nothing of a document. */
static void forget(struct run *run)
{
    for (size_t i = 0; i < COUNT(struct node, run->nodes); i++)
        free(ENTRIES(struct node, run->nodes)[i].children.bytes);
    run->nodes.length = run->anchors.length = run->texts.length = run->start.length = 0;
}

static void put_node_line(struct run *run, const struct node *node, size_t id)
{
    struct text *out = &run->out;
    const int32_t *children = ENTRIES(int32_t, node->children);
    size_t count = COUNT(int32_t, node->children);
    int is_mapping = node->kind == YAML_MAPPING_START_EVENT;

    put_number(out, "", id);
    put_words(out, node->kind == YAML_SCALAR_EVENT ? " SCALAR" : is_mapping ? " MAPPING" : " SEQUENCE");
    put_mark(out, node->start);
    put_mark(out, node->end);
    put_bytes(out, run->texts.bytes + node->tag.place, node->tag.length);
    if (node->kind == YAML_SCALAR_EVENT) {
        put_bytes(out, run->texts.bytes + node->value.place, node->value.length);
        put_words(out, STYLES[node->style]);
    } else {
        put_words(out, node->is_flow ? " flow" : " block");
        put_number(out, " ", is_mapping ? count / 2 : count);
        for (size_t i = 0; i < count; i++)
            put_number(out, is_mapping && i % 2 == 1 ? ":" : " ", (size_t)children[i]);
    }
    put_words(out, "\n");
    out->failed |= node->children.failed;
}

static void put_document(struct run *run, const pokhvizi_event_t *end)
{
    struct text *out = &run->out;

    put_words(out, "DOCUMENT");
    put_mark(out, mark_of(run->opening.start_mark));
    put_mark(out, mark_of(end->end_mark));
    put_flag(out, run->opening.implicit);
    put_flag(out, end->implicit);
    put(out, run->start.bytes, run->start.length);
    put_words(out, "\n");
    for (size_t i = 0; i < COUNT(struct node, run->nodes); i++)
        put_node_line(run, &ENTRIES(struct node, run->nodes)[i], i + 1);
    forget(run);
}

static int composer_fault(struct run *run, const pokhvizi_event_t *event, const yaml_token_t *token, uint32_t deed, int32_t fact)
{
    const char *context, *problem = pokhvizi_refusal(deed, &context);
    yaml_mark_t start = mark_of(event->start_mark);

    if (deed == POKHVIZI_UNDEFINED_ALIAS)
        put_words(&run->name, (const char *)token->data.alias.value);
    else if (deed == POKHVIZI_REPEATED_ANCHOR)
        put(&run->name, run->anchor.bytes, run->anchor.length);
    else
        return FAILED;
    put_fault(&run->out, "FAULT composer", start, problem,
              deed == POKHVIZI_REPEATED_ANCHOR ? node_of(run, fact)->start : start, context);
    return run->name.failed ? FAILED : FAULTED;
}

/* The id of the node that carries an event's anchor. */
static int32_t anchored_node_of(struct run *run, const pokhvizi_event_t *event, const yaml_token_t *token)
{
    const uint8_t *anchor = run->anchor.bytes;
    size_t length = run->anchor.length;

    if (event->kind == YAML_ALIAS_EVENT) {
        anchor = token->data.alias.value;
        length = strlen((const char *)anchor);
    } else if (!event->has_anchor || event->kind < YAML_SCALAR_EVENT || event->kind == YAML_SEQUENCE_END_EVENT ||
               event->kind == YAML_MAPPING_END_EVENT) {
        return 0;
    }
    return pokhvizi_carrier(ENTRIES(pokhvizi_anchor_t, run->anchors), COUNT(pokhvizi_anchor_t, run->anchors), run->texts.bytes,
                            run->texts.length, anchor, length);
}

/* Composes an event, and puts the lines of the document that ends with it. */
static int compose(struct run *run, const pokhvizi_event_t *event, const yaml_token_t *token, int stays)
{
    int32_t fact = anchored_node_of(run, event, token);
    pokhvizi_place_t place;
    uint32_t deed;

    while ((deed = pokhvizi_compose(&run->composer, ENTRIES(pokhvizi_open_t, run->stack), ROOM(pokhvizi_open_t, run->stack),
                                    event->kind, fact, &place)) == POKHVIZI_FULL_STACK) {
        widen(&run->stack, sizeof(pokhvizi_open_t));
        if (run->stack.failed)
            return FAILED;
    }
    if (deed > POKHVIZI_FULL_STACK)
        return composer_fault(run, event, token, deed, fact);
    if (deed == POKHVIZI_BEGINS) {
        run->opening = *event;
        put_directives(run, &run->start);
    }
    if (deed == POKHVIZI_ENDS)
        put_document(run, event);
    if (deed >= POKHVIZI_ROOT && deed <= POKHVIZI_VALUE && place.node != 0)
        put_node(run, event, token, stays, place.node);
    if (run->nodes.failed || run->anchors.failed || run->texts.failed || run->start.failed)
        return FAILED;
    if (deed == POKHVIZI_VALUE)
        put_child(node_of(run, place.parent), place.key);
    if (deed == POKHVIZI_VALUE || deed == POKHVIZI_ITEM)
        put_child(node_of(run, place.parent), place.child);
    if (deed == POKHVIZI_CLOSES)
        node_of(run, place.parent)->end = mark_of(event->end_mark);
    return ENDED;
}

/* Takes an event: its line, or its part of the document. */
static int take(struct run *run, const pokhvizi_event_t *event, const yaml_token_t *token, int stays)
{
    int status = ENDED;

    if (run->wants_nodes)
        status = compose(run, event, token, stays);
    else
        put_event(run, event, token, stays);
    if (event->kind == YAML_DOCUMENT_END_EVENT)
        run->handles.length = run->handle_texts.length = 0;
    return status;
}

/* Puts the error of a step at a token, with what was expected there or the handle that it is about. */
static int parser_fault(struct run *run, const pokhvizi_fault_t *fault, const pokhvizi_steps_t *before, const yaml_token_t *token)
{
    enum { DUPLICATE_HANDLE = 5, UNDECLARED_HANDLE = 8 };
    const char *context, *problem = pokhvizi_problem(fault->problem, &context);

    put_fault(&run->out, "FAULT parser", mark_of(fault->problem_mark), problem, mark_of(fault->context_mark), context);
    if (pokhvizi_is_unexpected(fault->problem))
        run->expected = pokhvizi_expected(before, run->states.bytes, run->states.room);
    else if (fault->problem == DUPLICATE_HANDLE)
        put_words(&run->name, (const char *)token->data.tag_directive.handle);
    else if (fault->problem == UNDECLARED_HANDLE)
        put(&run->name, run->tag.bytes, run->tag.length);
    return run->name.failed ? FAILED : FAULTED;
}

/* Takes a token, with all events that it gives. */
static int take_token(struct run *run, const yaml_token_t *token)
{
    pokhvizi_event_t event;
    pokhvizi_fault_t fault;
    const yaml_mark_t start = token->start_mark, end = token->end_mark;
    const pokhvizi_span_t at = {{start.index, start.line, start.column}, {end.index, end.line, end.column}};
    const pokhvizi_steps_t before = run->steps;
    int status = ENDED;

    for (;;) {
        uint8_t fact = fact_of(run, token);
        if (run->states.failed || run->marks.failed || run->next_tag.failed || status != ENDED)
            return status != ENDED ? status : FAILED;
        switch (pokhvizi_step(&run->steps, run->states.bytes, run->states.room, ENTRIES(pokhvizi_mark_t, run->marks),
                              ROOM(pokhvizi_mark_t, run->marks), (uint8_t)token->type, fact, &at, &event,
                              &fault)) {
        case POKHVIZI_WANTS:
            keep(run, token);
            return run->anchor.failed || run->handles.failed || run->handle_texts.failed ? FAILED : ENDED;
        case POKHVIZI_GAVE:
            return take(run, &event, token, 0);
        case POKHVIZI_STAYS:
            status = take(run, &event, token, 1);
            break;
        case POKHVIZI_FULL_STATES:
            widen(&run->states, 1);
            break;
        case POKHVIZI_FULL_MARKS:
            widen(&run->marks, sizeof(pokhvizi_mark_t));
            break;
        default:
            return parser_fault(run, &fault, &before, token);
        }
    }
}

/* Room for a first entry in each buffer that is handed to the library: none of them may be null. */
static int begin(struct run *run, int wants_nodes)
{
    struct text *all[] = {&run->out, &run->states, &run->marks, &run->stack, &run->handles, &run->handle_texts, &run->anchor,
                          &run->tag, &run->next_tag, &run->nodes, &run->anchors, &run->texts, &run->start, &run->name};
    int is_there = 1;

    run->wants_nodes = wants_nodes;
    strcpy(run->version, "-");
    pokhvizi_steps_new(&run->steps);
    pokhvizi_composer_new(&run->composer, INT32_MAX);
    for (size_t i = 0; i < sizeof all / sizeof *all; i++)
        is_there = is_there && reserve(all[i], 64);
    return is_there;
}

static void end(struct run *run)
{
    struct text *all[] = {&run->out, &run->states, &run->marks, &run->stack, &run->handles, &run->handle_texts, &run->anchor,
                          &run->tag, &run->next_tag, &run->nodes, &run->anchors, &run->texts, &run->start, &run->name};

    forget(run);
    for (size_t i = 0; i < sizeof all / sizeof *all; i++)
        free(all[i]->bytes);
}

/* Scans a text: the lines of its tokens, or what a run makes of them. The scanner's error goes to `fault`. */
static int scan(const struct text *yaml, struct run *run, int wants_tokens, struct text *fault)
{
    yaml_parser_t parser;
    yaml_token_t token;
    int status = ENDED, more = 1;

    if (!yaml_parser_initialize(&parser))
        return FAILED;
    yaml_parser_set_input_string(&parser, yaml->bytes, yaml->length);
    while (status == ENDED && more && yaml_parser_scan(&parser, &token)) {
        more = token.type != YAML_STREAM_END_TOKEN;
        if (wants_tokens)
            put_token(&run->out, &token);
        else
            status = take_token(run, &token);
        yaml_token_delete(&token);
        if (run->out.failed)
            status = FAILED;
    }
    /* Of some allocations that are refused libyaml doesn't say so. */
    if (parser.error == YAML_MEMORY_ERROR || (status == ENDED && more && parser.error == YAML_NO_ERROR))
        status = FAILED;
    if (status == ENDED && parser.error != YAML_NO_ERROR) {
        put_scanner_fault(fault, &parser, yaml);
        status = fault->failed ? FAILED : FAULTED;
    }
    yaml_parser_delete(&parser);
    return status;
}

/* Writes bytes to standard output, and all of them, or says why not. */
static int write_out(const struct text *text)
{
    errno = 0;
    if (fwrite(text->bytes, 1, text->length, stdout) != text->length || fflush(stdout) != 0 || fclose(stdout) != 0)
        return fail("standard output", strerror(errno));
    return ENDED;
}

/* Where the line before this place begins. */
static size_t line_before(const struct text *text, size_t at)
{
    if (at > 0)
        at--;
    while (at > 0 && text->bytes[at - 1] != '\n')
        at--;
    return at;
}

/* Says on standard error the one that a text ends with, which has room for a byte more, and returns the status. A line
 * of a context may follow it. */
static int say_fault(const char *name, struct text *text)
{
    size_t start = line_before(text, text->length), line, column;
    char finder[16], problem[256];

    text->bytes[text->length] = '\0';
    if (memcmp(text->bytes + start, "FAULT ", strlen("FAULT ")) != 0)
        start = line_before(text, start);
    if (sscanf((const char *)text->bytes + start, "FAULT %15s %*u:%zu:%zu %255[^\n]", finder, &line, &column, problem) != 4)
        return FAULTED;
    fprintf(stderr, "yaml: %s: line %zu, column %zu: %s (%s)\n", name, line + 1, column + 1, problem, finder);
    return FAULTED;
}

/* Says on standard error what was expected where the error is, if anything was, and what it is about. */
static void say_more(const struct run *run)
{
    char words[512];

    if (run->expected != 0 && pokhvizi_expected_words(run->expected, words, sizeof words) > 0)
        fprintf(stderr, "yaml: expected: %s\n", words);
    if (run->name.length > 0)
        fprintf(stderr, "yaml: name: %.*s\n", (int)run->name.length, (const char *)run->name.bytes);
}

/* Reads a whole file. */
static int read_text(const char *name, struct text *yaml)
{
    int is_stdin = strcmp(name, "-") == 0;
    FILE *file = is_stdin ? stdin : fopen(name, "rb");
    size_t count;

    if (file == NULL)
        return fail(name, strerror(errno));
    do {
        if (!reserve(yaml, 65536)) {
            if (!is_stdin)
                fclose(file);
            return out_of_memory();
        }
        errno = 0;
        count = fread(yaml->bytes + yaml->length, 1, 65536, file);
        yaml->length += count;
    } while (count > 0);
    int status = ferror(file) ? fail(is_stdin ? "standard input" : name, strerror(errno)) : ENDED;
    if (!is_stdin)
        fclose(file);
    return status;
}

/* Writes the lines of a file where memory was found for all. Among tokens no error stands. */
static int show(const char *mode, const char *name)
{
    int wants_tokens = strcmp(mode, "tokens") == 0;
    struct text yaml = {0}, fault = {0};
    struct run run = {0};
    struct text *told = wants_tokens ? &fault : &run.out;
    int status = read_text(name, &yaml), is_read = status == ENDED;

    if (is_read)
        status = begin(&run, strcmp(mode, "nodes") == 0) ? scan(&yaml, &run, wants_tokens, told) : FAILED;
    if (is_read && (status == FAILED || (status == FAULTED && !reserve(told, 1)))) {
        status = out_of_memory();
    } else if (is_read) {
        int written = write_out(&run.out);
        status = written != ENDED || status == ENDED ? written : say_fault(name, told);
        say_more(&run);
    }
    free(yaml.bytes);
    free(fault.bytes);
    end(&run);
    return status;
}

int main(int count, char **words)
{
#ifdef SIGPIPE
    signal(SIGPIPE, SIG_IGN);
#endif
    if (count == 3 && (strcmp(words[1], "tokens") == 0 || strcmp(words[1], "events") == 0 || strcmp(words[1], "nodes") == 0))
        return show(words[1], words[2]);
    fputs(USAGE, stderr);
    return WRONG_WORDS;
}
