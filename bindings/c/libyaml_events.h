/* Events of libyaml's tokens by the proved steps, in a yaml_parser_t: what libyaml_proved.c and Python's extension share. Each
 * includes it once.
 *
 * Where the includer defines WITH_EXPECTED, an error says what was expected (`expected_in`).
 *
 * What is kept between two calls stands in the yaml_parser_t, in the place of what libyaml's own parser keeps there: its states,
 * the marks of open collections, and the tag directives of the document. */
#include <pokhvizi/compose.h>
#include <pokhvizi/steps.h>
#include <assert.h>
#include <linux/random.h>
#include <stdlib.h>
#include <string.h>
#include <sys/syscall.h>
#include <unistd.h>
#include <yaml.h>

/* libyaml's own, which its shared library exports. */
int yaml_parser_fetch_more_tokens(yaml_parser_t *parser);

static_assert(sizeof(yaml_mark_t) == sizeof(pokhvizi_mark_t), "a mark is libyaml's");
static_assert(offsetof(yaml_token_t, end_mark) == offsetof(yaml_token_t, start_mark) + sizeof(yaml_mark_t) &&
                  offsetof(yaml_event_t, end_mark) == offsetof(yaml_event_t, start_mark) + sizeof(yaml_mark_t) &&
                  sizeof(pokhvizi_span_t) == 2 * sizeof(yaml_mark_t),
              "the marks of a token and of an event are neighbours");

/* How many collections may be open, how many entries each list of a document may have, and how many nodes a document may have with
 * its aliases written out; and what stands for any number. Whether the keys of a mapping have to differ. */
struct bounds {
    size_t depth, nodes, expanded;
    int unique_keys;
};
#define ANY_DEPTH ((size_t)PTRDIFF_MAX / sizeof(yaml_mark_t))
#define ANY_NODES ((size_t)INT32_MAX)
#define ANY_EXPANDED ((size_t)PTRDIFF_MAX)

/* An anchor of the document whose events are counted, in a table where it has a place by its hash: where its text stands, and the
 * node that it names; where keys have to differ, also where that begins, and what stands for it as a key, if it is a scalar. A place of another document
 * is free. */
struct name {
    size_t text, document, key, key_length;
    yaml_mark_t mark;
    uint32_t hash;
    int32_t node;
};

/* A key of an open mapping: where what stands for it is, its mapping, and where its node begins. */
struct key {
    size_t text, length;
    yaml_mark_t mark;
    uint32_t hash;
    int32_t mapping;
};

/* How much room there is for what `kept` ends with: states; and if nodes are bounded, the sizes of nodes, a table of names, which has
 * a power of two, open collections, and the texts of names; if keys have to differ, also a power of two of keys, with a table of
 * twice as many, and what stands for them. */
struct rooms {
    size_t states, sizes, names, keys, open, texts, key_texts;
};

/* pokhvizi_step_exact or pokhvizi_step. */
typedef uint32_t one_step(pokhvizi_steps_t *, uint8_t *, size_t, pokhvizi_mark_t *, size_t, uint8_t, uint8_t, const pokhvizi_span_t *,
                          pokhvizi_event_t *, pokhvizi_fault_t *);

/* How many bytes of the steps pokhvizi_expected reads. */
enum { BEFORE = offsetof(pokhvizi_steps_t, read.problem) + 1 };

/* The steps and their stack of states, in the place of `parser->states`. Their stack of marks is `parser->marks`. */
struct kept {
    pokhvizi_steps_t steps;
    struct rooms rooms;
    size_t marks_room;
    struct bounds bounds;
    /* The events of a document are counted, if its nodes are bounded. */
    pokhvizi_composer_t composer;
    pokhvizi_size_t size;
    size_t document, names_count, texts_length;  /* its number, from 1 */
    size_t keys_count, key_texts_length;
    uint32_t is_counted;
    uint32_t is_left;  /* the token in hand is that of the last event, a collection's start: the next call takes it */
    uint32_t key;  /* for the hashes of anchors and handles, or 0 */
    one_step *step;  /* exactly libyaml's, or this project's own grammar's */
    const yaml_char_t *name;  /* what the error is about, or NULL: see name_in */
#ifdef WITH_EXPECTED
    uint8_t before[BEFORE];  /* what the steps began with, before the token that was taken last */
    uint8_t is_unexpected;   /* the error is that a token of its kind came */
#endif
    uint8_t tag[64];  /* the tag in full whose fact was asked for last, if it is so short */
    _Alignas(uint64_t) uint8_t states[];
};

/* How many entries a stack or a table has room for at first, and how much more room texts get than they need. A test makes it one,
 * so that short lists of tokens make all of them larger. A table has a power of two, and that of anchors two at least. */
#ifndef FIRST_ROOM
#define FIRST_ROOM(usual) (usual)
#endif
enum { FEW = FIRST_ROOM(8) };  /* tag directives */

/* The tag directives of a document, in the place of `parser->tag_directives`. After the handles that there is room for, which is
 * a power of two, stand two numbers for each: a table, which has the numbers of handles, from 1, each where its hash says, and
 * else 0. Texts follow, each with a zero byte after it. */
struct directives {
    size_t count, room, length, texts_room;
    pokhvizi_handle_t handles[];
};

/* What is held within one call: the properties of a node, and the version of a document. */
struct held {
    yaml_char_t *anchor, *tag;
    size_t tag_length;
    yaml_version_directive_t version;
    int has_version;
};

/* What each token or event goes through is inlined, what some need is a function apart, and what few need is out of the way. */
#define OFTEN static inline __attribute__((always_inline))
#define APART static __attribute__((noinline))
#define SELDOM static __attribute__((cold, noinline))

SELDOM int out_of_memory(yaml_parser_t *parser)
{
    parser->error = YAML_MEMORY_ERROR;
    return 0;
}

static size_t least(size_t one, size_t other)
{
    return one < other ? one : other;
}

/* ---- Stacks ---- */

static struct kept *kept_of(const yaml_parser_t *parser)
{
    return (struct kept *)(void *)parser->states.start;
}

/* What a block ends with after the states, each part after the one before. */
static uint64_t *sizes_of(struct kept *kept)
{
    return (uint64_t *)(void *)(kept->states + (kept->rooms.states + 7) / 8 * 8);
}

static struct name *names_of(struct kept *kept)
{
    return (struct name *)(void *)(sizes_of(kept) + kept->rooms.sizes);
}

static struct key *keys_of(struct kept *kept)
{
    return (struct key *)(void *)(names_of(kept) + kept->rooms.names);
}

/* The table of keys: the number of each, from 1, where its hash says, and else 0. */
static size_t *table_of_keys(struct kept *kept)
{
    return (size_t *)(void *)(keys_of(kept) + kept->rooms.keys);
}

static pokhvizi_open_t *open_of(struct kept *kept)
{
    return (pokhvizi_open_t *)(void *)(table_of_keys(kept) + 2 * kept->rooms.keys);
}

static yaml_char_t *texts_of_names(struct kept *kept)
{
    return (yaml_char_t *)(open_of(kept) + kept->rooms.open);
}

static yaml_char_t *texts_of_keys(struct kept *kept)
{
    return texts_of_names(kept) + kept->rooms.texts;
}

/* The place of a key in the table, or the one that is free for it. */
static size_t *place_of_key(struct kept *kept, const struct key *key)
{
    size_t *table = table_of_keys(kept), last = 2 * kept->rooms.keys - 1, at = key->hash & last;

    for (; table[at] != 0; at = (at + 1) & last) {
        const struct key *other = &keys_of(kept)[table[at] - 1];
        if (other->hash == key->hash && other->mapping == key->mapping && other->length == key->length &&
            memcmp(texts_of_keys(kept) + other->text, texts_of_keys(kept) + key->text, key->length) == 0)
            break;
    }
    return &table[at];
}

/* The place of a name in the table, or the one that is free for it. */
static struct name *place_of_name(struct kept *kept, const yaml_char_t *text, uint32_t hash)
{
    struct name *names = names_of(kept);
    size_t last = kept->rooms.names - 1, at = hash & last;

    while (names[at].document == kept->document &&
           (names[at].hash != hash || strcmp((const char *)texts_of_names(kept) + names[at].text, (const char *)text) != 0))
        at = (at + 1) & last;
    return &names[at];
}

/* A block of zeros with so much room, or NULL. */
static struct kept *make_kept(const struct rooms *rooms)
{
    uint64_t size = sizeof(struct kept) + 8 + (uint64_t)rooms->states + (uint64_t)rooms->sizes * sizeof(uint64_t) +
                    (uint64_t)rooms->names * sizeof(struct name) + (uint64_t)rooms->keys * (sizeof(struct key) + 2 * sizeof(size_t)) +
                    (uint64_t)rooms->open * sizeof(pokhvizi_open_t) + rooms->texts + rooms->key_texts;
    struct kept *made = size > PTRDIFF_MAX ? NULL : calloc(1, (size_t)size);

    if (made != NULL)
        made->rooms = *rooms;
    return made;
}

/* Puts a block in the place of another one. */
static void keep(yaml_parser_t *parser, struct kept *kept)
{
    free(parser->states.start);
    parser->states.start = parser->states.end = parser->states.top = (yaml_parser_state_t *)(void *)kept;
}

/* Makes so much room, no less than there is; 0 where memory is refused, and then all is as it was. */
APART int make_room(yaml_parser_t *parser, const struct rooms *rooms)
{
    struct kept *old = kept_of(parser), *made = make_kept(rooms);

    if (made == NULL)
        return 0;
    memcpy(made, old, offsetof(struct kept, states));
    made->rooms = *rooms;
    memcpy(made->states, old->states, old->rooms.states);
    memcpy(sizes_of(made), sizes_of(old), old->rooms.sizes * sizeof(uint64_t));
    memcpy(open_of(made), open_of(old), old->rooms.open * sizeof(pokhvizi_open_t));
    memcpy(texts_of_names(made), texts_of_names(old), old->texts_length);
    memcpy(texts_of_keys(made), texts_of_keys(old), old->key_texts_length);
    memcpy(keys_of(made), keys_of(old), old->keys_count * sizeof(struct key));
    for (size_t i = 0; i < old->keys_count; i++)
        *place_of_key(made, &keys_of(made)[i]) = i + 1;
    for (size_t i = 0; i < old->rooms.names; i++) {
        const struct name *name = &names_of(old)[i];
        if (name->document == old->document)
            *place_of_name(made, texts_of_names(old) + name->text, name->hash) = *name;
    }
    keep(parser, made);
    return 1;
}

static int grow_states(yaml_parser_t *parser)
{
    struct rooms rooms = kept_of(parser)->rooms;

    rooms.states *= 2;
    return make_room(parser, &rooms);
}

static int grow_marks(yaml_parser_t *parser)
{
    size_t room = least(2 * kept_of(parser)->marks_room, kept_of(parser)->bounds.depth);
    yaml_mark_t *marks = realloc(parser->marks.start, room * sizeof *marks);

    if (marks == NULL)
        return 0;
    kept_of(parser)->marks_room = room;
    parser->marks.start = parser->marks.end = parser->marks.top = marks;
    return 1;
}

/* ---- Hashes ---- */

/* A number from 2^28 to 2^29 - 1 that is drawn once a stream. */
static uint32_t key_of(yaml_parser_t *parser)
{
    struct kept *kept = kept_of(parser);
    uint32_t drawn;

    if (kept->key == 0) {
        /* Where the system has none yet it isn't waited for. getentropy needs a C library of 2017. */
        if (syscall(SYS_getrandom, &drawn, sizeof drawn, GRND_NONBLOCK) != sizeof drawn)
            drawn = (uint32_t)((uintptr_t)kept >> 4);
        kept->key = 1u << 28 | drawn >> 4;
    }
    return kept->key;
}

/* One number more of a polynomial, which is below 2^32 before and after. */
static uint64_t with_number(uint64_t hash, uint32_t number, uint32_t key)
{
    hash = hash * key + number;
    return (hash & INT32_MAX) + (hash >> 31);
}

static uint32_t mixed(uint64_t hash)
{
    hash = (uint32_t)hash * UINT32_C(0x9E3779B1);
    return (uint32_t)(hash ^ hash >> 15);
}

/* The polynomial of a name at the key, modulo 2^31 - 1 and then mixed: whoever wrote a text, few of its anchors and handles share
 * a hash, since the key isn't known. The sum stays below 2^32, so that no product is lost. */
static uint32_t hash_of(const yaml_char_t *name, uint32_t key)
{
    uint64_t hash = 0;

    for (; *name != '\0'; name++)
        hash = with_number(hash, *name, key);
    return mixed(hash);
}

/* ---- Tag directives ---- */

static const struct directives *directives_of(const yaml_parser_t *parser)
{
    static const struct directives NONE;

    return parser->tag_directives.start == NULL ? &NONE : (const void *)parser->tag_directives.start;
}

static size_t *table_of(const struct directives *directives)
{
    return (size_t *)(void *)(directives->handles + directives->room);
}

static const uint8_t *texts_of(const struct directives *directives)
{
    return (const uint8_t *)(table_of(directives) + 2 * directives->room);
}

/* The place of a handle in the table, or the one that is free for it. */
static size_t *place_of_handle(const struct directives *all, const yaml_char_t *handle, uint32_t key)
{
    size_t *table = table_of(all), last = 2 * all->room - 1, at = hash_of(handle, key) & last;

    while (table[at] != 0 &&
           strcmp((const char *)texts_of(all) + all->handles[table[at] - 1].handle.place, (const char *)handle) != 0)
        at = (at + 1) & last;
    return &table[at];
}

/* Makes room for so many directives and bytes of texts; NULL where memory is refused, and then all is as it was. */
static struct directives *grow_directives(yaml_parser_t *parser, size_t room, size_t texts_room)
{
    const struct directives *old = directives_of(parser);
    struct directives *made = malloc(sizeof *made + room * (sizeof *made->handles + 2 * sizeof(size_t)) + texts_room);

    if (made == NULL)
        return NULL;
    made->count = old->count;
    made->room = room;
    made->length = old->length;
    made->texts_room = texts_room;
    memcpy(made->handles, old->handles, old->count * sizeof *old->handles);
    memset(table_of(made), 0, 2 * room * sizeof(size_t));
    memcpy((uint8_t *)texts_of(made), texts_of(old), old->length);
    for (size_t i = 0; i < made->count; i++)
        *place_of_handle(made, texts_of(made) + made->handles[i].handle.place, key_of(parser)) = i + 1;
    free(parser->tag_directives.start);
    parser->tag_directives.start = (yaml_tag_directive_t *)(void *)made;
    parser->tag_directives.end = parser->tag_directives.top = parser->tag_directives.start;
    return made;
}

/* Adds a directive; 0 where memory is refused. Its texts are still the token's. */
static int declare(yaml_parser_t *parser, const yaml_token_t *token)
{
    const yaml_char_t *handle = token->data.tag_directive.handle, *prefix = token->data.tag_directive.prefix;
    struct directives *all = (struct directives *)(void *)parser->tag_directives.start;
    size_t first = strlen((const char *)handle) + 1, second = strlen((const char *)prefix) + 1;
    size_t count = directives_of(parser)->count, length = directives_of(parser)->length;

    if (all == NULL || count == all->room || first + second > all->texts_room - length)
        all = grow_directives(parser, all == NULL ? FEW : count == all->room ? 2 * count : all->room,
                              FIRST_ROOM(2) * (length + first + second));
    if (all == NULL)
        return 0;
    uint8_t *texts = (uint8_t *)texts_of(all);
    memcpy(texts + length, handle, first);
    memcpy(texts + length + first, prefix, second);
    all->handles[all->count++] = (pokhvizi_handle_t){{length, first - 1}, {length + first, second - 1}};
    all->length = length + first + second;
    *place_of_handle(all, handle, key_of(parser)) = all->count;
    return 1;
}

static void forget_directives(yaml_parser_t *parser)
{
    struct directives *all = (struct directives *)(void *)parser->tag_directives.start;

    if (all != NULL && all->room > FEW) {  /* another document would take time for all of its table */
        free(all);
        memset(&parser->tag_directives, 0, sizeof parser->tag_directives);
    } else if (all != NULL && all->count > 0) {
        all->count = all->length = 0;
        memset(table_of(all), 0, 2 * all->room * sizeof(size_t));
    }
}

/* ---- Tokens ---- */

/* The kinds of tokens that have texts or numbers, a bit for each. Most tokens have none. */
enum {
    WITH_TEXT = 1 << YAML_VERSION_DIRECTIVE_TOKEN | 1 << YAML_TAG_DIRECTIVE_TOKEN | 1 << YAML_ALIAS_TOKEN |
                1 << YAML_ANCHOR_TOKEN | 1 << YAML_TAG_TOKEN | 1 << YAML_SCALAR_TOKEN
};

/* There is an error. Where none is told memory was refused: libyaml's scanner doesn't say so of each allocation. */
SELDOM int stop(yaml_parser_t *parser)
{
    if (parser->error == YAML_NO_ERROR)
        parser->error = YAML_MEMORY_ERROR;
    return 0;
}

/* Where a token stands. */
static const pokhvizi_span_t *span_of(const yaml_token_t *token)
{
    return (const pokhvizi_span_t *)(const void *)&token->start_mark;
}

/* The next token if the scanner has given it, or NULL. */
static yaml_token_t *at_hand(const yaml_parser_t *parser)
{
    return parser->token_available ? parser->tokens.head : NULL;
}

/* Whether the scanner would leave the head of its queue as it is: no KEY may still have to go before it. */
OFTEN int is_ready(const yaml_parser_t *parser)
{
    const yaml_simple_key_t *key = parser->simple_keys.top;

    if (parser->tokens.head == parser->tokens.tail)
        return 0;
    while (key != parser->simple_keys.start)
        if ((--key)->possible)
            return 0;
    return 1;
}

/* Takes the next token, whose texts have another owner now. */
OFTEN void skip(yaml_parser_t *parser)
{
    parser->token_available = 0;
    parser->tokens_parsed++;
    parser->tokens.head++;
}

/* Where the document has declared a handle, that one handle; puts how many it is, 1 or 0. */
static const pokhvizi_handle_t *find_handle(yaml_parser_t *parser, const yaml_char_t *handle, size_t *count)
{
    const struct directives *all = directives_of(parser);
    size_t at = all->count == 0 ? 0 : *place_of_handle(all, handle, key_of(parser));

    *count = at != 0;
    return at == 0 ? all->handles : all->handles + at - 1;
}

/* Puts the tag of a token in full where there is room for it, and its length; returns its fact. */
static uint8_t put_tag(yaml_parser_t *parser, const yaml_token_t *token, uint8_t *out, size_t room, size_t *length)
{
    const struct directives *all = directives_of(parser);
    const yaml_char_t *handle = token->data.tag.handle, *suffix = token->data.tag.suffix;
    size_t count;
    const pokhvizi_handle_t *found = find_handle(parser, handle, &count);

    return pokhvizi_tag(found, count, texts_of(all), all->length, handle, strlen((const char *)handle), suffix,
                        strlen((const char *)suffix), out, room, length);
}

static uint8_t directive_fact(yaml_parser_t *parser, const yaml_char_t *handle)
{
    const struct directives *all = directives_of(parser);
    size_t count;
    const pokhvizi_handle_t *found = find_handle(parser, handle, &count);

    return pokhvizi_directive_fact(found, count, texts_of(all), all->length, handle, strlen((const char *)handle));
}

/* The fact that a step takes with a token. */
APART uint8_t fact_of(yaml_parser_t *parser, const yaml_token_t *token, struct held *held)
{
    struct kept *kept = kept_of(parser);

    switch (token->type) {
    case YAML_SCALAR_TOKEN:
        return token->data.scalar.style == YAML_PLAIN_SCALAR_STYLE;
    case YAML_VERSION_DIRECTIVE_TOKEN:
        return pokhvizi_version_fact(token->data.version_directive.major, token->data.version_directive.minor);
    case YAML_TAG_DIRECTIVE_TOKEN:
        return directive_fact(parser, token->data.tag_directive.handle);
    case YAML_TAG_TOKEN:
        return put_tag(parser, token, kept->tag, sizeof kept->tag, &held->tag_length);
    default:
        return 0;
    }
}

/* Holds a tag in full, of which the fact was asked for, or its handle alone where that isn't declared, which is the next step's error;
 * 0 where memory is refused, and then its texts are the token's. */
static int hold_tag(yaml_parser_t *parser, const yaml_token_t *token, struct held *held)
{
    size_t length = held->tag_length;

    if (*token->data.tag.handle == '\0') {
        held->tag = token->data.tag.suffix;
        free(token->data.tag.handle);
        return 1;
    }
    if (length == SIZE_MAX) {
        held->tag = token->data.tag.handle;
        free(token->data.tag.suffix);
        return 1;
    }
    if ((held->tag = malloc(length + 1)) == NULL)
        return 0;
    if (length <= sizeof kept_of(parser)->tag)
        memcpy(held->tag, kept_of(parser)->tag, length);
    else
        put_tag(parser, token, held->tag, length, &held->tag_length);
    held->tag[length] = '\0';
    free(token->data.tag.handle);
    free(token->data.tag.suffix);
    return 1;
}

/* Takes what a token has for an event that comes later; 0 where memory is refused, and then its texts are the token's. */
APART int hold(yaml_parser_t *parser, const yaml_token_t *token, struct held *held)
{
    switch (token->type) {
    case YAML_ANCHOR_TOKEN:
        held->anchor = token->data.anchor.value;
        return 1;
    case YAML_TAG_TOKEN:
        return hold_tag(parser, token, held);
    case YAML_VERSION_DIRECTIVE_TOKEN:
        held->version.major = token->data.version_directive.major;
        held->version.minor = token->data.version_directive.minor;
        held->has_version = 1;
        return 1;
    case YAML_TAG_DIRECTIVE_TOKEN:
        if (!declare(parser, token))
            return 0;
        free(token->data.tag_directive.handle);
        free(token->data.tag_directive.prefix);
        return 1;
    default:
        return 1;
    }
}

/* ---- Events ---- */

/* Copies a text and the zero byte after it; 0 where memory is refused. */
static int copy(const struct directives *directives, pokhvizi_text_t text, yaml_char_t **to)
{
    if ((*to = malloc(text.length + 1)) == NULL)
        return 0;
    memcpy(*to, texts_of(directives) + text.place, text.length + 1);
    return 1;
}

static int document_start(const yaml_parser_t *parser, const struct held *held, yaml_event_t *event)
{
    const struct directives *all = directives_of(parser);
    yaml_version_directive_t *version;
    yaml_tag_directive_t *tags;

    if (held->has_version) {
        if ((version = malloc(sizeof *version)) == NULL)
            return 0;
        *version = held->version;
        event->data.document_start.version_directive = version;
    }
    if (all->count == 0)
        return 1;
    if ((tags = calloc(all->count, sizeof *tags)) == NULL)
        return 0;
    event->data.document_start.tag_directives.start = tags;
    event->data.document_start.tag_directives.end = tags + all->count;
    for (size_t i = 0; i < all->count; i++)
        if (!copy(all, all->handles[i].handle, &tags[i].handle) || !copy(all, all->handles[i].prefix, &tags[i].prefix))
            return 0;
    return 1;
}

/* Moves the properties of a node into its event. */
static void properties(const pokhvizi_event_t *made, struct held *held, yaml_char_t **anchor, yaml_char_t **tag)
{
    if (made->has_anchor) {
        *anchor = held->anchor;
        held->anchor = NULL;
    }
    if (made->has_tag) {
        *tag = held->tag;
        held->tag = NULL;
    }
}

/* A scalar has the value and style of its token, or is empty where the token isn't its own: it stays, or libyaml loses it. */
static int scalar(const pokhvizi_event_t *made, const yaml_token_t *token, struct held *held, yaml_event_t *event)
{
    event->data.scalar.plain_implicit = made->implicit;
    event->data.scalar.quoted_implicit = made->quoted_implicit;
    properties(made, held, &event->data.scalar.anchor, &event->data.scalar.tag);
    if (token == NULL || token->type != YAML_SCALAR_TOKEN) {
        event->data.scalar.style = YAML_PLAIN_SCALAR_STYLE;
        return (event->data.scalar.value = calloc(1, 1)) != NULL;
    }
    event->data.scalar.value = token->data.scalar.value;
    event->data.scalar.length = token->data.scalar.length;
    event->data.scalar.style = token->data.scalar.style;
    return 1;
}

/* Makes an event, of the token that ends with it where there is one; 0 where memory is refused, and then the event has what
 * was made of it. */
static int make_event(yaml_parser_t *parser, const pokhvizi_event_t *made, const yaml_token_t *token, struct held *held,
                      yaml_event_t *event)
{
    memset(event, 0, offsetof(yaml_event_t, start_mark));
    event->type = (yaml_event_type_t)made->kind;
    memcpy(&event->start_mark, &made->start_mark, sizeof(pokhvizi_span_t));
    switch (event->type) {
    case YAML_STREAM_START_EVENT:
        event->data.stream_start.encoding = token->data.stream_start.encoding;
        return 1;
    case YAML_DOCUMENT_START_EVENT:
        event->data.document_start.implicit = made->implicit;
        return document_start(parser, held, event);
    case YAML_DOCUMENT_END_EVENT:
        event->data.document_end.implicit = made->implicit;
        forget_directives(parser);
        return 1;
    case YAML_ALIAS_EVENT:
        event->data.alias.anchor = token->data.alias.value;
        return 1;
    case YAML_SCALAR_EVENT:
        return scalar(made, token, held, event);
    case YAML_SEQUENCE_START_EVENT:
        event->data.sequence_start.implicit = made->implicit;
        event->data.sequence_start.style = made->is_flow ? YAML_FLOW_SEQUENCE_STYLE : YAML_BLOCK_SEQUENCE_STYLE;
        properties(made, held, &event->data.sequence_start.anchor, &event->data.sequence_start.tag);
        return 1;
    case YAML_MAPPING_START_EVENT:
        event->data.mapping_start.implicit = made->implicit;
        event->data.mapping_start.style = made->is_flow ? YAML_FLOW_MAPPING_STYLE : YAML_BLOCK_MAPPING_STYLE;
        properties(made, held, &event->data.mapping_start.anchor, &event->data.mapping_start.tag);
        return 1;
    default:
        return 1;
    }
}

/* ---- The parser ---- */

/* The anchor, alias or tag handle that an error is about; of another error, or without one, NULL. It is the parser's, and lasts until
 * yaml_parser_delete. */
static const yaml_char_t *name_in(const yaml_parser_t *parser)
{
    int is_ours = parser->error == YAML_PARSER_ERROR || parser->error == YAML_COMPOSER_ERROR;

    return is_ours && kept_of(parser) != NULL ? kept_of(parser)->name : NULL;
}

/* Has a parser keep what its error is about, in the place of the tag directives, which it needs no longer. */
static void keep_name(yaml_parser_t *parser, yaml_char_t **name)
{
    free(parser->tag_directives.start);
    parser->tag_directives.start = (yaml_tag_directive_t *)(void *)*name;
    parser->tag_directives.end = parser->tag_directives.top = parser->tag_directives.start;
    kept_of(parser)->name = *name;
    *name = NULL;
}

/* Names the handle that a step's error is about, if it is: that of the token in hand, which stays there, or the one that is held. */
static void name_handle(yaml_parser_t *parser, uint8_t problem, struct held *held)
{
    enum { DUPLICATE = 5, UNDECLARED = 8 };

    if (problem == DUPLICATE)
        kept_of(parser)->name = parser->tokens.head->data.tag_directive.handle;
    else if (problem == UNDECLARED)
        keep_name(parser, &held->tag);
}

static int give_fault(yaml_parser_t *parser, const pokhvizi_fault_t *fault)
{
    parser->error = YAML_PARSER_ERROR;
    parser->problem = pokhvizi_problem(fault->problem, &parser->context);
    memcpy(&parser->problem_mark, &fault->problem_mark, sizeof parser->problem_mark);
    if (parser->context != NULL)
        memcpy(&parser->context_mark, &fault->context_mark, sizeof parser->context_mark);
    return 0;
}

/* The next token opens one collection more than may be open. */
static int give_too_deep(yaml_parser_t *parser)
{
    pokhvizi_fault_t fault = {.problem = POKHVIZI_TOO_DEEP};

    memcpy(&fault.problem_mark, &parser->tokens.head->start_mark, sizeof fault.problem_mark);
    return give_fault(parser, &fault);
}

/* Begins a stream within bounds; 0 where memory is refused. */
static int begin(yaml_parser_t *parser, const struct bounds *bounds, int has_fixes)
{
    struct kept *kept = make_kept(&(struct rooms){.states = FIRST_ROOM(64)});

    if (kept == NULL)
        return 0;
    keep(parser, kept);
    pokhvizi_steps_new(&kept->steps);
    kept->marks_room = least(FIRST_ROOM((size_t)(parser->marks.end - parser->marks.start)), bounds->depth);
    kept->bounds = *bounds;
    kept->is_counted = bounds->nodes < ANY_NODES || bounds->expanded < ANY_EXPANDED || bounds->unique_keys;
    kept->step = has_fixes ? pokhvizi_step : pokhvizi_step_exact;
    free(parser->tag_directives.start);
    memset(&parser->tag_directives, 0, sizeof parser->tag_directives);
    return 1;
}

/* ---- Bounds on nodes ---- */

/* The anchor of an event's node or alias, or NULL. */
static const yaml_char_t *anchor_of_made(const pokhvizi_event_t *made, const yaml_token_t *token, const struct held *held)
{
    return made->has_anchor ? held->anchor : made->kind == YAML_ALIAS_EVENT ? token->data.alias.value : NULL;
}

/* The node that an anchor names, the last of those that have it, or 0. */
static int32_t named_node(yaml_parser_t *parser, const yaml_char_t *anchor)
{
    struct kept *kept = kept_of(parser);
    const struct name *name;

    if (kept->names_count == 0)
        return 0;
    name = place_of_name(kept, anchor, hash_of(anchor, key_of(parser)));
    return name->document == kept->document ? name->node : 0;
}

/* The place of an anchor in the table of names, where it is put if it isn't there; NULL where memory is refused. */
static struct name *put_name(yaml_parser_t *parser, const yaml_char_t *anchor)
{
    struct kept *kept = kept_of(parser);
    struct rooms rooms = kept->rooms;
    size_t length = strlen((const char *)anchor) + 1;
    uint32_t hash = hash_of(anchor, key_of(parser));
    struct name *name;

    if (rooms.names == 0)
        rooms.names = 2 * FIRST_ROOM(8);
    else if (2 * (kept->names_count + 1) > rooms.names)
        rooms.names *= 2;
    if (length > rooms.texts - kept->texts_length)
        rooms.texts = FIRST_ROOM(2) * (kept->texts_length + length);
    if (memcmp(&rooms, &kept->rooms, sizeof rooms) != 0 && !make_room(parser, &rooms))
        return NULL;
    kept = kept_of(parser);
    name = place_of_name(kept, anchor, hash);
    if (name->document != kept->document) {
        memcpy(texts_of_names(kept) + kept->texts_length, anchor, length);
        *name = (struct name){.text = kept->texts_length, .document = kept->document, .hash = hash};
        kept->texts_length += length;
        kept->names_count++;
    }
    return name;
}

/* Has an anchor name the node of an event, for which the last bytes of the keys' texts stand as a key, so many; 0 where memory is refused. */
static int name_node(yaml_parser_t *parser, const yaml_char_t *anchor, const pokhvizi_event_t *made, int32_t node, size_t key_length)
{
    struct name *name = put_name(parser, anchor);
    struct kept *kept = kept_of(parser);
    struct rooms rooms = kept->rooms;

    if (name != NULL && key_length > rooms.texts - kept->texts_length) {
        rooms.texts = FIRST_ROOM(2) * (kept->texts_length + key_length);
        name = make_room(parser, &rooms) ? put_name(parser, anchor) : NULL;
        kept = kept_of(parser);
    }
    if (name == NULL)
        return 0;
    memcpy(texts_of_names(kept) + kept->texts_length, texts_of_keys(kept) + kept->key_texts_length - key_length, key_length);
    name->node = node;
    memcpy(&name->mark, &made->start_mark, sizeof name->mark);
    name->key = kept->texts_length;
    name->key_length = key_length;
    kept->texts_length += key_length;
    return 1;
}

/* Composes an event, which counts nodes and the entries of lists; an alias whose anchor names nothing is an entry of its list. */
static uint32_t compose_event(yaml_parser_t *parser, uint8_t kind, int32_t node, pokhvizi_place_t *place)
{
    struct kept *kept = kept_of(parser);
    struct rooms rooms;
    uint32_t deed;

    while ((deed = pokhvizi_compose(&kept->composer, open_of(kept), kept->rooms.open, kind, node, place)) == POKHVIZI_FULL_STACK) {
        rooms = kept->rooms;
        rooms.open = rooms.open == 0 ? FIRST_ROOM(16) : 2 * rooms.open;
        if (!make_room(parser, &rooms))
            break;
        kept = kept_of(parser);
    }
    return deed;
}

/* Counts what was composed with aliases written out, and returns it; or that the document is too large so, or has no end. */
static uint32_t count_deed(yaml_parser_t *parser, uint32_t deed, uint8_t kind, const pokhvizi_place_t *place)
{
    struct kept *kept = kept_of(parser);
    struct rooms rooms;
    uint32_t counted;

    while ((counted = pokhvizi_count(&kept->size, sizes_of(kept), kept->rooms.sizes, deed, kind, place)) == POKHVIZI_FULL_SIZES) {
        rooms = kept->rooms;
        rooms.sizes = rooms.sizes == 0 ? FIRST_ROOM(32) : 2 * rooms.sizes;
        if (!make_room(parser, &rooms))
            break;
        kept = kept_of(parser);
    }
    return counted == POKHVIZI_COUNTED ? deed : counted;
}

/* ---- Keys that have to differ ---- */

/* Whether a text begins as one of these words, in letters of either case, and ends with it. */
static int is_word(const yaml_char_t *text, size_t length, const char *const *words, size_t count)
{
    for (size_t i = 0; i < count; i++) {
        size_t k = 0;
        while (k < length && words[i][k] != '\0' &&
               (text[k] | (words[i][k] >= 'a' && words[i][k] <= 'z' ? 32 : 0)) == words[i][k])
            k++;
        if (k == length && words[i][k] == '\0')
            return 1;
    }
    return 0;
}

/* Whether a text has a digit, and nothing that numbers and dates don't have. */
static int is_of_number(const yaml_char_t *text, size_t length)
{
    int has_digit = 0;

    for (size_t i = 0; i < length; i++) {
        if (text[i] == '\0' || strchr("0123456789abcdefABCDEFxobBOXTtZz_:,.+- \t", text[i]) == NULL)
            return 0;
        has_digit |= text[i] >= '0' && text[i] <= '9';
    }
    return has_digit;
}

/* Whether a plain scalar without a tag is a string to each loader: none takes it for null, a boolean, a number, a date, a merge key or
 * one of Ruby's symbols. Of some texts loaders make different things, such as `yes` and `0o7`; these are none that are strings to each. */
static int is_string(const yaml_char_t *text, size_t length)
{
    static const char *const words[] = {"null", "true", "false", "yes", "no", "on", "off", "y", "n"}, *const numbers[] = {".inf", ".nan"};

    switch (length == 0 ? ':' : *text) {
    case ':':
        return 0;
    case '~': case '=':
        return length > 1;
    case '<':
        return length != 2 || text[1] != '<';
    case 'n': case 't': case 'f': case 'y': case 'o': case 'N': case 'T': case 'F': case 'Y': case 'O':
        return length > 5 || !is_word(text, length, words, sizeof words / sizeof *words);
    case '-': case '+':
        return !is_of_number(text, length) && !is_word(text + 1, length - 1, numbers, 2);
    case '.': case '0': case '1': case '2': case '3': case '4': case '5': case '6': case '7': case '8': case '9':
        return !is_of_number(text, length) && !is_word(text, length, numbers, 2);
    default:
        return 1;
    }
}

/* What stands for a node as a key begins with one of these, and goes on with its text, with its tag, a zero byte and its text, or with
 * its number. A scalar without a tag that isn't plain is a string. */
enum { STRING, OPEN, TAGGED, COLLECTION };

/* Makes room for so many bytes at the end of the keys' texts, and counts them; NULL where memory is refused. */
static yaml_char_t *more_key_text(yaml_parser_t *parser, size_t length)
{
    struct kept *kept = kept_of(parser);
    struct rooms rooms = kept->rooms;

    if (length > rooms.key_texts - kept->key_texts_length) {
        rooms.key_texts = FIRST_ROOM(2) * (kept->key_texts_length + length);
        if (!make_room(parser, &rooms))
            return NULL;
        kept = kept_of(parser);
    }
    kept->key_texts_length += length;
    return texts_of_keys(kept) + kept->key_texts_length - length;
}

/* Puts what stands for a scalar as a key to the end of the keys' texts, and its length; 0 where memory is refused. */
static int put_scalar(yaml_parser_t *parser, const pokhvizi_event_t *made, const yaml_token_t *token, const struct held *held, size_t *length)
{
    static const char string[] = YAML_DEFAULT_SCALAR_TAG;
    int is_empty = token == NULL || token->type != YAML_SCALAR_TOKEN;
    const yaml_char_t *text = is_empty ? (const yaml_char_t *)"" : token->data.scalar.value;
    size_t text_length = is_empty ? 0 : token->data.scalar.length, tag_length = 0;
    yaml_char_t kind = made->implicit && !is_string(text, text_length) ? OPEN : STRING, *to;

    if (made->has_tag && !made->implicit && strcmp((const char *)held->tag, string) != 0) {
        kind = TAGGED;
        tag_length = strlen((const char *)held->tag) + 1;
    }
    *length = 1 + tag_length + text_length;
    if ((to = more_key_text(parser, *length)) == NULL)
        return 0;
    *to = kind;
    if (tag_length > 0)
        memcpy(to + 1, held->tag, tag_length);
    memcpy(to + 1 + tag_length, text, text_length);
    return 1;
}

/* The same of an alias, whose name is given, or of a collection by its number. */
static int put_other(yaml_parser_t *parser, const struct name *name, int32_t node, size_t *length)
{
    size_t from = name == NULL ? 0 : name->key, of_scalar = name == NULL ? 0 : name->key_length;
    yaml_char_t *to;

    *length = of_scalar > 0 ? of_scalar : 1 + sizeof node;
    if ((to = more_key_text(parser, *length)) == NULL)
        return 0;
    if (of_scalar > 0) {
        memcpy(to, texts_of_names(kept_of(parser)) + from, of_scalar);
    } else {
        *to = COLLECTION;
        memcpy(to + 1, &node, sizeof node);
    }
    return 1;
}

/* The hash of what stands for a key, and of its mapping. */
static uint32_t hash_of_key(yaml_parser_t *parser, const yaml_char_t *text, size_t length, int32_t mapping)
{
    uint32_t key = key_of(parser);
    uint64_t hash = (uint32_t)mapping;

    for (size_t i = 0; i < length; i++)
        hash = with_number(hash, text[i], key);
    return mixed(hash);
}

/* Adds the key of an event, for which the last bytes stand, so many, and whose node is at a mark, to those of its mapping; 0 where memory
 * is refused, or it is there already: then the mark of that one is the context's. */
static int add_key(yaml_parser_t *parser, int32_t mapping, size_t length, const pokhvizi_event_t *made, const yaml_mark_t *mark)
{
    struct kept *kept = kept_of(parser);
    struct rooms rooms = kept->rooms;
    struct key key = {.text = kept->key_texts_length - length, .length = length, .mark = *mark, .mapping = mapping};
    size_t *place;

    if (kept->keys_count == rooms.keys) {
        rooms.keys = rooms.keys == 0 ? FIRST_ROOM(8) : 2 * rooms.keys;
        if (!make_room(parser, &rooms))
            return out_of_memory(parser);
        kept = kept_of(parser);
    }
    key.hash = hash_of_key(parser, texts_of_keys(kept) + key.text, length, mapping);
    place = place_of_key(kept, &key);
    if (*place != 0) {
        parser->problem = "found duplicate key";
        memcpy(&parser->problem_mark, &made->start_mark, sizeof parser->problem_mark);
        parser->context = "first occurrence";
        parser->context_mark = keys_of(kept)[*place - 1].mark;
        return 0;
    }
    keys_of(kept)[kept->keys_count++] = key;
    *place = kept->keys_count;
    return 1;
}

/* Forgets the keys of a mapping that ends. They are the last, and each has the place in the table that it was given, so none that is
 * left is found by going over it. */
static void forget_keys(struct kept *kept, int32_t mapping)
{
    while (kept->keys_count > 0 && keys_of(kept)[kept->keys_count - 1].mapping == mapping) {
        const struct key *key = &keys_of(kept)[kept->keys_count - 1];
        *place_of_key(kept, key) = 0;
        kept->key_texts_length = key->text;
        kept->keys_count--;
    }
}

/* Begins a document whose events are counted or whose keys have to differ. */
static void forget_names(struct kept *kept)
{
    kept->document++;
    kept->names_count = kept->texts_length = kept->keys_count = kept->key_texts_length = 0;
    memset(table_of_keys(kept), 0, 2 * kept->rooms.keys * sizeof(size_t));
}

/* Looks at the keys that an event that is composed adds or ends, and keeps what stands for a scalar with an anchor; 0 where memory is
 * refused, or a key comes twice, of which all is told but the kind of error. An alias is the node that it names, which there is. */
APART int look_at_keys(yaml_parser_t *parser, uint32_t deed, const pokhvizi_place_t *place, const pokhvizi_event_t *made,
                       const yaml_token_t *token, const struct held *held)
{
    int is_scalar = made->kind == YAML_SCALAR_EVENT, is_alias = made->kind == YAML_ALIAS_EVENT;
    const struct name *name = NULL;
    yaml_mark_t mark;
    size_t length = 0;

    if (deed == POKHVIZI_CLOSES)
        forget_keys(kept_of(parser), place->parent);
    if (is_alias ? deed != POKHVIZI_KEY : deed < POKHVIZI_ROOT || deed > POKHVIZI_VALUE)
        return 1;
    if (is_scalar && (deed == POKHVIZI_KEY || made->has_anchor) && !put_scalar(parser, made, token, held, &length))
        return out_of_memory(parser);
    if (made->has_anchor && !name_node(parser, held->anchor, made, place->node, length))
        return out_of_memory(parser);
    if (deed != POKHVIZI_KEY) {
        kept_of(parser)->key_texts_length -= length;
        return 1;
    }
    memcpy(&mark, &made->start_mark, sizeof mark);
    if (is_alias) {
        name = place_of_name(kept_of(parser), token->data.alias.value, hash_of(token->data.alias.value, key_of(parser)));
        mark = name->mark;
    }
    if (!is_scalar && !put_other(parser, name, place->child, &length))
        return out_of_memory(parser);
    return add_key(parser, place->parent, length, made, &mark);
}

/* Counts an event whose nodes are bounded, or of which keys have to differ, in the words of a load where it is one too many; 0 where
 * there is an error. Other errors of composers are the caller's: an anchor names the last node that has it, and an alias without one no
 * node. */
APART int count_event(yaml_parser_t *parser, const pokhvizi_event_t *made, const yaml_token_t *token, const struct held *held)
{
    struct kept *kept = kept_of(parser);
    const yaml_char_t *anchor = anchor_of_made(made, token, held);
    int32_t node = made->kind == YAML_ALIAS_EVENT ? named_node(parser, anchor) : 0;
    int is_lost = made->kind == YAML_ALIAS_EVENT && node == 0, has_unique_keys = kept->bounds.unique_keys;
    pokhvizi_place_t place = {0, 0, 0, 0};
    uint32_t deed;

    if (made->kind == YAML_DOCUMENT_START_EVENT) {
        pokhvizi_composer_new(&kept->composer, (uint32_t)kept->bounds.nodes);
        pokhvizi_size_new(&kept->size, kept->bounds.expanded);
        forget_names(kept);
    }
    deed = compose_event(parser, made->kind, is_lost ? INT32_MAX : node, &place);
    if (kept_of(parser)->bounds.expanded < ANY_EXPANDED && !is_lost && deed <= POKHVIZI_CLOSES)
        deed = count_deed(parser, deed, made->kind, &place);
    if (deed == POKHVIZI_FULL_STACK || deed == POKHVIZI_FULL_SIZES)
        return out_of_memory(parser);
    if (deed > POKHVIZI_CLOSES) {
        parser->error = YAML_PARSER_ERROR;
        parser->problem = pokhvizi_refusal(deed, &parser->context);
        memcpy(&parser->problem_mark, &made->start_mark, sizeof parser->problem_mark);
        if (deed == POKHVIZI_ENDLESS)
            kept_of(parser)->name = anchor;
        return 0;
    }
    if (has_unique_keys && !is_lost) {
        if (look_at_keys(parser, deed, &place, made, token, held))
            return 1;
        if (parser->error == YAML_NO_ERROR)
            parser->error = YAML_PARSER_ERROR;
        return 0;
    }
    return !made->has_anchor || place.node == 0 || name_node(parser, anchor, made, place.node, 0) || out_of_memory(parser);
}

/* ---- The next event ---- */

static void end_stream(yaml_parser_t *parser)
{
    parser->state = YAML_PARSE_END_STATE;
    parser->stream_end_produced = 1;
}

/* Makes the event that a step gave, and takes its token if there is one. */
static int give_event(yaml_parser_t *parser, const pokhvizi_event_t *made, const yaml_token_t *token, struct held *held,
                      yaml_event_t *event)
{
    if (!make_event(parser, made, token, held, event)) {
        yaml_event_delete(event);
        return out_of_memory(parser);
    }
    if (token != NULL)
        skip(parser);
    if (event->type == YAML_STREAM_END_EVENT)
        end_stream(parser);
    return 1;
}

OFTEN uint32_t step(yaml_parser_t *parser, const yaml_token_t *token, int has_text, struct held *held, pokhvizi_event_t *made,
                    pokhvizi_fault_t *fault)
{
    struct kept *kept = kept_of(parser);
    pokhvizi_mark_t *marks = (pokhvizi_mark_t *)(void *)parser->marks.start;
    uint8_t fact = 0;

    if (__builtin_expect(has_text, 0))
        fact = token->type == YAML_SCALAR_TOKEN ? token->data.scalar.style == YAML_PLAIN_SCALAR_STYLE
                                                : fact_of(parser, token, held);
    return kept->step(&kept->steps, kept->states, kept->rooms.states, marks, kept->marks_room, token->type, fact, span_of(token),
                      made, fault);
}

#ifdef WITH_EXPECTED
/* The kinds of token that could have stood in the place of one that was refused for its kind, a bit for each; of another error
 * or without one 0. */
static uint32_t expected_in(const yaml_parser_t *parser)
{
    struct kept *kept = kept_of(parser);
    pokhvizi_mark_t *marks = (pokhvizi_mark_t *)(void *)parser->marks.start;
    pokhvizi_steps_t before = {0};

    if (parser->error != YAML_PARSER_ERROR || kept == NULL || !kept->is_unexpected)
        return 0;
    memcpy(&before, kept->before, BEFORE);
    return kept->step == pokhvizi_step ? pokhvizi_expected(&before, kept->states, kept->rooms.states)
                                       : pokhvizi_expected_exact(&before, kept->states, kept->rooms.states, marks, kept->marks_room);
}
#endif

/* Does what a step asks for that gave no event, and wants no other token; 0 where there is an error. */
SELDOM int follow(yaml_parser_t *parser, uint32_t did, const pokhvizi_fault_t *fault, struct held *held)
{
    switch (did) {
    case POKHVIZI_FULL_STATES:
        return grow_states(parser) || out_of_memory(parser);
    case POKHVIZI_FULL_MARKS:
        if (kept_of(parser)->marks_room == kept_of(parser)->bounds.depth)
            return give_too_deep(parser);
        return grow_marks(parser) || out_of_memory(parser);
    case POKHVIZI_FAULT:
#ifdef WITH_EXPECTED
        kept_of(parser)->is_unexpected = pokhvizi_is_unexpected(fault->problem);
#endif
        name_handle(parser, fault->problem, held);
        return give_fault(parser, fault);
    default:
        parser->error = YAML_PARSER_ERROR;
        parser->problem = "the parser's stacks were overwritten";
        return 0;
    }
}

/* Steps to the next event: POKHVIZI_GAVE with its token, which nobody holds, or POKHVIZI_STAYS; 0 where there is an error. The
 * token is at hand before, or NULL. */
OFTEN uint32_t advance(yaml_parser_t *parser, yaml_token_t **token, struct held *held, pokhvizi_event_t *made)
{
    pokhvizi_fault_t fault;

    for (;;) {
        if (*token == NULL) {
            if (is_ready(parser))
                parser->token_available = 1;
            else if (!yaml_parser_fetch_more_tokens(parser))
                return stop(parser);
            *token = parser->tokens.head;
#ifdef WITH_EXPECTED
            memcpy(kept_of(parser)->before, &kept_of(parser)->steps, BEFORE);
#endif
        }
        int has_text = WITH_TEXT >> (*token)->type & 1;
        uint32_t did = step(parser, *token, has_text, held, made, &fault);
        if (did == POKHVIZI_WANTS) {
            if (has_text && !hold(parser, *token, held))
                return out_of_memory(parser);
            skip(parser);
            *token = NULL;
        } else if (did <= POKHVIZI_STAYS) {
            return did;
        } else if (!follow(parser, did, &fault, held)) {
            return 0;
        }
    }
}

/* Gives back what neither an event nor a node has taken, after an error. */
static void forget(struct held *held)
{
    if (held->anchor != NULL || held->tag != NULL) {
        free(held->anchor);
        free(held->tag);
        held->anchor = held->tag = NULL;
    }
}

/* A parse has ended, or has an error. */
static int has_stopped(const yaml_parser_t *parser)
{
    return parser->error != YAML_NO_ERROR || parser->stream_end_produced || parser->state == YAML_PARSE_END_STATE;
}

/* Gives the next event of a parser that has begun and hasn't stopped, which is counted if nodes are bounded; 0 where there is an
 * error, and then the event owns nothing. */
OFTEN int parse(yaml_parser_t *parser, struct held *held, yaml_event_t *event, int is_counted)
{
    pokhvizi_event_t made;
    yaml_token_t *token;
    uint32_t did;

    token = at_hand(parser);
    did = advance(parser, &token, held, &made);
    if (did != POKHVIZI_GAVE)
        token = NULL;
    if (did == 0 || (__builtin_expect(is_counted, 0) && !count_event(parser, &made, token, held)))
        return 0;
    return give_event(parser, &made, token, held, event);
}
