/* libyaml WORK ROUNDS < token-lines: libyaml's parser or loader alone, over copies of the tokens, so many times.
 *
 * WORK is `events` or `nodes`; or `floor-events` or `floor-nodes`, where the same tokens, and the same events or nodes,
 * are made and let go with no parser between them. Each copy is made when the parser asks its scanner for a token: this
 * file has the scanner's one function that the parser calls, so the real one is not linked.
 *
 * Writes the work, how many events or nodes a round has, their checksum, and how many the rounds had in all. Build:
 * cc -O2 libyaml.c read_tokens.c -Wl,-Bstatic -lyaml -Wl,-Bdynamic */
#include <stdint.h>
#include <stdio.h>
#include <stdlib.h>
#include <string.h>
#include <yaml.h>

size_t read_tokens(yaml_token_t **tokens);

static yaml_token_t *tokens;
static size_t count, at;

static void *known(void *memory)
{
    if (memory == NULL) {
        fputs("libyaml: out of memory\n", stderr);
        exit(3);
    }
    return memory;
}

static void check(int holds, const char *what)
{
    if (!holds) {
        fprintf(stderr, "libyaml: %s failed\n", what);
        exit(3);
    }
}

/* ---- Copies ---- */

static yaml_char_t *copy_bytes(const yaml_char_t *bytes, size_t length)
{
    yaml_char_t *copy = known(malloc(length + 1));

    memcpy(copy, bytes, length);
    copy[length] = 0;
    return copy;
}

static yaml_char_t *copy_text(const yaml_char_t *text)
{
    return copy_bytes(text, strlen((const char *)text));
}

/* The kinds that come most often are asked for by comparisons, as in `bench_lists`. */
__attribute__((noinline)) static void copy_token(yaml_token_t *copy)
{
    const yaml_token_t *token = &tokens[at++];

    *copy = *token;
    if (token->type == YAML_SCALAR_TOKEN) {
        copy->data.scalar.value = copy_bytes(token->data.scalar.value, token->data.scalar.length);
        return;
    }
    if (token->type < YAML_ALIAS_TOKEN && token->type != YAML_TAG_DIRECTIVE_TOKEN)
        return;
    switch (token->type) {
    case YAML_TAG_DIRECTIVE_TOKEN:
        copy->data.tag_directive.handle = copy_text(token->data.tag_directive.handle);
        copy->data.tag_directive.prefix = copy_text(token->data.tag_directive.prefix);
        break;
    case YAML_ALIAS_TOKEN:
        copy->data.alias.value = copy_text(token->data.alias.value);
        break;
    case YAML_ANCHOR_TOKEN:
        copy->data.anchor.value = copy_text(token->data.anchor.value);
        break;
    case YAML_TAG_TOKEN:
        copy->data.tag.handle = copy_text(token->data.tag.handle);
        copy->data.tag.suffix = copy_text(token->data.tag.suffix);
        break;
    default:
        break;
    }
}

/* What the parser calls where it has no token. */
int yaml_parser_fetch_more_tokens(yaml_parser_t *parser)
{
    if (at == count)
        return 0;
    if (parser->tokens.head == parser->tokens.tail)
        parser->tokens.head = parser->tokens.tail = parser->tokens.start;
    copy_token(parser->tokens.tail);
    parser->tokens.tail++;
    parser->token_available = 1;
    parser->stream_start_produced = 1;
    return 1;
}

/* ---- Rounds, and what is seen of one ---- */

typedef struct {
    uint64_t items, checksum;
} seen_t;

static void see(seen_t *seen, unsigned number, yaml_mark_t start, yaml_mark_t end)
{
    seen->checksum = ((seen->checksum * 31 + number) * 31 + start.index) * 31 + end.index;
    seen->items++;
}

/* A round of events; returns how many there were. */
__attribute__((noinline)) static uint64_t parse(seen_t *seen)
{
    yaml_parser_t parser;
    yaml_event_t event;
    uint64_t events = 0;
    int is_last = 0;

    at = 0;
    check(yaml_parser_initialize(&parser), "yaml_parser_initialize");
    while (!is_last) {
        check(yaml_parser_parse(&parser, &event), "yaml_parser_parse");
        events++;
        if (seen != NULL)
            see(seen, event.type, event.start_mark, event.end_mark);
        is_last = event.type == YAML_STREAM_END_EVENT;
        yaml_event_delete(&event);
    }
    yaml_parser_delete(&parser);
    return events;
}

/* A round of documents; returns how many nodes there were. */
__attribute__((noinline)) static uint64_t load(seen_t *seen)
{
    yaml_parser_t parser;
    yaml_document_t document;
    uint64_t nodes = 0;
    size_t more = 1;

    at = 0;
    check(yaml_parser_initialize(&parser), "yaml_parser_initialize");
    while (more > 0) {
        check(yaml_parser_load(&parser, &document), "yaml_parser_load");
        more = (size_t)(document.nodes.top - document.nodes.start);
        nodes += more;
        for (yaml_node_t *node = document.nodes.start; seen != NULL && node < document.nodes.top; node++)
            see(seen, node->type, node->start_mark, node->end_mark);
        yaml_document_delete(&document);
    }
    yaml_parser_delete(&parser);
    return nodes;
}

/* ---- The floor ---- */

static yaml_event_t *events;
static yaml_document_t *documents;
static size_t event_count, document_count;

/* Keeps the events of a round, or its documents. */
static void keep(int nodes)
{
    yaml_parser_t parser;
    int is_last = 0;

    at = 0;
    events = known(malloc(4 * count * sizeof *events));
    documents = known(malloc((count + 1) * sizeof *documents));
    check(yaml_parser_initialize(&parser), "yaml_parser_initialize");
    while (!is_last && nodes) {
        yaml_document_t *document = &documents[document_count++];
        check(yaml_parser_load(&parser, document), "yaml_parser_load");
        is_last = document->nodes.start == document->nodes.top;
    }
    while (!is_last) {
        yaml_event_t *event = &events[event_count++];
        check(yaml_parser_parse(&parser, event), "yaml_parser_parse");
        is_last = event->type == YAML_STREAM_END_EVENT;
    }
    yaml_parser_delete(&parser);
}

/* Makes the tokens and lets them go: their texts are those that the events and nodes would have. */
static void floor_tokens(void)
{
    yaml_token_t token;

    for (at = 0; at < count;) {
        copy_token(&token);
        yaml_token_delete(&token);
    }
}

static uint64_t floor_events(void)
{
    floor_tokens();
    for (size_t i = 0; i < event_count; i++) {
        yaml_event_t event = events[i];
        if (event.type == YAML_SCALAR_EVENT)
            event.data.scalar.anchor = event.data.scalar.tag = event.data.scalar.value = NULL;
        else if (event.type == YAML_ALIAS_EVENT)
            event.data.alias.anchor = NULL;
        else if (event.type == YAML_SEQUENCE_START_EVENT)
            event.data.sequence_start.anchor = event.data.sequence_start.tag = NULL;
        else if (event.type == YAML_MAPPING_START_EVENT)
            event.data.mapping_start.anchor = event.data.mapping_start.tag = NULL;
        else if (event.type == YAML_DOCUMENT_START_EVENT)
            memset(&event.data, 0, sizeof event.data);
        yaml_event_delete(&event);
    }
    return event_count;
}

/* A list with the same elements, which grows as libyaml's do: from 16 elements, by doubling. */
static void *grow_list(const void *start, const void *top, size_t size)
{
    size_t room = 16 * size, length = (size_t)((const char *)top - (const char *)start);
    char *list = known(malloc(room));

    for (size_t done = 0; done < length; done += size) {
        if (done == room)
            list = known(realloc(list, room *= 2));
        memcpy(list + done, (const char *)start + done, size);
    }
    return list;
}

static void floor_node(yaml_node_t *node)
{
    node->tag = copy_text(node->tag);
    if (node->type == YAML_SCALAR_NODE)
        node->data.scalar.value = NULL;
    else if (node->type == YAML_SEQUENCE_NODE)
        node->data.sequence.items.start =
            grow_list(node->data.sequence.items.start, node->data.sequence.items.top, sizeof(yaml_node_item_t));
    else
        node->data.mapping.pairs.start =
            grow_list(node->data.mapping.pairs.start, node->data.mapping.pairs.top, sizeof(yaml_node_pair_t));
}

/* Makes the nodes of a document, with their tags and children, and lets them go. */
static void floor_document(const yaml_document_t *from)
{
    yaml_document_t document;

    memset(&document, 0, sizeof document);
    document.nodes.start = grow_list(from->nodes.start, from->nodes.top, sizeof(yaml_node_t));
    document.nodes.top = document.nodes.end = document.nodes.start + (from->nodes.top - from->nodes.start);
    for (yaml_node_t *node = document.nodes.start; node < document.nodes.top; node++)
        floor_node(node);
    yaml_document_delete(&document);
}

static uint64_t floor_nodes(void)
{
    uint64_t nodes = 0;

    floor_tokens();
    for (size_t i = 0; i < document_count; i++) {
        nodes += (uint64_t)(documents[i].nodes.top - documents[i].nodes.start);
        floor_document(&documents[i]);
    }
    return nodes;
}

int main(int words, char **word)
{
    seen_t seen = {0, 0};
    uint64_t counted = 0;
    char *end = "";
    unsigned long rounds = words == 3 ? strtoul(word[2], &end, 10) : 0;
    int floors = words == 3 && strncmp(word[1], "floor-", 6) == 0;
    const char *what = words == 3 ? word[1] + (floors ? 6 : 0) : "";
    int nodes = strcmp(what, "nodes") == 0;

    if (words != 3 || *end != '\0' || (!nodes && strcmp(what, "events") != 0)) {
        fputs("usage: libyaml events|nodes|floor-events|floor-nodes ROUNDS < token-lines\n", stderr);
        return 2;
    }
    count = read_tokens(&tokens);
    nodes ? load(&seen) : parse(&seen);
    if (floors)
        keep(nodes);
    for (; rounds > 0; rounds--)
        counted += floors ? nodes ? floor_nodes() : floor_events() : nodes ? load(NULL) : parse(NULL);
    printf("%s %lu %lu %lu\n", word[1], seen.items, seen.checksum, counted);
    return 0;
}
