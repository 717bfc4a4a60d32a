/* compose < FILE: the nodes of each document of a YAML text, printed as soon as the document ends, made of libyaml's events by
 * pokhvizi/compose.h. The status is 1 after an error, which standard error tells, and 2 if memory ran out.
 *
 *     cc compose.c -o compose $(pkg-config --cflags --libs pokhvizi) -lyaml */
#include <pokhvizi/compose.h>
#include <stdio.h>
#include <stdlib.h>
#include <string.h>
#include <yaml.h>

/* A node: the event that began it, and the ids of its children. */
static struct node {
    yaml_event_t event;
    int32_t *children;
    size_t count;
} *nodes;
static size_t nodes_count;

/* The document's anchors, and their texts, one after the other. */
static pokhvizi_anchor_t *anchors;
static uint8_t *texts;
static size_t anchors_count, length;

static void *resized(void *block, size_t size)
{
    if ((block = realloc(block, size)) == NULL)
        exit((fputs("compose: out of memory\n", stderr), 2));
    return block;
}

static const yaml_char_t *anchor_of(const yaml_event_t *event)
{
    switch (event->type) {
    case YAML_ALIAS_EVENT: return event->data.alias.anchor;
    case YAML_SCALAR_EVENT: return event->data.scalar.anchor;
    case YAML_SEQUENCE_START_EVENT: return event->data.sequence_start.anchor;
    case YAML_MAPPING_START_EVENT: return event->data.mapping_start.anchor;
    default: return NULL;
    }
}

static void put_node(const yaml_event_t *event, int32_t id)
{
    const yaml_char_t *anchor = anchor_of(event);

    nodes = resized(nodes, (nodes_count + 1) * sizeof *nodes);
    nodes[nodes_count++] = (struct node){*event, NULL, 0};
    if (anchor == NULL)
        return;
    anchors = resized(anchors, (anchors_count + 1) * sizeof *anchors);
    anchors[anchors_count] = (pokhvizi_anchor_t){length, strlen((const char *)anchor), id};
    texts = resized(texts, length + anchors[anchors_count].length + 1);
    memcpy(texts + length, anchor, anchors[anchors_count].length);
    length += anchors[anchors_count++].length;
}

static void put_child(int32_t parent, int32_t child)
{
    struct node *node = &nodes[parent - 1];

    node->children = resized(node->children, (node->count + 1) * sizeof *node->children);
    node->children[node->count++] = child;
}

/* Prints the document, and leaves nothing of it. */
static void show(void)
{
    for (size_t i = 0; i < nodes_count; i++) {
        struct node *node = &nodes[i];
        int is_mapping = node->event.type == YAML_MAPPING_START_EVENT;

        if (node->event.type == YAML_SCALAR_EVENT)
            printf("%zu scalar %s", i + 1, (const char *)node->event.data.scalar.value);
        else
            printf("%zu %s", i + 1, is_mapping ? "mapping" : "sequence");
        for (size_t k = 0; k < node->count; k++)
            printf("%c%d", is_mapping && k % 2 == 1 ? ':' : ' ', node->children[k]);
        putchar('\n');
        free(node->children);
        yaml_event_delete(&node->event);
    }
    puts("...");
    nodes_count = anchors_count = length = 0;
}

static void tell(const char *words, yaml_mark_t mark)
{
    fprintf(stderr, "compose: line %zu, column %zu: %s\n", mark.line + 1, mark.column + 1, words);
}

/* libyaml's reader tells a byte of the input, its scanner and parser a mark. */
static int parser_failed(const yaml_parser_t *parser)
{
    if (parser->problem == NULL)
        exit((fputs("compose: out of memory\n", stderr), 2));
    if (parser->error == YAML_READER_ERROR)
        fprintf(stderr, "compose: byte %zu: %s\n", parser->problem_offset, parser->problem);
    else
        tell(parser->problem, parser->problem_mark);
    if (parser->context != NULL)
        tell(parser->context, parser->context_mark);
    return 1;
}

/* Tells why an event can't be composed; `first` is the node that has its anchor, where one has. */
static int composer_failed(uint32_t deed, const yaml_event_t *event, int32_t first)
{
    const char *context, *problem = pokhvizi_refusal(deed, &context);

    if (deed == POKHVIZI_BAD_STACK)
        abort();
    tell(problem, event->start_mark);
    if (context != NULL)
        tell(context, nodes[first - 1].event.start_mark);
    return 1;
}

int main(void)
{
    size_t room = 8;
    pokhvizi_open_t *stack = resized(NULL, room * sizeof *stack);
    pokhvizi_composer_t composer;
    pokhvizi_place_t place;
    yaml_parser_t parser;
    yaml_event_t event;

    anchors = resized(NULL, sizeof *anchors);
    texts = resized(NULL, 1);
    if (!yaml_parser_initialize(&parser))
        return 2;
    yaml_parser_set_input_file(&parser, stdin);
    pokhvizi_composer_new(&composer, INT32_MAX);
    for (int is_last = 0; !is_last;) {
        if (!yaml_parser_parse(&parser, &event))
            return parser_failed(&parser);
        const yaml_char_t *anchor = anchor_of(&event);
        int32_t fact = anchor == NULL ? 0 : pokhvizi_carrier(
            anchors, anchors_count, texts, length, anchor, strlen((const char *)anchor));
        uint32_t deed;

        while ((deed = pokhvizi_compose(&composer, stack, room, (uint8_t)event.type, fact, &place)) == POKHVIZI_FULL_STACK)
            stack = resized(stack, (room *= 2) * sizeof *stack);
        if (deed > POKHVIZI_FULL_STACK)
            return composer_failed(deed, &event, fact);
        is_last = event.type == YAML_STREAM_END_EVENT;
        if (deed >= POKHVIZI_ROOT && deed <= POKHVIZI_VALUE) {
            if (place.node != 0)
                put_node(&event, place.node);
            if (place.parent != 0)
                put_child(place.parent, place.child);
            if (place.node != 0)
                continue;  /* the node has the event */
        }
        if (deed == POKHVIZI_ENDS)
            show();
        yaml_event_delete(&event);
    }
    yaml_parser_delete(&parser);
    if (fflush(stdout) != 0 || ferror(stdout)) {
        perror("compose");
        return 1;
    }
    return 0;
}
