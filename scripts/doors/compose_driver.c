/* What no proof covers of pokhvizi/compose.h, for scripts/doors/door_checks.sh:
 *
 *     compose_driver FILE..          the documents of YAML files, of libyaml's events (Debian: libyaml-dev), beside those that
 *                                    its `yaml_parser_load` gives: each field, id and mark, and the fault
 *     compose_driver deeds           each number that a call returns, with what it puts
 *     compose_driver bad             any bytes in the structs, and any numbers
 *     compose_driver threads FILE..  the first, in eight threads at once
 *
 * The status is 1 if something is wrong. */
#include <pokhvizi/compose.h>
#include "driver.h"

/* ---- Documents, put together as the header says ---- */

struct node {
    yaml_event_t event;
    yaml_mark_t end;
    int32_t *children;
    size_t count;
};

struct load {
    pokhvizi_composer_t composer;
    pokhvizi_open_t *stack;
    size_t room;
    struct node *nodes;
    size_t nodes_count, nodes_room;
    pokhvizi_anchor_t *anchors;
    size_t anchors_count, anchors_room;
    uint8_t *texts;
    size_t length, texts_room;
    yaml_event_t start;
    size_t all_nodes, faults;
};

#define PUSH(array, count, room, value) \
    do { \
        if ((count) == (room)) \
            (array) = resized((array), ((room) = 2 * (room) + 1) * sizeof *(array)); \
        (array)[(count)++] = (value); \
    } while (0)

static const yaml_char_t *anchor_of(const yaml_event_t *event)
{
    switch (event->type) {
    case YAML_ALIAS_EVENT: return event->data.alias.anchor;
    case YAML_SCALAR_EVENT: return event->data.scalar.anchor;
    case YAML_SEQUENCE_START_EVENT: return event->data.sequence_start.anchor;
    case YAML_MAPPING_START_EVENT: return event->data.mapping_start.anchor;
    default: return NULL;
    }
}

static void put_node(struct load *load, const yaml_event_t *event, int32_t id)
{
    const yaml_char_t *anchor = anchor_of(event);
    struct node node = {*event, event->end_mark, NULL, 0};

    PUSH(load->nodes, load->nodes_count, load->nodes_room, node);
    if (id != (int32_t)load->nodes_count)
        exit((fputs("compose_driver: an id that isn't the next\n", stderr), 1));
    if (anchor == NULL)
        return;
    pokhvizi_anchor_t range = {load->length, strlen((const char *)anchor), id};
    PUSH(load->anchors, load->anchors_count, load->anchors_room, range);
    for (; *anchor != 0; anchor++)
        PUSH(load->texts, load->length, load->texts_room, *anchor);
}

static void put_child(struct node *node, int32_t child)
{
    node->children = resized(node->children, (node->count + 1) * sizeof *node->children);
    node->children[node->count++] = child;
}

/* Leaves nothing of a document. */
static void forget(struct load *load)
{
    while (load->nodes_count > 0) {
        struct node *node = &load->nodes[--load->nodes_count];
        free(node->children);
        yaml_event_delete(&node->event);
    }
    load->anchors_count = load->length = 0;
    yaml_event_delete(&load->start);
    memset(&load->start, 0, sizeof load->start);
}

/* The deed of an event, for which the stack grows by one. A key goes to its parent before its value, by `children`. */
static uint32_t compose(struct load *load, const yaml_event_t *event, int32_t *fact)
{
    const yaml_char_t *anchor = anchor_of(event);
    pokhvizi_place_t place;
    uint32_t deed;

    *fact = anchor == NULL ? 0 : pokhvizi_carrier(load->anchors, load->anchors_count, load->texts, load->length, anchor,
                                                  strlen((const char *)anchor));
    while ((deed = pokhvizi_compose(&load->composer, load->stack, load->room, (uint8_t)event->type, *fact, &place))
           == POKHVIZI_FULL_STACK)
        load->stack = resized(load->stack, ++load->room * sizeof *load->stack);
    if (deed >= POKHVIZI_ROOT && deed <= POKHVIZI_VALUE) {
        if (place.node != 0)
            put_node(load, event, place.node);
        if (place.parent != 0 && deed != POKHVIZI_KEY) {
            if (deed == POKHVIZI_VALUE)
                put_child(&load->nodes[place.parent - 1], place.key);
            put_child(&load->nodes[place.parent - 1], place.child);
        }
    }
    if (deed == POKHVIZI_CLOSES)
        load->nodes[place.parent - 1].end = event->end_mark;
    return deed;
}

/* ---- Beside libyaml's ---- */

/* A tag, and the one of its kind where it is missing or `!`. */
static int tag_is(const yaml_char_t *tag, const char *kind, const yaml_char_t *other)
{
    return words_are(tag == NULL || strcmp((const char *)tag, "!") == 0 ? (const yaml_char_t *)kind : tag, other);
}

static int node_is(const struct node *made, const yaml_node_t *node)
{
    const yaml_event_t *event = &made->event;
    const int32_t *child = made->children;
    size_t count = made->count;

    if (!mark_is(event->start_mark, node->start_mark) || !mark_is(made->end, node->end_mark))
        return 0;
    switch (node->type) {
    case YAML_SCALAR_NODE:
        return event->type == YAML_SCALAR_EVENT && count == 0 && event->data.scalar.style == node->data.scalar.style &&
               tag_is(event->data.scalar.tag, YAML_STR_TAG, node->tag) && event->data.scalar.length == node->data.scalar.length &&
               memcmp(event->data.scalar.value, node->data.scalar.value, node->data.scalar.length) == 0;
    case YAML_SEQUENCE_NODE:
        if (event->type != YAML_SEQUENCE_START_EVENT || event->data.sequence_start.style != node->data.sequence.style ||
            !tag_is(event->data.sequence_start.tag, YAML_SEQ_TAG, node->tag) ||
            count != (size_t)(node->data.sequence.items.top - node->data.sequence.items.start))
            return 0;
        for (const yaml_node_item_t *item = node->data.sequence.items.start; count > 0; count--)
            if (*child++ != *item++)
                return 0;
        return 1;
    default:
        if (event->type != YAML_MAPPING_START_EVENT || event->data.mapping_start.style != node->data.mapping.style ||
            !tag_is(event->data.mapping_start.tag, YAML_MAP_TAG, node->tag) ||
            count != 2 * (size_t)(node->data.mapping.pairs.top - node->data.mapping.pairs.start))
            return 0;
        for (const yaml_node_pair_t *pair = node->data.mapping.pairs.start; count > 0; count -= 2, child += 2, pair++)
            if (child[0] != pair->key || child[1] != pair->value)
                return 0;
        return 1;
    }
}

static int document_is(const struct load *load, const yaml_event_t *end, const yaml_document_t *document)
{
    int alike = load->nodes_count == (size_t)(document->nodes.top - document->nodes.start) &&
                load->start.data.document_start.implicit == document->start_implicit &&
                end->data.document_end.implicit == document->end_implicit &&
                mark_is(load->start.start_mark, document->start_mark) && mark_is(end->end_mark, document->end_mark);

    for (size_t i = 0; alike && i < load->nodes_count; i++)
        alike = node_is(&load->nodes[i], &document->nodes.start[i]);
    return alike;
}

/* Whether a refusal is told as libyaml tells it; a parser's own fault where there is none. */
static int fault_is(const struct load *load, uint32_t deed, int32_t fact, const yaml_event_t *event, const yaml_parser_t *parser,
                    const yaml_parser_t *loader)
{
    switch (deed) {
    case POKHVIZI_UNDEFINED_ALIAS:
        return loader->error == YAML_COMPOSER_ERROR && words_are(loader->problem, "found undefined alias") &&
               mark_is(loader->problem_mark, event->start_mark) && loader->context == NULL;
    case POKHVIZI_REPEATED_ANCHOR:
        return loader->error == YAML_COMPOSER_ERROR && words_are(loader->problem, "second occurrence") &&
               mark_is(loader->problem_mark, event->start_mark) &&
               words_are(loader->context, "found duplicate anchor; first occurrence") &&
               mark_is(loader->context_mark, load->nodes[fact - 1].event.start_mark);
    default:
        return loader->error == parser->error && words_are(loader->problem, parser->problem) &&
               mark_is(loader->problem_mark, parser->problem_mark) && words_are(loader->context, parser->context) &&
               mark_is(loader->context_mark, parser->context_mark);
    }
}

/* Composes the events of a text, whose parser is at its start, and compares each document as it ends. */
static int is_alike(struct load *load, yaml_parser_t *parser, yaml_parser_t *loader)
{
    yaml_document_t document;
    yaml_event_t event;
    int32_t fact = 0;

    for (;;) {
        if (!yaml_parser_parse(parser, &event))
            return load->faults++, !yaml_parser_load(loader, &document) && fault_is(load, 0, 0, NULL, parser, loader);
        uint32_t deed = compose(load, &event, &fact);
        int is_last = event.type == YAML_STREAM_END_EVENT, alike = 1;
        if (deed > POKHVIZI_FULL_STACK) {
            alike = !yaml_parser_load(loader, &document) && fault_is(load, deed, fact, &event, parser, loader);
            yaml_event_delete(&event);
            return load->faults++, alike;
        }
        if (deed == POKHVIZI_ENDS) {
            alike = yaml_parser_load(loader, &document) && document_is(load, &event, &document);
            load->all_nodes += load->nodes_count;
            yaml_document_delete(&document);
            forget(load);
        }
        if (is_last) {
            alike = yaml_parser_load(loader, &document) && yaml_document_get_root_node(&document) == NULL;
            yaml_document_delete(&document);
            return alike;
        }
        if (deed == POKHVIZI_BEGINS)
            load->start = event;
        else if (deed < POKHVIZI_ROOT || deed > POKHVIZI_VALUE || event.type == YAML_ALIAS_EVENT)
            yaml_event_delete(&event);
        if (!alike)
            return 0;
    }
}

static int compare_text(const struct bytes *yaml, size_t room, struct load *all)
{
    struct load load = {.room = room, .stack = resized(NULL, room * sizeof *load.stack)};
    yaml_parser_t parser, loader;

    load.anchors = resized(NULL, sizeof *load.anchors * (load.anchors_room = 1));
    load.texts = resized(NULL, load.texts_room = 1);
    pokhvizi_composer_new(&load.composer, INT32_MAX);
    begin_parser(&parser, yaml);
    begin_parser(&loader, yaml);
    int alike = is_alike(&load, &parser, &loader);
    all->all_nodes += load.all_nodes;
    all->faults += load.faults;
    forget(&load);
    free(load.nodes);
    free(load.anchors);
    free(load.texts);
    free(load.stack);
    yaml_parser_delete(&parser);
    yaml_parser_delete(&loader);
    return alike;
}

static int compare(char **names)
{
    struct load all = {0}, again = {0};
    size_t files = 0, differ = 0;

    for (; *names != NULL; names++, files++) {
        struct bytes yaml = read_file(*names);
        if (!compare_text(&yaml, 1, &all) || !compare_text(&yaml, 64, &again))
            differ += printf("%s differs\n", *names) > 0;
        free(yaml.at);
    }
    printf("%zu files, %zu nodes, %zu faults, %zu differ\n", files, all.all_nodes, all.faults, differ);
    return differ != 0;
}

/* ---- Each number ---- */

static int deeds(void)
{
    /* the kind and the fact of an event, the stack's room and the bound, and the deed and the place that are wanted */
    static const struct {
        uint8_t kind;
        int32_t fact;
        size_t room;
        uint32_t deed;
        pokhvizi_place_t place;
    } calls[] = {
        {1, 0, 1, POKHVIZI_PASSES, {9, 9, 9, 9}},           {3, 0, 1, POKHVIZI_BEGINS, {9, 9, 9, 9}},
        {5, 0, 1, POKHVIZI_UNDEFINED_ALIAS, {9, 9, 9, 9}},  {9, 0, 1, POKHVIZI_ROOT, {1, 1, 0, 0}},
        {7, 0, 1, POKHVIZI_FULL_STACK, {9, 9, 9, 9}},       {7, 0, 2, POKHVIZI_KEY, {2, 2, 1, 0}},
        {6, 2, 2, POKHVIZI_REPEATED_ANCHOR, {9, 9, 9, 9}},  {6, 0, 1, POKHVIZI_BAD_STACK, {9, 9, 9, 9}},
        {6, 0, 2, POKHVIZI_ITEM, {3, 3, 2, 0}},             {5, 1, 2, POKHVIZI_ITEM, {0, 1, 2, 0}},
        {5, 2, 2, POKHVIZI_ITEM, {0, 2, 2, 0}},             {5, 2, 2, POKHVIZI_ITEM, {0, 2, 2, 0}},
        {5, 2, 2, POKHVIZI_FULL_LIST, {9, 9, 9, 9}},        {8, 0, 2, POKHVIZI_CLOSES, {0, 0, 2, 0}},
        {6, 0, 2, POKHVIZI_VALUE, {4, 4, 1, 2}},            {6, 0, 2, POKHVIZI_FULL_LIST, {9, 9, 9, 9}},
        {10, 0, 2, POKHVIZI_CLOSES, {0, 0, 1, 0}},          {10, 0, 2, POKHVIZI_PASSES, {9, 9, 9, 9}},
        {4, 0, 2, POKHVIZI_ENDS, {9, 9, 9, 9}},             {4, 0, 2, POKHVIZI_PASSES, {9, 9, 9, 9}},
        {200, 0, 2, POKHVIZI_PASSES, {9, 9, 9, 9}},
    };
    pokhvizi_open_t stack[2];
    pokhvizi_composer_t composer;
    unsigned seen = 0;
    int wrong = 0;

    pokhvizi_composer_new(&composer, 4);
    for (size_t i = 0; i < sizeof calls / sizeof *calls; i++) {
        pokhvizi_place_t place = {9, 9, 9, 9};
        uint32_t deed = pokhvizi_compose(&composer, stack, calls[i].room, calls[i].kind, calls[i].fact, &place);
        if (deed != calls[i].deed || memcmp(&place, &calls[i].place, sizeof place) != 0)
            wrong += printf("call %zu: %u, %d %d %d %d\n", i, deed, place.node, place.child, place.parent, place.key) > 0;
        seen |= 1u << deed;
    }
    printf("%zu calls, %s numbers, %d wrong\n", sizeof calls / sizeof *calls, seen == (1u << 13) - 1 ? "all 13" : "not all", wrong);
    return wrong != 0 || seen != (1u << 13) - 1;
}

/* ---- Any bytes ---- */

static void draw(void *at, size_t size)
{
    for (size_t i = 0; i < size; i++)
        ((uint8_t *)at)[i] = drawn() % 3 == 0 ? 0 : drawn() % 4 == 0 ? 255 : (uint8_t)drawn();
}

static int bad(void)
{
    enum { CALLS = 1000000, ROOM = 5 };
    size_t wrong = 0, undone = 0;

    for (int i = 0; i < CALLS; i++) {
        pokhvizi_open_t stack[ROOM], before[ROOM];
        pokhvizi_composer_t composer, was;
        pokhvizi_place_t place, put;
        size_t room = drawn() % ROOM;
        draw(stack, sizeof stack);
        draw(&composer, sizeof composer);
        draw(&place, sizeof place);
        if (drawn() % 8 != 0)
            composer.depth = drawn() % (room + 2);
        memcpy(before, stack, sizeof stack), memcpy(&was, &composer, sizeof was), memcpy(&put, &place, sizeof put);
        uint8_t kind = drawn() % 4 == 0 ? (uint8_t)drawn() : drawn() % 12;
        uint32_t deed = pokhvizi_compose(&composer, stack, room, kind, (int32_t)drawn(), &place);
        int nothing = deed == POKHVIZI_PASSES || deed >= POKHVIZI_FULL_STACK;
        undone += nothing;
        wrong += deed > POKHVIZI_BAD_STACK || (deed == POKHVIZI_BAD_STACK) != (was.depth > room) ||
                 memcmp(before + room, stack + room, (ROOM - room) * sizeof *stack) != 0 ||
                 (nothing && (memcmp(before, stack, sizeof stack) != 0 || memcmp(&was, &composer, sizeof was) != 0 ||
                              memcmp(&put, &place, sizeof put) != 0));
    }
    printf("%d calls, %zu of them undone, %zu wrong\n", CALLS, undone, wrong);
    return wrong != 0;
}

/* ---- Threads ---- */

static void *compare_in_thread(void *names)
{
    return compare(names) ? names : NULL;
}

int main(int count, char **words)
{
    if (count == 2 && strcmp(words[1], "deeds") == 0)
        return deeds();
    if (count == 2 && strcmp(words[1], "bad") == 0)
        return bad();
    if (count > 2 && strcmp(words[1], "threads") == 0)
        return in_threads(compare_in_thread, words + 2) != 0;
    return compare(words + 1);
}
