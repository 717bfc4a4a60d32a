/* Makes YAML documents of a parser's events, one at a time: an event goes in, and what to do to the document comes out.
 *
 * The events, all nodes, all texts and all memory are yours. A call takes an event's kind and one number, and returns which
 * node comes next, and where it goes: as item of a sequence, as key or value of a mapping. No mark and no text is read. The
 * library allocates nothing and keeps nothing outside of the structs below, so any number of threads may each compose.
 * Numbers of events are libyaml's (yaml_event_type_t), like those that pokhvizi_step (steps.h) puts.
 *
 * Nodes have ids, which count from 1 within a document in the order of the events that begin them; the root has the id 1. An
 * alias is no node: it has the id of the node with its anchor.
 *
 *     pokhvizi_composer_new(&composer, INT32_MAX);                     and the first event
 *     deed = pokhvizi_compose(&composer, stack, stack_room, kind, fact, &place);
 *
 *     POKHVIZI_PASSES           the event is no part of a document
 *     POKHVIZI_BEGINS           a document begins with this DOCUMENT-START, without nodes and anchors
 *     POKHVIZI_ENDS             the document ends with this DOCUMENT-END: it is whole
 *     POKHVIZI_ROOT             put the node `place.node`, if it isn't 0
 *     POKHVIZI_ITEM             the same, and then `place.child` after the items of the node `place.parent`
 *     POKHVIZI_KEY              the same, and `place.child` is the key of the next pair of `place.parent`, and waits for
 *                               its value
 *     POKHVIZI_VALUE            the same, and then the pair `place.key` and `place.child` after the pairs of `place.parent`
 *     POKHVIZI_CLOSES           the node `place.parent` ends at this event's end
 *     POKHVIZI_FULL_STACK       nothing was done: make `stack` larger, call again with the same event
 *     POKHVIZI_UNDEFINED_ALIAS  nothing was done: stop. No node of the document has this alias's anchor
 *     POKHVIZI_REPEATED_ANCHOR  nothing was done: stop. The node `fact`, which began first, has this node's anchor
 *     POKHVIZI_FULL_LIST        nothing was done: stop. A list of the document has as many entries as it may
 *     POKHVIZI_BAD_STACK        nothing was done: stop. `composer` counts more than `stack_room`
 *
 * To put a node, append it to the nodes of the document, with the event's tag, value, style and marks; a collection has no
 * children yet. If it has an anchor, that names it from now on, even within itself. To load as libyaml does, give a node
 * without a tag, or with the tag `!`, tag:yaml.org,2002:str, :seq or :map. pokhvizi_refusal has the words of what stops: an
 * error at the event's start, and for a repeated anchor with a context at the start of the node `fact`.
 *
 * Facts. `fact` is the one number that a call has to know of texts. For an ALIAS it is the id of the node of the document that
 * has its anchor, for a node with an anchor the id of an earlier node that has it, or 0 if there is none; for any other event
 * it is ignored. pokhvizi_carrier finds it in a list, one anchor after the other; you may find the same number in another way.
 *
 * Where an event belongs, if its deed is POKHVIZI_ROOT, _ITEM, _KEY or _VALUE:
 *
 *     the id of its node        place.child; of an alias that of the node that it names
 *     the node that holds it    place.parent; 0 if it is the root
 *     what it is there          the deed
 *     the index, from 0         stack[composer.depth - 1].children before the call; of a value one less; of the root 0
 *     collections around it     composer.depth before the call
 *
 * `stack` has an entry for each open collection: with room for as many as are ever open at once it is never full. Its contents
 * before the first call don't matter; to make it larger, move its bytes, for example by realloc. Each list of a document, its
 * nodes and the items or pairs of each, may have as many entries as pokhvizi_composer_new said, and never more than
 * 2,147,483,647.
 *
 * The structs may hold any bytes, and `kind` and `fact` may be any numbers: then the documents are wrong, and nothing else
 * happens. What the library does is proved. It relies on these rules, which nothing checks: no pointer is null, even if its
 * length is 0; each array has as many entries as the length after it says; no two arrays overlap. */
#ifndef POKHVIZI_COMPOSE_H
#define POKHVIZI_COMPOSE_H
#include "version.h"

#ifdef __cplusplus
extern "C" {
#endif

/* What composes. It may be copied and moved: nothing points into it. Its fields are the library's. */
typedef struct {
    size_t depth;
    uint32_t nodes, max_entries;
    uint8_t is_within;
} pokhvizi_composer_t;

/* A collection that is open. Its fields are the library's. */
typedef struct {
    int32_t node, key;
    uint32_t children, is_mapping;
} pokhvizi_open_t;

/* Where a node or an alias goes, or what ends. What a deed has no use for is 0; a deed that puts nothing and ends
 * no collection leaves all fields as they were. */
typedef struct {
    int32_t node;   /* the id of the node to be put; 0 of an alias */
    int32_t child;  /* the id that goes to the parent */
    int32_t parent; /* the id of the collection that it goes to, or that ends */
    int32_t key;    /* of a value */
} pokhvizi_place_t;

enum {
    POKHVIZI_PASSES,
    POKHVIZI_BEGINS,
    POKHVIZI_ENDS,
    POKHVIZI_ROOT,
    POKHVIZI_ITEM,
    POKHVIZI_KEY,
    POKHVIZI_VALUE,
    POKHVIZI_CLOSES,
    POKHVIZI_FULL_STACK,
    POKHVIZI_UNDEFINED_ALIAS,
    POKHVIZI_REPEATED_ANCHOR,
    POKHVIZI_FULL_LIST,
    POKHVIZI_BAD_STACK
};

/* Begins a stream. Each list of a document may have `max_entries` entries. */
void pokhvizi_composer_new(pokhvizi_composer_t *composer, uint32_t max_entries);

/* Takes an event, as described above. */
uint32_t pokhvizi_compose(pokhvizi_composer_t *composer, pokhvizi_open_t *stack, size_t stack_room, uint8_t kind, int32_t fact,
                          pokhvizi_place_t *place);

/* An anchor: `length` bytes of a buffer, from `place` on, and the id of the node that has it. */
typedef struct {
    uint64_t place, length;
    int32_t node;
} pokhvizi_anchor_t;

/* The fact of an event with this anchor: the first node that has it, or else 0. `anchors` are the document's nodes with anchors,
 * whose texts are ranges of `texts`. It looks at them one after the other, so a call takes time in proportion to the anchors of
 * the document, and a document of anchors and aliases takes the square of its length, like with libyaml. A hash table of your
 * own from anchors to ids finds the same number faster. */
int32_t pokhvizi_carrier(const pokhvizi_anchor_t *anchors, size_t count, const uint8_t *texts, size_t length,
                         const uint8_t *anchor, size_t anchor_length);

/* ---- How large a document is with its aliases written out ----
 *
 * A short text may stand for a huge tree: each alias stands for a copy of the node that it names. To stop at the event that
 * makes the tree too large, hand each deed of pokhvizi_compose on, with its event's kind and its place:
 *
 *     pokhvizi_size_new(&size, 1000000);                               and the first event
 *     counted = pokhvizi_count(&size, sizes, room, deed, kind, &place);
 *
 *     POKHVIZI_COUNTED          the document so far has `size.total` nodes with its aliases written out
 *     POKHVIZI_TOO_LARGE        nothing was done: stop. With this node or alias it has more than `max`
 *     POKHVIZI_ENDLESS          nothing was done: stop. This alias stands within the node that it names, `place.child`, so
 *                               the tree has no end
 *     POKHVIZI_BAD_SIZES        nothing was done: stop. `deed`, `place` or `sizes` has a number that no call put
 *     POKHVIZI_FULL_SIZES       nothing was done: make `sizes` larger, call again with the same deed
 *
 * `sizes` has an entry for each node of the document: with room for as many as a document ever has it is never full. Its
 * contents before the first call don't matter; to make it larger, move its bytes, for example by realloc. A deed that stops
 * or does nothing may be handed on or not. What the total is, and when a call stops, is proved. */

/* What counts. It may be copied and moved. */
typedef struct {
    uint64_t total; /* the nodes of the document so far, with its aliases written out */
    uint64_t max;   /* how many it may have; what is more than INT64_MAX stands for that */
} pokhvizi_size_t;

enum {
    POKHVIZI_COUNTED,
    POKHVIZI_TOO_LARGE = POKHVIZI_BAD_STACK + 1,
    POKHVIZI_ENDLESS,
    POKHVIZI_BAD_SIZES,
    POKHVIZI_FULL_SIZES
};

/* Begins a stream. A document may have `max` nodes with its aliases written out. */
void pokhvizi_size_new(pokhvizi_size_t *size, uint64_t max);

/* Counts a deed, as described above. */
uint32_t pokhvizi_count(pokhvizi_size_t *size, uint64_t *sizes, size_t room, uint32_t deed, uint8_t kind,
                        const pokhvizi_place_t *place);

/* ---- Words ---- */

/* Returns the words of a deed that stops, or of a count that does, libyaml's where it has such an error, and sets `*context` to
 * those of its context, or to NULL. */
static __inline const char *pokhvizi_refusal(uint32_t deed, const char **context)
{
    static const char *const words[7][2] = {
        {"found undefined alias", NULL},
        {"second occurrence", "found duplicate anchor; first occurrence"},
        {"found too many nodes", NULL},
        {"the composer's stack was overwritten", NULL},
        {"found too many nodes, with aliases written out", NULL},
        {"found an alias within the node that it names", NULL},
        {"the nodes' sizes were overwritten", NULL},
    };
    uint32_t place = deed - POKHVIZI_UNDEFINED_ALIAS;

    *context = words[place < 7 ? place : 3][1];
    return words[place < 7 ? place : 3][0];
}

#ifdef __cplusplus
}
#endif

#endif
