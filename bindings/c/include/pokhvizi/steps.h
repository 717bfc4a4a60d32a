/* Makes YAML events of a scanner's tokens, one at a time: a token goes in, and at most one event comes out.
 *
 * The scanner, all memory and all texts are yours. A call takes a token's kind and marks, and puts an event's kind,
 * flags and marks; no text is read or copied. The library allocates nothing and keeps nothing outside of the structs below,
 * so any number of threads may each parse a stream. Numbers and marks are libyaml's (yaml_token_type_t, yaml_event_type_t,
 * yaml_mark_t), so that they may be cast. examples/events.c is a whole program, with a loop of 40 lines.
 *
 * Tokens:  1 STREAM-START, 2 STREAM-END, 3 VERSION-DIRECTIVE, 4 TAG-DIRECTIVE, 5 DOCUMENT-START, 6 DOCUMENT-END,
 *          7 BLOCK-SEQUENCE-START, 8 BLOCK-MAPPING-START, 9 BLOCK-END, 10 FLOW-SEQUENCE-START, 11 FLOW-SEQUENCE-END,
 *          12 FLOW-MAPPING-START, 13 FLOW-MAPPING-END, 14 BLOCK-ENTRY, 15 FLOW-ENTRY, 16 KEY, 17 VALUE, 18 ALIAS,
 *          19 ANCHOR, 20 TAG, 21 SCALAR
 * Events:  1 STREAM-START, 2 STREAM-END, 3 DOCUMENT-START, 4 DOCUMENT-END, 5 ALIAS, 6 SCALAR, 7 SEQUENCE-START,
 *          8 SEQUENCE-END, 9 MAPPING-START, 10 MAPPING-END
 *
 *     pokhvizi_steps_new(&steps);                       and the first token
 *     did = pokhvizi_step(&steps, states, states_room, marks, marks_room, kind, fact, &span, &event, &fault);
 *
 *     POKHVIZI_WANTS         no event yet                call again with the next token
 *     POKHVIZI_GAVE          `event` is set              call again with the next token; after STREAM-END (kind 2) stop
 *     POKHVIZI_STAYS         `event` is set              call again with the same token
 *     POKHVIZI_FULL_STATES   nothing was done            make `states` larger, call again with the same token
 *     POKHVIZI_FULL_MARKS    nothing was done            make `marks` larger, call again with the same token
 *     POKHVIZI_FAULT         `fault` is set              stop: the tokens are no YAML stream
 *     POKHVIZI_BAD           nothing was done            stop: `steps` counts more than `states_room` or `marks_room`
 *
 * Exact parsing. pokhvizi_step accepts some streams that libyaml refuses or reads differently, at three places.
 * pokhvizi_step_exact has the same arguments and results, and does what libyaml does there, too; pokhvizi_differs says before a
 * step whether the two differ at a token:
 *
 *     POKHVIZI_SAME           they do the same
 *     POKHVIZI_PAIR_KEY       libyaml loses the token    after KEY in a flow sequence: `[ ? , a ]`
 *     POKHVIZI_VALUE_FIRST    it has an error            an entry of a block mapping begins with VALUE: `: x`
 *     POKHVIZI_BARE_DOCUMENT  it has an error            an implicit document after a document's explicit end
 *
 * In libyaml texts end at their first zero byte, since anchors and tags are C strings there. So take their lengths by strlen, or
 * refuse a token with such a text.
 *
 * `states` and `marks` are stacks in your memory. While N collections are open, `states` holds at most N + 1 entries, and
 * `marks` at most N. Their contents before the first call don't matter; to make them larger, move their bytes, for example
 * by realloc. After POKHVIZI_FAULT what `steps` holds is unspecified: a further call is safe, and what it gives has no
 * meaning; pokhvizi_steps_new begins a new parse.
 *
 * Depth. To bound how deep a text nests, don't make `marks` larger than that at POKHVIZI_FULL_MARKS, and stop: the token opens
 * a collection too deep (POKHVIZI_TOO_DEEP). An entry is one collection that a token opens, kinds 7, 8, 10 and 12. Two kinds
 * have none and count with what they stand in: a sequence that isn't indented in its mapping, and a pair in a flow sequence.
 * These count among the N above, so with a bound of D `states` may need 2 * D + 1 entries.
 *
 * Facts. `fact` is the one number that a call has to know of a token's texts. It depends on the document's handles, so ask for
 * it at each call, even if the token stayed:
 *
 *     VERSION-DIRECTIVE (3)   pokhvizi_version_fact: 1 if the version is accepted (1.1 and 1.2 are)
 *     TAG-DIRECTIVE (4)       pokhvizi_directive_fact: 1 if the document has declared the handle before
 *     TAG (20)                pokhvizi_tag: 1 if the full tag is empty, 2 if it is "!", 3 for any other, 4 if its handle
 *                             isn't declared
 *     SCALAR (21)             1 if it is plain, else 0
 *     any other               ignored
 *
 * Texts of an event. An ALIAS (kind 5) has the text of its token. A SCALAR (6) has the text and style of the token in hand if
 * that is a SCALAR (21) and is taken; else its text is empty and it is plain. A node with `has_anchor` or `has_tag` has the
 * texts of the ANCHOR and TAG tokens since the last event. A DOCUMENT-START (3) has the directives since the last event, and
 * their handles last until the document's DOCUMENT-END (4). So between two events only the document's handles are held, and
 * you may give up a parse at any time. Keep the token in hand until you have used its event.
 *
 * The structs may hold any bytes, and `kind` and `fact` may be any numbers: then the events are wrong, and nothing else
 * happens. What the library does is proved. It relies on these rules, which nothing checks: no pointer is null, even if its
 * length is 0; each array has as many entries as the length after it says; no two arrays overlap. */
#ifndef POKHVIZI_STEPS_H
#define POKHVIZI_STEPS_H
#include "version.h"

#ifdef __cplusplus
extern "C" {
#endif

/* The start and the end of a token, side by side like in a yaml_token_t. */
typedef struct {
    pokhvizi_mark_t start_mark, end_mark;
} pokhvizi_span_t;

/* A parse. It may be copied and moved: nothing points into it. Its fields are the library's. */
typedef struct {
    struct {
        uint8_t state, behind_document_end;
        size_t states_count, marks_count;
    } machine;
    struct {
        uint8_t next, entering, place, has_tag, has_anchor, has_version, problem;
        pokhvizi_mark_t mark, start_mark, end_mark, tag_mark;
    } read;
    uint8_t tag;
} pokhvizi_steps_t;

/* An event: `kind` is 1 to 10, flags are 0 or 1, and what its kind has no use for is 0. */
typedef struct {
    uint8_t kind;
    uint8_t has_anchor;      /* of a node */
    uint8_t has_tag;         /* of a node */
    uint8_t implicit;        /* of a document's start and end, a collection's start; of a scalar: plain_implicit */
    uint8_t quoted_implicit; /* of a scalar */
    uint8_t is_flow;         /* of a collection's start */
    pokhvizi_mark_t start_mark, end_mark;
} pokhvizi_event_t;

/* Why the tokens are no YAML stream: `problem` is 1 to 12, and `context_mark` is 0 if it has no context. The number after these
 * is what you refuse yourself: a depth beyond your own bound. */
typedef struct {
    uint8_t problem;
    pokhvizi_mark_t context_mark, problem_mark;
} pokhvizi_fault_t;

enum {
    POKHVIZI_WANTS,
    POKHVIZI_GAVE,
    POKHVIZI_STAYS,
    POKHVIZI_FULL_STATES,
    POKHVIZI_FULL_MARKS,
    POKHVIZI_FAULT,
    POKHVIZI_BAD
};

enum {
    POKHVIZI_SAME,
    POKHVIZI_PAIR_KEY,
    POKHVIZI_VALUE_FIRST,
    POKHVIZI_BARE_DOCUMENT
};

enum {
    POKHVIZI_TOO_DEEP = 13
};

/* Begins a parse. */
void pokhvizi_steps_new(pokhvizi_steps_t *steps);

/* Takes a token, as described above. */
uint32_t pokhvizi_step(pokhvizi_steps_t *steps, uint8_t *states, size_t states_room, pokhvizi_mark_t *marks,
                       size_t marks_room, uint8_t kind, uint8_t fact, const pokhvizi_span_t *at, pokhvizi_event_t *event,
                       pokhvizi_fault_t *fault);

/* Takes a token, exactly as libyaml does. */
uint32_t pokhvizi_step_exact(pokhvizi_steps_t *steps, uint8_t *states, size_t states_room, pokhvizi_mark_t *marks,
                             size_t marks_room, uint8_t kind, uint8_t fact, const pokhvizi_span_t *at,
                             pokhvizi_event_t *event, pokhvizi_fault_t *fault);

/* Where pokhvizi_step does something else than libyaml with a token of this kind, if it is handed in next: one of the four
 * numbers above. */
uint8_t pokhvizi_differs(const pokhvizi_steps_t *steps, uint8_t kind);

/* Which tokens may come next: bit N is set if a token of kind N may be handed in and be no error, with some fact. It is exact: no
 * stream goes on from the tokens so far with a token of another kind. Ask before a token is handed in for the first time, and
 * keep the result until it is taken: at POKHVIZI_FAULT it says what was expected in the token's place. Or copy `steps` there, and
 * ask with the copy at POKHVIZI_FAULT: the token hasn't changed what the copy needs of the stack. */
uint32_t pokhvizi_expected(const pokhvizi_steps_t *steps, const uint8_t *states, size_t states_room);

/* ---- Directives and tags ---- */

/* A text: `length` bytes of a buffer, from `place` on. */
typedef struct {
    uint64_t place, length;
} pokhvizi_text_t;

/* A tag directive that the document has declared. */
typedef struct {
    pokhvizi_text_t handle, prefix;
} pokhvizi_handle_t;

/* The fact of a VERSION-DIRECTIVE. */
uint8_t pokhvizi_version_fact(int32_t major, int32_t minor);

/* The fact of a TAG-DIRECTIVE. The document has declared `handles`, whose texts are ranges of `texts`. They are looked at one
 * after the other, here and in pokhvizi_tag, so a document of directives takes time as the square of its length. To avoid that,
 * keep a hash table: both calls say the same if `handles` is that one declared handle which is `handle`, or none. */
uint8_t pokhvizi_directive_fact(const pokhvizi_handle_t *handles, size_t count, const uint8_t *texts, size_t length,
                                const uint8_t *handle, size_t handle_length);

/* The fact of a TAG. `*size` is the length of the full tag, or SIZE_MAX if the handle isn't declared. If the full tag fits, it
 * is written to the start of `out`; otherwise, and beyond it, `out` stays as it was. A handle needs no directive if it is
 * empty, `!` or `!!`. */
uint8_t pokhvizi_tag(const pokhvizi_handle_t *handles, size_t count, const uint8_t *texts, size_t length,
                     const uint8_t *handle, size_t handle_length, const uint8_t *suffix, size_t suffix_length,
                     uint8_t *out, size_t room, size_t *size);

/* ---- Words ---- */

/* Returns the words of an error's problem, libyaml's but of the last, and sets `*context` to those of its context, or to NULL. */
static __inline const char *pokhvizi_problem(uint8_t problem, const char **context)
{
    static const char *const words[14][2] = {
        {"no fault", NULL},
        {"did not find expected <stream-start>", NULL},
        {"did not find expected <document start>", NULL},
        {"found duplicate %YAML directive", NULL},
        {"found incompatible YAML document", NULL},
        {"found duplicate %TAG directive", NULL},
        {"did not find expected node content", "while parsing a block node"},
        {"did not find expected node content", "while parsing a flow node"},
        {"found undefined tag handle", "while parsing a node"},
        {"did not find expected '-' indicator", "while parsing a block collection"},
        {"did not find expected key", "while parsing a block mapping"},
        {"did not find expected ',' or ']'", "while parsing a flow sequence"},
        {"did not find expected ',' or '}'", "while parsing a flow mapping"},
        {"found too many levels", NULL},
    };

    *context = words[problem < 14 ? problem : 0][1];
    return words[problem < 14 ? problem : 0][0];
}

/* Whether an error is that a token of its kind came, and not what stands in a directive or a tag: only then something else was
 * expected in its place. */
static __inline int pokhvizi_is_unexpected(uint8_t problem)
{
    return problem >= 1 && problem <= 12 && problem != 4 && problem != 5 && problem != 8;
}

/* What may come next by exact steps: as pokhvizi_expected, without what libyaml refuses there. Of the stacks nothing changes: a
 * VALUE, which is tried on a copy of the record, takes entries from them and puts none. */
static __inline uint32_t pokhvizi_expected_exact(const pokhvizi_steps_t *steps, uint8_t *states, size_t states_room,
                                                 pokhvizi_mark_t *marks, size_t marks_room)
{
    uint32_t expected = pokhvizi_expected(steps, states, states_room), did;
    pokhvizi_steps_t copy = *steps;
    pokhvizi_span_t at = {{0, 0, 0}, {0, 0, 0}};
    pokhvizi_event_t event;
    pokhvizi_fault_t fault;
    uint8_t kind;

    for (kind = 1; kind < 22; kind++)
        if (expected >> kind & 1 && pokhvizi_differs(steps, kind) == POKHVIZI_BARE_DOCUMENT)
            expected &= ~((uint32_t)1 << kind);
    if (expected >> 17 & 1) {
        copy.tag = 3; /* pokhvizi_expected, too, takes a handle as declared */
        do
            did = pokhvizi_step_exact(&copy, states, states_room, marks, marks_room, 17, 0, &at, &event, &fault);
        while (did == POKHVIZI_STAYS);
        if (did == POKHVIZI_FAULT)
            expected &= ~((uint32_t)1 << 17);
    }
    return expected;
}

/* Puts the words of each that `expected` allows, such as "a node" or "','", and returns how many they are. */
static __inline size_t pokhvizi_expected_list(uint32_t expected, const char *told[22])
{
    static const uint8_t order[20] = {1, 21, 18, 19, 20, 10, 12, 7, 8, 14, 16, 17, 15, 11, 13, 9, 3, 4, 5, 6};
    static const char *const words[22] = {
        "", "the start of the stream", "the end of the stream", "%YAML", "%TAG", "'---'", "'...'", "a block sequence",
        "a block mapping", "the end of the block sequence", "'['", "']'", "'{'", "'}'", "'-'", "','", "a key", "a value",
        "an alias", "an anchor", "a tag", "a scalar",
    };
    const uint32_t flow = 1u << 18 | 1u << 19 | 1u << 20 | 1u << 21 | 1u << 10 | 1u << 12, block = 3u << 7;
    size_t count = 0, i;

    if ((expected & flow) == flow) {
        told[count++] = (expected & block) == block ? "a node" : "a flow node";
        expected &= ~(flow | block);
    }
    for (i = 0; i < 21; i++) {
        uint8_t kind = i < 20 ? order[i] : 2;
        if (expected >> kind & 1)
            told[count++] = kind == 9 && expected >> 16 & 1 ? "the end of the block mapping" : words[kind];
    }
    return count;
}

/* Writes what `expected` allows in words, such as "a node, a key or the end of the block mapping", and returns their length, as
 * snprintf does: the text is cut at `room`, and ends with a zero byte if `room` isn't 0. */
static __inline size_t pokhvizi_expected_words(uint32_t expected, char *text, size_t room)
{
    const char *told[22], *from;
    size_t count = pokhvizi_expected_list(expected, told), length = 0, i;

    for (i = 0; i < count; i++) {
        for (from = i == 0 ? "" : i + 1 < count ? ", " : " or "; *from; from++, length++)
            if (length + 1 < room)
                text[length] = *from;
        for (from = told[i]; *from; from++, length++)
            if (length + 1 < room)
                text[length] = *from;
    }
    if (room)
        text[length < room ? length : room - 1] = 0;
    return length;
}

/* The kind of a token that brings the end of the stream nearer, of those that may come next; 0 if none may. Handed in one after
 * another, with fact 0, or 1 for a scalar, such tokens complete what was read: they are at most two more than the collections that
 * are open. */
static __inline uint8_t pokhvizi_completing(uint32_t expected)
{
    static const uint8_t ends[7] = {2, 11, 13, 9, 5, 21, 1};
    size_t i;

    for (i = 0; i < 7; i++)
        if (expected >> ends[i] & 1)
            return ends[i];
    return 0;
}

#ifdef __cplusplus
}
#endif

#endif
