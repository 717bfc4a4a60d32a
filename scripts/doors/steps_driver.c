/* What no proof covers of pokhvizi/steps.h, for scripts/doors/door_checks.sh:
 *
 *     cc -O2 -o steps_driver scripts/doors/steps_driver.c DIR/libpokhvizi.a -lyaml -lpthread
 *     steps_driver FILE..             the events of YAML files, of libyaml's tokens (Debian: libyaml-dev), beside those that its
 *                                     `yaml_parser_parse` gives: each field and mark, and the fault
 *     steps_driver exact FILE..       the same of exact steps
 *     steps_driver bad FILE..         numbers that are no token's, stacks that are too small, records of any bytes
 *     steps_driver threads FILE..     the first, in eight threads at once
 *
 * DIR is that of scripts/build_c.sh. The status is 1 if something is wrong. A program of your own takes what stands before
 * "Beside libyaml's events". */
#include <pokhvizi/steps.h>
#include "driver.h"

/* ---- A parser ---- */

/* What is kept between two events. */
struct stream {
    yaml_parser_t scanner;
    yaml_token_t token;  /* the token in hand */
    int has_token;
    pokhvizi_steps_t steps;
    uint8_t *states;
    pokhvizi_mark_t *marks;
    size_t states_room, marks_room;
    pokhvizi_handle_t *handles;  /* of the document's tag directives, whose texts stand in `texts` */
    size_t handles_count, handles_room;
    struct bytes texts;
    int is_exact;
};

/* An event. What an event of its kind hasn't is empty. */
struct event {
    pokhvizi_event_t shape;
    struct bytes anchor, tag;
    struct bytes next_tag;  /* the tag in full whose fact was asked for last */
    int has_version, major, minor;
    const yaml_token_t *token;  /* the token that ends with it, if any: of an alias, a scalar, a stream's start */
};

static void begin(struct stream *stream, const struct bytes *yaml, size_t room)
{
    memset(stream, 0, sizeof *stream);
    begin_parser(&stream->scanner, yaml);
    stream->states = grown(NULL, &stream->states_room, room, sizeof *stream->states);
    stream->marks = grown(NULL, &stream->marks_room, room, sizeof *stream->marks);
    stream->handles = grown(NULL, &stream->handles_room, 1, sizeof *stream->handles);
    stream->states_room = stream->marks_room = room;
    put(&stream->texts, "", 0);
    pokhvizi_steps_new(&stream->steps);
}

static void end(struct stream *stream)
{
    if (stream->has_token)
        yaml_token_delete(&stream->token);
    yaml_parser_delete(&stream->scanner);
    free(stream->states);
    free(stream->marks);
    free(stream->handles);
    free(stream->texts.at);
}

static pokhvizi_text_t put_text(struct stream *stream, const yaml_char_t *text)
{
    pokhvizi_text_t made = {stream->texts.length, strlen((const char *)text)};
    put(&stream->texts, text, made.length);
    return made;
}

static void declare(struct stream *stream, const yaml_token_t *token)
{
    pokhvizi_handle_t made;

    made.handle = put_text(stream, token->data.tag_directive.handle);
    made.prefix = put_text(stream, token->data.tag_directive.prefix);
    stream->handles
        = grown(stream->handles, &stream->handles_room, stream->handles_count + 1, sizeof *stream->handles);
    stream->handles[stream->handles_count++] = made;
}

/* Returns the fact of a tag, and makes the tag in full. */
static uint8_t put_tag(const struct stream *stream, struct bytes *tag)
{
    const char *handle = (const char *)stream->token.data.tag.handle, *suffix = (const char *)stream->token.data.tag.suffix;
    size_t length = 0;
    uint8_t fact = 0;

    for (int again = 0; again < 2; again++) {
        tag->at = grown(tag->at, &tag->room, length + 1, 1);
        fact = pokhvizi_tag(stream->handles, stream->handles_count, stream->texts.at, stream->texts.length,
                            (const uint8_t *)handle, strlen(handle), (const uint8_t *)suffix, strlen(suffix), tag->at,
                            length, &length);
        if (length == SIZE_MAX)
            return fact;
    }
    tag->length = length;
    tag->at[length] = '\0';
    return fact;
}

/* The fact of the token in hand; a tag in full. */
static uint8_t fact_of(const struct stream *stream, struct bytes *tag)
{
    const yaml_token_t *token = &stream->token;
    const yaml_char_t *handle;

    switch (token->type) {
    case YAML_VERSION_DIRECTIVE_TOKEN:
        return pokhvizi_version_fact(token->data.version_directive.major, token->data.version_directive.minor);
    case YAML_TAG_DIRECTIVE_TOKEN:
        handle = token->data.tag_directive.handle;
        return pokhvizi_directive_fact(stream->handles, stream->handles_count, stream->texts.at, stream->texts.length,
                                       handle, strlen((const char *)handle));
    case YAML_TAG_TOKEN:
        return put_tag(stream, tag);
    case YAML_SCALAR_TOKEN:
        return token->data.scalar.style == YAML_PLAIN_SCALAR_STYLE;
    default:
        return 0;
    }
}

/* Takes what the token in hand has for a later event. */
static void hold(struct stream *stream, struct event *event)
{
    const yaml_token_t *token = &stream->token;

    if (token->type == YAML_ANCHOR_TOKEN) {
        put(&event->anchor, token->data.anchor.value, strlen((const char *)token->data.anchor.value));
    } else if (token->type == YAML_TAG_TOKEN) {
        struct bytes tag = event->tag;
        event->tag = event->next_tag;
        event->next_tag = tag;
    } else if (token->type == YAML_TAG_DIRECTIVE_TOKEN) {
        declare(stream, token);
    } else if (token->type == YAML_VERSION_DIRECTIVE_TOKEN) {
        event->has_version = 1;
        event->major = token->data.version_directive.major;
        event->minor = token->data.version_directive.minor;
    }
}

/* Takes the scanner's next token in hand; 0 where it has an error. */
static int take(struct stream *stream)
{
    if (stream->has_token)
        yaml_token_delete(&stream->token);
    stream->has_token = yaml_parser_scan(&stream->scanner, &stream->token);
    return stream->has_token;
}

/* Whether a token has gone with an event that has nothing of it. */
static int is_lost(const struct stream *stream, const pokhvizi_event_t *shape)
{
    return shape->kind == YAML_SCALAR_EVENT && stream->token.type != YAML_SCALAR_TOKEN;
}

/* Steps to the next event: POKHVIZI_GAVE or POKHVIZI_STAYS, a fault, or POKHVIZI_WANTS where the scanner has an error. `did` is
 * what the step before did. The buffers of an event may be used again. */
static uint32_t next(struct stream *stream, uint32_t did, struct event *event, pokhvizi_fault_t *fault)
{
    event->anchor.length = event->tag.length = 0;
    event->has_version = 0;
    for (;;) {
        if ((did == POKHVIZI_WANTS || did == POKHVIZI_GAVE) && !take(stream))
            return POKHVIZI_WANTS;
        const pokhvizi_span_t *at = (const pokhvizi_span_t *)(const void *)&stream->token.start_mark;
        did = (stream->is_exact ? pokhvizi_step_exact : pokhvizi_step)(
            &stream->steps, stream->states, stream->states_room, stream->marks, stream->marks_room, stream->token.type,
            fact_of(stream, &event->next_tag), at, &event->shape, fault);
        event->token = did == POKHVIZI_GAVE && !is_lost(stream, &event->shape) ? &stream->token : NULL;
        if (did == POKHVIZI_WANTS)
            hold(stream, event);
        else if (did == POKHVIZI_FULL_STATES)
            stream->states = grown(stream->states, &stream->states_room, stream->states_room + 1, sizeof *stream->states);
        else if (did == POKHVIZI_FULL_MARKS)
            stream->marks = grown(stream->marks, &stream->marks_room, stream->marks_room + 1, sizeof *stream->marks);
        else
            return did;
    }
}

/* After the event of a document's end: its directives are over. */
static void end_document(struct stream *stream)
{
    stream->handles_count = stream->texts.length = 0;
}

static void free_event(struct event *event)
{
    free(event->anchor.at);
    free(event->tag.at);
    free(event->next_tag.at);
}

/* ---- Beside libyaml's events ---- */

static int text_is(int is_there, const struct bytes *text, const yaml_char_t *other)
{
    if (other == NULL || !is_there)
        return other == NULL && !is_there;
    return text->length == strlen((const char *)other) && memcmp(text->at, other, text->length) == 0;
}

static int range_is(const struct stream *stream, pokhvizi_text_t text, const yaml_char_t *other)
{
    return text.length == strlen((const char *)other) && memcmp(stream->texts.at + text.place, other, text.length) == 0;
}

static int document_start_is(const struct stream *stream, const struct event *made, const yaml_event_t *event)
{
    const yaml_version_directive_t *version = event->data.document_start.version_directive;
    const yaml_tag_directive_t *tag = event->data.document_start.tag_directives.start;
    size_t count = event->data.document_start.tag_directives.end - tag;

    if (made->shape.implicit != event->data.document_start.implicit || made->has_version != (version != NULL) ||
        (version != NULL && (made->major != version->major || made->minor != version->minor)) ||
        stream->handles_count != count)
        return 0;
    for (size_t i = 0; i < count; i++)
        if (!range_is(stream, stream->handles[i].handle, tag[i].handle) ||
            !range_is(stream, stream->handles[i].prefix, tag[i].prefix))
            return 0;
    return 1;
}

static int scalar_is(const struct event *made, const yaml_event_t *event)
{
    const yaml_token_t *token = made->token;
    size_t length = token == NULL ? 0 : token->data.scalar.length;

    return text_is(made->shape.has_anchor, &made->anchor, event->data.scalar.anchor) &&
           text_is(made->shape.has_tag, &made->tag, event->data.scalar.tag) &&
           made->shape.implicit == event->data.scalar.plain_implicit &&
           made->shape.quoted_implicit == event->data.scalar.quoted_implicit &&
           (token == NULL ? YAML_PLAIN_SCALAR_STYLE : token->data.scalar.style) == event->data.scalar.style &&
           length == event->data.scalar.length &&
           (length == 0 || memcmp(token->data.scalar.value, event->data.scalar.value, length) == 0);
}

/* Of a collection's start; a style of libyaml's is 1 for a block, and 2 for brackets. */
static int start_is(const struct event *made, const yaml_char_t *anchor, const yaml_char_t *tag, int implicit, int style)
{
    return text_is(made->shape.has_anchor, &made->anchor, anchor) && text_is(made->shape.has_tag, &made->tag, tag) &&
           made->shape.implicit == implicit && made->shape.is_flow + 1 == style;
}

/* Whether an event is one of libyaml's. */
static int event_is(const struct stream *stream, const struct event *made, const yaml_event_t *event)
{
    if (made->shape.kind != event->type || !marks_are(made->shape.start_mark, mark_of(event->start_mark)) ||
        !marks_are(made->shape.end_mark, mark_of(event->end_mark)))
        return 0;
    switch (event->type) {
    case YAML_STREAM_START_EVENT:
        return made->token != NULL && made->token->data.stream_start.encoding == event->data.stream_start.encoding;
    case YAML_DOCUMENT_START_EVENT:
        return document_start_is(stream, made, event);
    case YAML_DOCUMENT_END_EVENT:
        return made->shape.implicit == event->data.document_end.implicit;
    case YAML_ALIAS_EVENT:
        return made->token != NULL &&
               strcmp((const char *)made->token->data.alias.value, (const char *)event->data.alias.anchor) == 0;
    case YAML_SCALAR_EVENT:
        return scalar_is(made, event);
    case YAML_SEQUENCE_START_EVENT:
        return start_is(made, event->data.sequence_start.anchor, event->data.sequence_start.tag,
                        event->data.sequence_start.implicit, event->data.sequence_start.style);
    case YAML_MAPPING_START_EVENT:
        return start_is(made, event->data.mapping_start.anchor, event->data.mapping_start.tag,
                        event->data.mapping_start.implicit, event->data.mapping_start.style);
    default:
        return 1;
    }
}

/* Whether what a step did is libyaml's error, all its fields. */
static int fault_is(const struct stream *stream, uint32_t did, const pokhvizi_fault_t *fault, const yaml_parser_t *parser)
{
    const yaml_parser_t *scanner = &stream->scanner;
    const char *problem, *context;

    if (did == POKHVIZI_WANTS)
        return scanner->error == parser->error && words_are(scanner->problem, parser->problem) &&
               memcmp(&scanner->problem_mark, &parser->problem_mark, sizeof scanner->problem_mark) == 0;
    problem = pokhvizi_problem(fault->problem, &context);
    return did == POKHVIZI_FAULT && parser->error == YAML_PARSER_ERROR && words_are(problem, parser->problem) &&
           marks_are(fault->problem_mark, mark_of(parser->problem_mark)) && words_are(context, parser->context) &&
           (context == NULL || marks_are(fault->context_mark, mark_of(parser->context_mark)));
}

struct counts {
    size_t events, faults, lost;
};

/* Compares the events of a text, with stacks that have room for so many at first; 1 where all are alike, and the fault. */
static int is_alike(const struct bytes *yaml, size_t room, int is_exact, struct counts *counts)
{
    yaml_parser_t parser;
    yaml_event_t event;
    struct stream stream;
    struct event made = {0};
    pokhvizi_fault_t fault;
    uint32_t did = POKHVIZI_WANTS;
    int alike = 1, more = 1;

    begin(&stream, yaml, room);
    stream.is_exact = is_exact;
    begin_parser(&parser, yaml);
    while (alike && more) {
        int given = yaml_parser_parse(&parser, &event);
        did = next(&stream, did, &made, &fault);
        if (!given) {
            alike = fault_is(&stream, did, &fault, &parser);
            counts->faults++;
            break;
        }
        alike = (did == POKHVIZI_GAVE || did == POKHVIZI_STAYS) && event_is(&stream, &made, &event);
        counts->lost += did == POKHVIZI_GAVE && is_lost(&stream, &made.shape);
        if (event.type == YAML_DOCUMENT_END_EVENT)
            end_document(&stream);
        more = event.type != YAML_STREAM_END_EVENT;
        counts->events++;
        yaml_event_delete(&event);
    }
    yaml_parser_delete(&parser);
    free_event(&made);
    end(&stream);
    return alike;
}

/* Each file, with stacks of no entry, of one, of three, and of many. */
static int compare(char **names, int is_exact)
{
    static const size_t rooms[] = {0, 1, 3, 65536};
    struct counts all = {0}, again = {0};
    size_t files = 0, differ = 0;

    for (; *names != NULL; names++) {
        struct bytes yaml = read_file(*names);
        int alike = 1;
        for (size_t i = 0; i < sizeof rooms / sizeof *rooms; i++)
            alike = is_alike(&yaml, rooms[i], is_exact, i == 0 ? &all : &again) && alike;
        if (!alike)
            printf("%s differs\n", *names);
        differ += !alike;
        files++;
        free(yaml.at);
    }
    printf("%zu files, %zu events, %zu faults, %zu lost tokens, %zu differ\n", files, all.events, all.faults, all.lost, differ);
    return differ != 0 || is_exact != (all.lost != 0);
}

/* ---- Bad calls ---- */

static long wrong, calls;

static void expect(int is, const char *what, const char *name)
{
    if (!is) {
        printf("wrong: %s, in %s\n", what, name);
        wrong++;
    }
}

/* All that a call reads and writes. The stacks have as many entries as they are said to have, and no more. */
struct call {
    pokhvizi_steps_t steps;
    uint8_t *states;
    pokhvizi_mark_t *marks;
    size_t states_room, marks_room;
    pokhvizi_event_t event;
    pokhvizi_fault_t fault;
    uint32_t did;
};

/* Copies so many bytes to memory of its own. */
static void *copy_of(const void *from, size_t length)
{
    void *made = resized(NULL, length + (length == 0));

    memcpy(made, from, length);
    return made;
}

/* Calls with a copy of what a stream has, with the first entries of its stacks. */
static struct call call_with(const struct stream *stream, size_t states_room, size_t marks_room, uint8_t kind, uint8_t fact)
{
    struct call call;

    memset(&call, 0, sizeof call);
    call.steps = stream->steps;
    call.states = copy_of(stream->states, states_room);
    call.marks = copy_of(stream->marks, marks_room * sizeof *call.marks);
    call.states_room = states_room;
    call.marks_room = marks_room;
    call.did = (stream->is_exact ? pokhvizi_step_exact : pokhvizi_step)(&call.steps, call.states, states_room, call.marks, marks_room, kind, fact,
                             (const pokhvizi_span_t *)(const void *)&stream->token.start_mark, &call.event, &call.fault);
    calls++;
    return call;
}

static void free_call(struct call *call)
{
    free(call->states);
    free(call->marks);
}

/* Whether two calls did the same, and gave the same event or fault. */
static int is_same(const struct call *one, const struct call *other)
{
    const pokhvizi_event_t *a = &one->event, *b = &other->event;

    if (one->did != other->did)
        return 0;
    if (one->did == POKHVIZI_FAULT)
        return one->fault.problem == other->fault.problem &&
               marks_are(one->fault.problem_mark, other->fault.problem_mark) &&
               marks_are(one->fault.context_mark, other->fault.context_mark);
    if (one->did != POKHVIZI_GAVE && one->did != POKHVIZI_STAYS)
        return 1;
    return a->kind == b->kind && a->has_anchor == b->has_anchor && a->has_tag == b->has_tag && a->implicit == b->implicit &&
           a->quoted_implicit == b->quoted_implicit && a->is_flow == b->is_flow &&
           marks_are(a->start_mark, b->start_mark) && marks_are(a->end_mark, b->end_mark);
}

/* Whether a call left the machine, the stacks and what is wanted as they were. */
static int is_undone(const struct stream *stream, const struct call *call)
{
    const pokhvizi_steps_t *old = &stream->steps, *new = &call->steps;

    return old->machine.state == new->machine.state &&
           old->machine.behind_document_end == new->machine.behind_document_end &&
           old->machine.states_count == new->machine.states_count &&
           old->machine.marks_count == new->machine.marks_count &&
           memcmp(stream->states, call->states, call->states_room) == 0 &&
           memcmp(stream->marks, call->marks, call->marks_room * sizeof *call->marks) == 0;
}

/* A number that is no token's is one and the same at each place. */
static void check_kinds(const struct stream *stream, const char *name)
{
    static const uint8_t kinds[] = {22, 23, 127, 128, 255};
    struct call none = call_with(stream, stream->states_room, stream->marks_room, YAML_NO_TOKEN, 0);

    for (size_t i = 0; i < sizeof kinds; i++) {
        struct call call = call_with(stream, stream->states_room, stream->marks_room, kinds[i], 0);
        expect(is_same(&none, &call), "a number that is no token's", name);
        free_call(&call);
    }
    free_call(&none);
}

/* Without room for one more entry, a call does the same, or nothing, or gives the event of an opening token, which stays; with
 * less room than there are entries, it does nothing. */
static void check_rooms(const struct stream *stream, uint8_t fact, const char *name)
{
    size_t states = stream->steps.machine.states_count, marks = stream->steps.machine.marks_count;
    uint8_t kind = stream->token.type;
    struct call ample = call_with(stream, stream->states_room, stream->marks_room, kind, fact);
    struct call tight = call_with(stream, states, marks, kind, fact);
    struct call none;

    expect(ample.did <= POKHVIZI_STAYS || ample.did == POKHVIZI_FAULT, "an answer", name);
    if (tight.did == POKHVIZI_FULL_STATES || tight.did == POKHVIZI_FULL_MARKS) {
        int grows = tight.did == POKHVIZI_FULL_STATES ? ample.steps.machine.states_count >= states
                                                      : ample.steps.machine.marks_count >= marks;
        expect(grows && is_undone(stream, &tight), "a full stack", name);
    } else {
        if (ample.did == POKHVIZI_GAVE && ample.steps.machine.marks_count > marks && tight.did == POKHVIZI_STAYS)
            tight.did = POKHVIZI_GAVE;
        expect(is_same(&ample, &tight), "the same with less room", name);
    }
    for (int of_marks = 0; of_marks < 2; of_marks++) {
        if ((of_marks ? marks : states) == 0)
            continue;
        none = call_with(stream, states - !of_marks, marks - of_marks, kind, fact);
        expect(none.did == POKHVIZI_BAD && is_undone(stream, &none), "less room than entries", name);
        free_call(&none);
    }
    free_call(&ample);
    free_call(&tight);
}

/* Records and stacks of any bytes: an answer, and no access beyond the stacks, which the sanitizers and valgrind look for. */
static void check_spoiled(const struct stream *stream, const char *name)
{
    struct stream spoiled = *stream;
    uint8_t *bytes = (uint8_t *)&spoiled.steps;
    struct call call;
    size_t states = drawn() % 4, marks = drawn() % 4;

    spoiled.states = resized(NULL, 4);
    spoiled.marks = resized(NULL, 4 * sizeof *spoiled.marks);
    memset(spoiled.marks, 0, 4 * sizeof *spoiled.marks);
    for (size_t i = 0; i < sizeof spoiled.steps; i++)
        if (drawn() % 2)
            bytes[i] = drawn();
    spoiled.is_exact = drawn() % 2;
    if (drawn() % 8 != 0) {
        spoiled.steps.machine.states_count = drawn() % (states + 1);
        spoiled.steps.machine.marks_count = drawn() % (marks + 1);
    }
    for (size_t i = 0; i < 4; i++)
        spoiled.states[i] = drawn();
    call = call_with(&spoiled, states, marks, drawn(), drawn());
    expect(call.did <= POKHVIZI_BAD, "an answer of a spoiled record", name);
    expect(call.did != POKHVIZI_FAULT || (call.fault.problem >= 1 && call.fault.problem <= 12), "a problem's number", name);
    expect(call.did < POKHVIZI_GAVE || call.did > POKHVIZI_STAYS ||
               (call.event.kind >= YAML_STREAM_START_EVENT && call.event.kind <= YAML_MAPPING_END_EVENT),
           "an event's number", name);
    free_call(&call);
    free(spoiled.states);
    free(spoiled.marks);
}

/* Handles whose texts are not all in their buffer have the bytes that are. */
static void check_handles(void)
{
    static const uint8_t texts[] = "!e!tag:", handle[] = "!e!", suffix[] = "x", bang[] = "!";
    pokhvizi_handle_t handles[] = {{{0, 3}, {3, 4}}};
    uint8_t out[32];
    size_t size;

    expect(pokhvizi_tag(handles, 1, texts, 7, handle, 3, suffix, 1, out, sizeof out, &size) == 3 && size == 5 &&
               memcmp(out, "tag:x", 5) == 0 && pokhvizi_directive_fact(handles, 1, texts, 7, handle, 3) == 1,
           "a tag", "handles");
    memset(out, 'o', sizeof out);
    expect(pokhvizi_tag(handles, 1, texts, 7, handle, 3, suffix, 1, out, 4, &size) == 3 && size == 5 && out[4] == 'o',
           "a tag without room", "handles");
    expect(pokhvizi_tag(handles, 1, texts, 7, handle, 2, suffix, 1, out, sizeof out, &size) == 4 && size == SIZE_MAX &&
               pokhvizi_directive_fact(handles, 1, texts, 7, handle, 2) == 0,
           "a handle that isn't declared", "handles");
    expect(pokhvizi_tag(handles, 1, texts, 7, handle, 0, bang, 1, out, sizeof out, &size) == 2 && size == 1 && out[0] == '!' &&
               pokhvizi_tag(handles, 1, texts, 7, handle, 0, bang, 0, out, sizeof out, &size) == 1 && size == 0,
           "the tag `!`, and an empty one", "handles");
    handles[0].prefix.length = UINT64_MAX;
    expect(pokhvizi_tag(handles, 1, texts, 7, handle, 3, suffix, 1, out, sizeof out, &size) == 3 && size == 5,
           "a prefix past the end", "handles");
    handles[0].prefix.place = UINT64_MAX;
    expect(pokhvizi_tag(handles, 1, texts, 7, handle, 3, suffix, 1, out, sizeof out, &size) == 3 && size == 1,
           "a prefix at the last place", "handles");
    handles[0].handle.place = 8;
    expect(pokhvizi_directive_fact(handles, 1, texts, 7, handle, 3) == 0, "a handle past the end", "handles");
    expect(pokhvizi_version_fact(1, 1) == 1 && pokhvizi_version_fact(1, 2) == 1 && pokhvizi_version_fact(1, 0) == 0 &&
               pokhvizi_version_fact(1, 3) == 0 && pokhvizi_version_fact(2, 1) == 0 && pokhvizi_version_fact(257, 1) == 0 &&
               pokhvizi_version_fact(INT32_MIN, INT32_MAX) == 0,
           "versions", "handles");
}

/* Tries each step of a text, as it is and otherwise. */
static void try_text(const struct bytes *yaml, const char *name)
{
    struct stream stream;
    struct event event = {0};
    uint32_t did = POKHVIZI_WANTS;
    pokhvizi_fault_t fault;

    begin(&stream, yaml, 256);
    for (;;) {
        if ((did == POKHVIZI_WANTS || did == POKHVIZI_GAVE) && !take(&stream))
            break;
        uint8_t fact = fact_of(&stream, &event.next_tag);
        check_kinds(&stream, name);
        check_rooms(&stream, fact, name);
        for (int i = 0; i < 20; i++)
            check_spoiled(&stream, name);
        did = pokhvizi_step(&stream.steps, stream.states, stream.states_room, stream.marks, stream.marks_room,
                            stream.token.type, fact, (const pokhvizi_span_t *)(const void *)&stream.token.start_mark,
                            &event.shape, &fault);
        if (did == POKHVIZI_FAULT || (did == POKHVIZI_GAVE && event.shape.kind == YAML_STREAM_END_EVENT))
            break;
        if (did == POKHVIZI_WANTS)
            hold(&stream, &event);
        else if (event.shape.kind == YAML_DOCUMENT_END_EVENT)
            end_document(&stream);
    }
    free_event(&event);
    end(&stream);
}

static int bad(char **names)
{
    check_handles();
    for (; *names != NULL; names++) {
        struct bytes yaml = read_file(*names);
        try_text(&yaml, *names);
        free(yaml.at);
    }
    printf("%ld calls, %ld wrong\n", calls, wrong);
    return wrong != 0 || calls == 0;
}

/* ---- Threads ---- */

enum { ROUNDS = 20 };

static void *run_rounds(void *yaml)
{
    struct counts counts = {0};
    int differs = 0;

    for (int round = 0; round < ROUNDS; round++)
        differs |= !is_alike(yaml, round % 3, 0, &counts);
    return differs ? yaml : NULL;
}

/* Each file by all threads at once: all have libyaml's events. */
static int threads(char **names)
{
    int files = 0;

    for (; *names != NULL; names++, files++) {
        struct bytes yaml = read_file(*names);
        wrong += in_threads(run_rounds, &yaml);
        free(yaml.at);
    }
    printf("%d files, %d threads at once, %d runs each, %ld wrong\n", files, THREADS, ROUNDS, wrong);
    return wrong != 0 || files == 0;
}

int main(int count, char **words)
{
    if (count > 2 && strcmp(words[1], "bad") == 0)
        return bad(words + 2);
    if (count > 2 && strcmp(words[1], "threads") == 0)
        return threads(words + 2);
    if (count > 2 && strcmp(words[1], "exact") == 0)
        return compare(words + 2, 1);
    return compare(words + 1, 0);
}
