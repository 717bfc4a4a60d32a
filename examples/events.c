/* events < FILE: the events of a YAML text, a line each with its marks and texts, by libyaml's scanner and the calls of
 * pokhvizi/steps.h. The status is 1 after an error, which standard error tells, and 2 if memory ran out.
 *
 *     cc events.c -o events $(pkg-config --cflags --libs pokhvizi) -lyaml */
#include <pokhvizi/steps.h>
#include <stdio.h>
#include <stdlib.h>
#include <string.h>
#include <yaml.h>

static const char *const NAMES[] = {
    "", "+STR", "-STR", "+DOC", "-DOC", "=ALI", "=VAL", "+SEQ", "-SEQ", "+MAP", "-MAP"};

/* The document's handles, and their texts, one after the other; the anchor and the tag in full since the last event. */
static pokhvizi_handle_t *handles;
static uint8_t *texts;
static size_t count, length;
static char *anchor, *tag, *next_tag; /* next_tag is the tag in full whose fact was asked for last */

static void *resized(void *block, size_t size)
{
    if ((block = realloc(block, size)) == NULL)
        exit((fputs("events: out of memory\n", stderr), 2));
    return block;
}

static pokhvizi_text_t kept(const yaml_char_t *text)
{
    pokhvizi_text_t range = {length, strlen((const char *)text)};

    texts = resized(texts, length + range.length + 1);
    memcpy(texts + length, text, range.length);
    length += range.length;
    return range;
}

static uint8_t tag_fact(const yaml_char_t *handle, const yaml_char_t *suffix)
{
    size_t handle_length = strlen((const char *)handle), suffix_length = strlen((const char *)suffix), size;
    size_t room = length + suffix_length + 32; /* the longest prefix that needs no directive has 18 bytes */
    uint8_t fact;

    next_tag = resized(next_tag, room);
    fact = pokhvizi_tag(
        handles, count, texts, length, handle, handle_length, suffix, suffix_length, (uint8_t *)next_tag, room, &size);
    if (fact < 4)
        next_tag[size] = 0;
    return fact;
}

static uint8_t fact_of(const yaml_token_t *token)
{
    const yaml_char_t *handle;

    switch (token->type) {
    case YAML_SCALAR_TOKEN:
        return token->data.scalar.style == YAML_PLAIN_SCALAR_STYLE;
    case YAML_VERSION_DIRECTIVE_TOKEN:
        return pokhvizi_version_fact(token->data.version_directive.major, token->data.version_directive.minor);
    case YAML_TAG_DIRECTIVE_TOKEN:
        handle = token->data.tag_directive.handle;
        return pokhvizi_directive_fact(handles, count, texts, length, handle, strlen((const char *)handle));
    case YAML_TAG_TOKEN:
        return tag_fact(token->data.tag.handle, token->data.tag.suffix);
    default:
        return 0;
    }
}

/* Keeps the texts of a token that was taken without an event. */
static void keep(yaml_token_t *token)
{
    if (token->type == YAML_ANCHOR_TOKEN) {
        free(anchor);
        anchor = (char *)token->data.anchor.value;
        token->data.anchor.value = NULL;
    } else if (token->type == YAML_TAG_TOKEN) {
        free(tag);
        tag = next_tag;
        next_tag = NULL;
    } else if (token->type == YAML_TAG_DIRECTIVE_TOKEN) {
        handles = resized(handles, (count + 1) * sizeof *handles);
        handles[count].handle = kept(token->data.tag_directive.handle);
        handles[count++].prefix = kept(token->data.tag_directive.prefix);
    }
}

static void show(const pokhvizi_event_t *event, int stays, const yaml_token_t *token)
{
    const char *value = "";

    if (event->kind == YAML_ALIAS_EVENT)
        value = (const char *)token->data.alias.value;
    if (event->kind == YAML_SCALAR_EVENT && !stays)
        value = (const char *)token->data.scalar.value;
    printf("%s %zu:%zu %zu:%zu", NAMES[event->kind], (size_t)event->start_mark.line, (size_t)event->start_mark.column,
        (size_t)event->end_mark.line, (size_t)event->end_mark.column);
    if (event->has_anchor)
        printf(" &%s", anchor);
    if (event->has_tag)
        printf(" <%s>", tag);
    printf(" %s\n", value);
    if (event->kind == YAML_DOCUMENT_END_EVENT)
        count = length = 0;
}

static void tell(const char *words, pokhvizi_mark_t mark)
{
    fprintf(stderr, "events: line %zu, column %zu: %s\n", (size_t)mark.line + 1, (size_t)mark.column + 1, words);
}

static int parser_failed(const pokhvizi_fault_t *fault)
{
    const char *context, *problem = pokhvizi_problem(fault->problem, &context);

    tell(problem, fault->problem_mark);
    if (context != NULL)
        tell(context, fault->context_mark);
    return 1;
}

static pokhvizi_mark_t mark_of(yaml_mark_t mark)
{
    return (pokhvizi_mark_t){mark.index, mark.line, mark.column};
}

/* libyaml's reader tells a byte of the input, its scanner a mark. */
static int scanner_failed(const yaml_parser_t *scanner)
{
    if (scanner->problem == NULL)
        exit((fputs("events: out of memory\n", stderr), 2));
    if (scanner->error == YAML_READER_ERROR)
        fprintf(stderr, "events: byte %zu: %s\n", scanner->problem_offset, scanner->problem);
    else
        tell(scanner->problem, mark_of(scanner->problem_mark));
    return 1;
}

int main(void)
{
    size_t states_room = 8, marks_room = 8;
    uint8_t *states = resized(NULL, states_room);
    pokhvizi_mark_t *marks = resized(NULL, marks_room * sizeof *marks);
    uint32_t did = POKHVIZI_WANTS;
    pokhvizi_steps_t steps;
    pokhvizi_event_t event = {0};
    pokhvizi_fault_t fault;
    yaml_parser_t scanner;
    yaml_token_t token = {0};

    handles = resized(NULL, sizeof *handles);
    texts = resized(NULL, 1);
    if (!yaml_parser_initialize(&scanner))
        return 2;
    yaml_parser_set_input_file(&scanner, stdin);
    pokhvizi_steps_new(&steps);
    while (event.kind != YAML_STREAM_END_EVENT) {
        if (did == POKHVIZI_WANTS || did == POKHVIZI_GAVE) {
            yaml_token_delete(&token);
            if (!yaml_parser_scan(&scanner, &token))
                return scanner_failed(&scanner);
        }
        const pokhvizi_span_t at = {mark_of(token.start_mark), mark_of(token.end_mark)};
        did = pokhvizi_step(&steps, states, states_room, marks, marks_room, (uint8_t)token.type, fact_of(&token), &at,
            &event, &fault);
        switch (did) {
        case POKHVIZI_WANTS:
            keep(&token);
            break;
        case POKHVIZI_GAVE:
        case POKHVIZI_STAYS:
            show(&event, did == POKHVIZI_STAYS, &token);
            break;
        case POKHVIZI_FULL_STATES:
            states = resized(states, states_room *= 2);
            break;
        case POKHVIZI_FULL_MARKS: /* to bound depth, stop here: pokhvizi_problem has words for POKHVIZI_TOO_DEEP */
            marks = resized(marks, (marks_room *= 2) * sizeof *marks);
            break;
        case POKHVIZI_FAULT:
            return parser_failed(&fault);
        default: /* POKHVIZI_BAD */
            abort();
        }
    }
    yaml_token_delete(&token);
    yaml_parser_delete(&scanner);
    if (fflush(stdout) != 0 || ferror(stdout)) {
        perror("events");
        return 1;
    }
    return 0;
}
