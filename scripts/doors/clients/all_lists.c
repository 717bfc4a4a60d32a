/* Gives each list of up to N tokens to bindings/c/libyaml_proved.c and to libyaml's own parser, in the place of a scanner:
 *
 *     all_lists N REFUSED ODD
 *
 * Events, documents and errors must be libyaml's, with all marks and texts, and what an error is about must stand in the list where its
 * mark is. In lists of up to REFUSED tokens each allocation fails in turn, with and without bounds, which end a parse where they end a
 * load, in the same words; for those of up to ODD, parses, loads and
 * scans follow one another in each order, and the parser is deleted twice. After each run no byte may be left. Lists that begin with an error aren't made longer. The list's tokens have fifteen texts, among which
 * are two anchors, a declared and an undeclared handle, and a tag of one byte.
 *
 * It contains that source, built so that each stack and table has room for one entry at first, and is linked with the address
 * sanitizer, which counts bytes. clients.sh runs it. */
#include <stdarg.h>
#include <stdio.h>
#include <stdlib.h>
#include <string.h>
#include <yaml.h>
#include <dlfcn.h>

/* The address sanitizer's, whose header a compiler may lack. */
size_t __sanitizer_get_current_allocated_bytes(void);

/* ---- Allocations of that source and of the scanner, of which one may fail ---- */

static long refused_at;

static int refuse(void)
{
    return refused_at > 0 && --refused_at == 0;
}

static void *make(void *block, size_t size)
{
    return refuse() ? NULL : realloc(block, size);
}

static void *make_zeros(size_t count, size_t size)
{
    return refuse() ? NULL : calloc(count, size);
}

#define malloc(size) make(NULL, size)
#define realloc make
#define calloc make_zeros
#define FIRST_ROOM(usual) 1
#define yaml_parser_parse proved_parse
#define yaml_parser_load proved_load
#include "../../../bindings/c/libyaml_proved.c"
#undef yaml_parser_parse
#undef yaml_parser_load

typedef int parses(yaml_parser_t *parser, yaml_event_t *event);
typedef int loads(yaml_parser_t *parser, yaml_document_t *document);
static parses *libyaml_parse;
static loads *libyaml_load;

#include "token_lists.h"

static int begin_list(yaml_parser_t *parser)
{
    given = wants_more = 0;
    return yaml_parser_initialize(parser);
}

/* ---- What a run told ---- */

#define OWN_ROOM
#include "../../../scripts/parts/lines/write_lines.h"

enum { TOLD = 6000 };
struct told {
    char text[TOLD + 3 * PIECE + REST];
    size_t length;
};

static const yaml_char_t *full; /* where what is told has to end */

static void tell(struct told *told, const char *form, ...)
{
    va_list words;

    va_start(words, form);
    told->length += (size_t)vsnprintf(told->text + told->length, sizeof told->text - told->length, form, words);
    va_end(words);
    if (told->length >= sizeof told->text)
        abort();
}

#define NUMBERS(mark) (mark).index, (mark).line, (mark).column
#define TEXT(text) (text) == NULL ? "-" : (const char *)(text)

static yaml_char_t *with_room(yaml_char_t *at)
{
    if (at >= full)
        abort();
    return at;
}

/* Tells a line, and if a text of so many bytes has no zero byte after it. */
static void tell_to(struct told *told, yaml_char_t *end, const yaml_char_t *text, size_t length)
{
    told->length = (size_t)(end - (yaml_char_t *)told->text);
    tell(told, text == NULL || text[length] == 0 ? "" : "no zero byte\n");
}

static yaml_char_t *end_of(struct told *told)
{
    full = (yaml_char_t *)told->text + TOLD;
    return (yaml_char_t *)told->text + told->length;
}

static void tell_event(struct told *told, const yaml_event_t *event)
{
    int is_scalar = event->type == YAML_SCALAR_EVENT;

    tell_to(told, put_event(end_of(told), event), is_scalar ? event->data.scalar.value : NULL, is_scalar ? event->data.scalar.length : 0);
}

static void tell_document(struct told *told, const yaml_document_t *document)
{
    tell_to(told, put_document(end_of(told), document), NULL, 0);
    for (const yaml_node_t *node = document->nodes.start; node != document->nodes.top; node++)
        if (node->type == YAML_SCALAR_NODE)
            tell_to(told, end_of(told), node->data.scalar.value, node->data.scalar.length);
}

static void tell_error(struct told *told, const yaml_parser_t *parser)
{
    tell(told, "error %d %s", parser->error, TEXT(parser->problem));
    if (parser->error == YAML_PARSER_ERROR || parser->error == YAML_COMPOSER_ERROR)
        tell(told, " %zu:%zu:%zu %s", NUMBERS(parser->problem_mark), TEXT(parser->context));
    if (parser->context != NULL)
        tell(told, " %zu:%zu:%zu", NUMBERS(parser->context_mark));
    tell(told, "\n");
}

/* Where an error stands in what was told, or its end. */
static size_t before_error(const struct told *told)
{
    const char *at = strstr(told->text, "error");

    return at == NULL ? told->length : (size_t)(at - told->text);
}

/* ---- Runs ---- */

static long lists, longer_lists, refusals, calls, bounds_of_parses, names, wrong;

static void expect(int is, const char *what, const struct told *one, const struct told *other)
{
    if (is || ++wrong > 20)
        return;
    printf("wrong: %s:", what);
    for (int i = 0; i < length; i++)
        printf(" %d=%s", TOKENS[list[i]].type, TEXT(TOKENS[list[i]].first));
    printf("\n%s%s%s", one->text, other == NULL ? "" : "and not\n", other == NULL ? "" : other->text);
}

static int is_zeros(const void *bytes, size_t size)
{
    for (size_t i = 0; i < size; i++)
        if (((const char *)bytes)[i] != 0)
            return 0;
    return 1;
}

/* What an error is about by the list: the text of the first token of some kind from its mark on, or NULL. */
static const char *name_by_list(const yaml_parser_t *parser)
{
    static const struct {
        const char *problem;
        yaml_token_type_t type;
    } ABOUT[] = {
        {"found undefined alias", YAML_ALIAS_TOKEN},
        {"found an alias within the node that it names", YAML_ALIAS_TOKEN},
        {"second occurrence", YAML_ANCHOR_TOKEN},
        {"found undefined tag handle", YAML_TAG_TOKEN},
        {"found duplicate %TAG directive", YAML_TAG_DIRECTIVE_TOKEN},
    };

    for (size_t k = 0; k < sizeof ABOUT / sizeof *ABOUT; k++)
        for (int i = (int)(parser->problem_mark.index / 10); i < length; i++)
            if (parser->problem != NULL && strcmp(parser->problem, ABOUT[k].problem) == 0 && TOKENS[list[i]].type == ABOUT[k].type)
                return TOKENS[list[i]].first;
    return NULL;
}

static void check_name(const struct told *told, const yaml_parser_t *parser)
{
    const char *name = (const char *)name_in(parser), *wanted = name_by_list(parser);

    expect(wanted == NULL ? name == NULL : name != NULL && strcmp(name, wanted) == 0, "what an error is about", told, NULL);
    names += name != NULL;
}

static void parse_list(struct told *told, parses *next)
{
    yaml_parser_t parser;
    yaml_event_t event;
    int more = begin_list(&parser);

    told->length = 0;
    tell(told, "");
    while (more) {
        memset(&event, 0xAA, sizeof event);
        more = next(&parser, &event);
        if (!more)
            tell_error(told, &parser);
        expect(more || is_zeros(&event, sizeof event), "an event after an error", told, NULL);
        if (more && event.type == YAML_NO_EVENT)
            break;
        if (more)
            tell_event(told, &event);
        yaml_event_delete(&event);
    }
    memset(&event, 0xAA, sizeof event);
    expect(next(&parser, &event) == 1 && is_zeros(&event, sizeof event), "a parse after the end", told, NULL);
    if (next == proved_parse)
        check_name(told, &parser);
    yaml_parser_delete(&parser);
}

static void load_list(struct told *told, loads *next)
{
    yaml_parser_t parser;
    yaml_document_t document;
    int more = begin_list(&parser);

    told->length = 0;
    tell(told, "");
    while (more) {
        memset(&document, 0xAA, sizeof document);
        more = next(&parser, &document);
        if (!more)
            tell_error(told, &parser);
        expect(more || is_zeros(&document, sizeof document), "a document after an error", told, NULL);
        if (more && document.nodes.top != document.nodes.start)
            tell_document(told, &document);
        else
            more = 0;
        yaml_document_delete(&document);
    }
    if (next == proved_load) {  /* once more: libyaml's asserts that there was no error */
        long left = refused_at;
        refused_at = 0;
        expect(next(&parser, &document) == (parser.error == YAML_NO_ERROR) && document.nodes.top == document.nodes.start, "a load after the end",
               told, NULL);
        yaml_document_delete(&document);
        refused_at = left;
        check_name(told, &parser);
    }
    yaml_parser_delete(&parser);
}

/* A run of the proved parser, which leaves nothing. */
static void run(struct told *told, int wants_documents)
{
    size_t before = __sanitizer_get_current_allocated_bytes();

    if (wants_documents)
        load_list(told, proved_load);
    else
        parse_list(told, proved_parse);
    expect(__sanitizer_get_current_allocated_bytes() == before, "bytes are left", told, NULL);
}

/* Each allocation fails in turn: what is told before the error is what is told without it. */
static void refuse_in_turn(int wants_documents)
{
    static struct told whole, told;
    int is_refused = 1;

    run(&whole, wants_documents);
    for (long at = 1; is_refused; at++) {
        refused_at = at;
        run(&told, wants_documents);
        is_refused = refused_at == 0;
        refused_at = 0;
        refusals += is_refused;
        expect(!is_refused || (strstr(told.text, "error 1 ") != NULL && memcmp(told.text, whole.text, before_error(&told)) == 0),
               "an allocation failed", &told, &whole);
    }
}

/* What was told after the number of the error, or NULL. */
static const char *words_of_error(const struct told *told)
{
    const char *at = strstr(told->text, "error ");

    return at == NULL ? NULL : at + sizeof "error 4 " - 1;
}

/* The error is that of a bound on nodes. */
static int is_of_nodes(const struct told *told)
{
    return strstr(told->text, "found too many nodes") != NULL || strstr(told->text, "found an alias within") != NULL;
}

/* A parse within bounds has a load's error of a bound on nodes, as a parser's. It goes on after two errors of a load, and may have one
 * of its own then. */
static void expect_same_bound(const struct told *parse, const struct told *load)
{
    int goes_on = strstr(load->text, "undefined alias") != NULL || strstr(load->text, "second occurrence") != NULL;

    expect(!is_of_nodes(load) || (is_of_nodes(parse) && strcmp(words_of_error(parse), words_of_error(load)) == 0),
           "a parse goes on past a load's bound", parse, load);
    expect(!is_of_nodes(parse) || is_of_nodes(load) || goes_on, "a parse has a bound of its own", parse, load);
    expect(!is_of_nodes(parse) || strstr(parse->text, "error 4 ") != NULL, "a parse has a parser error", parse, NULL);
    bounds_of_parses += is_of_nodes(parse);
}

/* Within bounds a run is one without them, up to an error; in each an allocation fails in turn, if that is wanted. */
static void bound_all(int refuses)
{
    static const struct bounds BOUNDS[] = {
        {0, 0, 0, 0}, {1, 1, 1, 0}, {2, 2, 2, 1}, {ANY_DEPTH, ANY_NODES, 6, 0}, {ANY_DEPTH, 3, ANY_EXPANDED, 0},
        {ANY_DEPTH, ANY_NODES, ANY_EXPANDED, 1}};
    enum { COUNT = sizeof BOUNDS / sizeof *BOUNDS };
    static struct told whole, told, parses[COUNT];

    for (int wants_documents = 0; wants_documents < 2; wants_documents++) {
        run(&whole, wants_documents);
        for (int bound = 0; bound < COUNT; bound++) {
            bounds = BOUNDS[bound];
            run(&told, wants_documents);
            expect(strcmp(told.text, whole.text) == 0 || strstr(told.text, "found too many") != NULL ||
                       strstr(told.text, "found an alias within") != NULL || strstr(told.text, "found duplicate key") != NULL,
                   "within bounds", &told, &whole);
            expect(memcmp(told.text, whole.text, before_error(&told)) == 0, "before a bound", &told, &whole);
            if (wants_documents)
                expect_same_bound(&parses[bound], &told);
            else
                parses[bound] = told;
            if (refuses)
                refuse_in_turn(wants_documents);
            bounds = (struct bounds){ANY_DEPTH, ANY_NODES, ANY_EXPANDED, 0};
        }
    }
}

/* Five calls, which are parses, loads or scans, in each order. */
static void call_in_each_order(void)
{
    static struct told told;
    yaml_parser_t parser;
    yaml_event_t event;
    yaml_document_t document;
    yaml_token_t token;

    for (int order = 0; order < 3 * 3 * 3 * 3 * 3; order++) {
        size_t before = __sanitizer_get_current_allocated_bytes();
        told.length = 0;
        tell(&told, "calls %d\n", order);
        begin_list(&parser);
        for (int call = 0, left = order; call < 5; call++, left /= 3, calls++) {
            if (left % 3 == 0 && proved_parse(&parser, &event))
                yaml_event_delete(&event);
            if (left % 3 == 1 && proved_load(&parser, &document))
                yaml_document_delete(&document);
            if (left % 3 == 2 && yaml_parser_scan(&parser, &token))
                yaml_token_delete(&token);
        }
        yaml_parser_delete(&parser);
        yaml_parser_delete(&parser);
        expect(__sanitizer_get_current_allocated_bytes() == before, "bytes are left", &told, NULL);
    }
}

/* Tries the list; returns whether a longer one that begins so says more. */
static int try_list(int refused, int odd)
{
    static struct told plain, made, documents;
    int is_longer_of_use;

    lists++;
    parse_list(&plain, libyaml_parse);
    run(&made, 0);
    is_longer_of_use = wants_more;
    expect(strcmp(plain.text, made.text) == 0, "a parse", &made, &plain);
    load_list(&plain, libyaml_load);
    run(&documents, 1);
    expect(strcmp(plain.text, documents.text) == 0, "a load", &documents, &plain);
    if (length <= refused) {
        refuse_in_turn(0);
        refuse_in_turn(1);
        bound_all(1);
    }
    if (length <= odd)
        call_in_each_order();
    return is_longer_of_use;
}

static void try_longer(int most, int refused, int odd)
{
    if (!try_list(refused, odd) || length == most)
        return;
    length++;
    for (int kind = 0; kind < KINDS; kind++) {
        list[length - 1] = kind;
        try_longer(most, refused, odd);
    }
    length--;
}

/* Bounds on nodes need longer lists: of tokens of these kinds, after the first. */
static void bound_longer(int most, int refused)
{
    static const yaml_token_type_t FEW[] = {YAML_FLOW_SEQUENCE_START_TOKEN, YAML_FLOW_SEQUENCE_END_TOKEN, YAML_FLOW_MAPPING_START_TOKEN,
                                            YAML_FLOW_MAPPING_END_TOKEN, YAML_FLOW_ENTRY_TOKEN, YAML_KEY_TOKEN, YAML_ALIAS_TOKEN,
                                            YAML_ANCHOR_TOKEN, YAML_SCALAR_TOKEN};
    static struct told told;

    run(&told, 0);
    if (length == 1 || wants_more)
        bound_all(length <= refused);
    if (!wants_more || length == most)
        return;
    longer_lists++;
    length++;
    for (size_t i = 0; i < sizeof FEW / sizeof *FEW; i++)
        for (int kind = 0; kind < KINDS; kind++)
            if (TOKENS[kind].type == FEW[i] && (kind == 0 || TOKENS[kind - 1].type != FEW[i] || FEW[i] == YAML_ANCHOR_TOKEN)) {
                list[length - 1] = kind;
                bound_longer(most, refused);
            }
    length--;
}

int main(int count, char **words)
{
    int most = count == 4 ? atoi(words[1]) : 0;

    if (most < 1 || most >= MOST) {
        fputs("usage: all_lists N REFUSED ODD\n", stderr);
        return 2;
    }
    *(void **)&libyaml_parse = dlsym(RTLD_NEXT, "yaml_parser_parse");
    *(void **)&libyaml_load = dlsym(RTLD_NEXT, "yaml_parser_load");
    read_environment();
    try_longer(most, atoi(words[2]), atoi(words[3]));
    length = 1;
    list[0] = 0;
    bound_longer(most + 2, atoi(words[2]) + 1);
    printf("%ld lists of up to %d tokens, %ld failed allocations, %ld parses to a bound on nodes, %ld errors with a name, %ld calls in each order%s\n",
           lists, most, refusals, bounds_of_parses, names, calls, wrong == 0 ? "" : ": wrong");
    return wrong != 0 || names == 0;
}
