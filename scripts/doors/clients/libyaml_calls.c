/* Calls of libyaml over bindings/c/libyaml_proved.c: each allocation refused in turn, parsers that are
 * deleted at each event, moved, used after an error or after the end, and by several threads; documents; more states, marks,
 * tag directives, texts and anchors than there was room for at first; drawn tag directives, beside pokhvizi_directive_fact and
 * pokhvizi_tag; what an error is about; the time that anchors and directives take; a load by a constructor (constructor.c), and an environment that changes.
 * Says what was wrong, and exits with 1 if anything was. With the word `bounds` it checks no more than those that the environment
 * sets: a depth of 20, 30 nodes, and 40 with aliases written out. With POKHVIZI_FIXES=1 the last document of the text is one that
 * libyaml refuses. */
#define _GNU_SOURCE
#include <dlfcn.h>
#include <pokhvizi/steps.h>
#include <pthread.h>
#include <stdio.h>
#include <stdlib.h>
#include <string.h>
#include <time.h>
#include <yaml.h>

extern long nodes_of_constructor;

#define FIRST_DOCUMENT "%TAG !e! tag:e,2000:\n--- !e!x\n- &a [b, {c: d}, 'e f']\n- ? *a\n  : |\n   g\n- \"\\0\\u00e9 %\"\n...\n"
static const char *TEXT = FIRST_DOCUMENT "--- last\n";
static int has_fixes;
static const struct {
    const char *text;
    yaml_error_type_t error;
    const char *problem, *context;
    size_t at;
} BROKEN[] = {
    {"[a, b", YAML_PARSER_ERROR, "did not find expected ',' or ']'", "while parsing a flow sequence", 5},
    {"a: b: c\n", YAML_SCANNER_ERROR, "mapping values are not allowed in this context", NULL, 4},
    {"a: 'x", YAML_SCANNER_ERROR, "found unexpected end of stream", "while scanning a quoted scalar", 5},
    {"a: \xFF\n", YAML_READER_ERROR, "invalid leading UTF-8 octet", NULL, 0},
    {"--- a\n--- [b}\n", YAML_PARSER_ERROR, "did not find expected ',' or ']'", "while parsing a flow sequence", 12},
    {"- !a b\n- &c !d!e f\n", YAML_PARSER_ERROR, "found undefined tag handle", "while parsing a node", 12},
    {"%TAG !e! a\n%TAG !e! b\n---\n", YAML_PARSER_ERROR, "found duplicate %TAG directive", NULL, 11},
    {"- &a !!b @\n", YAML_SCANNER_ERROR, "found character that cannot start any token", "while scanning for the next token", 9},
    {"- &a !!b &c d\n", YAML_PARSER_ERROR, "did not find expected '-' indicator", "while parsing a block collection", 9},
};
enum { EVENTS = 22, NODES = 11, LEVELS = 150, ALL = 100000, LOADS = -1 };

/* A text, and what its error is about, of a parse and of a load. */
static const struct {
    const char *text, *names[2];
} NAMES[] = {
    {"- *ab\n", {NULL, "ab"}},
    {"- &x 1\n- !t &x 2\n", {NULL, "x"}},
    {"&a [*a, &b {}, *c]", {NULL, "c"}},
    {"--- &a b\n--- *a\n", {NULL, "a"}},
    {"!e!x a", {"!e!", "!e!"}},
    {"!e!x &a b", {"!e!", "!e!"}},
    {"%TAG !f! g\n--- &a !e!x b", {"!e!", "!e!"}},
    {"%TAG !e! a\n--- !e!b c\n--- !e!d e\n", {"!e!", "!e!"}},
    {"%TAG !e! a\n%TAG !f! b\n%TAG !e! c\n---", {"!e!", "!e!"}},
    {"[&a b }", {NULL, NULL}},
    {"%YAML 2.0\n---", {NULL, NULL}},
    {"!e!x &a @", {NULL, NULL}},
    {"[&a b, *a]", {NULL, NULL}},
    {"a: \xFF\n", {NULL, NULL}},
};

/* pokhvizi_libyaml_name */
static const char *(*name_of)(const yaml_parser_t *);

/* Five tag directives, and a flow sequence in a flow sequence, 150 levels deep: the states, the marks and the directives grow. */
static char deep[1000];

static void make_deep(void)
{
    char *at = deep;

    for (int i = 0; i < 5; i++)
        at += sprintf(at, "%%TAG !%d! tag:example.org,2000:%d:\n", i, i);
    at += sprintf(at, "--- !4!x ");
    memset(at, '[', LEVELS);
    memset(at + LEVELS, ']', LEVELS);
}

/* ---- The C library's allocator, of which one call may be refused ---- */

extern void *__libc_malloc(size_t), *__libc_realloc(void *, size_t), *__libc_calloc(size_t, size_t);
extern void __libc_free(void *);
static __thread long refused_at, live, allocations;

static int refuse(void)
{
    allocations++;
    return refused_at > 0 && --refused_at == 0;
}

void *malloc(size_t size)
{
    void *block = refuse() ? NULL : __libc_malloc(size);
    live += block != NULL;
    return block;
}

void *calloc(size_t count, size_t size)
{
    void *block = refuse() ? NULL : __libc_calloc(count, size);
    live += block != NULL;
    return block;
}

void *realloc(void *block, size_t size)
{
    void *more = refuse() ? NULL : __libc_realloc(block, size);
    live += block == NULL && more != NULL;
    return more;
}

void free(void *block)
{
    live -= block != NULL;
    __libc_free(block);
}

/* ---- The calls ---- */

static int wrong;

static void expect(int is, const char *what, long at)
{
    if (!is) {
        printf("wrong: %s, at %ld\n", what, at);
        wrong = 1;
    }
}

static int begin(yaml_parser_t *parser, const char *text)
{
    if (!yaml_parser_initialize(parser))
        return 0;
    yaml_parser_set_input_string(parser, (const unsigned char *)text, strlen(text));
    return 1;
}

/* Parses so many events at most; how many there were, and a sum over what they have. */
static long parse(yaml_parser_t *parser, long most, unsigned long *sum)
{
    yaml_event_t event;
    long count = 0;
    int more = 1;

    while (more && count < most && yaml_parser_parse(parser, &event) && event.type != YAML_NO_EVENT) {
        *sum = *sum * 31 + event.type + event.start_mark.index * 7 + event.end_mark.column;
        for (size_t i = 0; event.type == YAML_SCALAR_EVENT && i < event.data.scalar.length; i++)
            *sum = *sum * 31 + event.data.scalar.value[i];
        more = event.type != YAML_STREAM_END_EVENT;
        yaml_event_delete(&event);
        count++;
    }
    return count;
}

/* Loads all documents; how many nodes there were up to the end or an error. */
static long load(yaml_parser_t *parser)
{
    yaml_document_t document;
    long nodes = 0;
    int more = 1;

    while (more && yaml_parser_load(parser, &document)) {
        more = yaml_document_get_root_node(&document) != NULL;
        nodes += document.nodes.top - document.nodes.start;
        yaml_document_delete(&document);
    }
    return nodes;
}

/* Parses so many events of a text, or, where they are LOADS, loads it. */
static long read_text(const char *text, long most, unsigned long *sum, yaml_error_type_t *error)
{
    yaml_parser_t parser;
    long count = 0;

    *error = YAML_MEMORY_ERROR;
    if (begin(&parser, text)) {
        count = most == LOADS ? load(&parser) : parse(&parser, most, sum);
        *error = parser.error;
    }
    yaml_parser_delete(&parser);
    return count;
}

static void check_whole(void)
{
    unsigned long sum = 0;
    yaml_error_type_t error;

    expect(read_text(TEXT, ALL, &sum, &error) == EVENTS && error == YAML_NO_ERROR, "events", 0);
    expect(read_text(TEXT, LOADS, &sum, &error) == NODES && error == YAML_NO_ERROR, "nodes", 0);
}

/* Each allocation refused in turn: a memory error or the same events, or nodes, and every block given back. */
static long check_refusals(const char *text, long most, long wanted)
{
    unsigned long whole = 0, sum;
    yaml_error_type_t error;
    long at = 0, before = live, memory = 0, count;

    expect(read_text(text, most, &whole, &error) == wanted && error == YAML_NO_ERROR, "events or nodes", wanted);
    do {
        sum = 0;
        refused_at = ++at;
        count = read_text(text, most, &sum, &error);
        expect(live == before, "blocks are lost", at);
        expect(error == YAML_MEMORY_ERROR || (error == YAML_NO_ERROR && count == wanted && sum == whole), "a refusal", at);
        memory += error == YAML_MEMORY_ERROR;
    } while (refused_at == 0);
    refused_at = 0;
    expect(memory == at - 1, "refusals are told", memory);
    return memory;
}

/* A list of so many nodes with an anchor, and an alias of each. */
static char *make_anchors(long count)
{
    char *text = malloc(32 * count + 1), *at = text;

    if (text == NULL)
        abort();
    *at = '\0';
    for (long i = 0; i < count; i++)
        at += sprintf(at, "- &a%ld x\n- *a%ld\n", i, i);
    return text;
}

/* So many tag directives, and a node with each handle. */
static char *make_directives(long count)
{
    char *text = malloc(48 * count + 100), *at = text;

    if (text == NULL)
        abort();
    for (long i = 0; i < count; i++)
        at += sprintf(at, "%%TAG !h%ld! tag:x\n", i);
    at += sprintf(at, "--- [\n");
    for (long i = 0; i < count; i++)
        at += sprintf(at, "!h%ld!a b,\n", i);
    sprintf(at, "]\n");
    return text;
}

/* The least time of three loads. */
static double time_of(char *(*make)(long), long count)
{
    char *text = make(count);
    unsigned long sum;
    yaml_error_type_t error;
    double least = 1e9;

    for (int i = 0; i < 3; i++) {
        clock_t begun = clock();
        expect(read_text(text, LOADS, &sum, &error) == count + 1 && error == YAML_NO_ERROR, "nodes", count);
        double taken = (double)(clock() - begun) / CLOCKS_PER_SEC;
        least = taken < least ? taken : least;
    }
    free(text);
    return least;
}

/* Eight times the anchors, or the directives, take no more than 24 times the time; as the square it would be 64. */
static void check_times(void)
{
    double few = time_of(make_anchors, 8000), many = time_of(make_anchors, 64000);

    expect(many < 24 * few, "anchors take time as the square, milliseconds", (long)(many * 1000));
    few = time_of(make_directives, 8000);
    many = time_of(make_directives, 64000);
    expect(many < 24 * few, "tag directives take time as the square, milliseconds", (long)(many * 1000));
}

/* ---- Drawn tag directives ---- */

static unsigned drawn(unsigned below)
{
    static uint64_t seed = 1;

    seed = seed * 6364136223846793005u + 1442695040888963407u;
    return (unsigned)(seed >> 33) % below;
}

static const char *drawn_handle(void)
{
    static char handle[8];
    unsigned kind = drawn(20);

    if (kind < 2)
        return kind == 0 ? "!" : "!!";
    sprintf(handle, "!%c%u!", 'a' + drawn(3), drawn(kind < 10 ? 6 : 60));
    return handle;
}

/* What the two calls say of one document: the tags of its nodes in full, and a line for the error that ends it. */
static void say(char *out, char handles[][8], long declared, char tags[][8], long tagged)
{
    static pokhvizi_handle_t list[200];
    static uint8_t texts[4000];
    size_t length = 0, size;
    uint8_t tag[64];

    for (long i = 0; i < declared; i++) {
        size_t here = strlen(handles[i]);
        if (pokhvizi_directive_fact(list, i, texts, length, (uint8_t *)handles[i], here) == 1) {
            strcat(out, "found duplicate %TAG directive\n");
            return;
        }
        list[i] = (pokhvizi_handle_t){{length, here}, {length + here, 0}};
        memcpy(texts + length, handles[i], here);
        list[i].prefix.length = sprintf((char *)texts + length + here, "t%ld:", i);
        length += here + list[i].prefix.length;
    }
    for (long i = 0; i < tagged; i++) {
        if (pokhvizi_tag(list, declared, texts, length, (uint8_t *)tags[i], strlen(tags[i]), (const uint8_t *)"s", 1, tag,
                         sizeof tag, &size) == 4) {
            strcat(out, "found undefined tag handle\n");
            return;
        }
        sprintf(out + strlen(out), "%.*s\n", (int)size, tag);
    }
}

/* The same of the parser. */
static void hear(char *out, const char *text)
{
    yaml_parser_t parser;
    yaml_event_t event;
    int more;

    if (!begin(&parser, text))
        abort();
    do {
        more = yaml_parser_parse(&parser, &event) && event.type != YAML_STREAM_END_EVENT;
        if (event.type == YAML_SCALAR_EVENT)
            sprintf(out + strlen(out), "%s\n", event.data.scalar.tag);
        yaml_event_delete(&event);
    } while (more);
    if (parser.error != YAML_NO_ERROR)
        sprintf(out + strlen(out), "%s\n", parser.problem);
    yaml_parser_delete(&parser);
}

/* Streams of two documents, of few and of many directives, declared once or twice, or not at all. */
static long check_handles(void)
{
    static char handles[200][8], tags[50][8], text[20000], said[8000], heard[8000];
    long faults = 0;

    for (long round = 0; round < 3000; round++) {
        char *at = text;
        said[0] = heard[0] = '\0';
        for (int document = 0; document < 2 && strstr(said, "found") == NULL; document++) {
            long declared = drawn(round % 3 == 0 ? 120 : 6), tagged = drawn(50), repeats = drawn(2);
            for (long i = 0; i < declared; i++) {
                strcpy(handles[i], drawn_handle());
                for (long k = 0; !repeats && k < i; k++)
                    if (strcmp(handles[k], handles[i]) == 0)
                        sprintf(handles[i], "!z%ld!", i), k = i;
                at += sprintf(at, "%%TAG %s t%ld:\n", handles[i], i);
            }
            at += sprintf(at, "---\n");
            for (long i = 0; i < tagged; i++) {
                strcpy(tags[i], declared > 0 && drawn(20) > 0 ? handles[drawn(declared)] : drawn_handle());
                at += sprintf(at, "- %ss x\n", tags[i]);
            }
            at += sprintf(at, tagged == 0 ? "[]\n...\n" : "...\n");
            say(said, handles, declared, tags, tagged);
        }
        hear(heard, text);
        expect(strcmp(said, heard) == 0, "drawn directives", round);
        faults += strstr(said, "found") != NULL;
    }
    expect(faults > 300 && faults < 2700, "errors of drawn directives", faults);
    return faults;
}

static void check_deleted(void)
{
    unsigned long sum;
    yaml_error_type_t error;

    for (long most = 0; most <= EVENTS; most++) {
        long before = live;
        expect(read_text(TEXT, most, &sum, &error) == most, "deleted", most);
        expect(live == before, "blocks are lost", most);
    }
}

/* Loads within a document that is being parsed, at each of its events: the rest of it is passed over. libyaml has an assertion
 * there. */
static void check_loads_within(void)
{
    yaml_parser_t parser;
    yaml_document_t document;
    unsigned long sum = 0;

    for (long most = 3; most < 12; most++) {
        long before = live;
        if (!begin(&parser, "- [&a aaaa, *a, !!b 'cccc']\n- d\n--- last\n"))
            abort();
        expect(parse(&parser, most, &sum) == most, "events", most);
        expect(yaml_parser_load(&parser, &document) && document.nodes.top - document.nodes.start == 1, "a load within", most);
        yaml_document_delete(&document);
        yaml_parser_delete(&parser);
        expect(live == before, "blocks are lost", most);
    }
}

/* What the environment says once the program runs is not looked at. */
static void check_environment(void)
{
    yaml_error_type_t error;
    unsigned long sum;
    long nodes;

    setenv("POKHVIZI_FIXES", has_fixes ? "0" : "1", 1);
    setenv("POKHVIZI_MAX_DEPTH", "0", 1);
    nodes = read_text(": x", LOADS, &sum, &error);
    expect(has_fixes ? nodes == 3 && error == YAML_NO_ERROR : nodes == 0 && error == YAML_PARSER_ERROR, "a later environment", error);
    unsetenv("POKHVIZI_FIXES");
    unsetenv("POKHVIZI_MAX_DEPTH");
}

static void check_faults(void)
{
    yaml_parser_t parser;
    yaml_event_t event;
    unsigned long sum = 0;

    for (size_t i = 0; i < sizeof BROKEN / sizeof *BROKEN; i++) {
        long before = live;
        if (!begin(&parser, BROKEN[i].text))
            abort();
        parse(&parser, 1000, &sum);
        yaml_error_type_t error = parser.error;
        expect(error == BROKEN[i].error && strcmp(parser.problem, BROKEN[i].problem) == 0, "a fault", i);
        expect(parser.problem_mark.index == BROKEN[i].at, "where it is", parser.problem_mark.index);
        expect(BROKEN[i].context ? parser.context && strcmp(parser.context, BROKEN[i].context) == 0 : !parser.context,
               "its context", i);
        expect(yaml_parser_parse(&parser, &event) && event.type == YAML_NO_EVENT && parser.error == error, "after it", i);
        yaml_parser_delete(&parser);
        expect(live == before, "blocks are lost", i);
    }
}

static int is_name(const yaml_parser_t *parser, const char *wanted)
{
    const char *name = name_of(parser);

    return name == wanted || (name != NULL && wanted != NULL && strcmp(name, wanted) == 0);
}

/* What an error is about, also after later calls, and once the parser has another place. */
static void check_names(void)
{
    yaml_parser_t parser, moved;
    yaml_event_t event;
    yaml_document_t document;
    unsigned long sum = 0;

    for (size_t i = 0; i < 2 * sizeof NAMES / sizeof *NAMES; i++) {
        const char *wanted = NAMES[i / 2].names[i % 2];
        long before = live;
        if (!begin(&parser, NAMES[i / 2].text))
            abort();
        expect(name_of(&parser) == NULL, "a name before the first call", i);
        if (i % 2 == 0)
            parse(&parser, ALL, &sum);
        else
            load(&parser);
        expect(is_name(&parser, wanted), "what an error is about", i);
        expect(yaml_parser_parse(&parser, &event) && !yaml_parser_load(&parser, &document) == (parser.error != YAML_NO_ERROR), "after it", i);
        yaml_document_delete(&document);
        moved = parser;
        expect(is_name(&moved, wanted), "what it is about, later", i);
        yaml_parser_delete(&moved);
        expect(live == before, "blocks are lost", i);
    }
}

/* Whether a scalar of a text has this tag. */
static int has_tag(const char *text, const char *tag)
{
    yaml_parser_t parser;
    yaml_event_t event;
    int more, is = 0;

    if (!begin(&parser, text))
        abort();
    do {
        more = yaml_parser_parse(&parser, &event) && event.type != YAML_NO_EVENT;
        is = event.type == YAML_SCALAR_EVENT && event.data.scalar.tag != NULL &&
             strcmp((char *)event.data.scalar.tag, tag) == 0;
        yaml_event_delete(&event);
    } while (more && !is);
    yaml_parser_delete(&parser);
    return is;
}

static void check_tags(void)
{
    expect(has_tag("- !a b", "!a") && has_tag("- !!str b", "tag:yaml.org,2002:str"), "default handles", 0);
    expect(has_tag("%TAG ! tag:e:\n--- !a b", "tag:e:a"), "a primary handle", 0);
    expect(has_tag("%TAG !e! a\n%TAG !f! b\n--- !f!c d", "bc"), "the second handle", 0);
    expect(has_tag("%TAG !e! a\n--- 'b'\n%TAG !e! c\n--- !e!d e", "cd"), "a handle that two documents declare", 0);
    expect(has_tag("- &b !<%ED%A0%80> c", "\xED\xA0\x80"), "a tag that isn't UTF-8", 0);
}

/* Documents without content, of which each has three events for one token, and a long tag that each has. */
static void check_room(void)
{
    enum { DOCUMENTS = 500, PREFIX = 2000, TAGS = 100 };
    static char text[PREFIX + 4 * DOCUMENTS + 8 * TAGS + 100];
    unsigned long sum;
    yaml_error_type_t error;
    char *at = text;

    for (int i = 0; i < DOCUMENTS; i++)
        at += sprintf(at, "---\n");
    expect(read_text(text, ALL, &sum, &error) == 2 + 3 * DOCUMENTS && error == YAML_NO_ERROR, "documents", DOCUMENTS);
    at = text + sprintf(text, "%%TAG !e! tag:");
    memset(at, 'x', PREFIX);
    at += PREFIX;
    at += sprintf(at, "\n---\n");
    for (int i = 0; i < TAGS; i++)
        at += sprintf(at, "- !e!a b\n");
    expect(read_text(text, ALL, &sum, &error) == 6 + TAGS && error == YAML_NO_ERROR, "tags", TAGS);
}

static int read_file(void *file, unsigned char *buffer, size_t size, size_t *count)
{
    *count = fread(buffer, 1, size, file);
    return !ferror((FILE *)file);
}

/* A parser that is moved before each call, as it may be where it reads by a function of the caller's: libyaml's own for strings and
 * files are given the parser's place. */
static void check_moved(void)
{
    yaml_parser_t parsers[2];
    yaml_event_t event;
    unsigned long whole = 0, sum = 0;
    yaml_error_type_t error;
    long at = 0;
    FILE *file = tmpfile();

    if (file == NULL || fputs(TEXT, file) < 0 || !yaml_parser_initialize(&parsers[0]))
        abort();
    rewind(file);
    yaml_parser_set_input(&parsers[0], read_file, file);
    sum = 0;
    while (parse(&parsers[at % 2], 1, &sum) == 1) {
        parsers[(at + 1) % 2] = parsers[at % 2];
        memset(&parsers[at % 2], 0xAA, sizeof *parsers);
        at++;
    }
    read_text(TEXT, ALL, &whole, &error);
    expect(at == EVENTS && sum == whole, "moved", at);
    expect(yaml_parser_parse(&parsers[at % 2], &event) && event.type == YAML_NO_EVENT, "after the end", at);
    yaml_parser_delete(&parsers[at % 2]);
    fclose(file);
}

static void *many(void *whole)
{
    yaml_error_type_t error;

    for (int i = 0; i < 500; i++) {
        unsigned long sum = 0;
        if (read_text(TEXT, ALL, &sum, &error) != EVENTS || sum != *(unsigned long *)whole)
            return whole;
    }
    return NULL;
}

static void check_threads(void)
{
    pthread_t threads[8];
    unsigned long whole = 0;
    yaml_error_type_t error;
    void *returned;

    read_text(TEXT, ALL, &whole, &error);
    for (int i = 0; i < 8; i++)
        if (pthread_create(&threads[i], NULL, many, &whole) != 0)
            abort();
    for (int i = 0; i < 8; i++) {
        pthread_join(threads[i], &returned);
        expect(returned == NULL, "threads", i);
    }
}

/* ---- Bounds ---- */

static void check_bound(const char *text, int loads, long count, yaml_error_type_t error, const char *problem, size_t at)
{
    yaml_parser_t parser;
    unsigned long sum = 0;
    long before = live, there;

    if (!begin(&parser, text))
        abort();
    there = loads ? load(&parser) : parse(&parser, ALL, &sum);
    expect(there == count && parser.error == error, "a bound", there);
    expect(problem == NULL || (parser.problem != NULL && strcmp(parser.problem, problem) == 0 &&
                               parser.problem_mark.index == at && parser.context == NULL),
           "its error", at);
    expect(is_name(&parser, problem != NULL && strstr(problem, "within") != NULL ? "a" : NULL), "what it is about", at);
    yaml_parser_delete(&parser);
    expect(live == before, "blocks are lost", there);
}

/* A list of so many items, of which the first has the anchor `a`. */
static const char *items(const char *item, int count)
{
    static char text[200];
    char *at = text + sprintf(text, "[ &a b");

    for (int i = 1; i < count; i++)
        at += sprintf(at, ", %s", item);
    strcpy(at, "]");
    return text;
}

static void check_bounds(void)
{
    static const char deep[] = "[[[[[[[[[[[[[[[[[[[[]]]]]]]]]]]]]]]]]]]]", *levels = "found too many levels", *nodes = "found too many nodes",
                      *large = "found too many nodes, with aliases written out",
                      *endless = "found an alias within the node that it names";
    static char brackets[100001];

    memset(brackets, '[', sizeof brackets - 1);
    expect(nodes_of_constructor == 0, "a constructor's load within 30 nodes", nodes_of_constructor);
    check_bound(deep, 0, 44, YAML_NO_ERROR, NULL, 0);
    check_bound(deep, 1, 20, YAML_NO_ERROR, NULL, 0);
    clock_t begun = clock();
    check_bound(brackets, 0, 22, YAML_PARSER_ERROR, levels, 20);
    check_bound(brackets, 1, 0, YAML_PARSER_ERROR, levels, 20);
    expect(clock() - begun < CLOCKS_PER_SEC, "time of brackets", clock() - begun);
    check_bound(items("b", 29), 1, 30, YAML_NO_ERROR, NULL, 0);
    check_bound(items("b", 30), 1, 0, YAML_COMPOSER_ERROR, nodes, 92);
    check_bound(items("*a", 30), 1, 2, YAML_NO_ERROR, NULL, 0);
    check_bound(items("*a", 31), 1, 0, YAML_COMPOSER_ERROR, nodes, 124);
    check_bound("[&a [b, c], *a, *a, *a, *a, *a, *a, *a, *a, *a, *a, *a, *a]", 1, 4, YAML_NO_ERROR, NULL, 0);
    check_bound("[&a [b, c], *a, *a, *a, *a, *a, *a, *a, *a, *a, *a, *a, d, *a]", 1, 0, YAML_COMPOSER_ERROR, large, 59);
    check_bound("[&a [&b [b, c, d, e], *b, *b, *b], &c [*a], f]", 1, 0, YAML_COMPOSER_ERROR, large, 39);
    check_bound("[&a [b, b, b, b, b, b, b, b, b, b, b, b, b, b, b, b, b, b, b, b, b, b, b, b], *a]", 1, 0, YAML_COMPOSER_ERROR, large, 78);
    check_bound("--- &a [x, y]\n--- [&a [x, *a]]\n", 1, 3, YAML_COMPOSER_ERROR, endless, 26);
    check_bound("&a {k: *a}", 1, 0, YAML_COMPOSER_ERROR, endless, 7);
    check_bound(items("b", 29), 0, 35, YAML_NO_ERROR, NULL, 0);
    check_bound(items("b", 30), 0, 32, YAML_PARSER_ERROR, nodes, 92);
    check_bound(items("*a", 31), 0, 33, YAML_PARSER_ERROR, nodes, 124);
    check_bound("[&a [b, c], *a, *a, *a, *a, *a, *a, *a, *a, *a, *a, *a, d, *a]", 0, 19, YAML_PARSER_ERROR, large, 59);
    check_bound("--- &a [x, y]\n--- [&a [x, *a]]\n", 0, 11, YAML_PARSER_ERROR, endless, 26);
    check_bound("&a {k: *a}", 0, 4, YAML_PARSER_ERROR, endless, 7);
    check_bound("[*b, *b, &a [x, *b], &a y, *a]", 0, 14, YAML_NO_ERROR, NULL, 0);
    check_bound(items("*b", 31), 0, 33, YAML_PARSER_ERROR, nodes, 124);
    long refused = check_refusals(items("b", 29), LOADS, 30);
    if (!wrong)
        printf("bounds hold, %ld allocations refused within them\n", refused);
}

int main(int count, char **words)
{
    void *found = dlsym(RTLD_DEFAULT, "pokhvizi_libyaml_name");

    memcpy(&name_of, &found, sizeof found);
    if (found == NULL) {
        puts("wrong: there is no pokhvizi_libyaml_name");
        return 1;
    }
    if (count > 1 && strcmp(words[1], "bounds") == 0) {
        check_bounds();
        return wrong;
    }
    has_fixes = getenv("POKHVIZI_FIXES") != NULL;
    if (has_fixes)
        TEXT = FIRST_DOCUMENT "bare\n";
    expect(nodes_of_constructor == 32, "a constructor's load", nodes_of_constructor);
    check_whole();
    if (wrong)
        return 1;
    check_environment();
    make_deep();
    long refused = check_refusals(TEXT, ALL, EVENTS) + check_refusals(deep, ALL, 4 + 2 * LEVELS) + check_refusals("k: &a ! x\n", ALL, 8);
    char *anchors = make_anchors(40);
    refused += check_refusals(TEXT, LOADS, NODES) + check_refusals(deep, LOADS, LEVELS) + check_refusals(anchors, LOADS, 41);
    free(anchors);
    check_times();
    check_handles();
    check_deleted();
    check_loads_within();
    check_faults();
    check_names();
    check_tags();
    check_room();
    check_moved();
    check_threads();
    printf("%ld allocations refused, parsers deleted, moved, used after a fault and by threads: %s\n", refused,
           wrong ? "wrong" : "as they should be");
    return wrong;
}
