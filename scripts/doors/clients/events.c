/* What libyaml's parser gives, for clients.sh, plainly and over bindings/c/libyaml_proved.c:
 *
 *     events files < NAMES     each event of each file that a line of the input names, in its line (docs/DEFINITIONS.md, "Lines")
 *     events nodes < NAMES     each node of their documents, by yaml_parser_load
 *     events names < NAMES     the place of each file's error, by events and by nodes, its words, and what it is about, over that
 *     events pipe < YAML       the kind of each event of the input, as soon as it is there
 *     events late < YAML       the same, where the input is read to its end first
 *     events memory < YAML     how many events there are, and the peak of resident memory in KB
 *     events loads < YAML      the same of nodes, by yaml_parser_load */
#define _GNU_SOURCE
#include <dlfcn.h>
#include <stdio.h>
#include <stdlib.h>
#include <string.h>
#include <unistd.h>
#include <yaml.h>

#define OWN_ROOM
#include "../../parts/lines/write_lines.h"

enum { FULL = 1 << 16 };
static yaml_char_t room[FULL + 3 * PIECE + REST];

static void print_to(const yaml_char_t *end)
{
    fwrite(room, 1, (size_t)(end - room), stdout);
}

static yaml_char_t *with_room(yaml_char_t *at)
{
    if (at < room + FULL)
        return at;
    print_to(at);
    return room;
}

/* A text of so many bytes has a zero byte after it. */
static void check_end(const yaml_char_t *text, size_t length)
{
    if (text[length] != '\0')
        puts("no zero byte");
}

static void print_event(const yaml_event_t *event)
{
    print_to(put_event(room, event));
    if (event->type == YAML_SCALAR_EVENT)
        check_end(event->data.scalar.value, event->data.scalar.length);
}

static void print_document(const yaml_document_t *document)
{
    print_to(put_document(room, document));
    for (yaml_node_t *node = document->nodes.start; node != document->nodes.top; node++)
        if (node->type == YAML_SCALAR_NODE)
            check_end(node->data.scalar.value, node->data.scalar.length);
}

static void print_mark(yaml_mark_t mark)
{
    printf(" %zu:%zu:%zu", mark.index, mark.line, mark.column);
}

static const char *(*name_of)(const yaml_parser_t *);
static const char *what;  /* the parser is of this, if names are wanted */

static void print_name(const yaml_parser_t *parser)
{
    const char *name = name_of(parser);

    if (parser->error == YAML_PARSER_ERROR || parser->error == YAML_COMPOSER_ERROR)
        printf("%s %zu %s | %s\n", what, parser->problem_mark.index, parser->problem, name == NULL ? "-" : name);
}

static void print_error(const yaml_parser_t *parser)
{
    if (name_of != NULL) {
        print_name(parser);
        return;
    }
    printf("error %d %s", parser->error, parser->problem ? parser->problem : "-");
    print_mark(parser->problem_mark);
    printf(" %s", parser->context ? parser->context : "-");
    print_mark(parser->context_mark);
    printf(" %zu %d\n", parser->problem_offset, parser->problem_value);
}

/* Gives each event to `put`, where there is one; how many there were. */
static long parse(yaml_parser_t *parser, void (*put)(const yaml_event_t *))
{
    yaml_event_t event;
    yaml_event_type_t type = YAML_NO_EVENT;
    long count = 0;

    do {
        if (!yaml_parser_parse(parser, &event)) {
            print_error(parser);
            return count;
        }
        if (put != NULL)
            put(&event);
        count++;
        type = event.type;
        yaml_event_delete(&event);
    } while (type != YAML_STREAM_END_EVENT && type != YAML_NO_EVENT);
    return count;
}

/* Loads all documents, and gives each to `put`, where there is one; how many nodes there were. */
static long load(yaml_parser_t *parser, void (*put)(const yaml_document_t *))
{
    yaml_document_t document;
    long count = 0;
    int more;

    do {
        if (!yaml_parser_load(parser, &document)) {
            print_error(parser);
            return count;
        }
        if (put != NULL)
            put(&document);
        count += document.nodes.top - document.nodes.start;
        more = yaml_document_get_root_node(&document) != NULL;
        yaml_document_delete(&document);
    } while (more);
    return count;
}

/* Each file that a line of the input names. */
static int each_file(int by_nodes)
{
    char name[4096];
    yaml_parser_t parser;
    long files = 0, count = 0;

    while (fgets(name, sizeof name, stdin) != NULL) {
        name[strcspn(name, "\n")] = '\0';
        FILE *file = fopen(name, "rb");
        if (file == NULL || !yaml_parser_initialize(&parser))
            return 3;
        yaml_parser_set_input_file(&parser, file);
        printf("file %s\n", name);
        count += by_nodes ? load(&parser, print_document) : parse(&parser, print_event);
        yaml_parser_delete(&parser);
        fclose(file);
        files++;
    }
    fprintf(stderr, "%ld files, %ld %s\n", files, count, by_nodes ? "nodes" : "events");
    return 0;
}

/* The name of each file's error, by events and by nodes. */
static int each_name(void)
{
    void *found = dlsym(RTLD_DEFAULT, "pokhvizi_libyaml_name");
    char name[4096];
    yaml_parser_t parser;

    memcpy(&name_of, &found, sizeof found);
    if (found == NULL)
        return 3;
    while (fgets(name, sizeof name, stdin) != NULL) {
        name[strcspn(name, "\n")] = '\0';
        printf("file %s\n", name);
        for (int by_nodes = 0; by_nodes < 2; by_nodes++) {
            FILE *file = fopen(name, "rb");
            if (file == NULL || !yaml_parser_initialize(&parser))
                return 3;
            yaml_parser_set_input_file(&parser, file);
            what = by_nodes ? "nodes" : "events";
            if (by_nodes)
                load(&parser, NULL);
            else
                parse(&parser, NULL);
            yaml_parser_delete(&parser);
            fclose(file);
        }
    }
    return 0;
}

/* Reads what there is: as little as a pipe has. */
static int read_some(void *data, unsigned char *buffer, size_t size, size_t *got)
{
    ssize_t count = read(0, buffer, size);

    (void)data;
    *got = count > 0 ? count : 0;
    return count >= 0;
}

static int read_all(void *data, unsigned char *buffer, size_t size, size_t *got)
{
    size_t some;

    for (*got = 0; *got < size; *got += some)
        if (!read_some(data, buffer + *got, size - *got, &some) || some == 0)
            break;
    return 1;
}

static void print_kind(const yaml_event_t *event)
{
    printf("%d\n", event->type);
    fflush(stdout);
}

/* The peak of resident memory in KB; 0 where it isn't told. */
static long peak(void)
{
    char line[256];
    long found = 0;
    FILE *status = fopen("/proc/self/status", "r");

    while (status != NULL && found == 0 && fgets(line, sizeof line, status) != NULL)
        sscanf(line, "VmHWM: %ld", &found);
    if (status != NULL)
        fclose(status);
    return found;
}

static int input(const char *how)
{
    int is_memory = strcmp(how, "memory") == 0, is_loads = strcmp(how, "loads") == 0;
    yaml_parser_t parser;

    if (!yaml_parser_initialize(&parser))
        return 3;
    yaml_parser_set_input(&parser, strcmp(how, "late") == 0 ? read_all : read_some, NULL);
    long count = is_loads ? load(&parser, NULL) : parse(&parser, is_memory ? NULL : print_kind);
    yaml_parser_delete(&parser);
    if (is_memory || is_loads)
        printf("%ld %ld\n", count, peak());
    return 0;
}

int main(int count, char **words)
{
    if (count != 2)
        return 2;
    if (strcmp(words[1], "files") == 0 || strcmp(words[1], "nodes") == 0)
        return each_file(strcmp(words[1], "nodes") == 0);
    if (strcmp(words[1], "names") == 0)
        return each_name();
    return input(words[1]);
}
