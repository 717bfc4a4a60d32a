/* Compares the fields of a yaml_parser_t after each call of two libyamls, without those that each keeps for itself (the stacks of states,
 * marks and tag directives), for clients.sh:
 *
 *     fields ONE OTHER < NAMES     two libraries, and a file's name on each line
 *
 * Each text is parsed, loaded, and parsed up to some event and then loaded, whole and by a handler that gives a few bytes at a time;
 * after the end each call is made twice more, and after an error a parse, since libyaml's load ends the program there. Says which fields differ, how many calls were compared and after
 * how many an error stood; the status is 1 if one differs, or the names are none. */
#include <dlfcn.h>
#include <stdio.h>
#include <stdlib.h>
#include <string.h>
#include <yaml.h>

struct library {
    int (*initialize)(yaml_parser_t *);
    void (*delete)(yaml_parser_t *);
    void (*set_input)(yaml_parser_t *, yaml_read_handler_t *, void *);
    void (*set_string)(yaml_parser_t *, const unsigned char *, size_t);
    int (*parse)(yaml_parser_t *, yaml_event_t *);
    int (*load)(yaml_parser_t *, yaml_document_t *);
    void (*delete_event)(yaml_event_t *);
    void (*delete_document)(yaml_document_t *);
};

struct input {
    const unsigned char *text;
    size_t length, place, piece;
};

static unsigned char text[1 << 20];
static unsigned long calls, errors, wrong;
static const char *name;

static void *get(void *library, const char *symbol)
{
    void *found = dlsym(library, symbol);

    if (found == NULL) {
        fprintf(stderr, "fields: %s\n", dlerror());
        exit(2);
    }
    return found;
}

static struct library library_of(const char *path)
{
    static const char *const names[] = {"yaml_parser_initialize", "yaml_parser_delete", "yaml_parser_set_input", "yaml_parser_set_input_string",
                                        "yaml_parser_parse", "yaml_parser_load", "yaml_event_delete", "yaml_document_delete"};
    void *opened = dlopen(path, RTLD_NOW | RTLD_LOCAL), *found[8];
    struct library made;

    if (opened == NULL) {
        fprintf(stderr, "fields: %s\n", dlerror());
        exit(2);
    }
    for (int i = 0; i < 8; i++)
        found[i] = get(opened, names[i]);
    memcpy(&made, found, sizeof made);
    return made;
}

static int read_piece(void *data, unsigned char *buffer, size_t size, size_t *read)
{
    struct input *input = data;
    size_t left = input->length - input->place;

    *read = input->piece < size ? input->piece : size;
    *read = *read < left ? *read : left;
    memcpy(buffer, input->text + input->place, *read);
    input->place += *read;
    return 1;
}

static void differ(const char *field, const char *how, int call, long one, long other)
{
    if (++wrong <= 40)
        printf("wrong: %s, %s, call %d: %s is %ld, and %ld\n", name, how, call, field, one, other);
}

static int is_text(const char *one, const char *other)
{
    return one == other || (one != NULL && other != NULL && strcmp(one, other) == 0);
}

#define SAME(field) \
    if (one->field != other->field) \
        differ(#field, how, call, (long)one->field, (long)other->field)
#define SAME_MARK(mark) SAME(mark.index); SAME(mark.line); SAME(mark.column)
#define SAME_PLACE(array, place) \
    if (one->array.place - one->array.start != other->array.place - other->array.start) \
        differ(#array "." #place, how, call, (long)(one->array.place - one->array.start), (long)(other->array.place - other->array.start))

static void compare(const yaml_parser_t *one, const yaml_parser_t *other, const char *how, int call)
{
    calls++;
    errors += one->error != YAML_NO_ERROR;
    SAME(error);
    if (!is_text(one->problem, other->problem))
        differ("problem", how, call, 0, 0);
    SAME(problem_offset);
    SAME(problem_value);
    SAME_MARK(problem_mark);
    if (!is_text(one->context, other->context))
        differ("context", how, call, 0, 0);
    SAME_MARK(context_mark);
    SAME(eof);
    SAME_PLACE(buffer, pointer);
    SAME_PLACE(buffer, last);
    SAME_PLACE(buffer, end);
    SAME(unread);
    SAME_PLACE(raw_buffer, pointer);
    SAME_PLACE(raw_buffer, last);
    SAME_PLACE(raw_buffer, end);
    SAME(encoding);
    SAME(offset);
    SAME_MARK(mark);
    SAME(stream_start_produced);
    SAME(stream_end_produced);
    SAME(flow_level);
    SAME_PLACE(tokens, head);
    SAME_PLACE(tokens, tail);
    SAME_PLACE(tokens, end);
    SAME(tokens_parsed);
    SAME(token_available);
    if (one->tokens.head != one->tokens.tail && other->tokens.head != other->tokens.tail)
        SAME(tokens.head->type);
    SAME_PLACE(indents, top);
    SAME_PLACE(indents, end);
    SAME(indent);
    SAME(simple_key_allowed);
    SAME_PLACE(simple_keys, top);
    SAME_PLACE(simple_keys, end);
    SAME(state);
    SAME_PLACE(aliases, top);
    if ((one->aliases.start == NULL) != (other->aliases.start == NULL))
        differ("aliases", how, call, one->aliases.start != NULL, other->aliases.start != NULL);
    SAME(document);
}

/* Parses so many events, and up to the end of a document, and then loads; by a handler that gives so many bytes at once, or by a
 * string. Returns how many events there were. */
static int run(const struct library *libraries, size_t length, int events, size_t piece, const char *how)
{
    yaml_parser_t parsers[2];
    struct input inputs[2] = {{text, length, 0, piece}, {text, length, 0, piece}};
    int call = 0, more = 1, after = 0, is_within = 0;

    for (int i = 0; i < 2; i++) {
        libraries[i].initialize(&parsers[i]);
        if (piece == 0)
            libraries[i].set_string(&parsers[i], text, length);
        else
            libraries[i].set_input(&parsers[i], read_piece, &inputs[i]);
    }
    for (; after < 3 && call < 100000; call++) {
        int done[2], ended[2];
        yaml_event_type_t types[2] = {YAML_NO_EVENT, YAML_NO_EVENT};
        for (int i = 0; i < 2; i++) {
            if (call < events || is_within || parsers[i].error != YAML_NO_ERROR) {
                yaml_event_t event;
                done[i] = libraries[i].parse(&parsers[i], &event);
                ended[i] = !done[i] || event.type == YAML_NO_EVENT || event.type == YAML_STREAM_END_EVENT;
                types[i] = event.type;
                libraries[i].delete_event(&event);
            } else {
                yaml_document_t document;
                done[i] = libraries[i].load(&parsers[i], &document);
                ended[i] = !done[i] || document.nodes.start == document.nodes.top;
                if (done[i])
                    libraries[i].delete_document(&document);
            }
        }
        if (done[0] != done[1])
            differ("what is returned", how, call, done[0], done[1]);
        compare(&parsers[0], &parsers[1], how, call);
        more = more && !ended[0];
        is_within = more && types[0] != YAML_NO_EVENT && types[0] != YAML_STREAM_START_EVENT && types[0] != YAML_DOCUMENT_END_EVENT;
        after += !more;
    }
    for (int i = 0; i < 2; i++)
        libraries[i].delete(&parsers[i]);
    return call;
}

int main(int count, char **words)
{
    static char line[4096];
    struct library libraries[2];
    unsigned long files = 0;

    if (count != 3)
        return 2;
    for (int i = 0; i < 2; i++)
        libraries[i] = library_of(words[i + 1]);
    while (fgets(line, sizeof line, stdin) != NULL) {
        line[strcspn(line, "\n")] = '\0';
        FILE *file = fopen(line, "rb");
        if (file == NULL)
            continue;
        size_t length = fread(text, 1, sizeof text, file);
        fclose(file);
        name = line;
        files++;
        int events = run(libraries, length, 100000, 0, "parse");
        run(libraries, length, 0, 0, "load");
        run(libraries, length, 100000, 1 + files % 5, "parse by pieces");
        run(libraries, length, 0, 1 + files % 5, "load by pieces");
        for (int first = 1; first <= 3 && first < events; first++)
            run(libraries, length, first * first, 0, "parse and load");
        run(libraries, length, (int)(files % (unsigned long)events), 0, "parse and load");
    }
    printf("%lu texts, %lu calls, after %lu of which there was an error: %lu fields differ\n", files, calls, errors, wrong);
    return wrong != 0 || files == 0;
}
