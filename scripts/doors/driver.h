/* What the drivers of this folder share: memory, bytes and files, marks and words, numbers that are drawn, threads. */
#ifndef DRIVER_H
#define DRIVER_H
#include <pokhvizi/version.h>
#include <pthread.h>
#include <stdio.h>
#include <stdlib.h>
#include <string.h>
#include <yaml.h>

/* ---- Memory ---- */

static inline void *resized(void *block, size_t size)
{
    if ((block = realloc(block, size)) == NULL) {
        fputs("out of memory\n", stderr);
        exit(3);
    }
    return block;
}

/* Doubles the room of an array where it is too small. */
static inline void *grown(void *array, size_t *room, size_t wanted, size_t size)
{
    if (wanted <= *room && array != NULL)
        return array;
    *room = 2 * wanted + 1;
    return resized(array, *room * size);
}

struct bytes {
    uint8_t *at;
    size_t length, room;
};

/* Appends bytes, and a zero byte that follows them. */
static inline void put(struct bytes *bytes, const void *from, size_t length)
{
    bytes->at = grown(bytes->at, &bytes->room, bytes->length + length + 1, 1);
    memcpy(bytes->at + bytes->length, from, length);
    bytes->length += length;
    bytes->at[bytes->length] = '\0';
}

/* The bytes of a file. */
static inline struct bytes read_file(const char *name)
{
    struct bytes bytes = {0};
    FILE *file = fopen(name, "rb");
    char buffer[65536];
    size_t got;

    put(&bytes, "", 0);
    while (file != NULL && (got = fread(buffer, 1, sizeof buffer, file)) > 0)
        put(&bytes, buffer, got);
    if (file == NULL || fclose(file) != 0) {
        fprintf(stderr, "%s can't be read\n", name);
        exit(3);
    }
    return bytes;
}

/* ---- libyaml's values ---- */

static inline void begin_parser(yaml_parser_t *parser, const struct bytes *yaml)
{
    if (!yaml_parser_initialize(parser))
        exit(3);
    yaml_parser_set_input_string(parser, yaml->at, yaml->length);
}

static inline int marks_are(pokhvizi_mark_t one, pokhvizi_mark_t other)
{
    return one.index == other.index && one.line == other.line && one.column == other.column;
}

static inline pokhvizi_mark_t mark_of(yaml_mark_t mark)
{
    return (pokhvizi_mark_t){mark.index, mark.line, mark.column};
}

static inline int mark_is(yaml_mark_t mark, yaml_mark_t other)
{
    return marks_are(mark_of(mark), mark_of(other));
}

/* Whether two texts are the same, or neither is there. */
static inline int words_are(const void *words, const void *other)
{
    return words == NULL || other == NULL ? words == other : strcmp(words, other) == 0;
}

/* ---- Numbers that are drawn, the same in each run ---- */

static inline uint64_t drawn(void)
{
    static uint64_t state = 88172645463325252u;
    state ^= state << 13, state ^= state >> 7, state ^= state << 17;
    return state;
}

/* ---- Threads ---- */

enum { THREADS = 8 };

/* Acts in all threads at once; how many of them returned something. */
static inline int in_threads(void *(*act)(void *), void *with)
{
    pthread_t made[THREADS];
    void *returned;
    int count = 0;

    for (int i = 0; i < THREADS; i++)
        if (pthread_create(&made[i], NULL, act, with) != 0)
            exit(3);
    for (int i = 0; i < THREADS; i++)
        count += pthread_join(made[i], &returned) != 0 || returned != NULL;
    return count;
}

#endif
