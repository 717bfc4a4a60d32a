/* What all headers of Pokhvizi share: the version, and marks. */
#ifndef POKHVIZI_VERSION_H
#define POKHVIZI_VERSION_H
#include <stddef.h>
#include <stdint.h>

/* The version that these headers are of: CHANGELOG.md says what it changes. */
#define POKHVIZI_VERSION "0.4.0"

#if SIZE_MAX != 0xFFFFFFFFFFFFFFFF
#error "Pokhvizi is built for a size_t of 64 bits"
#endif

/* A place in a text, with the layout of libyaml's yaml_mark_t. */
typedef struct {
    uint64_t index;  /* characters from the start of the text, from 0 */
    uint64_t line;   /* lines before this one */
    uint64_t column; /* characters before this one in its line */
} pokhvizi_mark_t;

#endif
