/* What read_tokens.h and write_lines.h share: an end, and words of eight bytes. */
#ifndef BYTES_H
#define BYTES_H
#include <stdint.h>
#include <stdio.h>
#include <stdlib.h>
#include <string.h>
#include <unistd.h>
#include <yaml.h>

_Static_assert(__BYTE_ORDER__ == __ORDER_LITTLE_ENDIAN__, "a word's lowest byte comes first");

static inline _Noreturn void quit(const char *why)
{
    fprintf(stderr, "%s\n", why);
    exit(3);
}

/* A zero byte within a text that libyaml keeps as a C string, where a reader keeps it: a byte that no UTF-8 text has. */
enum { ZERO_BYTE = 0xFF };

#define EACH_BYTE(byte) (UINT64_C(0x0101010101010101) * (byte))

static inline uint64_t load_word(const yaml_char_t *at)
{
    uint64_t word;

    memcpy(&word, at, sizeof word);
    return word;
}

/* The highest bit of each byte that isn't clean: up to hexadecimal 20, `%`, or above 7E. */
static inline uint64_t unclean_bytes(uint64_t word)
{
    uint64_t low = word & EACH_BYTE(0x7F);
    uint64_t above_space = low + EACH_BYTE(0x7F - 0x20);
    uint64_t no_percent = (low ^ EACH_BYTE('%')) + EACH_BYTE(0x7F);
    uint64_t above_tilde = (low + EACH_BYTE(1)) | word;

    return ~(above_space & no_percent & ~above_tilde) & EACH_BYTE(0x80);
}

#endif
