/* The lines of events and documents (docs/DEFINITIONS.md, "Lines" and "Document text"), of libyaml's values, on standard
 * output, or where the `with_room` of a program leads that defines OWN_ROOM. */
#include "bytes.h"

/* A word as it is written, with the space before it if it has one. */
typedef struct {
    char bytes[16];
    size_t length;
} word_t;

#define WORD(word) {word, sizeof word - 1}

static const word_t EVENT_NAMES[] = {
    WORD("NO-EVENT"), WORD("STREAM-START"), WORD("STREAM-END"), WORD("DOCUMENT-START"), WORD("DOCUMENT-END"),
    WORD("ALIAS"), WORD("SCALAR"), WORD("SEQUENCE-START"), WORD("SEQUENCE-END"), WORD("MAPPING-START"),
    WORD("MAPPING-END"),
};
static const word_t NODE_NAMES[] = {WORD(" NO-NODE"), WORD(" SCALAR"), WORD(" SEQUENCE"), WORD(" MAPPING")};
static const word_t ENCODINGS[] = {WORD(" any"), WORD(" utf8"), WORD(" utf16le"), WORD(" utf16be")};
static const word_t COLLECTION_STYLES[] = {WORD(" any"), WORD(" block"), WORD(" flow")};
static const word_t SCALAR_STYLES[] = {
    WORD(" any"), WORD(" plain"), WORD(" single"), WORD(" double"), WORD(" literal"), WORD(" folded"),
};

/* ---- Bytes written ---- */

/* Each function takes the place in the output where it writes, and returns where it ended. From a place
 * before `output_full` on there is room for a piece of a text with each byte escaped, and for `REST` bytes
 * more. Room is made before each line, and after each piece of a text and each item of a list; what a line
 * has between these takes less than `REST`. */
enum { SIZE = 1 << 16, PIECE = 1024, REST = 1024 };

#ifdef OWN_ROOM
static yaml_char_t *with_room(yaml_char_t *at);
#else
static yaml_char_t output[SIZE + 3 * PIECE + REST];
static yaml_char_t *const output_full = output + SIZE;

static void flush(const yaml_char_t *end)
{
    for (const yaml_char_t *at = output; at < end;) {
        ssize_t count = write(1, at, (size_t)(end - at));
        if (count <= 0)
            quit("standard output can't be written");
        at += count;
    }
}

static inline yaml_char_t *with_room(yaml_char_t *at)
{
    if (at < output_full)
        return at;
    flush(at);
    return output;
}
#endif

static inline yaml_char_t *put_byte(yaml_char_t *at, char byte)
{
    *at = (yaml_char_t)byte;
    return at + 1;
}

static inline yaml_char_t *put_word(yaml_char_t *at, const word_t *word)
{
    memcpy(at, word->bytes, sizeof word->bytes);
    return at + word->length;
}

static inline yaml_char_t *put_flag(yaml_char_t *at, int flag)
{
    return put_byte(put_byte(at, ' '), (char)('0' + flag));
}

/* A number's digits, the last one before `end`; returns where they begin. */
static inline yaml_char_t *put_digits_before(yaml_char_t *end, uint64_t number)
{
    static const char pairs[] = "00010203040506070809101112131415161718192021222324252627282930313233"
                                "34353637383940414243444546474849505152535455565758596061626364656667"
                                "6869707172737475767778798081828384858687888990919293949596979899";

    for (; number >= 100; number /= 100)
        memcpy(end -= 2, pairs + number % 100 * 2, 2);
    if (number >= 10)
        return memcpy(end - 2, pairs + number * 2, 2);
    *--end = (yaml_char_t)('0' + number);
    return end;
}

static inline yaml_char_t *put_mark_before(yaml_char_t *end, const yaml_mark_t *mark)
{
    end = put_digits_before(end, mark->column);
    *--end = ':';
    end = put_digits_before(end, mark->line);
    *--end = ':';
    end = put_digits_before(end, mark->index);
    *--end = ' ';
    return end;
}

/* Two marks; their digits are gathered from the last to the first. */
static inline yaml_char_t *put_marks(yaml_char_t *at, const yaml_mark_t *start, const yaml_mark_t *end)
{
    yaml_char_t marks[128], *const marks_end = marks + sizeof marks;
    yaml_char_t *first = put_mark_before(put_mark_before(marks_end, end), start);
    size_t length = (size_t)(marks_end - first);

    memcpy(at, first, length);
    return at + length;
}

static yaml_char_t *put_number(yaml_char_t *at, uint64_t number)
{
    yaml_char_t digits[20], *const digits_end = digits + sizeof digits;
    yaml_char_t *first = put_digits_before(digits_end, number);
    size_t length = (size_t)(digits_end - first);

    memcpy(at, first, length);
    return at + length;
}

static yaml_char_t *put_int(yaml_char_t *at, int number)
{
    if (number < 0)
        at = put_byte(at, '-');
    return put_number(at, number < 0 ? -(uint64_t)number : (uint64_t)number);
}

/* A text of one to seven bytes as a word, in which some stand twice, or the digit 0 where it has too few. */
static inline uint64_t load_short(const yaml_char_t *text, size_t length)
{
    uint32_t first, last;

    if (length < sizeof first)
        return EACH_BYTE('0') << 24 | (uint64_t)text[length - 1] << 16 | (uint64_t)text[length / 2] << 8
               | text[0];
    memcpy(&first, text, sizeof first);
    memcpy(&last, text + length - sizeof last, sizeof last);
    return (uint64_t)last << 32 | first;
}

static inline int is_clean(const yaml_char_t *text, size_t length)
{
    if (length < 8)
        return length == 0 || unclean_bytes(load_short(text, length)) == 0;
    const yaml_char_t *last = text + length - 8;
    for (; text < last; text += 8)
        if (unclean_bytes(load_word(text)) != 0)
            return 0;
    return unclean_bytes(load_word(last)) == 0;
}

static yaml_char_t *put_escaped(yaml_char_t *at, const yaml_char_t *text, size_t length)
{
    static const char hex[] = "0123456789ABCDEF";

    for (size_t i = 0; i < length; i++) {
        yaml_char_t c = text[i] == ZERO_BYTE ? 0 : text[i];
        if (c > 0x20 && c < 0x7F && c != '%') {
            *at++ = c;
        } else {
            *at++ = '%';
            *at++ = (yaml_char_t)hex[c >> 4];
            *at++ = (yaml_char_t)hex[c & 15];
        }
    }
    return at;
}

static yaml_char_t *put_bytes(yaml_char_t *at, const yaml_char_t *text, size_t length)
{
    at = put_byte(put_byte(at, ' '), '=');
    do {
        size_t piece = length < PIECE ? length : PIECE;
        if (is_clean(text, piece)) {
            memcpy(at, text, piece);
            at += piece;
        } else {
            at = put_escaped(at, text, piece);
        }
        at = with_room(at);
        text += piece;
        length -= piece;
    } while (length > 0);
    return at;
}

/* A text, or `-` where there is none. */
static inline yaml_char_t *put_text(yaml_char_t *at, const yaml_char_t *text)
{
    if (text == NULL)
        return put_byte(put_byte(at, ' '), '-');
    return put_bytes(at, text, strlen((const char *)text));
}

static yaml_char_t *put_directives(yaml_char_t *at, const yaml_version_directive_t *version,
                                   const yaml_tag_directive_t *tag, const yaml_tag_directive_t *end)
{
    at = put_byte(at, ' ');
    if (version != NULL) {
        at = put_int(at, version->major);
        at = put_byte(at, '.');
        at = put_int(at, version->minor);
    } else {
        at = put_byte(at, '-');
    }
    at = put_number(put_byte(at, ' '), (uint64_t)(end - tag));
    for (; tag < end; tag++) {
        at = put_text(at, tag->handle);
        at = put_text(at, tag->prefix);
    }
    return at;
}

/* ---- Events ---- */

/* The properties, the flag and the style of an event that begins a collection. */
static yaml_char_t *put_collection(yaml_char_t *at, const yaml_char_t *anchor, const yaml_char_t *tag,
                                   int implicit, int style)
{
    at = put_text(at, anchor);
    at = put_text(at, tag);
    at = put_flag(at, implicit);
    return put_word(at, &COLLECTION_STYLES[style]);
}

/* What follows an event's marks. */
static inline yaml_char_t *put_event_fields(yaml_char_t *at, const yaml_event_t *event)
{
    switch (event->type) {
    case YAML_STREAM_START_EVENT:
        return put_word(at, &ENCODINGS[event->data.stream_start.encoding]);
    case YAML_DOCUMENT_START_EVENT:
        at = put_flag(at, event->data.document_start.implicit);
        return put_directives(at, event->data.document_start.version_directive,
                              event->data.document_start.tag_directives.start,
                              event->data.document_start.tag_directives.end);
    case YAML_DOCUMENT_END_EVENT:
        return put_flag(at, event->data.document_end.implicit);
    case YAML_ALIAS_EVENT:
        return put_text(at, event->data.alias.anchor);
    case YAML_SCALAR_EVENT:
        at = put_text(at, event->data.scalar.anchor);
        at = put_text(at, event->data.scalar.tag);
        at = put_bytes(at, event->data.scalar.value, event->data.scalar.length);
        at = put_flag(at, event->data.scalar.plain_implicit);
        at = put_flag(at, event->data.scalar.quoted_implicit);
        return put_word(at, &SCALAR_STYLES[event->data.scalar.style]);
    case YAML_SEQUENCE_START_EVENT:
        return put_collection(at, event->data.sequence_start.anchor, event->data.sequence_start.tag,
                              event->data.sequence_start.implicit, (int)event->data.sequence_start.style);
    case YAML_MAPPING_START_EVENT:
        return put_collection(at, event->data.mapping_start.anchor, event->data.mapping_start.tag,
                              event->data.mapping_start.implicit, (int)event->data.mapping_start.style);
    default:
        return at;
    }
}

static inline yaml_char_t *put_event(yaml_char_t *at, const yaml_event_t *event)
{
    at = put_word(with_room(at), &EVENT_NAMES[event->type]);
    at = put_marks(at, &event->start_mark, &event->end_mark);
    return put_byte(put_event_fields(at, event), '\n');
}

/* ---- Nodes ---- */

/* What follows a node's tag. */
static inline yaml_char_t *put_content(yaml_char_t *at, const yaml_node_t *node)
{
    if (node->type == YAML_SCALAR_NODE) {
        at = put_bytes(at, node->data.scalar.value, node->data.scalar.length);
        return put_word(at, &SCALAR_STYLES[node->data.scalar.style]);
    }
    if (node->type == YAML_SEQUENCE_NODE) {
        const yaml_node_item_t *item = node->data.sequence.items.start, *end = node->data.sequence.items.top;
        at = put_word(at, &COLLECTION_STYLES[node->data.sequence.style]);
        for (at = put_number(put_byte(at, ' '), (uint64_t)(end - item)); item < end; item++)
            at = with_room(put_int(put_byte(at, ' '), *item));
        return at;
    }
    const yaml_node_pair_t *pair = node->data.mapping.pairs.start, *end = node->data.mapping.pairs.top;
    at = put_word(at, &COLLECTION_STYLES[node->data.mapping.style]);
    for (at = put_number(put_byte(at, ' '), (uint64_t)(end - pair)); pair < end; pair++) {
        at = put_int(put_byte(at, ' '), pair->key);
        at = with_room(put_int(put_byte(at, ':'), pair->value));
    }
    return at;
}

static yaml_char_t *put_document(yaml_char_t *at, const yaml_document_t *document)
{
    static const word_t name = WORD("DOCUMENT");

    at = put_word(with_room(at), &name);
    at = put_marks(at, &document->start_mark, &document->end_mark);
    at = put_flag(at, document->start_implicit);
    at = put_flag(at, document->end_implicit);
    at = put_directives(at, document->version_directive, document->tag_directives.start,
                        document->tag_directives.end);
    at = put_byte(at, '\n');
    for (const yaml_node_t *node = document->nodes.start; node < document->nodes.top; node++) {
        at = put_number(with_room(at), (uint64_t)(node - document->nodes.start) + 1);
        at = put_word(at, &NODE_NAMES[node->type]);
        at = put_marks(at, &node->start_mark, &node->end_mark);
        at = put_text(at, node->tag);
        at = put_byte(put_content(at, node), '\n');
    }
    return at;
}
