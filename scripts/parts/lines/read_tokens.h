/* Token lines on standard input, read into libyaml's tokens (docs/DEFINITIONS.md, "Lines" and "Token lines as read").
 * A line that is none ends the program (status 3), unless `bad_line` is another macro.
 *
 * A line is read once, from the left: each reader takes the place where its field begins, and returns where
 * it ended. A line stands in the buffer with its line feed, which is in no field, so readers stop there by
 * themselves. `SLACK` bytes follow the lines, so words of a fixed length can be looked at anywhere. */
#include "bytes.h"

enum { MAX_LINE = 1048576, MOST_READ = 1 << 16, SLACK = 32 };

#ifndef bad_line
#define bad_line quit
#endif

/* What a zero byte becomes within a text that libyaml keeps as a C string, which ends there otherwise. */
static yaml_char_t zero_byte;

/* ---- Fields ---- */

static inline int is_field_end(yaml_char_t c)
{
    return c == ' ' || c == '\n';
}

static inline const yaml_char_t *next_field(const yaml_char_t *at)
{
    if (*at != ' ')
        bad_line(*at == '\n' ? "a token line with too few fields" : "a token line with a bad number");
    return at + 1;
}

/* A number of any length; it is looked at by digits. */
static const yaml_char_t *read_long_number(const yaml_char_t *at, uint64_t *number)
{
    unsigned digit = *at - (unsigned)'0';

    if (digit > 9 || (digit == 0 && at[1] - (unsigned)'0' <= 9))
        bad_line(is_field_end(*at) ? "a token line without a number" : "a token line with a bad number");
    for (*number = 0; digit <= 9; digit = *++at - (unsigned)'0') {
        if (*number > (UINT64_MAX - digit) / 10)
            bad_line("a token line with a bad number");
        *number = *number * 10 + digit;
    }
    return at;
}

/* A number. Up to seven digits become the last ones of a word of eight, joined by two and then by four. */
static inline const yaml_char_t *read_number(const yaml_char_t *at, uint64_t *number)
{
    uint64_t word = load_word(at) ^ EACH_BYTE('0');
    uint64_t others = ((word + EACH_BYTE(0x7F - 9)) | word) & EACH_BYTE(0x80);
    int count = others == 0 ? 0 : __builtin_ctzll(others) / 8;

    if (count == 0 || ((word & 0xFF) == 0 && count != 1))
        return read_long_number(at, number);
    word <<= 64 - 8 * count;
    word = (word * 10 + (word >> 8)) & UINT64_C(0x00FF00FF00FF00FF);
    word = (word * 100 + (word >> 16)) & UINT64_C(0x0000FFFF0000FFFF);
    *number = (word * 10000 + (word >> 32)) & UINT32_MAX;
    return at + count;
}

/* A number and the byte after it. */
static inline const yaml_char_t *read_part(const yaml_char_t *at, yaml_char_t stop, uint64_t *number)
{
    at = read_number(at, number);
    if (*at != stop)
        bad_line(is_field_end(*at) ? "a token line without a number" : "a token line with a bad number");
    return at + 1;
}

static inline const yaml_char_t *read_mark(const yaml_char_t *at, yaml_mark_t *mark)
{
    uint64_t index, line, column;

    at = read_part(at, ':', &index);
    at = read_part(at, ':', &line);
    at = read_number(at, &column);
    *mark = (yaml_mark_t){index, line, column};
    return at;
}

static const yaml_char_t *read_int(const yaml_char_t *at, int *number)
{
    int is_negative = *at == '-';
    uint64_t value;

    at = read_number(at + is_negative, &value);
    if (value > INT32_MAX + (uint64_t)is_negative || (is_negative && value == 0))
        bad_line("a token line with a bad number");
    *number = (int)(is_negative ? -(int64_t)value : (int64_t)value);
    return at;
}

static int hex_digit(yaml_char_t c)
{
    if (c >= '0' && c <= '9')
        return c - '0';
    c |= 0x20;
    return c >= 'a' && c <= 'f' ? c - 'a' + 10 : -1;
}

static int is_utf8(const yaml_char_t *text, size_t length)
{
    for (size_t i = 0; i < length;) {
        yaml_char_t c = text[i++];
        if (c < 0x80)
            continue;
        size_t more = c < 0xC2 ? 0 : c < 0xE0 ? 1 : c < 0xF0 ? 2 : c < 0xF5 ? 3 : 0;
        if (more == 0 || length - i < more)
            return 0;
        yaml_char_t d = text[i];
        if ((c == 0xE0 && d < 0xA0) || (c == 0xED && d > 0x9F) || (c == 0xF0 && d < 0x90)
            || (c == 0xF4 && d > 0x8F))
            return 0;
        while (more--)
            if ((text[i++] & 0xC0) != 0x80)
                return 0;
    }
    return 1;
}

/* Room for a text of that size and the zero byte after it, whose first bytes are those of a field. */
static inline yaml_char_t *new_text(size_t size, const yaml_char_t *at, size_t length)
{
    yaml_char_t *text = malloc(size + 1);

    if (text == NULL)
        quit("out of memory");
    memcpy(text, at, length);
    return text;
}

/* A text with bytes that aren't clean, the first of them at `odd`; `zero` stands for a zero byte. */
static const yaml_char_t *read_escaped(const yaml_char_t *at, const yaml_char_t *odd, yaml_char_t **text,
                                       size_t *length, yaml_char_t zero)
{
    const yaml_char_t *end = odd;
    size_t count = (size_t)(odd - at);
    int high, low, seen = 0;

    while (!is_field_end(*end))
        end++;
    *text = new_text((size_t)(end - at), at, count);
    for (at = odd; at < end; at++) {
        yaml_char_t c = *at;
        if (c == '%' && (high = hex_digit(at[1])) >= 0 && (low = hex_digit(at[2])) >= 0) {
            c = (yaml_char_t)(high << 4 | low);
            at += 2;
        }
        (*text)[count++] = c;
        seen |= c;
    }
    (*text)[count] = '\0';
    if (seen >= 0x80 && !is_utf8(*text, count))
        bad_line("a token line with a text that is not UTF-8");
    for (yaml_char_t *found = *text; zero != 0 && (found = memchr(found, 0, (size_t)(*text + count - found)));)
        *found = zero;
    *length = count;
    return end;
}

/* The text of a field, made by malloc and ended by a zero byte, and its length. */
static const yaml_char_t *read_text(const yaml_char_t *at, yaml_char_t **text, size_t *length, yaml_char_t zero)
{
    uint64_t unclean;

    if (*at++ != '=')
        bad_line("a token line without a text");
    const yaml_char_t *end = at;
    while ((unclean = unclean_bytes(load_word(end))) == 0)
        end += sizeof unclean;
    end += __builtin_ctzll(unclean) / 8;
    if (!is_field_end(*end))
        return read_escaped(at, end, text, length, zero);
    *length = (size_t)(end - at);
    *text = new_text(*length, at, *length);
    (*text)[*length] = '\0';
    return end;
}

static inline const yaml_char_t *read_string(const yaml_char_t *at, yaml_char_t **text)
{
    size_t length;

    return read_text(at, text, &length, zero_byte);
}

/* ---- Tokens ---- */

/* Returns from the function that it stands in if a field is a word, whose value goes to `*value`. */
#define IF_WORD(word, its_value)                                                                    \
    if (memcmp(at, word, sizeof word - 1) == 0 && is_field_end(at[sizeof word - 1]))                \
        return *value = its_value, at + sizeof word - 1

static inline const yaml_char_t *read_name(const yaml_char_t *at, yaml_token_type_t *value)
{
    IF_WORD("SCALAR", YAML_SCALAR_TOKEN);
    IF_WORD("KEY", YAML_KEY_TOKEN);
    IF_WORD("VALUE", YAML_VALUE_TOKEN);
    IF_WORD("BLOCK-END", YAML_BLOCK_END_TOKEN);
    IF_WORD("BLOCK-ENTRY", YAML_BLOCK_ENTRY_TOKEN);
    IF_WORD("BLOCK-MAPPING-START", YAML_BLOCK_MAPPING_START_TOKEN);
    IF_WORD("BLOCK-SEQUENCE-START", YAML_BLOCK_SEQUENCE_START_TOKEN);
    IF_WORD("FLOW-ENTRY", YAML_FLOW_ENTRY_TOKEN);
    IF_WORD("FLOW-SEQUENCE-START", YAML_FLOW_SEQUENCE_START_TOKEN);
    IF_WORD("FLOW-SEQUENCE-END", YAML_FLOW_SEQUENCE_END_TOKEN);
    IF_WORD("FLOW-MAPPING-START", YAML_FLOW_MAPPING_START_TOKEN);
    IF_WORD("FLOW-MAPPING-END", YAML_FLOW_MAPPING_END_TOKEN);
    IF_WORD("DOCUMENT-START", YAML_DOCUMENT_START_TOKEN);
    IF_WORD("DOCUMENT-END", YAML_DOCUMENT_END_TOKEN);
    IF_WORD("TAG", YAML_TAG_TOKEN);
    IF_WORD("ANCHOR", YAML_ANCHOR_TOKEN);
    IF_WORD("ALIAS", YAML_ALIAS_TOKEN);
    IF_WORD("VERSION-DIRECTIVE", YAML_VERSION_DIRECTIVE_TOKEN);
    IF_WORD("TAG-DIRECTIVE", YAML_TAG_DIRECTIVE_TOKEN);
    IF_WORD("STREAM-START", YAML_STREAM_START_TOKEN);
    IF_WORD("STREAM-END", YAML_STREAM_END_TOKEN);
    IF_WORD("NO-TOKEN", YAML_NO_TOKEN);
    bad_line("a token line with an unknown word");
    return at;
}

static inline const yaml_char_t *read_style(const yaml_char_t *at, yaml_scalar_style_t *value)
{
    IF_WORD("plain", YAML_PLAIN_SCALAR_STYLE);
    IF_WORD("double", YAML_DOUBLE_QUOTED_SCALAR_STYLE);
    IF_WORD("single", YAML_SINGLE_QUOTED_SCALAR_STYLE);
    IF_WORD("literal", YAML_LITERAL_SCALAR_STYLE);
    IF_WORD("folded", YAML_FOLDED_SCALAR_STYLE);
    IF_WORD("any", YAML_ANY_SCALAR_STYLE);
    bad_line("a token line with an unknown word");
    return at;
}

static const yaml_char_t *read_encoding(const yaml_char_t *at, yaml_encoding_t *value)
{
    IF_WORD("utf8", YAML_UTF8_ENCODING);
    IF_WORD("utf16le", YAML_UTF16LE_ENCODING);
    IF_WORD("utf16be", YAML_UTF16BE_ENCODING);
    IF_WORD("any", YAML_ANY_ENCODING);
    bad_line("a token line with an unknown word");
    return at;
}

/* What follows a token's marks. */
static inline const yaml_char_t *read_fields(const yaml_char_t *at, yaml_token_t *token)
{
    switch (token->type) {
    case YAML_STREAM_START_TOKEN:
        return read_encoding(next_field(at), &token->data.stream_start.encoding);
    case YAML_VERSION_DIRECTIVE_TOKEN:
        at = read_int(next_field(at), &token->data.version_directive.major);
        if (*at != '.')
            bad_line("a token line without a number");
        return read_int(at + 1, &token->data.version_directive.minor);
    case YAML_TAG_DIRECTIVE_TOKEN:
        at = read_string(next_field(at), &token->data.tag_directive.handle);
        return read_string(next_field(at), &token->data.tag_directive.prefix);
    case YAML_ALIAS_TOKEN:
        return read_string(next_field(at), &token->data.alias.value);
    case YAML_ANCHOR_TOKEN:
        return read_string(next_field(at), &token->data.anchor.value);
    case YAML_TAG_TOKEN:
        at = read_string(next_field(at), &token->data.tag.handle);
        return read_string(next_field(at), &token->data.tag.suffix);
    case YAML_SCALAR_TOKEN:
        at = read_text(next_field(at), &token->data.scalar.value, &token->data.scalar.length, 0);
        return read_style(next_field(at), &token->data.scalar.style);
    default:
        return at;
    }
}

/* ---- Lines ---- */

static yaml_char_t input[MAX_LINE + MOST_READ + SLACK];
/* The lines that aren't taken yet lie between the first two; what was read of the next one follows. */
static const yaml_char_t *input_at = input, *lines_end = input, *input_end = input;

/* Reads until a line has its end; 0 at the end of the input. */
static int read_lines(void)
{
    size_t length = (size_t)(input_end - lines_end), end = 0;

    memmove(input, lines_end, length);
    while (end == 0) {
        size_t before = length;
        if (before > MAX_LINE)
            quit("a line too long");
        ssize_t count = read(0, input + before, MOST_READ);
        if (count < 0)
            quit("standard input can't be read");
        if (count == 0 && before == 0)
            return 0;
        if (count == 0)
            input[length++] = '\n';
        length += (size_t)count;
        for (end = length; end > before && input[end - 1] != '\n';)
            end--;
        if (end == before)
            end = 0;
    }
    input_at = input;
    lines_end = input + end;
    input_end = input + length;
    return 1;
}

/* Takes the next token; 0 at the end of the input. */
static int next_token(yaml_token_t *token)
{
    if (input_at == lines_end && !read_lines())
        return 0;
    memset(token, 0, sizeof *token);
    const yaml_char_t *at = read_name(input_at, &token->type);
    at = read_mark(next_field(at), &token->start_mark);
    at = read_mark(next_field(at), &token->end_mark);
    at = read_fields(at, token);
    if (*at != '\n')
        bad_line(*at == ' ' ? "a token line with too many fields" : "a token line with a bad number");
    input_at = at + 1;
    return 1;
}
