/* A list of tokens in the place of libyaml's scanner, for all_lists.c and python_lists.c. Each includes it once. */
#include <stdlib.h>
#include <string.h>
#include <yaml.h>

static const struct token {
    yaml_token_type_t type;
    const char *first, *second;
    int number, other;  /* an encoding or a style; a version */
} TOKENS[] = {
    {YAML_STREAM_START_TOKEN, NULL, NULL, YAML_UTF8_ENCODING, 0},
    {YAML_STREAM_END_TOKEN, NULL, NULL, 0, 0},
    {YAML_VERSION_DIRECTIVE_TOKEN, NULL, NULL, 1, 1},
    {YAML_VERSION_DIRECTIVE_TOKEN, NULL, NULL, 2, 0},
    {YAML_TAG_DIRECTIVE_TOKEN, "!a!", "tag:a,", 0, 0},
    {YAML_TAG_DIRECTIVE_TOKEN, "!!", "tag:b,", 0, 0},
    {YAML_DOCUMENT_START_TOKEN, NULL, NULL, 0, 0},
    {YAML_DOCUMENT_END_TOKEN, NULL, NULL, 0, 0},
    {YAML_BLOCK_SEQUENCE_START_TOKEN, NULL, NULL, 0, 0},
    {YAML_BLOCK_MAPPING_START_TOKEN, NULL, NULL, 0, 0},
    {YAML_BLOCK_END_TOKEN, NULL, NULL, 0, 0},
    {YAML_FLOW_SEQUENCE_START_TOKEN, NULL, NULL, 0, 0},
    {YAML_FLOW_SEQUENCE_END_TOKEN, NULL, NULL, 0, 0},
    {YAML_FLOW_MAPPING_START_TOKEN, NULL, NULL, 0, 0},
    {YAML_FLOW_MAPPING_END_TOKEN, NULL, NULL, 0, 0},
    {YAML_BLOCK_ENTRY_TOKEN, NULL, NULL, 0, 0},
    {YAML_FLOW_ENTRY_TOKEN, NULL, NULL, 0, 0},
    {YAML_KEY_TOKEN, NULL, NULL, 0, 0},
    {YAML_VALUE_TOKEN, NULL, NULL, 0, 0},
    {YAML_ALIAS_TOKEN, "xx", NULL, 0, 0},
    {YAML_ANCHOR_TOKEN, "xx", NULL, 0, 0},
    {YAML_ANCHOR_TOKEN, "yy", NULL, 0, 0},
    {YAML_TAG_TOKEN, "", "verbatim", 0, 0},
    {YAML_TAG_TOKEN, "!", "", 0, 0},
    {YAML_TAG_TOKEN, "!a!", "s", 0, 0},
    {YAML_TAG_TOKEN, "!!", "a tag in full that is too long for the room that there is for a short one", 0, 0},
    {YAML_TAG_TOKEN, "", "", 0, 0},
    {YAML_SCALAR_TOKEN, "plain", NULL, YAML_PLAIN_SCALAR_STYLE, 0},
    {YAML_SCALAR_TOKEN, "", NULL, YAML_DOUBLE_QUOTED_SCALAR_STYLE, 0},
};
enum { KINDS = sizeof TOKENS / sizeof *TOKENS, MOST = 12 };
static int list[MOST], length, given, wants_more;

static yaml_char_t *text_of(const char *from)
{
    yaml_char_t *made = from == NULL ? NULL : malloc(strlen(from) + 1);

    return made == NULL ? NULL : memcpy(made, from, strlen(from) + 1);
}

/* In the place of libyaml's function of this name, for both parsers. */
int yaml_parser_fetch_more_tokens(yaml_parser_t *parser)
{
    const struct token *next = &TOKENS[list[given]];
    yaml_token_t token = {.type = next->type};
    yaml_char_t *first, *second;

    parser->token_available = parser->tokens.head != parser->tokens.tail;
    if (parser->token_available)
        return 1;
    if (given == length) {
        wants_more = 1;
        parser->error = YAML_SCANNER_ERROR;
        parser->problem = "the list ends";
        return 0;
    }
    first = text_of(next->first);
    second = text_of(next->second);
    if ((first == NULL) != (next->first == NULL) || (second == NULL) != (next->second == NULL)) {
        free(first);
        free(second);
        if (next->type != YAML_TAG_TOKEN)  /* of whose texts libyaml's scanner doesn't say so */
            parser->error = YAML_MEMORY_ERROR;
        return 0;
    }
    token.start_mark = (yaml_mark_t){10 * given + 1, given + 1, 3 * given + 2};
    token.end_mark = (yaml_mark_t){10 * given + 5, given + 1, 3 * given + 7};
    switch (next->type) {
    case YAML_STREAM_START_TOKEN:
        token.data.stream_start.encoding = next->number;
        parser->stream_start_produced = 1;
        break;
    case YAML_VERSION_DIRECTIVE_TOKEN:
        token.data.version_directive.major = next->number;
        token.data.version_directive.minor = next->other;
        break;
    case YAML_SCALAR_TOKEN:
        token.data.scalar.value = first;
        token.data.scalar.length = strlen(next->first);
        token.data.scalar.style = next->number;
        break;
    default:  /* one or two texts, or none */
        token.data.tag.handle = first;
        token.data.tag.suffix = second;
    }
    given++;
    *parser->tokens.tail++ = token;
    return parser->token_available = 1;
}
