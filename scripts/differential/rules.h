/* The rules of docs/DIFFERENCES.md, "Other events", around libyaml's parser over token lines, for libyaml_lines.c.
 *
 * libyaml's loader calls yaml_parser_parse, which the linker leads here (--wrap): before libyaml's parser is called,
 * each rule looks whether the state and the next token are its own. */

/* In the order of that page. */
enum rule { PAIR_KEY, VALUE_FIRST, BARE_DOCUMENT, EMPTY_PLACE, ZERO_BYTES, RULES };
static const char *const RULE_NAMES[RULES] = {"pair_key", "value_first", "bare_document", "empty_place", "zero_bytes"};

/* Whether a rule is left out, so that libyaml does there as it always does. */
static int left_out[RULES];

static int has_explicit_end; /* of the document that ended last */

/* Of libyaml, but in no public header. */
int yaml_stack_extend(void **start, void **top, void **end);

int __wrap_yaml_parser_parse(yaml_parser_t *parser, yaml_event_t *event);
int __real_yaml_parser_parse(yaml_parser_t *parser, yaml_event_t *event);

/* The next token, which stays; NULL where the source has a fault. */
static const yaml_token_t *peek(yaml_parser_t *parser)
{
    return parser->token_available || yaml_parser_fetch_more_tokens(parser) ? parser->tokens.head : NULL;
}

/* Consumes a token that holds no text. */
static void skip(yaml_parser_t *parser)
{
    parser->token_available = 0;
    parser->tokens_parsed++;
    parser->tokens.head++;
}

/* Makes an empty scalar of the key of a pair or entry, and goes on to its value. */
static int empty_key(yaml_parser_t *parser, yaml_event_t *event, yaml_mark_t place, yaml_parser_state_t state)
{
    parser->state = state;
    memset(event, 0, sizeof *event);
    event->type = YAML_SCALAR_EVENT;
    event->start_mark = event->end_mark = place;
    event->data.scalar.value = calloc(1, 1);
    event->data.scalar.plain_implicit = 1;
    event->data.scalar.style = YAML_PLAIN_SCALAR_STYLE;
    if (event->data.scalar.value == NULL)
        abort();
    return 1;
}

/* In a flow pair, the VALUE, FLOW-ENTRY or FLOW-SEQUENCE-END after KEY stays (PAIR_KEY), and the empty key stands at its
 * start (EMPTY_PLACE). In libyaml that token is skipped, and the empty key stands at its end. */
static int is_empty_pair_key(const yaml_token_t *token)
{
    return token->type == YAML_VALUE_TOKEN || token->type == YAML_FLOW_ENTRY_TOKEN ||
           token->type == YAML_FLOW_SEQUENCE_END_TOKEN;
}

static int parse_pair_key(yaml_parser_t *parser, yaml_event_t *event)
{
    const yaml_token_t *token = peek(parser);

    if (token == NULL)
        return 0;
    if (!is_empty_pair_key(token))
        return __real_yaml_parser_parse(parser, event);
    return empty_key(parser, event, left_out[EMPTY_PLACE] ? token->end_mark : token->start_mark,
                     YAML_PARSE_FLOW_SEQUENCE_ENTRY_MAPPING_VALUE_STATE);
}

/* Enters a block mapping as libyaml does in the same call that looks for the first key: a mark is kept of where it
 * starts, and the token that opens it is consumed. */
static void enter_block_mapping(yaml_parser_t *parser)
{
    if (parser->marks.top == parser->marks.end &&
        !yaml_stack_extend((void **)&parser->marks.start, (void **)&parser->marks.top, (void **)&parser->marks.end))
        abort();
    *parser->marks.top++ = parser->tokens.head->start_mark;
    skip(parser);
    parser->state = YAML_PARSE_BLOCK_MAPPING_KEY_STATE;
}

/* An entry of a block mapping may begin with VALUE: its key is empty, at the VALUE's start (VALUE_FIRST). In libyaml a
 * VALUE there is a fault. */
static int parse_entry_key(yaml_parser_t *parser, yaml_event_t *event)
{
    if (parser->state == YAML_PARSE_BLOCK_MAPPING_FIRST_KEY_STATE)
        enter_block_mapping(parser);
    const yaml_token_t *token = peek(parser);
    if (token == NULL)
        return 0;
    if (token->type != YAML_VALUE_TOKEN)
        return __real_yaml_parser_parse(parser, event);
    return empty_key(parser, event, token->start_mark, YAML_PARSE_BLOCK_MAPPING_VALUE_STATE);
}

/* After a document that has a DOCUMENT-END the next document may be implicit (BARE_DOCUMENT). In libyaml it needs
 * DOCUMENT-START, unless it is the first. */
static int parse_after_explicit_end(yaml_parser_t *parser, yaml_event_t *event)
{
    const yaml_token_t *token;

    while ((token = peek(parser)) != NULL && token->type == YAML_DOCUMENT_END_TOKEN)
        skip(parser);
    if (token == NULL)
        return 0;
    parser->state = YAML_PARSE_IMPLICIT_DOCUMENT_START_STATE;
    return __real_yaml_parser_parse(parser, event);
}

static int parse_by_rules(yaml_parser_t *parser, yaml_event_t *event)
{
    switch (parser->state) {
    case YAML_PARSE_FLOW_SEQUENCE_ENTRY_MAPPING_KEY_STATE:
        return (left_out[PAIR_KEY] ? __real_yaml_parser_parse : parse_pair_key)(parser, event);
    case YAML_PARSE_BLOCK_MAPPING_FIRST_KEY_STATE:
    case YAML_PARSE_BLOCK_MAPPING_KEY_STATE:
        return (left_out[VALUE_FIRST] ? __real_yaml_parser_parse : parse_entry_key)(parser, event);
    case YAML_PARSE_DOCUMENT_START_STATE:
        if (has_explicit_end && !left_out[BARE_DOCUMENT])
            return parse_after_explicit_end(parser, event);
        return __real_yaml_parser_parse(parser, event);
    default:
        return __real_yaml_parser_parse(parser, event);
    }
}

int __wrap_yaml_parser_parse(yaml_parser_t *parser, yaml_event_t *event)
{
    int parsed = parse_by_rules(parser, event);

    if (parsed && event->type == YAML_DOCUMENT_END_EVENT)
        has_explicit_end = !event->data.document_end.implicit;
    return parsed;
}

/* Leaves out the rule of this name; 0 where there is none. */
static int leave_out(const char *name)
{
    int rule = 0;

    while (rule < RULES && strcmp(RULE_NAMES[rule], name) != 0)
        rule++;
    if (rule < RULES)
        left_out[rule] = 1;
    if (rule == ZERO_BYTES)
        zero_byte = 0;
    return rule < RULES;
}
