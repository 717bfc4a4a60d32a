/* What `yamltokens` does, by libyaml's own parser and loader: token lines on standard input, the lines of events or of
 * documents on standard output. Built with -DBY_RULES (run.sh), it differs nowhere from this repository; without
 * (bench/run.sh), wherever libyaml does. */
#include <setjmp.h>

#ifndef BY_RULES
#define BY_RULES 0
#endif

static jmp_buf before_lines;
#define bad_line(why) longjmp(before_lines, ((void)(why), 1))

#include "../parts/lines/read_tokens.h"
#include "../parts/lines/write_lines.h"

static size_t tokens_given;
static yaml_parser_t parser;

static int source_error(yaml_error_type_t error, const char *problem)
{
    parser.error = error;
    parser.problem = problem;
    parser.problem_mark = (yaml_mark_t){tokens_given, tokens_given, 0};
    return 0;
}

/* What the parser calls where it has no token, in place of its scanner; it uses one place of the queue. */
int yaml_parser_fetch_more_tokens(yaml_parser_t *same)
{
    same->tokens.head = same->tokens.tail = same->tokens.start;
    if (!next_token(same->tokens.tail))
        return source_error(YAML_READER_ERROR, "no more tokens");
    same->tokens.tail++;
    same->token_available = 1;
    same->stream_start_produced = 1; /* for the loader, which begins the stream where it isn't set */
    tokens_given++;
    return 1;
}

#if BY_RULES
#include "rules.h"
#else
static int leave_out(const char *name)
{
    return (void)name, 0;
}
#endif

static yaml_char_t *written = output; /* the end of what is written and not flushed */

static int write_events(void)
{
    yaml_char_t *at = written;
    yaml_event_t event;
    int went = 1, is_last = 0;

    for (; !is_last && (went = yaml_parser_parse(&parser, &event)); written = at) {
        at = put_event(at, &event);
        is_last = event.type == YAML_STREAM_END_EVENT;
        yaml_event_delete(&event);
    }
    return went;
}

static int write_nodes(void)
{
    yaml_char_t *at = written;
    yaml_document_t document;
    int went = 1, is_last = 0;

    for (; !is_last && (went = yaml_parser_load(&parser, &document)); written = at) {
        is_last = document.nodes.start == document.nodes.top;
        if (!is_last)
            at = put_document(at, &document);
        yaml_document_delete(&document);
    }
    return went;
}

/* The lines of the error (docs/DEFINITIONS.md, "Error text"). */
static void write_error(void)
{
    static const char *const KINDS[] = {"none", "memory", "reader", "scanner", "parser", "composer", "writer", "emitter"};
    yaml_mark_t mark = parser.problem_mark, context = parser.context_mark;

    dprintf(1, "FAULT %s %zu:%zu:%zu %s\n", KINDS[parser.error], mark.index, mark.line, mark.column,
            parser.problem == NULL ? "-" : parser.problem);
    if (parser.context != NULL)
        dprintf(1, "CONTEXT %zu:%zu:%zu %s\n", context.index, context.line, context.column, parser.context);
}

int main(int count, char **words)
{
    int at = 1, went;

    zero_byte = BY_RULES ? ZERO_BYTE : 0;
    while (at + 1 < count && strcmp(words[at], "--without") == 0 && leave_out(words[at + 1]))
        at += 2;
    if (at + 1 != count || (strcmp(words[at], "events") != 0 && strcmp(words[at], "nodes") != 0)) {
        fputs("usage: libyaml_lines [--without RULE].. events|nodes < token-lines\n", stderr);
        return 2;
    }
    if (!yaml_parser_initialize(&parser))
        quit("out of memory");
    if (setjmp(before_lines) == 0)
        went = words[at][0] == 'e' ? write_events() : write_nodes();
    else
        went = source_error(YAML_SCANNER_ERROR, "bad token line");
    flush(written);
    if (!went)
        write_error();
    yaml_parser_delete(&parser);
    return went ? 0 : 1;
}
