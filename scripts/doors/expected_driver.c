/* Compares pokhvizi_expected and pokhvizi_expected_exact with what the steps do, over lists of tokens that are drawn:
 *
 *     expected_driver LISTS SEED [turned]
 *
 * At each place a token of each kind, with a fact that is right where one is, is handed to a copy of the steps, exact or not: it
 * has to be refused exactly if its kind isn't in the set. Of each token that is refused the set is asked for again, from what the
 * record was before it and what the stack is after it. The words of each set are written and counted. From each place a copy is
 * completed by pokhvizi_completing, without an error and by at most two tokens more than there are collections open. With `turned` each set lacks
 * its first kind, which has to be seen. The last line counts; the status is 1 if something differs. */
#include <pokhvizi/steps.h>
#include <stddef.h>
#include <stdio.h>
#include <stdlib.h>
#include <string.h>

enum { ROOM = 256, KINDS = 22, BEFORE = offsetof(pokhvizi_steps_t, read.problem) + 1 };

/* A parse with its stacks. */
struct parse {
    pokhvizi_steps_t steps;
    uint8_t states[ROOM];
    pokhvizi_mark_t marks[ROOM];
};

static unsigned long long state;
static uint8_t facts[KINDS];

static unsigned drawn(unsigned below)
{
    state = state * 6364136223846793005u + 1442695040888963407u;
    return (unsigned)(state >> 33) % below;
}

static void make_facts(void)
{
    uint8_t out[32];
    size_t size;

    facts[3] = pokhvizi_version_fact(1, 1);
    facts[4] = pokhvizi_directive_fact(NULL, 0, NULL, 0, (const uint8_t *)"!a!", 3);
    facts[20] = pokhvizi_tag(NULL, 0, NULL, 0, (const uint8_t *)"!", 1, (const uint8_t *)"a", 1, out, sizeof out, &size);
    facts[21] = 1;
}

/* Hands a token in, with all that it gives, and returns what the last step did with it. */
static uint32_t hand_in(struct parse *parse, int is_exact, uint8_t kind)
{
    static const pokhvizi_span_t at;
    pokhvizi_event_t event;
    pokhvizi_fault_t fault;
    uint32_t did;

    do
        did = (is_exact ? pokhvizi_step_exact : pokhvizi_step)(&parse->steps, parse->states, ROOM, parse->marks, ROOM, kind,
                                                               facts[kind], &at, &event, &fault);
    while (did == POKHVIZI_STAYS);
    if (did != POKHVIZI_WANTS && did != POKHVIZI_GAVE && did != POKHVIZI_FAULT) {
        puts("a stack has no room");
        exit(1);
    }
    return did;
}

static unsigned long places, tried, completed, refused, differ;

static void complain(const char *what, uint8_t kind, int is_exact, uint32_t expected)
{
    if (differ++ < 10)
        printf("%s: kind %u, %s steps, the set is %lx\n", what, kind, is_exact ? "exact" : "ordinary", (unsigned long)expected);
}

/* The set of a record over the stacks of a parse, which have to stay as they are. */
static uint32_t expected_at(const pokhvizi_steps_t *steps, struct parse *parse, int is_exact)
{
    struct parse copy = *parse;
    uint32_t expected = is_exact ? pokhvizi_expected_exact(steps, parse->states, ROOM, parse->marks, ROOM)
                                 : pokhvizi_expected(steps, parse->states, ROOM);

    if (memcmp(copy.states, parse->states, sizeof copy.states) != 0 || memcmp(copy.marks, parse->marks, sizeof copy.marks) != 0)
        complain("a stack has changed", 0, is_exact, expected);
    return expected;
}

/* Draws a kind: mostly one that may come next. */
static uint8_t kind_of(uint32_t expected)
{
    uint8_t kind = (uint8_t)(1 + drawn(KINDS - 1));

    if (drawn(40) != 0 && expected != 0)
        while (!(expected >> kind & 1) || (kind == 2 && drawn(8) != 0 && expected != 1u << 2))
            kind = (uint8_t)(1 + drawn(KINDS - 1));
    return kind;
}

/* Tries each kind where a parse stands. */
static void try_kinds(const struct parse *parse, int is_exact, uint32_t expected)
{
    struct parse copy;
    char words[512];

    for (uint8_t kind = 1; kind < KINDS; kind++, tried++) {
        copy = *parse;
        if ((hand_in(&copy, is_exact, kind) == POKHVIZI_FAULT) == (expected >> kind & 1))
            complain("not as the step", kind, is_exact, expected);
    }
    if ((expected != 0) != (pokhvizi_expected_words(expected, words, sizeof words) > 0))
        complain("its words", 0, is_exact, expected);
    places++;
}

/* Completes a copy of a parse: each token that this takes brings the end nearer. */
static void complete(struct parse parse, int is_exact, uint32_t expected)
{
    size_t most = parse.steps.machine.marks_count + 2, count = 0;
    uint8_t kind = 0;

    for (uint32_t next = expected; next != 0 && count <= most; count++) {
        kind = pokhvizi_completing(next);
        if (hand_in(&parse, is_exact, kind) == POKHVIZI_FAULT) {
            complain("not completed", kind, is_exact, next);
            return;
        }
        next = expected_at(&parse.steps, &parse, is_exact);
    }
    if (expected != 0 && (kind != 2 || count > most))
        complain("not completed by so few", kind, is_exact, expected);
    completed += count;
}

/* Draws a list and goes through it. */
static void walk(int is_exact, int is_turned)
{
    struct parse parse;
    pokhvizi_steps_t before;

    memset(&parse, 0, sizeof parse);
    pokhvizi_steps_new(&parse.steps);
    for (unsigned left = 1 + drawn(60); left > 0; left--) {
        uint32_t expected = expected_at(&parse.steps, &parse, is_exact);
        if (is_turned)
            expected &= expected - 1;
        try_kinds(&parse, is_exact, expected);
        if (!is_turned)
            complete(parse, is_exact, expected);
        uint8_t kind = kind_of(expected);
        memset(&before, 0, sizeof before);
        memcpy(&before, &parse.steps, BEFORE);
        if (hand_in(&parse, is_exact, kind) == POKHVIZI_FAULT) {
            refused++;
            if (!is_turned && expected_at(&before, &parse, is_exact) != expected)
                complain("asked for at the error", kind, is_exact, expected);
            return;
        }
        if (kind == 2)
            return;
    }
}

int main(int count, char **words)
{
    int is_turned = count == 4 && strcmp(words[3], "turned") == 0;

    if (count != 3 && !is_turned) {
        fputs("usage: expected_driver LISTS SEED [turned]\n", stderr);
        return 2;
    }
    state = strtoull(words[2], NULL, 10) * 2 + 1;
    make_facts();
    for (unsigned long lists = strtoul(words[1], NULL, 10); lists > 0; lists--)
        walk((int)(lists & 1), is_turned);
    printf("%lu places, %lu kinds tried, %lu completed by %lu tokens, %lu lists refused: %lu differ\n", places, tried, places,
           completed, refused, differ);
    return differ != 0 || refused == 0;
}
