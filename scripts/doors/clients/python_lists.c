/* For python_lists.py, preloaded: a list of tokens in the place of libyaml's scanner, and the allocations of an extension that is built
 * with -Dmalloc=lists_malloc and so on, of which one may fail. */
#include <malloc.h>
#include <stdlib.h>

static long refused_at;

static int refuse(void)
{
    return refused_at > 0 && --refused_at == 0;
}

void *lists_malloc(size_t size)
{
    return refuse() ? NULL : malloc(size);
}

void *lists_realloc(void *block, size_t size)
{
    return refuse() ? NULL : realloc(block, size);
}

void *lists_calloc(size_t count, size_t size)
{
    return refuse() ? NULL : calloc(count, size);
}

#define malloc lists_malloc
#include "token_lists.h"

/* How many tokens there are to choose from. */
int lists_kinds(void)
{
    return KINDS;
}

int lists_type(int kind)
{
    return TOKENS[kind].type;
}

/* Has the scanner of the next parser give these. */
void lists_begin(const int *kinds, int count)
{
    memcpy(list, kinds, (size_t)count * sizeof *list);
    length = count;
    given = wants_more = 0;
}

/* Whether a parser wanted more than there are. */
int lists_wants_more(void)
{
    return wants_more;
}

/* Has the Nth allocation from now on fail, and none where N is 0; returns how many were left of the last N. */
long lists_refuse(long at)
{
    long left = refused_at;

    refused_at = at;
    return left;
}

/* How many bytes are in use. */
size_t lists_bytes(void)
{
    return mallinfo2().uordblks;
}
