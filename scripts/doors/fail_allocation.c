/* Makes the Nth allocation of a program fail, for the checks beside this file. If the
 * program makes fewer, it says so. If N is 0 none fails, and it says how many the program made.
 *
 *     cc -O2 -fPIC -shared -o fail_allocation.so fail_allocation.c
 *     REFUSE=N LD_PRELOAD=./fail_allocation.so PROGRAM
 *
 * A program may count anew from any moment on, by calls of `refuse_allocation` and `allocations_made`; it sets no REFUSE, and
 * nothing is said then.
 */
#include <stdio.h>
#include <stdlib.h>
#include <unistd.h>

extern void *__libc_malloc(size_t);
extern void *__libc_realloc(void *, size_t);

static long made, refused = -1;
static int is_called;

static int is_refused(void)
{
    if (refused < 0) {
        const char *n = getenv("REFUSE");
        refused = n ? atol(n) : 0;
    }
    return ++made == refused;
}

/* Has the Nth allocation from now on fail, and none where N is 0. */
void refuse_allocation(long n)
{
    is_called = 1;
    made = 0;
    refused = n;
}

/* How many there were since. */
long allocations_made(void)
{
    return made;
}

void *malloc(size_t size)
{
    return is_refused() ? NULL : __libc_malloc(size);
}

void *realloc(void *old, size_t size)
{
    return is_refused() ? NULL : __libc_realloc(old, size);
}

__attribute__((destructor)) static void report(void)
{
    char text[64];
    long n = made;

    if (is_called || (refused > 0 && n >= refused))
        return;
    int length = refused > 0 ? snprintf(text, sizeof text, "no allocation failed\n")
                             : snprintf(text, sizeof text, "%ld allocations\n", n);
    if (write(2, text, (size_t)length) < 0)
        return;
}
