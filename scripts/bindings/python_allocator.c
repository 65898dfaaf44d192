/* Refuses an allocation of the Python interpreter that it is loaded into; see python_leaks.py.
 *
 * refuse_allocation(n) lets the n-th allocation from then on return NULL, and none where n is 0. It
 * returns how many there were since the last call. For the GNU C library. */

#include <errno.h>
#include <stddef.h>

extern void *__libc_malloc(size_t size);
extern void *__libc_calloc(size_t count, size_t size);
extern void *__libc_realloc(void *block, size_t size);

static long refused;
static long allocations;

long refuse_allocation(long number)
{
    long before = allocations;
    refused = number;
    allocations = 0;
    return before;
}

static int is_refused(void)
{
    if (++allocations != refused)
        return 0;
    errno = ENOMEM;
    return 1;
}

void *malloc(size_t size)
{
    return is_refused() ? NULL : __libc_malloc(size);
}

void *calloc(size_t count, size_t size)
{
    return is_refused() ? NULL : __libc_calloc(count, size);
}

void *realloc(void *block, size_t size)
{
    return is_refused() ? NULL : __libc_realloc(block, size);
}
