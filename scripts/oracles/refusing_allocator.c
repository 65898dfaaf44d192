/* Refuses one allocation of the program that it is loaded into, and counts them all.
 *
 * REFUSED_ALLOCATION is the number of the allocation that is refused, counted from 1; 0 refuses none. The count is written
 * to the file descriptor COUNT_DESCRIPTOR when the program ends. For the GNU C library; see refused_memory.py. */

#include <errno.h>
#include <stddef.h>
#include <stdio.h>
#include <stdlib.h>

extern void *__libc_malloc(size_t size);
extern void *__libc_realloc(void *block, size_t size);

static long allocations;
static long refused;

__attribute__((constructor)) static void begin(void)
{
    const char *number = getenv("REFUSED_ALLOCATION");
    refused = number ? atol(number) : 0;
    allocations = 0;
}

__attribute__((destructor)) static void end(void)
{
    const char *descriptor = getenv("COUNT_DESCRIPTOR");
    if (descriptor) {
        dprintf(atoi(descriptor), "%ld", allocations);
    }
}

static int is_refused(void)
{
    allocations++;
    if (allocations != refused) {
        return 0;
    }
    errno = ENOMEM;
    return 1;
}

void *malloc(size_t size)
{
    return is_refused() ? NULL : __libc_malloc(size);
}

void *realloc(void *block, size_t size)
{
    return is_refused() ? NULL : __libc_realloc(block, size);
}
