//go:build cgo && linux && refused_memory

// Package refusing refuses C's allocations in tests. It is linked with the flags --wrap=malloc and
// --wrap=realloc, which only scripts/check.sh allows.
package refusing

/*
#cgo LDFLAGS: -Wl,--wrap=malloc -Wl,--wrap=realloc
#include <stdbool.h>
#include <stddef.h>

void *__real_malloc(size_t size);
void *__real_realloc(void *block, size_t size);

// Of each thread, since the runtime of Go allocates in others.
static _Thread_local long until_refused = -1;
static _Thread_local bool was_refused;

static bool is_refused(void)
{
    if (until_refused < 0 || until_refused-- > 0)
        return false;
    was_refused = true;
    return true;
}

void *__wrap_malloc(size_t size)
{
    return is_refused() ? NULL : __real_malloc(size);
}

void *__wrap_realloc(void *block, size_t size)
{
    return is_refused() ? NULL : __real_realloc(block, size);
}

static void refuse(long number)
{
    was_refused = false;
    until_refused = number;
}

static bool stop(void)
{
    until_refused = -1;
    return was_refused;
}
*/
import "C"

import "runtime"

// One calls a function and refuses C one allocation of this thread meanwhile: that of a number, from
// 0. It reports whether there was one.
func One(number int, call func()) bool {
	runtime.LockOSThread()
	defer runtime.UnlockOSThread()
	C.refuse(C.long(number))
	call()
	return bool(C.stop())
}
