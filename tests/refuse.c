/* A library that is loaded before the C library. It makes the allocation with the number REFUSED_GROWTH fail. It reports this failure by a
 * byte on the pipe with the descriptor REFUSED_PIPE. tests/refused and tests/c_library use it. */
#include <errno.h>
#include <stdatomic.h>
#include <stddef.h>
#include <stdlib.h>
#include <unistd.h>

void *__libc_malloc(size_t);
void *__libc_calloc(size_t, size_t);
void *__libc_realloc(void *, size_t);

static atomic_long calls;
static long refused;

__attribute__((constructor)) static void begin(void)
{
    refused = atol(getenv("REFUSED_GROWTH"));
    calls = 0;
}

static int refuses(void)
{
    if (!refused || atomic_fetch_add(&calls, 1) + 1 != refused || write(atoi(getenv("REFUSED_PIPE")), "r", 1) != 1)
        return 0;
    errno = ENOMEM;
    return 1;
}

void *malloc(size_t size)
{
    return refuses() ? NULL : __libc_malloc(size);
}

void *calloc(size_t count, size_t size)
{
    return refuses() ? NULL : __libc_calloc(count, size);
}

void *realloc(void *block, size_t size)
{
    return refuses() ? NULL : __libc_realloc(block, size);
}
