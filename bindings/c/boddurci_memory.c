/* The allocator of libboddurci.a: the three functions that the library needs from the program, implemented by malloc. They have no state,
 * and libboddurci.so does not export them. */
#include <stdbool.h>
#include <stddef.h>
#include <stdlib.h>

/* The pointer that a failed allocation returns: the library does not accept NULL, and never reads or writes at this pointer. */
static char nowhere;

struct given {
    bool is_given;
    void *at;
};

#define HIDDEN __attribute__((visibility("hidden")))

static struct given given(void *at)
{
    struct given answer = { at != NULL, at != NULL ? at : (void *)&nowhere };
    return answer;
}

HIDDEN struct given rattle_alloc(size_t size, size_t align)
{
    return given(malloc(size != 0 ? size : align));
}

HIDDEN struct given rattle_realloc(void *at, size_t old_size, size_t size, size_t align)
{
    (void)old_size;
    return given(realloc(at, size != 0 ? size : align));
}

HIDDEN void rattle_dealloc(void *at)
{
    free(at);
}
