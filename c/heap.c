/* The library's memory, over malloc, realloc and free, which align to 16. */
#include "larboardyuzu_heap.h"

#include <stdlib.h>

/* The library reads and writes nothing there. It is constant, so that the library has no data that can be
 * written. */
static const char nothing;

static larboardyuzu_given given(void *at)
{
    larboardyuzu_given it;
    it.is_given = at != NULL;
    it.at = at != NULL ? at : (void *)&nothing;
    return it;
}

larboardyuzu_given larboardyuzu_heap_alloc(size_t size, size_t align)
{
    (void)align;
    return given(malloc(size != 0 ? size : 1));
}

larboardyuzu_given larboardyuzu_heap_realloc(void *at, size_t kept, size_t size, size_t align)
{
    (void)kept;
    (void)align;
    return given(realloc(at, size != 0 ? size : 1));
}

void larboardyuzu_heap_dealloc(void *at)
{
    free(at);
}
