/* own_heap.h: how much of the fixed block of own_heap.c is in use. */
#ifndef OWN_HEAP_H
#define OWN_HEAP_H

#include <stddef.h>

/* Returns the number of requests for memory so far. */
size_t own_heap_requests(void);

/* Returns the number of bytes of the block that are in use, with the heads of their pieces. */
size_t own_heap_used(void);

/* Returns how large the block must be at least for what was opened since nothing of it was in use. */
size_t own_heap_most(void);

#endif
