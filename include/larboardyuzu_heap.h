/* larboardyuzu_heap.h: the three functions through which the library allocates and frees memory. The library
 * defines them over malloc, realloc and free. A program that is linked with the static library may define all
 * three itself; the library then uses those, and doesn't need malloc. Only the calls that end in _open or
 * _close call them.
 *
 * Such functions must be safe for all threads that open or close handles: a handle belongs to one call at a
 * time, but two threads may open two handles at once. They never return the same block for two live
 * allocations, and never change the contents of an allocated block.
 */
#ifndef LARBOARDYUZU_HEAP_H
#define LARBOARDYUZU_HEAP_H

#include <stdbool.h>
#include <stddef.h>

#ifdef __cplusplus
extern "C" {
#endif

/* Hides the three names in a shared library that is linked with the archive, whoever defines them. */
#if defined(__GNUC__)
#define LARBOARDYUZU_HEAP __attribute__((visibility("hidden")))
#else
#define LARBOARDYUZU_HEAP
#endif

/* The result of an allocation. `at` is never null, even if the allocation failed. */
typedef struct larboardyuzu_given {
    bool is_given;
    void *at;
} larboardyuzu_given;

/* Gives `size` bytes at an address that `align`, a power of two up to 16, divides. */
LARBOARDYUZU_HEAP larboardyuzu_given larboardyuzu_heap_alloc(size_t size, size_t align);

/* Replaces a block of `kept` bytes by one of `size` bytes, and copies as many of the old bytes as fit. On
 * failure the old block is left unchanged. */
LARBOARDYUZU_HEAP larboardyuzu_given larboardyuzu_heap_realloc(void *at, size_t kept, size_t size,
                                                              size_t align);

/* Frees a block returned by larboardyuzu_heap_alloc or larboardyuzu_heap_realloc. */
LARBOARDYUZU_HEAP void larboardyuzu_heap_dealloc(void *at);

#ifdef __cplusplus
}
#endif

#endif
