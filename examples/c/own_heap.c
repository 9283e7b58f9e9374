/* A program's own memory for the library: a fixed block, and no malloc. A request gets the first free piece
 * that is large enough, and a piece that is returned is joined with the free pieces beside it, so handles
 * can be opened and closed for ever. It has no lock: only one thread at a time may open or close handles.
 * HEAP_SIZE is the size of the block. */
#include "own_heap.h"

#include "larboardyuzu_heap.h"

#include <stdint.h>
#include <string.h>

#ifndef HEAP_SIZE
#define HEAP_SIZE (1024 * 1024)
#endif

/* The head of a piece, in front of its bytes. Pieces follow each other from the front of the block. */
typedef struct head {
    size_t size; /* of the piece with its head, a multiple of 16; 0 before the first request */
    size_t is_used;
} head;

static _Alignas(16) unsigned char block[HEAP_SIZE];
static size_t most;     /* the largest end of a used piece since the block was last free */
static size_t requests; /* the number of requests so far */

static head *head_at(size_t place)
{
    return (head *)(void *)(block + place);
}

static size_t place_of(void *at)
{
    return (size_t)((unsigned char *)at - block) - sizeof(head);
}

/* The size of a piece for so many bytes, or more than the block if they are too many. */
static size_t piece_size(size_t size)
{
    return size > HEAP_SIZE ? HEAP_SIZE + 1 : (size + sizeof(head) + 15) / 16 * 16;
}

/* Adds the free pieces after this one to it. */
static void join(size_t place)
{
    size_t next = place + head_at(place)->size;

    while (next < HEAP_SIZE && !head_at(next)->is_used)
        next += head_at(next)->size;
    head_at(place)->size = next - place;
}

/* Uses the front of a piece that is large enough, and leaves the rest as a free piece. */
static void use(size_t place, size_t size)
{
    size_t rest = head_at(place)->size - size;

    if (rest > 0) {
        head_at(place + size)->size = rest;
        head_at(place + size)->is_used = 0;
        head_at(place)->size = size;
        join(place + size);
    }
    head_at(place)->is_used = 1;
    if (place + size > most)
        most = place + size;
}

larboardyuzu_given larboardyuzu_heap_alloc(size_t size, size_t align)
{
    larboardyuzu_given it = { false, block };

    (void)align; /* divides 16 */
    requests++;
    if (head_at(0)->size == 0)
        head_at(0)->size = HEAP_SIZE;
    for (size_t place = 0; place < HEAP_SIZE; place += head_at(place)->size) {
        if (head_at(place)->is_used)
            continue;
        join(place);
        if (head_at(place)->size == HEAP_SIZE)
            most = 0;
        if (head_at(place)->size >= piece_size(size)) {
            use(place, piece_size(size));
            it.is_given = true;
            it.at = block + place + sizeof(head);
            break;
        }
    }
    return it;
}

larboardyuzu_given larboardyuzu_heap_realloc(void *at, size_t kept, size_t size, size_t align)
{
    size_t place = place_of(at), whole = head_at(place)->size;
    larboardyuzu_given it = { true, at };

    join(place);
    if (head_at(place)->size >= piece_size(size)) { /* it grows or shrinks where it is */
        use(place, piece_size(size));
        requests++;
        return it;
    }
    use(place, whole);
    it = larboardyuzu_heap_alloc(size, align);
    if (it.is_given) {
        memcpy(it.at, at, kept < size ? kept : size);
        larboardyuzu_heap_dealloc(at);
    }
    return it;
}

void larboardyuzu_heap_dealloc(void *at)
{
    head_at(place_of(at))->is_used = 0;
}

size_t own_heap_requests(void)
{
    return requests;
}

size_t own_heap_used(void)
{
    size_t used = 0;

    for (size_t place = 0; place < HEAP_SIZE && head_at(place)->size > 0; place += head_at(place)->size)
        used += head_at(place)->is_used ? head_at(place)->size : 0;
    return used;
}

size_t own_heap_most(void)
{
    return most;
}
