/* Splits the MIDI 1.0 bytes of a block by lanes, for Down.translate: a loop over packets, which Python is too slow for.
 * wheels.py compiles it. Without it _handles.py does the same in Python. */
#include "larboardyuzu.h"

#include <string.h>

/* Writes the bytes of each piece after those of the pieces of its lane that came before it, and returns how many
 * pieces have a line. The bytes of lane n go to lanes + n * room, and sizes[n] is their number; each lane has room for
 * all the bytes of the block. */
size_t larboardyuzu_split(const uint8_t *bytes, const larboardyuzu_piece *pieces, size_t count, uint8_t *lanes,
                          size_t room, size_t sizes[16])
{
    size_t i, lane, lines = 0;

    memset(sizes, 0, 16 * sizeof *sizes);
    for (i = 0; i < count; i++) {
        lane = pieces[i].lane & 15u;
        memcpy(lanes + lane * room + sizes[lane], bytes, pieces[i].written);
        bytes += pieces[i].written;
        sizes[lane] += pieces[i].written;
        lines += pieces[i].kind != LARBOARDYUZU_NO_LINE;
    }
    return lines;
}
