/* A plugin that is linked with the archive: it translates a note by the version that it was built with. */
#include "larboardyuzu.h"

uint32_t plugin(void);

/* The version of the library whose calls the plugin gets, or 0 if they don't fit its header. */
uint32_t plugin(void)
{
    static const uint32_t note[] = { 0x20903C64 };
    uint8_t bytes[LARBOARDYUZU_DOWN_SIZE(16)];
    larboardyuzu_down down = LARBOARDYUZU_CLOSED;
    larboardyuzu_piece piece;
    uint32_t version;

    if (!LARBOARDYUZU_IS_COMPATIBLE() || larboardyuzu_down_open(&down, 16, 0) != LARBOARDYUZU_DONE)
        return 0;
    version = larboardyuzu_down_packet(&down, note, 1, 0, bytes, sizeof bytes, &piece) == LARBOARDYUZU_DONE
                      && piece.written == 3 && bytes[0] == 0x90 && bytes[1] == 0x3C && bytes[2] == 0x64
                  ? larboardyuzu_version()
                  : 0;
    larboardyuzu_down_close(&down);
    return version;
}
