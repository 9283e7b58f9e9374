/* Stands for a later version of the shared library: its structs may be others, so a call made by this
 * version's header would do damage. */
#include <stdint.h>
#include <stdlib.h>

uint32_t larboardyuzu_version(void);
uint32_t larboardyuzu_down_open(void);
uint32_t larboardyuzu_down_packet(void);
void larboardyuzu_down_close(void);

uint32_t larboardyuzu_version(void)
{
    return 0x00FE00;
}

uint32_t larboardyuzu_down_open(void)
{
    abort();
}

uint32_t larboardyuzu_down_packet(void)
{
    abort();
}

void larboardyuzu_down_close(void)
{
    abort();
}
