/* Prints the version of the header, and sees that the library has the same. */
#include "check.h"
#include "larboardyuzu.h"

int main(void)
{
    uint32_t version = larboardyuzu_version();

    CHECK(version == LARBOARDYUZU_VERSION && LARBOARDYUZU_IS_COMPATIBLE());
    printf("%u.%u.%u\n", (unsigned)(version >> 16), (unsigned)(version >> 8 & 255), (unsigned)(version & 255));
    return 0;
}
