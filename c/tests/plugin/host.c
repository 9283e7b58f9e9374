/* host PLUGIN: a host that has another version of the library, and functions of its own with the names by
 * which a library asks for memory (and those of kit_heap.c). Its plugin gets neither. */
#include "../check.h"
#include "larboardyuzu.h"

#include <dlfcn.h>
#include <string.h>

void *larboardyuzu_heap_alloc(void);
void *larboardyuzu_heap_realloc(void);
void larboardyuzu_heap_dealloc(void);

void *larboardyuzu_heap_alloc(void)
{
    abort();
}

void *larboardyuzu_heap_realloc(void)
{
    abort();
}

void larboardyuzu_heap_dealloc(void)
{
    abort();
}

int main(int count, char **given)
{
    void *library = count > 1 ? dlopen(given[1], RTLD_NOW | RTLD_LOCAL) : NULL;
    void *found = library != NULL ? dlsym(library, "plugin") : NULL;
    uint32_t (*plugin)(void);

    CHECK(found != NULL && dlsym(library, "larboardyuzu_no_such") == NULL);
    memcpy(&plugin, &found, sizeof plugin);
    CHECK(!LARBOARDYUZU_IS_COMPATIBLE());
    CHECK(plugin() == LARBOARDYUZU_VERSION);
    CHECK(dlclose(library) == 0);
    printf("plugin: the host has %06X, and the plugin its own %06X\n", (unsigned)larboardyuzu_version(),
           (unsigned)LARBOARDYUZU_VERSION);
    return 0;
}
