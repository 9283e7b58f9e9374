/* The heap functions of another library of the kit, which this library doesn't call. */
#include <stdlib.h>

void *rattle_alloc(void);
void *rattle_realloc(void);
void rattle_dealloc(void);

void *rattle_alloc(void)
{
    abort();
}

void *rattle_realloc(void)
{
    abort();
}

void rattle_dealloc(void)
{
    abort();
}
