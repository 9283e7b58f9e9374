/* check.h: what the tests share. A check that fails prints its line, and the test ends with 1. */
#ifndef CHECK_H
#define CHECK_H

#include <stdio.h>
#include <stdlib.h>

#define CHECK(it)                                                                                          \
    do {                                                                                                   \
        if (!(it)) {                                                                                       \
            fprintf(stderr, "%s:%d: %s\n", __FILE__, __LINE__, #it);                                       \
            exit(1);                                                                                       \
        }                                                                                                  \
    } while (0)

/* How many items an array has. */
#define COUNT(array) (sizeof(array) / sizeof(array)[0])

#endif
