/* What the tests share. A failed check names its line, and ends the program. */
#ifndef CHECK_H
#define CHECK_H

#include "globset.h"

#include <stdio.h>
#include <stdlib.h>
#include <string.h>

#define CHECK(fact)                                                            \
    do {                                                                       \
        if (!(fact)) {                                                         \
            fprintf(stderr, "%s:%d: failed: %s\n", __FILE__, __LINE__, #fact); \
            exit(1);                                                           \
        }                                                                      \
    } while (0)

/* A text without NULs, and its length. */
#define TEXT(text) (text), strlen(text)

#endif
