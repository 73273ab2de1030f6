/* What all tests in C have: a check that ends the program. */
#ifndef HOLDS_H
#define HOLDS_H
#include <stdio.h>
#include <stdlib.h>

#define CHECK(holds)                                                                    \
    do {                                                                                \
        if (!(holds)) {                                                                 \
            fprintf(stderr, "%s:%d: not so: %s\n", __FILE__, __LINE__, #holds);         \
            exit(1);                                                                    \
        }                                                                               \
    } while (0)

#endif
