/* What the checks share: a count, and the layouts that they lend. */
#ifndef CHECK_H
#define CHECK_H

#include <stdio.h>

#include "lay.h"

extern unsigned checks, failures;

#define CHECK(what)                                          \
    do {                                                     \
        checks++;                                            \
        if (!(what)) {                                       \
            failures++;                                      \
            printf("%s:%d: %s\n", __FILE__, __LINE__, #what); \
        }                                                    \
    } while (0)

/* A string constant as bytes and a length. */
#define BYTES(s) (const uint8_t *)(s), sizeof(s) - 1

/* A catalogue and one that is not valid; a layout of one record and one struct, the layout of its upgrade, and the first one damaged: a
 * reserved byte is set. */
extern uint8_t cat[OWL_CATALOGUE], bad_cat[OWL_CATALOGUE], old[1024], new[1024], bad[1024];
extern size_t old_len, new_len;
extern const struct field new_fields[4];

/* The hash that the new record stores, computed here. */
extern uint64_t new_hash;

/* The sum by the bit rule. */
uint64_t bitwise(const uint8_t *bytes, size_t n);

void check_layouts(void);
void check_cursor(void);
void check_plans(void);

#endif
