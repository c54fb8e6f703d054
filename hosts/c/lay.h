/* Catalogues and layouts as lent bytes (docs/FORMATS.md), packed for the checks. */
#ifndef LAY_H
#define LAY_H

#include <string.h>

#include "tuppenceowl.h"

enum class_of { OTHER, UNSIGNED, SIGNED, DECIMAL, STRING, STRUCT, PADDING };
enum type_id { U8 = 1, U16, U32, U64, I8 = 17, I16, I32, I64, PRICE = 33, CSTR = 49, SYMBOL, NESTED = 65, PAD = 80 };
enum flag { ARRAY = 128, EXTENSION = 64 };
enum id { HEADER_ID = 1, PADDING_ID = 0 };

struct field {
    uint16_t id, offset, size;
    uint8_t type, flags;
    uint16_t def;
    const char *name;
};

struct record {
    uint16_t rtype, schema;
    uint32_t base;
    uint64_t hash;
    const char *name;
    const struct field *fields;
    size_t count;
};

struct nested {
    uint32_t size;
    const struct field *fields;
    size_t count;
};

/* A number of n bytes, low first. */
static inline void put(uint8_t *at, uint64_t number, size_t n) {
    for (size_t i = 0; i < n; i++) at[i] = (uint8_t)(number >> 8 * i);
}

static inline void put_name(uint8_t *at, const char *name) {
    at[0] = (uint8_t)strlen(name);
    memcpy(at + 1, name, strlen(name));
}

static inline void put_field(uint8_t *at, const struct field *f) {
    memset(at, 0, OWL_FIELD);
    put(at, f->id, 2);
    put(at + 2, f->offset, 2);
    put(at + 4, f->size, 2);
    at[6] = f->type;
    at[7] = f->flags;
    put(at + 8, f->def, 2);
}

static inline void lay_catalogue(uint8_t cat[OWL_CATALOGUE]) {
    memset(cat, 0, OWL_CATALOGUE);
    for (int i = 0; i < 4; i++) {
        cat[U8 + i] = (uint8_t)(UNSIGNED << 4 | 1 << i);
        cat[I8 + i] = (uint8_t)(SIGNED << 4 | 1 << i);
    }
    cat[PRICE] = DECIMAL << 4 | 8;
    cat[CSTR] = cat[SYMBOL] = STRING << 4;
    cat[NESTED] = STRUCT << 4;
    cat[PAD] = PADDING << 4;
    cat[256] = ARRAY;
    cat[257] = EXTENSION;
    put(cat + 258, HEADER_ID, 2);
    put(cat + 260, PADDING_ID, 2);
}

/* The fields at `end`, told at `at` as a start and a length; behind them is where the next part goes. */
static inline size_t lay_table(uint8_t *block, size_t at, size_t end, const struct field *fields, size_t count) {
    put(block + at, end, 4);
    put(block + at + 4, OWL_FIELD * count, 4);
    for (size_t i = 0; i < count; i++) put_field(block + end + OWL_FIELD * i, &fields[i]);
    return end + OWL_FIELD * count;
}

/* A block of these records and structs; how many bytes it takes. */
static inline size_t lay(uint8_t *block, const struct record *r, size_t records, const struct nested *s, size_t structs) {
    size_t end = 8 + 72 * records + 48 * structs;
    memset(block, 0, end);
    put(block, records, 2);
    put(block + 2, structs, 2);
    for (size_t k = 0; k < records; k++) {
        size_t at = 8 + 72 * k;
        put(block + at, r[k].rtype, 2);
        put(block + at + 2, r[k].schema, 2);
        put(block + at + 4, r[k].base, 4);
        put(block + at + 8, r[k].hash, 8);
        end = lay_table(block, at + 16, end, r[k].fields, r[k].count);
        put(block + at + 24, end, 4);
        put(block + at + 28, OWL_NAME * r[k].count, 4);
        memset(block + end, 0, OWL_NAME * r[k].count);
        for (size_t i = 0; i < r[k].count; i++, end += OWL_NAME) put_name(block + end, r[k].fields[i].name);
        put_name(block + at + 32, r[k].name);
    }
    for (size_t k = 0; k < structs; k++) {
        size_t at = 8 + 72 * records + 48 * k;
        put(block + at, s[k].size, 4);
        end = lay_table(block, at + 4, end, s[k].fields, s[k].count);
    }
    return end;
}

#endif
