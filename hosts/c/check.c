/* Calls every function of the header, each with an answer that tells and with what it refuses; a call that is refused changes nothing.
 * Exit status 1 if any check fails. */
#include <stdlib.h>

#include "check.h"

unsigned checks, failures;
uint8_t cat[OWL_CATALOGUE], bad_cat[OWL_CATALOGUE], old[1024], new[1024], bad[1024];
size_t old_len, new_len;
uint64_t new_hash;

static const struct field old_fields[] = {
    {HEADER_ID, 0, 16, NESTED, 0, 9, "hd"},
    {10, 16, 6, CSTR, 0, 0, "venue"},
    {11, 22, 2, U16, 0, 0, "seq"},
};
const struct field new_fields[] = {
    {HEADER_ID, 0, 24, NESTED, 0, 9, "hd"},
    {11, 32, 4, U32, 0, 0, "seq"},
    {12, 36, 2, U16, 0, 0, "lot"},
    {10, 24, 6, CSTR, 0, 0, "venue"},
};
static const struct field inner_fields[] = {{20, 0, 4, U32, 0, 0, ""}, {21, 4, 2, U16, 0, 0, ""}};

/* The sum by the bit rule. */
uint64_t bitwise(const uint8_t *bytes, size_t n) {
    const uint64_t empty = 0xC15D213AA4D7A795;
    uint64_t sum = empty;
    for (size_t i = 0; i < n; i++) {
        sum ^= bytes[i];
        for (int bit = 0; bit < 8; bit++) sum = sum >> 1 ^ (empty & (0 - (sum & 1)));
    }
    return sum;
}

/* The hash of fields in the order given, eight bytes and the scale of each; their structs are past the layout, which adds nothing. */
static uint64_t hash_of(const struct field *fields, const size_t *order, size_t count) {
    uint8_t walked[9 * OWL_MAX_FIELDS], row[OWL_FIELD];
    for (size_t i = 0; i < count; i++) {
        put_field(row, &fields[order[i]]);
        memcpy(walked + 9 * i, row, 8);
        walked[9 * i + 8] = row[10];
    }
    return bitwise(walked, 9 * count);
}

static void lay_all(void) {
    const size_t by_offset[] = {0, 3, 1, 2};
    const struct nested inner = {8, inner_fields, 2};
    lay_catalogue(cat);
    memcpy(bad_cat, cat, sizeof cat);
    bad_cat[U8] = 0;
    new_hash = hash_of(new_fields, by_offset, 4);
    old_len = lay(old, &(struct record){1, 1, 24, 5, "mbo", old_fields, 3}, 1, &inner, 1);
    new_len = lay(new, &(struct record){1, 2, 40, new_hash, "mbo", new_fields, 4}, 1, NULL, 0);
    memcpy(bad, old, old_len);
    bad[8 + 72 + 48 + 11] = 1; /* a reserved byte of the first field */
}

int main(void) {
    lay_all();
    check_layouts();
    check_cursor();
    check_plans();
    printf("%u checks, %u failed\n", checks, failures);
    return failures ? EXIT_FAILURE : EXIT_SUCCESS;
}
