/* Catalogue and admission, fields, hashes and verdicts. */
#include "check.h"

/* ---- catalogue, admission, sizes */

static void admitting(void) {
    size_t size = 7, start = 7, end = 7;
    CHECK(owl_check_catalogue(cat, OWL_CATALOGUE) == 0);
    CHECK(owl_check_catalogue(cat, OWL_CATALOGUE - 1) == OWL_BAD_CATALOGUE);
    CHECK(owl_check_catalogue(bad_cat, OWL_CATALOGUE) == OWL_BAD_CATALOGUE);
    CHECK(owl_admit(cat, OWL_CATALOGUE, old, old_len) == 0);
    CHECK(owl_admit(bad_cat, OWL_CATALOGUE, bad, old_len) == OWL_BAD_CATALOGUE);
    CHECK(owl_admit(cat, OWL_CATALOGUE, bad, old_len - 1) == OWL_BAD_SHAPE);
    CHECK(owl_admit(cat, OWL_CATALOGUE, bad, old_len) == OWL_RESERVED_BYTE);

    CHECK(owl_record_size(cat, OWL_CATALOGUE, new, new_len, 1, &size) == OWL_NONE && size == 7);
    CHECK(owl_record_size(cat, OWL_CATALOGUE, bad, old_len, 0, &size) == OWL_RESERVED_BYTE && size == 7);
    CHECK(owl_record_size(cat, OWL_CATALOGUE, new, new_len, 0, &size) == 0 && size == 40);

    CHECK(owl_window(old, 10, 8, 3, &start, &end) == OWL_NONE && start == 7 && end == 7);
    CHECK(owl_window(old, 10, SIZE_MAX, 2, &start, &end) == OWL_NONE && start == 7 && end == 7);
    CHECK(owl_window(old, 10, 8, 2, &start, &end) == 0 && start == 8 && end == 10);
}

/* ---- fields */

static void finding(void) {
    uint8_t table[2 * OWL_FIELD], found[OWL_FIELD], was[OWL_FIELD], venue[OWL_FIELD], seq[OWL_FIELD];
    put_field(venue, &new_fields[3]);
    put_field(seq, &new_fields[1]);
    memcpy(table, seq, OWL_FIELD);
    memcpy(table + OWL_FIELD, venue, OWL_FIELD);
    memset(found, 9, sizeof found);
    memcpy(was, found, sizeof was);

    CHECK(owl_field_of(table, sizeof table, 2, found) == OWL_NONE && !memcmp(found, was, OWL_FIELD));
    CHECK(owl_field_of(table, sizeof table - 1, 0, found) == OWL_BAD_SHAPE && !memcmp(found, was, OWL_FIELD));
    table[15] = 1;
    CHECK(owl_field_of(table, sizeof table, 1, found) == OWL_RESERVED_BYTE && !memcmp(found, was, OWL_FIELD));
    table[15] = 0;
    CHECK(owl_field_of(table, sizeof table, 1, found) == 0 && !memcmp(found, venue, OWL_FIELD));

    memcpy(found, was, sizeof was);
    CHECK(owl_field_by_id(cat, OWL_CATALOGUE, new, new_len, 1, 13, found) == OWL_NONE && !memcmp(found, was, OWL_FIELD));
    CHECK(owl_field_by_id(cat, OWL_CATALOGUE, new, new_len, 2, 11, found) == OWL_NONE && !memcmp(found, was, OWL_FIELD));
    CHECK(owl_field_by_id(bad_cat, OWL_CATALOGUE, new, new_len, 1, 11, found) == OWL_BAD_CATALOGUE && !memcmp(found, was, OWL_FIELD));
    CHECK(owl_field_by_id(cat, OWL_CATALOGUE, new, new_len, 1, 11, found) == 0 && !memcmp(found, seq, OWL_FIELD));

    memcpy(found, was, sizeof was);
    CHECK(owl_field_by_name(cat, OWL_CATALOGUE, new, new_len, 1, BYTES("venu"), found) == OWL_NONE && !memcmp(found, was, OWL_FIELD));
    CHECK(owl_field_by_name(cat, OWL_CATALOGUE, bad, old_len, 1, BYTES("venue"), found) == OWL_RESERVED_BYTE &&
          !memcmp(found, was, OWL_FIELD));
    CHECK(owl_field_by_name(cat, OWL_CATALOGUE, new, new_len, 1, BYTES("venue"), found) == 0 && !memcmp(found, venue, OWL_FIELD));
}

/* ---- the sum, the hash, the boot check, the verdict */

static void hashing(void) {
    const struct field self = {30, 0, 8, NESTED, 0, 0, "self"};
    const struct nested endless = {8, &self, 1};
    uint8_t loop[512];
    size_t loop_len = lay(loop, &(struct record){1, 1, 8, 0, "loop", &self, 1}, 1, &endless, 1);
    uint64_t hash = 7;
    size_t visits = 7;
    CHECK(owl_sum((const uint8_t *)"\x95", 1) == 0x00C15D213AA4D7A7);
    CHECK(owl_sum(cat, 0) == 0xC15D213AA4D7A795);
    CHECK(owl_sum(cat, OWL_CATALOGUE) == bitwise(cat, OWL_CATALOGUE));

    CHECK(owl_layout_hash(cat, OWL_CATALOGUE, new, new_len, 1, &hash, &visits) == OWL_NONE && hash == 7 && visits == 7);
    CHECK(owl_layout_hash(cat, OWL_CATALOGUE, loop, loop_len, 0, &hash, &visits) == OWL_TOO_DEEP && hash == 7 && visits == 7);
    CHECK(owl_layout_hash(cat, OWL_CATALOGUE, new, new_len, 0, &hash, &visits) == 0 && hash == new_hash && visits == 4);
    hash = visits = 7;
    CHECK(owl_layout_hash_within(cat, OWL_CATALOGUE, new, new_len, 0, 3, &hash, &visits) == OWL_OVER_BUDGET && hash == 7 && visits == 7);
    CHECK(owl_layout_hash_within(cat, OWL_CATALOGUE, bad, old_len, 0, 3, &hash, &visits) == OWL_RESERVED_BYTE && hash == 7 && visits == 7);
    CHECK(owl_layout_hash_within(cat, OWL_CATALOGUE, new, new_len, 0, 4, &hash, &visits) == 0 && hash == new_hash && visits == 4);

    CHECK(owl_boot_check(cat, OWL_CATALOGUE, new, new_len, 0) == 0);
    CHECK(owl_boot_check(cat, OWL_CATALOGUE, old, old_len, 0) == OWL_OTHER);
    CHECK(owl_boot_check(cat, OWL_CATALOGUE, old, old_len, 1) == OWL_NONE);
    CHECK(owl_boot_check(cat, OWL_CATALOGUE, loop, loop_len, 0) == OWL_TOO_DEEP);

    CHECK(owl_verdict(cat, OWL_CATALOGUE, new, new_len, 0, new, new_len) == 0);
    CHECK(owl_verdict(cat, OWL_CATALOGUE, old, old_len, 0, new, new_len) == OWL_OTHER);
    CHECK(owl_verdict(cat, OWL_CATALOGUE, old, old_len, 1, new, new_len) == OWL_NONE);
    CHECK(owl_verdict(cat, OWL_CATALOGUE, new, new_len, 0, bad, old_len) == OWL_RESERVED_BYTE);
    CHECK(owl_verdict_of(cat, OWL_CATALOGUE, new, new_len, 1, new, new_len) == 0);
    CHECK(owl_verdict_of(cat, OWL_CATALOGUE, old, old_len, 1, new, new_len) == OWL_OTHER);
    CHECK(owl_verdict_of(cat, OWL_CATALOGUE, old, old_len, 2, new, new_len) == OWL_NONE);
    CHECK(owl_verdict_of(bad_cat, OWL_CATALOGUE, new, new_len, 1, new, new_len) == OWL_BAD_CATALOGUE);
}

void check_layouts(void) {
    admitting();
    finding();
    hashing();
}
