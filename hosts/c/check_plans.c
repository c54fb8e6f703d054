/* Selection, plans and their text, and the upgrade of a record. */
#include "check.h"

static const uint8_t marks[] = {0, 1, 1, 0};
static const uint8_t body[] = {0, 0, 0, 0, 0, 0, 0, 0, 255, 255, 255, 255, 255, 255, 0, 0};
static const char text[] =
    "plan\t1\t1\t1\t24\t24\t40\t40\t2\n"
    "body\t0000000000000000ffffffffffff0000\n"
    "copy\t16\t24\t6\n"
    "int\t22\t32\t2\t4\tu\t1\n";

static uint8_t slot[OWL_SLOT + 1];

static uint8_t plan_into(size_t k, size_t header, size_t body_len, uint8_t *room, size_t room_len) {
    return owl_plan(cat, OWL_CATALOGUE, old, old_len, k, new, new_len, 0, header, body, body_len, marks, sizeof marks, room, room_len);
}

static void planning(void) {
    uint8_t was[sizeof slot], written[OWL_MAX_TEXT], clean[OWL_MAX_TEXT];
    size_t number = 7, length = 7;
    CHECK(owl_select(cat, OWL_CATALOGUE, old, old_len, 1, new, new_len, false, 0, &number) == OWL_NONE && number == 7);
    CHECK(owl_select(bad_cat, OWL_CATALOGUE, old, old_len, 0, new, new_len, false, 0, &number) == OWL_BAD_CATALOGUE && number == 7);
    put(new + 8, 3, 2); /* another rtype: only the schema finds it */
    CHECK(owl_select(cat, OWL_CATALOGUE, old, old_len, 0, new, new_len, false, 2, &number) == OWL_OTHER && number == 7);
    CHECK(owl_select(cat, OWL_CATALOGUE, old, old_len, 0, new, new_len, true, 2, &number) == 0 && number == 0);
    put(new + 8, 1, 2);

    memset(slot, 9, sizeof slot);
    memcpy(was, slot, sizeof was);
    CHECK(plan_into(1, 24, 16, slot, sizeof slot) == OWL_NONE && !memcmp(slot, was, sizeof was));
    CHECK(plan_into(0, 65, 16, slot, sizeof slot) == OWL_BAD_HEADER && !memcmp(slot, was, sizeof was));
    CHECK(plan_into(0, 24, 15, slot, sizeof slot) == OWL_BAD_DEFAULTS && !memcmp(slot, was, sizeof was));
    CHECK(plan_into(0, 24, 16, slot, OWL_SLOT - 1) == OWL_NO_ROOM && !memcmp(slot, was, sizeof was));
    CHECK(plan_into(0, 24, 16, slot, sizeof slot) == 0 && slot[OWL_SLOT] == 9);
    CHECK(owl_check_plan(slot, OWL_SLOT) == 0);
    CHECK(owl_check_plan(slot, OWL_SLOT + 1) == OWL_BAD_PLAN);

    memset(written, 9, sizeof written);
    memcpy(clean, written, sizeof clean);
    CHECK(owl_write_plan(was, OWL_SLOT, written, sizeof written, &length) == OWL_BAD_PLAN && length == 7);
    CHECK(owl_write_plan(slot, OWL_SLOT, written, sizeof text - 2, &length) == OWL_NO_ROOM && length == 7);
    CHECK(!memcmp(written, clean, sizeof clean));
    CHECK(owl_write_plan(slot, OWL_SLOT, written, sizeof written, &length) == 0 && length == sizeof text - 1);
    CHECK(!memcmp(written, text, sizeof text - 1) && written[sizeof text - 1] == 9);

    CHECK(owl_read_plan(BYTES(text), was, OWL_SLOT - 1) == OWL_NO_ROOM && was[0] == 9);
    CHECK(owl_read_plan((const uint8_t *)text, sizeof text - 2, was, sizeof was) == OWL_BAD_PLAN && was[0] == 9);
    CHECK(owl_read_plan(BYTES(text), was, sizeof was) == 0 && !memcmp(was, slot, sizeof was));
}

/* ---- the upgrade */

static const uint8_t record[24] = {[16] = 1, 2, 3, 4, 5, 6, 7, 0};
static const uint8_t upgraded[16] = {1, 2, 3, 4, 5, 6, 0, 0, 7, 0, 0, 0, 255, 255, 0, 0};

/* The target's bytes: these from `from` on, and 9 before and behind. */
static int holds(const uint8_t *dst, size_t len, size_t from, const uint8_t *bytes, size_t n) {
    for (size_t i = 0; i < len; i++)
        if (dst[i] != (i >= from && i < from + n ? bytes[i - from] : 9)) return 0;
    return 1;
}

static void upgrading(void) {
    const uint16_t unplanned[] = {4};
    uint8_t dst[48], broken[OWL_SLOT];
    uint16_t became = 7;
    size_t size = 7;
    memset(dst, 9, sizeof dst);
    memcpy(broken, slot, sizeof broken);
    broken[16] = 2; /* a step of no kind */
#define KEPT (became == 7 && size == 7 && holds(dst, sizeof dst, 0, dst, 0))
    CHECK(owl_apply(slot, OWL_SLOT, record, 24, 25, dst, sizeof dst, &became, &size) == OWL_BAD_LENGTH && KEPT);
    CHECK(owl_apply(slot, OWL_SLOT, record, 24, 24, dst, 39, &became, &size) == OWL_NO_ROOM && KEPT);
    CHECK(owl_apply(broken, OWL_SLOT, record, 24, 24, dst, sizeof dst, &became, &size) == OWL_BAD_PLAN && KEPT);
    CHECK(owl_upgrade(slot, OWL_SLOT, unplanned, 1, 1, 65, 24, record, 24, 24, dst, sizeof dst, &became, &size) == OWL_BAD_HEADER && KEPT);
    CHECK(owl_upgrade(slot, OWL_SLOT, unplanned, 1, 1, 16, 24, record, 24, 15, dst, sizeof dst, &became, &size) == OWL_BAD_LENGTH && KEPT);
    CHECK(owl_upgrade(slot, OWL_SLOT, unplanned, 1, 4, 16, 24, record, 24, 24, dst, sizeof dst, &became, &size) == OWL_UNPLANNED && KEPT);
    CHECK(owl_upgrade(slot, OWL_SLOT, unplanned, 1, 1, 16, 24, record, 24, 24, dst, 39, &became, &size) == OWL_NO_ROOM && KEPT);
    CHECK(owl_upgrade(broken, OWL_SLOT, unplanned, 1, 1, 16, 24, record, 24, 24, dst, sizeof dst, &became, &size) == OWL_BAD_PLAN && KEPT);

    CHECK(owl_apply(slot, OWL_SLOT, record, 24, 24, dst, sizeof dst, &became, &size) == 0 && became == 1 && size == 40);
    CHECK(holds(dst, sizeof dst, 24, upgraded, 16));
    memset(dst, 9, sizeof dst);
    became = 7, size = 7;
    CHECK(owl_upgrade(slot, OWL_SLOT, unplanned, 1, 1, 16, 24, record, 24, 24, dst, sizeof dst, &became, &size) == 0 && became == 1 &&
          size == 40);
    CHECK(holds(dst, sizeof dst, 24, upgraded, 16));
    memset(dst, 9, sizeof dst);
    CHECK(owl_upgrade(slot, OWL_SLOT, unplanned, 1, 5, 16, 24, record, 24, 24, dst, sizeof dst, &became, &size) == 0 && became == 5 &&
          size == 32);
    CHECK(holds(dst, sizeof dst, 24, record + 16, 8));
}

void check_plans(void) {
    planning();
    upgrading();
}
