/* The field cursor: each call's fields and state, and that a refused call changes neither. */
#include "check.h"

struct cursor {
    size_t state[OWL_CURSOR];
    uint8_t table[8 * OWL_FIELD], names[8 * OWL_NAME];
};

#define CURSOR(c) cat, OWL_CATALOGUE, (c).table, sizeof (c).table, (c).names, sizeof (c).names, (c).state
#define NESTED_IN(c) cat, OWL_CATALOGUE, old, old_len, (c).table, sizeof (c).table, (c).names, sizeof (c).names, (c).state

/* Does field k stand in the table as this, under its name? */
static int has(const struct cursor *c, size_t k, const struct field *f) {
    uint8_t row[OWL_FIELD], name[OWL_NAME] = {0};
    put_field(row, f);
    put_name(name, f->name);
    return !memcmp(c->table + OWL_FIELD * k, row, OWL_FIELD) && !memcmp(c->names + OWL_NAME * k, name, OWL_NAME);
}

static int stands(const struct cursor *c, size_t count, size_t at, size_t base, size_t noted) {
    return c->state[OWL_CURSOR_COUNT] == count && c->state[OWL_CURSOR_AT] == at && c->state[OWL_CURSOR_BASE] == base &&
           c->state[OWL_CURSOR_NOTED] == noted && c->state[OWL_CURSOR_MOST] == OWL_MAX_FIELDS;
}

/* The call is refused so, and nothing that is lent to it changes. */
#define REFUSED(c, number, call)                          \
    do {                                                  \
        struct cursor was = (c);                          \
        CHECK((call) == (number));                        \
        CHECK(!memcmp(&was, &(c), sizeof was));           \
    } while (0)

static const char long_name[] = "a name of thirty-three characters";

static void refusals(struct cursor *p) {
    uint8_t row[OWL_FIELD];
    struct cursor past;
    struct cursor c;
    memcpy(&c, p, sizeof c);
    put_field(row, &new_fields[0]);
    REFUSED(c, OWL_BAD_SHAPE, owl_cursor_scalar(CURSOR(c), 1, U32, 3, 0, 0, BYTES(long_name)));
    REFUSED(c, OWL_BAD_CALL, owl_cursor_scalar(CURSOR(c), 1, U32, 3, 0, 0, BYTES("x")));
    REFUSED(c, OWL_BAD_CALL, owl_cursor_string(CURSOR(c), 1, U32, 4, 0, BYTES("x")));
    REFUSED(c, OWL_CURSOR_FULL, owl_cursor_string(CURSOR(c), 1, CSTR, 4096, 0, BYTES("x")));
    REFUSED(c, OWL_BAD_CALL, owl_cursor_like(CURSOR(c), row, 0, BYTES("x")));
    REFUSED(c, OWL_BAD_CALL, owl_cursor_nested(NESTED_IN(c), 1, 1, BYTES("x")));
    REFUSED(c, OWL_BAD_CALL, owl_cursor_nested_array(NESTED_IN(c), 1, 0, 0, BYTES("x")));
    REFUSED(c, OWL_CURSOR_FULL, owl_cursor_nested_array(NESTED_IN(c), 1, 0, 513, BYTES("x")));
    REFUSED(c, OWL_CURSOR_FULL, owl_cursor_at(CURSOR(c), c.state[OWL_CURSOR_AT] - 1));
    memcpy(&past, &c, sizeof past);
    past.state[OWL_CURSOR_AT] = OWL_MAX_BYTES + 1;
    REFUSED(past, OWL_CURSOR_FULL, owl_cursor_finish_base(CURSOR(past)));
    REFUSED(past, OWL_CURSOR_FULL, owl_cursor_finish(CURSOR(past), (const uint16_t[]){1}, 1));
}

void check_cursor(void) {
    const struct field like = {44, 9, 2, I16, 0, 3, "tick"};
    const uint16_t ids[] = {44, 40};
    uint8_t row[OWL_FIELD];
    struct cursor c;
    memset(&c, 0, sizeof c);
    owl_cursor_empty(true, c.state);
    CHECK(c.state[OWL_CURSOR_MOST] == OWL_MAX_STRUCT_FIELDS);
    memset(c.state, 9, sizeof c.state);
    owl_cursor_empty(false, c.state);
    CHECK(stands(&c, 0, 0, 0, 0));

    CHECK(owl_cursor_string(CURSOR(c), 40, CSTR, 3, 0, BYTES("venue")) == 0 && stands(&c, 1, 3, 0, 0));
    CHECK(owl_cursor_scalar(CURSOR(c), 41, U32, 4, 0, 6, BYTES("seq")) == 0 && stands(&c, 3, 8, 0, 0));
    CHECK(has(&c, 0, &(struct field){40, 0, 3, CSTR, 0, 0, "venue"}));
    CHECK(has(&c, 1, &(struct field){PADDING_ID, 3, 1, PAD, 0, 0, ""}));
    CHECK(has(&c, 2, &(struct field){41, 4, 4, U32, 0, 6, "seq"}));
    CHECK(owl_cursor_nested(NESTED_IN(c), 42, 0, BYTES("inner")) == 0 && stands(&c, 4, 16, 0, 0));
    CHECK(has(&c, 3, &(struct field){42, 8, 8, NESTED, 0, 0, "inner"}));
    refusals(&c);
    CHECK(owl_cursor_finish_base(CURSOR(c)) == 0 && stands(&c, 4, 16, 16, 1));
    CHECK(owl_cursor_nested_array(NESTED_IN(c), 43, 0, 2, BYTES("inners")) == 0 && stands(&c, 5, 32, 16, 1));
    CHECK(has(&c, 4, &(struct field){43, 16, 16, NESTED, ARRAY | EXTENSION, 0, "inners"}));
    CHECK(owl_cursor_at(CURSOR(c), 38) == 0 && stands(&c, 6, 38, 16, 1));
    put_field(row, &like);
    CHECK(owl_cursor_like(CURSOR(c), row, 5, BYTES("tick")) == 0 && stands(&c, 7, 40, 16, 1));
    CHECK(has(&c, 6, &(struct field){44, 38, 2, I16, EXTENSION, 5, "tick"}));
    CHECK(owl_cursor_finish(CURSOR(c), ids, 2) == 0 && stands(&c, 7, 40, 16, 1));
    CHECK(has(&c, 0, &(struct field){44, 38, 2, I16, EXTENSION, 5, "tick"}));
    CHECK(has(&c, 1, &(struct field){40, 0, 3, CSTR, 0, 0, "venue"}));
    CHECK(has(&c, 6, &(struct field){PADDING_ID, 32, 6, PAD, 0, 0, ""}));
}
