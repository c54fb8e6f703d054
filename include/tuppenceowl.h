/*
 * Tuppenceowl: the layout part of dbn 0.73.0, proved. C11, and C++.
 *
 * Every call answers for any bytes and numbers: it ends, touches nothing outside of what is lent, and tells its answer by a status.
 *
 *   0           the answer; what it holds stands in the lent numbers and bytes
 *   1 to 16     a refusal (enum owl_refusal): the first that applies, in the order that the call's comment gives
 *   OWL_NONE    no such record or field, or not inside
 *   OWL_OTHER   the call's other answer: dynamic, unplanned, different
 *
 * At any status but 0 every lent number and byte is as it was. A call keeps nothing: no memory of its own, no state between calls.
 *
 * How things are lent
 * - Bytes (and lists of ids) are a pointer and a length in elements. The pointer is never null, also where the length is 0, and is aligned
 *   for its type. Any bytes may be lent; docs/FORMATS.md says what they mean.
 * - A number or an array that a call fills is a pointer, never null.
 * - What a call may change (no const) must not overlap with anything else that is lent to it. Parts that are only read may overlap.
 * - Records, structs and fields are counted from 0.
 *
 * "Admission" is refusals 1 to 6 of the catalogue and the layout; of two layouts, each refusal is tested of both before the next.
 */
#ifndef TUPPENCEOWL_H
#define TUPPENCEOWL_H

#include <stdbool.h>
#include <stddef.h>
#include <stdint.h>

#ifdef __cplusplus
extern "C" {
#endif

/* Bytes of a catalogue, of a field in its table, of a field's name in its slot, and of a plan. */
#define OWL_CATALOGUE 262
#define OWL_FIELD 16
#define OWL_NAME 33
#define OWL_SLOT 6160

/* Limits: bytes of a record or struct, of a header, of a name; fields of a record, of a struct; a text is shorter than this. */
#define OWL_MAX_BYTES 4096
#define OWL_MAX_HEADER 64
#define OWL_MAX_NAME 32
#define OWL_MAX_FIELDS 128
#define OWL_MAX_STRUCT_FIELDS 32
#define OWL_MAX_TEXT 11100

/* Visits of a hash that is given no budget. */
#define OWL_DEFAULT_BUDGET 65536

#define OWL_OTHER 254
#define OWL_NONE 255

enum owl_refusal {
    OWL_BAD_CATALOGUE = 1, /* the catalogue is not valid */
    OWL_BAD_SHAPE = 2,     /* a length, a count or a name past its limit, or a part outside of the layout */
    OWL_RESERVED_BYTE = 3, /* one of a field's five last bytes is not zero */
    OWL_OUT_OF_BOUNDS = 4, /* a field of size 0, or one that ends past its record or struct */
    OWL_SHARED_BYTE = 5,   /* two fields of one table share a byte */
    OWL_WRONG_WIDTH = 6,   /* an integer that is no array has a size other than its width */
    OWL_BAD_HEADER = 7,    /* a header length above 64 or above the record, or a target field that starts inside it */
    OWL_BAD_DEFAULTS = 8,  /* a default body of the wrong length, or not zero in a gap, or not the largest at a mark */
    OWL_BAD_LENGTH = 9,    /* a stated length above what is lent, above 4,096, or below the source header */
    OWL_UNPLANNED = 10,    /* the rtype has no plan and is listed unplanned */
    OWL_NO_ROOM = 11,      /* what is lent for the result is too short */
    OWL_TOO_DEEP = 12,     /* a struct would be entered at level 9 */
    OWL_OVER_BUDGET = 13,  /* the visit budget is used up */
    OWL_CURSOR_FULL = 14,  /* the cursor would pass its bytes or fields, or go back */
    OWL_BAD_CALL = 15,     /* a kind or a size that the cursor's call does not take */
    OWL_BAD_PLAN = 16      /* the plan breaks a rule, or the text is not the writer's own */
};

/* ---- catalogue, admission, sizes */

/* Is the catalogue valid? 0, or 1. */
uint8_t owl_check_catalogue(const uint8_t *cat, size_t cat_len);

/* Is the layout admitted under the catalogue? 0, or admission's refusal, 1 to 6. */
uint8_t owl_admit(const uint8_t *cat, size_t cat_len, const uint8_t *layout, size_t layout_len);

/* The size of record k: the greater of its base and of its last field's end. Refusals 1 to 6, then OWL_NONE. */
uint8_t owl_record_size(const uint8_t *cat, size_t cat_len, const uint8_t *layout, size_t layout_len, size_t k, size_t *size);

/* Where the window of `size` bytes from `offset` on starts and ends in the bytes; OWL_NONE where it does not lie inside. */
uint8_t owl_window(const uint8_t *bytes, size_t bytes_len, size_t offset, size_t size, size_t *start, size_t *end);

/* ---- fields: the 16 bytes that a table has of a field */

/* Field k of a table that is lent alone. Refusals 2 and 3, then OWL_NONE. */
uint8_t owl_field_of(const uint8_t *table, size_t table_len, size_t k, uint8_t field[OWL_FIELD]);

/* The last field with this id that is no padding, over all records of the rtype. Refusals 1 to 6, then OWL_NONE. */
uint8_t owl_field_by_id(const uint8_t *cat, size_t cat_len, const uint8_t *layout, size_t layout_len, uint16_t rtype, uint16_t id,
                        uint8_t field[OWL_FIELD]);

/* The first field of this name that is no padding, in the first record of the rtype; of its id, the field that
 * owl_field_by_id answers. Refusals 1 to 6, then OWL_NONE. */
uint8_t owl_field_by_name(const uint8_t *cat, size_t cat_len, const uint8_t *layout, size_t layout_len, uint16_t rtype,
                          const uint8_t *name, size_t name_len, uint8_t field[OWL_FIELD]);

/* ---- the sum, the layout hash, the boot check */

/* CRC-64-AVRO of the bytes: the one call that answers a number and no status. */
uint64_t owl_sum(const uint8_t *bytes, size_t bytes_len);

/* The layout hash of record k, and how many fields the walk visited. Refusals 1 to 6, then OWL_NONE, then 12 or 13, whichever the
 * walk meets first; the budget is OWL_DEFAULT_BUDGET visits. */
uint8_t owl_layout_hash(const uint8_t *cat, size_t cat_len, const uint8_t *layout, size_t layout_len, size_t k, uint64_t *hash,
                        size_t *visits);

/* The same within a budget of visits; 13 at the first field beyond it. */
uint8_t owl_layout_hash_within(const uint8_t *cat, size_t cat_len, const uint8_t *layout, size_t layout_len, size_t k, size_t budget,
                               uint64_t *hash, size_t *visits);

/* Does record k store its own layout hash? 0, or OWL_OTHER where it stores another; refused as owl_layout_hash, OWL_NONE too. */
uint8_t owl_boot_check(const uint8_t *cat, size_t cat_len, const uint8_t *layout, size_t layout_len, size_t k);

/* ---- the verdict: 0 compiled, OWL_OTHER dynamic */

/* Of record k of a stream's layout against the compiled one. Refusals 1 to 6 of both layouts, then OWL_NONE. */
uint8_t owl_verdict(const uint8_t *cat, size_t cat_len, const uint8_t *stream, size_t stream_len, size_t k, const uint8_t *compiled,
                    size_t compiled_len);

/* Of the last record of the rtype. The same refusals; OWL_NONE where the stream has no such record. */
uint8_t owl_verdict_of(const uint8_t *cat, size_t cat_len, const uint8_t *stream, size_t stream_len, uint16_t rtype,
                       const uint8_t *compiled, size_t compiled_len);

/*
 * ---- the field cursor
 *
 * Fields are placed one behind the other in a lent table, OWL_FIELD bytes each from its start, and their names in lent slots,
 * OWL_NAME bytes each. Bytes behind the last field are not written. The state is OWL_CURSOR numbers that the host keeps between calls;
 * owl_cursor_empty makes it. A gap that aligning leaves becomes one padding field. Fields placed behind the base have the extension flag.
 * The catalogue is read and not checked: ask owl_check_catalogue once. Under a valid one, whatever the calls from an empty state on,
 * refusals 3 to 6 cannot apply to the table that owl_cursor_finish leaves.
 *
 * Each call but owl_cursor_empty answers 0 with the new state, or is refused, and then state, table and names are as they were.
 * A name longer than 32 bytes is refusal 2; then 15 is tested, then 14.
 */
#define OWL_CURSOR 5

enum owl_cursor_number {
    OWL_CURSOR_MOST,  /* the most fields that the table may have */
    OWL_CURSOR_COUNT, /* the fields placed, padding counted */
    OWL_CURSOR_AT,    /* where the next byte lies; after owl_cursor_finish a struct's size */
    OWL_CURSOR_BASE,  /* the base, once it is noted */
    OWL_CURSOR_NOTED  /* is it noted? 0 or 1; any number but 0 is read as 1 */
};

/* The state of a cursor with no field yet, of a struct's table or of a record's. */
void owl_cursor_empty(bool of_struct, size_t state[OWL_CURSOR]);

/* A field of an id with a width, of class other, unsigned, signed or decimal (scale -9), aligned to that width. Refusals 2; 15 for
 * another kind, size 0, or a size that is not the width where the flags have no array flag; 14. */
uint8_t owl_cursor_scalar(const uint8_t *cat, size_t cat_len, uint8_t *table, size_t table_len, uint8_t *names, size_t names_len,
                          size_t state[OWL_CURSOR], uint16_t field_id, uint8_t type_id, uint16_t size, uint8_t flags,
                          uint16_t def_index, const uint8_t *name, size_t name_len);

/* A string, aligned to nothing, with def_index 0. Refusals 2; 15 for another kind or size 0; 14. */
uint8_t owl_cursor_string(const uint8_t *cat, size_t cat_len, uint8_t *table, size_t table_len, uint8_t *names, size_t names_len,
                          size_t state[OWL_CURSOR], uint16_t field_id, uint8_t type_id, uint16_t size, uint8_t flags,
                          const uint8_t *name, size_t name_len);

/* The numbers of another field, all but its place and its def_index, aligned to its type's width. Refusals 2; 15 for a struct or a
 * size as in owl_cursor_scalar; 14. */
uint8_t owl_cursor_like(const uint8_t *cat, size_t cat_len, uint8_t *table, size_t table_len, uint8_t *names, size_t names_len,
                        size_t state[OWL_CURSOR], const uint8_t like[OWL_FIELD], uint16_t def_index, const uint8_t *name,
                        size_t name_len);

/* Struct k of a layout, aligned to the largest width in its table. Refusals 2; 15 for no such struct or size 0; 14. */
uint8_t owl_cursor_nested(const uint8_t *cat, size_t cat_len, const uint8_t *layout, size_t layout_len, uint8_t *table,
                          size_t table_len, uint8_t *names, size_t names_len, size_t state[OWL_CURSOR], uint16_t field_id, uint16_t k,
                          const uint8_t *name, size_t name_len);

/* An array of `count` of them, with the array flag. The same refusals; a count of 0 is size 0. */
uint8_t owl_cursor_nested_array(const uint8_t *cat, size_t cat_len, const uint8_t *layout, size_t layout_len, uint8_t *table,
                                size_t table_len, uint8_t *names, size_t names_len, size_t state[OWL_CURSOR], uint16_t field_id,
                                uint16_t k, uint16_t count, const uint8_t *name, size_t name_len);

/* The cursor goes to an offset that is not behind it, over padding. Refusal 14. */
uint8_t owl_cursor_at(const uint8_t *cat, size_t cat_len, uint8_t *table, size_t table_len, uint8_t *names, size_t names_len,
                      size_t state[OWL_CURSOR], size_t offset);

/* The cursor is aligned to 8 and the base noted; a second call leaves all as it is. Refusal 14. */
uint8_t owl_cursor_finish_base(const uint8_t *cat, size_t cat_len, uint8_t *table, size_t table_len, uint8_t *names, size_t names_len,
                               size_t state[OWL_CURSOR]);

/* The base is noted if need be, the cursor aligned to 8, and fields and names are sorted: ids that are listed by their first place
 * in the list, the rest and all padding after them as they stood. Refusal 14. */
uint8_t owl_cursor_finish(const uint8_t *cat, size_t cat_len, uint8_t *table, size_t table_len, uint8_t *names, size_t names_len,
                          size_t state[OWL_CURSOR], const uint16_t *ids, size_t ids_len);

/* ---- selection and plans; a plan is OWL_SLOT bytes */

/* Which record of the target's layout the source's record k is upgraded to: the first of the schema, if one is wanted and it has the
 * source's name; else the first of the source's rtype; else OWL_OTHER. Refusals 1 to 6 of both layouts, then OWL_NONE. */
uint8_t owl_select(const uint8_t *cat, size_t cat_len, const uint8_t *source, size_t source_len, size_t k, const uint8_t *target,
                   size_t target_len, bool wanted, uint16_t schema, size_t *number);

/* The plan from record k of one layout to record `to` of another, laid at the start of the room; bytes behind the slot stay.
 * `header` is the target's header length, `body` every byte behind it of a default record, `marks` a byte for each target field: not 0
 * where the default is the largest value. Refusals 1 to 6 of both layouts, then OWL_NONE, then 7, 8, and 11 where the room is short of
 * a slot. */
uint8_t owl_plan(const uint8_t *cat, size_t cat_len, const uint8_t *source, size_t source_len, size_t k, const uint8_t *target,
                 size_t target_len, size_t to, size_t header, const uint8_t *body, size_t body_len, const uint8_t *marks,
                 size_t marks_len, uint8_t *room, size_t room_len);

/* Does the plan keep every rule? 0, or 16. */
uint8_t owl_check_plan(const uint8_t *plan, size_t plan_len);

/* ---- the upgrade: the record without its header; the host writes the target's header itself */

/* By one plan: the target's rtype and the record's size, and in `dst` the bytes from the header length to that size; header bytes and
 * bytes past the record stay. `stated` is the source record's length, header counted. Refusals 9, 11, 16. */
uint8_t owl_apply(const uint8_t *slot, size_t slot_len, const uint8_t *src, size_t src_len, size_t stated, uint8_t *dst,
                  size_t dst_len, uint16_t *became, size_t *size);

/* By the first plan of the rtype, of plans that stand one behind the other. Without one the bytes after the source header go after the
 * target header as they are, unless the rtype is listed unplanned. Refusals 7 for either header length; 9; then 10; 11; and 16 of the
 * plan used. */
uint8_t owl_upgrade(const uint8_t *plans, size_t plans_len, const uint16_t *unplanned, size_t unplanned_len, uint16_t rtype,
                    size_t src_header, size_t dst_header, const uint8_t *src, size_t src_len, size_t stated, uint8_t *dst,
                    size_t dst_len, uint16_t *became, size_t *size);

/* ---- plan text */

/* The plan's text at the start of what is lent for it, and its length; bytes behind it stay. Refusals 16, then 11. */
uint8_t owl_write_plan(const uint8_t *plan, size_t plan_len, uint8_t *text, size_t text_len, size_t *length);

/* The plan that has this text, laid at the start of what is lent for it; bytes behind the slot stay. Refusals 11, then 16. */
uint8_t owl_read_plan(const uint8_t *text, size_t text_len, uint8_t *plan, size_t plan_len);

#ifdef __cplusplus
}
#endif

#endif
