/* Upgrades one record the way firmware would: the plans are read from their text once, at start; each record then takes one call.
 * No memory is allocated, and the library keeps none. The header is the host's own: here a length in words of four bytes, an rtype, and
 * what else it holds, 16 bytes in old records and 24 in new ones. */
#include <stdio.h>
#include <stdlib.h>
#include <string.h>

#include "tuppenceowl.h"

enum { OLD_HEADER = 16, NEW_HEADER = 24, PLANS = 1 };

/* As the plan's writer made it on the build machine: a venue and a sequence number, which becomes wider, and a new field. */
static const char plan_text[] =
    "plan\t1\t1\t1\t24\t24\t40\t40\t2\n"
    "body\t0000000000000000ffffffffffff0000\n"
    "copy\t16\t24\t6\n"
    "int\t22\t32\t2\t4\tu\t1\n";

static const uint16_t unplanned[] = {19};

static uint8_t plans[PLANS * OWL_SLOT];

/* A text that is not exactly a plan's is refused, so a damaged image stops here and not at some record. */
static uint8_t start(void) {
    return owl_read_plan((const uint8_t *)plan_text, sizeof plan_text - 1, plans, sizeof plans);
}

/* The record at `src`, of which `lent` bytes may be read; 0, or why there is none, and then `dst` is as it was. */
static uint8_t upgrade(const uint8_t *src, size_t lent, uint8_t *dst, size_t room, size_t *size) {
    uint16_t rtype;
    if (lent < OLD_HEADER) return OWL_BAD_LENGTH;
    uint8_t status = owl_upgrade(plans, sizeof plans, unplanned, sizeof unplanned / sizeof *unplanned, src[1], OLD_HEADER, NEW_HEADER,
                                 src, lent, (size_t)src[0] * 4, dst, room, &rtype, size);
    if (status != 0) return status;
    memcpy(dst, src, OLD_HEADER);
    memset(dst + OLD_HEADER, 0, NEW_HEADER - OLD_HEADER);
    dst[0] = (uint8_t)(*size / 4);
    dst[1] = (uint8_t)rtype;
    return 0;
}

int main(void) {
    const uint8_t record[24] = {6, 1, [16] = 'X', 'N', 'A', 'S', 0, 0, 0xD2, 0x04};
    uint8_t became[OWL_MAX_BYTES];
    size_t size;
    uint8_t status = start();
    if (status == 0) status = upgrade(record, sizeof record, became, sizeof became, &size);
    if (status != 0) {
        printf("refusal %u\n", status);
        return EXIT_FAILURE;
    }
    printf("%zu bytes, venue %.6s, sequence %u\n", size, (const char *)became + 24, became[32] | became[33] << 8);
    return EXIT_SUCCESS;
}
