/* write-row: writes a row of tuple("page" uint8, "name" variant8(nothing, string32)), reads it back, and finds "name"
 * in what it read. */

#include <inttypes.h>
#include <stdio.h>
#include <stdlib.h>
#include <string.h>

#include "skiff.h"
#include "skiff_words.h"

/* Five schema records in level order, and the store of their names. */
static const uint8_t schema[] = {
    19, 0, 0, 0, 0, 0, 0, 0, 1, 0, 0, 0, 2, 0, 0, 0, /* the root: a tuple of two */
    8,  1, 4, 0, 0, 0, 0, 0, 0, 0, 0, 0, 0, 0, 0, 0, /* "page", a uint8 */
    15, 1, 4, 0, 4, 0, 0, 0, 3, 0, 0, 0, 2, 0, 0, 0, /* "name", a variant8 of two */
    0,  0, 0, 0, 0, 0, 0, 0, 0, 0, 0, 0, 0, 0, 0, 0, /* nothing */
    13, 0, 0, 0, 0, 0, 0, 0, 0, 0, 0, 0, 0, 0, 0, 0, /* or a string32 */
};
static const uint8_t names[] = "pagename";
static const uint8_t reference[16] = {0, 0, 0, 0, 0, 0, 0, 0, 5, 0, 0, 0, 0, 0, 0, 0};

/* The value (37, "hi") in four records, and its payload. */
static const uint8_t value[] = {
    SKIFF_KIND_TUPLE,    0, 0, 0, 2, 0, 0, 0, 0,  0, 0, 0, 0, 0, 0, 0,
    SKIFF_KIND_UINT8,    0, 0, 0, 0, 0, 0, 0, 37, 0, 0, 0, 0, 0, 0, 0,
    SKIFF_KIND_VARIANT,  0, 0, 0, 1, 0, 0, 0, 0,  0, 0, 0, 0, 0, 0, 0,
    SKIFF_KIND_STRING32, 0, 1, 0, 2, 0, 0, 0, 0,  0, 0, 0, 0, 0, 0, 0,
};
static const uint8_t payload[] = {'h', 'i'};

#define SETTINGS \
    SKIFF_DEFAULT_NODE_CHARGE, SKIFF_DEFAULT_MAX_BLOB_BYTES, SKIFF_DEFAULT_MAX_BLOB_BYTES, SKIFF_DEFAULT_MAX_ROW_BYTES
#define ANSWER (uint8_t *)answer, sizeof answer

static int refused(const uint64_t *answer)
{
    skiff_print_refusal(stdout, answer);
    printf("\n");
    return 1;
}

/* The number that was asked for; a refusal ends the program. */
static uint64_t seen(uint32_t refusal, const uint64_t *answer)
{
    if (refusal != SKIFF_NO_REFUSAL)
        exit(refused(answer));
    return answer[SKIFF_ANSWER_VALUE];
}

int main(void)
{
    uint64_t answer[SKIFF_ANSWER_NUMBERS];
    uint8_t row[64], back[sizeof value], bytes[sizeof payload];

    if (skiff_encode(SETTINGS, schema, sizeof schema, names, sizeof names - 1, 0, 5, value, sizeof value,
                     payload, sizeof payload, row, sizeof row, 0, ANSWER) != 0)
        return refused(answer);
    const size_t length = (size_t)answer[SKIFF_ANSWER_ROW_BYTES];
    printf("written");
    for (size_t i = 0; i < length; i++)
        printf(" %02x", row[i]);
    printf("\n");

    if (skiff_decode(SETTINGS, schema, sizeof schema, names, sizeof names - 1, reference, sizeof reference,
                     NULL, 0, row, length, 0, back, sizeof back, bytes, sizeof bytes, ANSWER) != 0)
        return refused(answer);
    if (memcmp(back, value, sizeof value) != 0 || memcmp(bytes, payload, sizeof payload) != 0)
        return 1;
    printf("read back: %" PRIu64 " records, %" PRIu64 " payload bytes, the same\n",
           answer[SKIFF_ANSWER_RECORDS], answer[SKIFF_ANSWER_PAYLOAD]);

    /* "name" is field 1 of the root, record 0; what a variant chose is the record after its own. */
    const uint64_t name = seen(skiff_field(back, sizeof back, 0, 1, ANSWER), answer);
    const uint64_t children = seen(skiff_child_count(back, sizeof back, name, ANSWER), answer);
    const uint64_t tag = seen(skiff_tag(back, sizeof back, name + 1, ANSWER), answer);
    const uint64_t kind = seen(skiff_kind(back, sizeof back, name + 1, ANSWER), answer);
    const uint64_t after = seen(skiff_after(back, sizeof back, name, ANSWER), answer);
    printf("name: records %" PRIu64 " to %" PRIu64 ", %" PRIu64 " child with tag %" PRIu64 " and kind %" PRIu64 "\n", name,
           after - 1, children, tag, kind);

    /* One byte too little. */
    if (skiff_encode(SETTINGS, schema, sizeof schema, names, sizeof names - 1, 0, 5, value, sizeof value,
                     payload, sizeof payload, row, length - 1, 0, ANSWER) == 0)
        return 1;
    refused(answer);
    return 0;
}
