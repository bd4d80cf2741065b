/* row-by-index FOLDER ROW: builds the index of a delivery, checks it, and by it decodes the row of that number, from
 * 0 on, without the rows before it. Prints the index's record of the row and the row as read-rows does, or the
 * refusal. */

#include <inttypes.h>
#include <stdio.h>
#include <stdlib.h>

#include "delivery.h"
#include "skiff.h"
#include "skiff_words.h"
#include "values.h"

#define ANSWER (uint8_t *)answer, SKIFF_ANSWER_SIZE
#define STREAM_OF(delivery) FORMAT_OF(delivery), (delivery).rows.bytes, (delivery).rows.length

static int refused(const uint64_t *answer)
{
    skiff_print_refusal(stdout, answer);
    printf("\n");
    return 1;
}

/* The index of all rows. Asked without room, the call counts them: each takes one record. */
static uint32_t build_index(struct delivery delivery, struct slice *index, uint64_t answer[SKIFF_ANSWER_NUMBERS])
{
    uint32_t refusal = skiff_build_index(DEFAULT_SETTINGS, STREAM_OF(delivery), NULL, 0, ANSWER);
    if (refusal != SKIFF_NO_INDEX_ROOM)
        return refusal;
    make_room(index, answer[SKIFF_ANSWER_ROWS] * SKIFF_INDEX_RECORD_BYTES);
    return skiff_build_index(DEFAULT_SETTINGS, STREAM_OF(delivery), index->bytes, index->length, ANSWER);
}

int main(int count, char **words)
{
    struct slice index = {NULL, 0}, values = {NULL, 0}, payload = {NULL, 0};
    struct skiff_index_record record;
    struct delivery delivery;
    uint64_t answer[SKIFF_ANSWER_NUMBERS], row;
    uint32_t refusal;
    if (count != 3)
        stop("usage", "row-by-index FOLDER ROW");
    delivery = read_delivery(words[1]);
    row = strtoull(words[2], NULL, 10);

    if (build_index(delivery, &index, answer) != 0)
        return refused(answer);
    if (skiff_check_index(DEFAULT_SETTINGS, STREAM_OF(delivery), index.bytes, index.length, ANSWER) != 0)
        return refused(answer);
    printf("an index of %" PRIu64 " rows\n", answer[SKIFF_ANSWER_ROWS]);

    for (;;) {
        refusal = skiff_decode_indexed(DEFAULT_SETTINGS, STREAM_OF(delivery), index.bytes, index.length, row,
                                       values.bytes, values.length, payload.bytes, payload.length, ANSWER);
        if (refusal == SKIFF_NO_NODE_ROOM)
            make_room(&values, answer[SKIFF_ANSWER_CARRIED] * SKIFF_VALUE_RECORD_BYTES);
        else if (refusal == SKIFF_NO_PAYLOAD_ROOM)
            make_room(&payload, answer[SKIFF_ANSWER_CARRIED]);
        else
            break;
    }
    if (refusal != 0)
        return refused(answer);
    record = skiff_index_record_at(index.bytes, (size_t)row);
    printf("row %" PRIu64 ": %" PRIu32 " bytes from byte %" PRIu64 " on, table %" PRIu32 "\n", row, record.length,
           record.offset, record.table);
    print_row(row, answer[SKIFF_ANSWER_RECORDS], &values, &payload);
    return 0;
}
