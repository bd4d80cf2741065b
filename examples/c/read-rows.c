/* read-rows FOLDER: decodes the rows of a delivery and prints a line for each value: the row, the depth, the tag
 * by which a variant or a repeated parent chose it, and the value, an int128 or int256 in hex. Ends as count-rows
 * does. */

#include <inttypes.h>
#include <stdio.h>

#include "delivery.h"
#include "skiff.h"
#include "skiff_words.h"
#include "values.h"

int main(int count, char **words)
{
    struct slice values = {NULL, 0}, payload = {NULL, 0};
    struct delivery delivery;
    uint64_t answer[SKIFF_ANSWER_NUMBERS], rows = 0, position = 0;
    uint32_t refusal;
    if (count != 2)
        stop("usage", "read-rows FOLDER");
    delivery = read_delivery(words[1]);

    for (;;) {
        refusal = skiff_decode(DEFAULT_SETTINGS, FORMAT_OF(delivery), delivery.rows.bytes, delivery.rows.length,
                               position, values.bytes, values.length, payload.bytes, payload.length,
                               (uint8_t *)answer, sizeof answer);
        if (refusal == SKIFF_NO_NODE_ROOM)
            make_room(&values, answer[SKIFF_ANSWER_CARRIED] * SKIFF_VALUE_RECORD_BYTES);
        else if (refusal == SKIFF_NO_PAYLOAD_ROOM)
            make_room(&payload, answer[SKIFF_ANSWER_CARRIED]);
        else if (answer[SKIFF_ANSWER_WHAT] != SKIFF_WHAT_ROW)
            break;
        else {
            print_row(rows++, answer[SKIFF_ANSWER_RECORDS], &values, &payload);
            position += answer[SKIFF_ANSWER_ROW_BYTES];
        }
    }
    if (refusal == SKIFF_NO_REFUSAL) {
        printf("end %" PRIu64 " %" PRIu64 "\n", rows, position);
        return 0;
    }
    skiff_print_refusal(stdout, answer);
    printf(" after %" PRIu64 " rows, %" PRIu64 " bytes\n", rows, position);
    return 1;
}
