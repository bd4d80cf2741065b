/* count-rows FOLDER: counts the rows of a delivery (schema.rec, schema.nam, tables.ref, registry.reg,
 * rows.skf) and prints what the delivery program prints: `end ROWS BYTES`, or the refusal in words and the rows
 * and bytes before it. */

#include <inttypes.h>
#include <stdio.h>

#include "delivery.h"
#include "skiff.h"
#include "skiff_words.h"

int main(int count, char **words)
{
    struct delivery delivery;
    uint64_t answer[SKIFF_ANSWER_NUMBERS];
    uint32_t refusal;
    if (count != 2)
        stop("usage", "count-rows FOLDER");
    delivery = read_delivery(words[1]);
    refusal = skiff_run(DEFAULT_SETTINGS, FORMAT_OF(delivery), delivery.rows.bytes, delivery.rows.length,
                        (uint8_t *)answer, sizeof answer);
    if (refusal == SKIFF_NO_REFUSAL) {
        printf("end %" PRIu64 " %" PRIu64 "\n", answer[SKIFF_ANSWER_ROWS], answer[SKIFF_ANSWER_ROW_BYTES]);
        return 0;
    }
    skiff_print_refusal(stdout, answer);
    printf(" after %" PRIu64 " rows, %" PRIu64 " bytes\n", answer[SKIFF_ANSWER_ROWS], answer[SKIFF_ANSWER_ROW_BYTES]);
    return 1;
}
