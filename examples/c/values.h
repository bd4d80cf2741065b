/* values.h: the values of a decoded row, printed, and room for them. */
#ifndef VALUES_H
#define VALUES_H

#include <inttypes.h>
#include <stdio.h>
#include <stdlib.h>
#include <string.h>

#include "delivery.h"
#include "skiff.h"

#define MOST_LEVELS 64

/* Room for so many bytes; what stood there is gone where there was less. */
static void make_room(struct slice *slice, uint64_t length)
{
    if (length <= slice->length)
        return;
    free(slice->bytes);
    if ((slice->bytes = malloc((size_t)length)) == NULL)
        stop("can't be held", "what is asked for");
    slice->length = (size_t)length;
}

/* An int128 or int256: the library has the text, since C has no such number. */
static void print_integer(const uint8_t *bytes, size_t length)
{
    uint64_t answer[SKIFF_ANSWER_NUMBERS];
    uint8_t text[SKIFF_INTEGER_TEXT_BYTES];
    if (skiff_integer_text(bytes, length, text, sizeof text, (uint8_t *)answer, sizeof answer) != SKIFF_NO_REFUSAL)
        stop("an integer that is none", "skiff_decode");
    printf("%.*s", (int)answer[SKIFF_ANSWER_TEXT_BYTES], (const char *)text);
}

static void print_value(uint8_t kind, const uint64_t *answer, const struct slice *payload)
{
    const uint64_t value = answer[SKIFF_ANSWER_VALUE];
    double number;
    uint64_t i;
    switch (answer[SKIFF_ANSWER_CASE]) {
    case SKIFF_CASE_NOTHING:
        printf("-");
        break;
    case SKIFF_CASE_BOOLEAN:
    case SKIFF_CASE_UNSIGNED:
        printf("%" PRIu64, value);
        break;
    case SKIFF_CASE_SIGNED:
        printf("%" PRId64, (int64_t)value);
        break;
    case SKIFF_CASE_DOUBLE:
        memcpy(&number, &value, sizeof number);
        printf("%.17g", number);
        break;
    case SKIFF_CASE_PAYLOAD:
        if (kind == SKIFF_KIND_INT128 || kind == SKIFF_KIND_INT256) {
            print_integer(payload->bytes + value, (size_t)answer[SKIFF_ANSWER_LENGTH]);
            break;
        }
        for (i = 0; i < answer[SKIFF_ANSWER_LENGTH]; i++)
            printf("%02x", payload->bytes[value + i]);
        break;
    default:
        printf("of %" PRIu64, value);
    }
}

/* The records of a row, each with its depth: one more than its parent's. */
static void print_row(uint64_t row, uint64_t records, const struct slice *values, const struct slice *payload)
{
    uint64_t left[MOST_LEVELS + 1] = {0}, answer[SKIFF_ANSWER_NUMBERS], i;
    unsigned depth = 0;
    for (i = 0; i < records; i++) {
        const struct skiff_value_record record = skiff_value_record_at(values->bytes, (size_t)i);
        while (depth > 0 && left[depth] == 0)
            depth--;
        left[depth]--;
        if (skiff_value(values->bytes, (size_t)records * SKIFF_VALUE_RECORD_BYTES, i, (uint8_t *)answer,
                        sizeof answer) != SKIFF_NO_REFUSAL)
            stop("a record that is none", "skiff_decode");
        printf("%" PRIu64 " %u %u ", row, depth + 1, record.tag);
        print_value(record.kind, answer, payload);
        printf("\n");
        depth++;
        left[depth] = answer[SKIFF_ANSWER_CASE] == SKIFF_CASE_CHILDREN ? answer[SKIFF_ANSWER_VALUE] : 0;
    }
}

#endif
