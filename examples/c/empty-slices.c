/* empty-slices: each function with a null pointer of length 0 for every slice that may be empty, the answer slice
 * too, and what it says then. It is C99 and C++17. */

#include <stdio.h>
#include <string.h>

#include "skiff.h"

static uint64_t answer[SKIFF_ANSWER_NUMBERS];
static int wrong;

#define SETTINGS \
    SKIFF_DEFAULT_NODE_CHARGE, SKIFF_DEFAULT_MAX_BLOB_BYTES, SKIFF_DEFAULT_MAX_BLOB_BYTES, SKIFF_DEFAULT_MAX_ROW_BYTES
#define NONE NULL, 0
#define FORMAT NONE, NONE, NONE, NONE
#define ANSWER (uint8_t *)answer, sizeof answer

static void says(const char *call, uint32_t said, uint32_t refusal, uint64_t what)
{
    const int right = said == refusal && answer[SKIFF_ANSWER_WHAT] == what && answer[SKIFF_ANSWER_REFUSAL] == refusal;
    printf("%s: %u%s\n", call, (unsigned)said, right ? "" : ", WRONG");
    wrong += !right;
    memset(answer, 255, sizeof answer);
}

/* Too short an answer slice: 1, and nothing is written. */
static void short_answer(const char *call, uint32_t said)
{
    const int right = said == SKIFF_SETTING && answer[0] == UINT64_MAX;
    printf("%s, no answer slice: %u%s\n", call, (unsigned)said, right ? "" : ", WRONG");
    wrong += !right;
}

int main(void)
{
    const uint8_t int8[4] = {'i', 'n', 't', '8'};
    const uint8_t minus_255[2] = {0x01, 0xff};
    const uint8_t overlong[2] = {0xc0, 0x80};
    uint8_t text[SKIFF_INTEGER_TEXT_BYTES];
    memset(answer, 255, sizeof answer);

    /* No tables are a format without tables; an empty block is no schema, an empty value table no value. */
    says("skiff_skip", skiff_skip(SETTINGS, FORMAT, NONE, 0, ANSWER), SKIFF_EMPTY_TABLE_SCHEMAS, SKIFF_WHAT_REFUSAL);
    says("skiff_decode", skiff_decode(SETTINGS, FORMAT, NONE, 0, NONE, NONE, ANSWER), SKIFF_EMPTY_TABLE_SCHEMAS,
         SKIFF_WHAT_REFUSAL);
    says("skiff_run", skiff_run(SETTINGS, FORMAT, NONE, ANSWER), SKIFF_EMPTY_TABLE_SCHEMAS, SKIFF_WHAT_REFUSAL);
    says("skiff_run_window", skiff_run_window(SETTINGS, FORMAT, NONE, 0, 0, ANSWER), SKIFF_EMPTY_TABLE_SCHEMAS,
         SKIFF_WHAT_REFUSAL);
    says("skiff_build_index", skiff_build_index(SETTINGS, FORMAT, NONE, NONE, ANSWER), SKIFF_EMPTY_TABLE_SCHEMAS,
         SKIFF_WHAT_REFUSAL);
    says("skiff_check_index", skiff_check_index(SETTINGS, FORMAT, NONE, NONE, ANSWER), SKIFF_EMPTY_TABLE_SCHEMAS,
         SKIFF_WHAT_REFUSAL);
    says("skiff_extend_index", skiff_extend_index(SETTINGS, FORMAT, NONE, 0, NONE, ANSWER), SKIFF_EMPTY_TABLE_SCHEMAS,
         SKIFF_WHAT_REFUSAL);
    says("skiff_decode_indexed", skiff_decode_indexed(SETTINGS, FORMAT, NONE, NONE, 0, NONE, NONE, ANSWER),
         SKIFF_EMPTY_TABLE_SCHEMAS, SKIFF_WHAT_REFUSAL);
    says("skiff_encode", skiff_encode(SETTINGS, NONE, NONE, 0, 0, NONE, NONE, NONE, 0, ANSWER), SKIFF_BAD_SCHEMA_TABLE,
         SKIFF_WHAT_REFUSAL);
    says("skiff_check_value_table", skiff_check_value_table(NONE, NONE, ANSWER), SKIFF_BAD_VALUE_TABLE,
         SKIFF_WHAT_REFUSAL);
    says("skiff_integer_text", skiff_integer_text(NONE, NONE, ANSWER), SKIFF_SETTING, SKIFF_WHAT_REFUSAL);
    says("skiff_integer_text, two bytes", skiff_integer_text(minus_255, sizeof minus_255, NONE, ANSWER),
         SKIFF_NO_OUTPUT_ROOM, SKIFF_WHAT_REFUSAL);
    says("skiff_check_format", skiff_check_format(FORMAT, ANSWER), SKIFF_EMPTY_TABLE_SCHEMAS, SKIFF_WHAT_REFUSAL);
    says("skiff_check_encoder_schema", skiff_check_encoder_schema(NONE, NONE, 0, 0, ANSWER), SKIFF_BAD_SCHEMA_TABLE,
         SKIFF_WHAT_REFUSAL);
    /* An empty name is well-formed UTF-8; a zero byte in two bytes is not. */
    says("skiff_check_name", skiff_check_name(NONE, ANSWER), SKIFF_NO_REFUSAL, SKIFF_WHAT_ROW);
    says("skiff_check_name, two bytes", skiff_check_name(overlong, sizeof overlong, ANSWER), SKIFF_NAME_NOT_UTF8,
         SKIFF_WHAT_REFUSAL);
    says("skiff_parse", skiff_parse(NONE, ANSWER), SKIFF_NO_REFUSAL, SKIFF_WHAT_NO_TYPE);
    says("skiff_value", skiff_value(NONE, 0, ANSWER), SKIFF_SETTING, SKIFF_WHAT_REFUSAL);
    says("skiff_kind", skiff_kind(NONE, 0, ANSWER), SKIFF_SETTING, SKIFF_WHAT_REFUSAL);
    says("skiff_tag", skiff_tag(NONE, 0, ANSWER), SKIFF_SETTING, SKIFF_WHAT_REFUSAL);
    says("skiff_child_count", skiff_child_count(NONE, 0, ANSWER), SKIFF_SETTING, SKIFF_WHAT_REFUSAL);
    says("skiff_after", skiff_after(NONE, 0, ANSWER), SKIFF_SETTING, SKIFF_WHAT_REFUSAL);
    says("skiff_field", skiff_field(NONE, 0, 0, ANSWER), SKIFF_SETTING, SKIFF_WHAT_REFUSAL);

    short_answer("skiff_skip", skiff_skip(SETTINGS, FORMAT, NONE, 0, NONE));
    short_answer("skiff_decode", skiff_decode(SETTINGS, FORMAT, NONE, 0, NONE, NONE, NONE));
    short_answer("skiff_run", skiff_run(SETTINGS, FORMAT, NONE, NONE));
    short_answer("skiff_run_window", skiff_run_window(SETTINGS, FORMAT, NONE, 0, 0, NONE));
    short_answer("skiff_build_index", skiff_build_index(SETTINGS, FORMAT, NONE, NONE, NONE));
    short_answer("skiff_check_index", skiff_check_index(SETTINGS, FORMAT, NONE, NONE, NONE));
    short_answer("skiff_extend_index", skiff_extend_index(SETTINGS, FORMAT, NONE, 0, NONE, NONE));
    short_answer("skiff_decode_indexed", skiff_decode_indexed(SETTINGS, FORMAT, NONE, NONE, 0, NONE, NONE, NONE));
    short_answer("skiff_encode", skiff_encode(SETTINGS, NONE, NONE, 0, 0, NONE, NONE, NONE, 0, NONE));
    short_answer("skiff_check_value_table", skiff_check_value_table(NONE, NONE, NONE));
    short_answer("skiff_integer_text", skiff_integer_text(NONE, NONE, NONE));
    short_answer("skiff_check_format", skiff_check_format(FORMAT, NONE));
    short_answer("skiff_check_encoder_schema", skiff_check_encoder_schema(NONE, NONE, 0, 0, NONE));
    short_answer("skiff_check_name", skiff_check_name(NONE, NONE));
    short_answer("skiff_parse", skiff_parse(NONE, NONE));
    short_answer("skiff_value", skiff_value(NONE, 0, NONE));
    short_answer("skiff_kind", skiff_kind(NONE, 0, NONE));
    short_answer("skiff_tag", skiff_tag(NONE, 0, NONE));
    short_answer("skiff_child_count", skiff_child_count(NONE, 0, NONE));
    short_answer("skiff_after", skiff_after(NONE, 0, NONE));
    short_answer("skiff_field", skiff_field(NONE, 0, 0, NONE));

    skiff_parse(int8, sizeof int8, ANSWER);
    printf("int8 is %u\n", (unsigned)answer[SKIFF_ANSWER_TYPE]);
    wrong += answer[SKIFF_ANSWER_WHAT] != SKIFF_WHAT_ROW || answer[SKIFF_ANSWER_TYPE] != SKIFF_KIND_INT8;

    skiff_integer_text(minus_255, sizeof minus_255, text, sizeof text, ANSWER);
    const int right = answer[SKIFF_ANSWER_TEXT_BYTES] == 3 && memcmp(text, "-ff", 3) == 0;
    printf("01 ff is %s\n", right ? "-ff" : "WRONG");
    wrong += !right;
    return wrong != 0;
}
