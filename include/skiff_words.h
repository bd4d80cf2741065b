/*
 * skiff_words.h: a refusal in words, the same in C, in the Rust front end and in the delivery program:
 *
 *   refused NUMBER NAME (what it carries) at PLACE
 *
 * `check-refusals` compares these words with the rules'.
 */
#ifndef SKIFF_WORDS_H
#define SKIFF_WORDS_H

#include <inttypes.h>
#include <stdio.h>
#include <string.h>

#include "skiff.h"

struct skiff_words {
    const char *name;
    const char *carries[3]; /* what each carried number is */
};

/* By enum skiff_refusal; a null name where there is none of this number. */
static inline struct skiff_words skiff_refusal_words(uint64_t refusal)
{
    static const struct {
        uint64_t number;
        struct skiff_words words;
    } all[] = {
        {1, {"Setting", {NULL}}},
        {2, {"BadSchemaTable", {NULL}}},
        {3, {"TooDeep", {NULL}}},
        {4, {"UnexpectedChildren", {"type", "count"}}},
        {5, {"TooManyChildren", {"type", "count", "maximum"}}},
        {6, {"EmptyTableSchemas", {NULL}}},
        {7, {"UnknownRegistryReference", {"table"}}},
        {8, {"TableSchemaRootMustBeTuple", {"type"}}},
        {9, {"TableSchemaMustBeTuple", {"type"}}},
        {10, {"TableSchemaChildMissingName", {"index"}}},
        {11, {"MissingTableSchema", {"table"}}},
        {12, {"Truncated", {"context"}}},
        {13, {"RowTooLarge", {"limit"}}},
        {14, {"BlobTooLarge", {"type", "length", "limit"}}},
        {15, {"ValueDoesNotMatchSchema", {"type", "kind"}}},
        {16, {"TupleLength", {"expected", "actual"}}},
        {17, {"InvalidVariantTag", {"type", "tag", "children"}}},
        {18, {"BadValueTable", {NULL}}},
        {19, {"NoNodeRoom", {"needed"}}},
        {20, {"NoPayloadRoom", {"needed"}}},
        {21, {"NoOutputRoom", {"needed"}}},
        {30, {"NoIndexRoom", {NULL}}},
        {31, {"IndexMismatch", {NULL}}},
        {32, {"NoSuchRow", {NULL}}},
        {33, {"NameNotUtf8", {NULL}}},
    };
    static const struct skiff_words none = {NULL, {NULL}};
    for (size_t i = 0; i < sizeof all / sizeof *all; i++)
        if (all[i].number == refusal)
            return all[i].words;
    return none;
}

/* The name of a wire code; null where there is none. */
static inline const char *skiff_type_word(uint64_t code)
{
    static const char *const words[] = {
        "nothing", "boolean", "int8", "int16", "int32", "int64", "int128", "int256",
        "uint8", "uint16", "uint32", "uint64", "double", "string32", "yson32",
        "variant8", "variant16", "repeated_variant8", "repeated_variant16", "tuple",
    };
    return code < sizeof words / sizeof *words ? words[code] : NULL;
}

/* The word for an enum skiff_context, or for a fixed type its name. */
static inline const char *skiff_context_word(uint64_t context)
{
    static const char *const words[] = {
        "blob-length", "blob-payload", "variant8-tag", "variant16-tag", "table-tag",
    };
    if (context < SKIFF_CONTEXT_BLOB_LENGTH)
        return skiff_type_word(context);
    context -= SKIFF_CONTEXT_BLOB_LENGTH;
    return context < sizeof words / sizeof *words ? words[context] : NULL;
}

/* Prints the refusal of an answer, without a line's end. Returns the printed characters, or a negative
 * number where that failed or the answer is no refusal. */
static inline int skiff_print_refusal(FILE *out, const uint64_t answer[SKIFF_ANSWER_NUMBERS])
{
    const struct skiff_words words = skiff_refusal_words(answer[SKIFF_ANSWER_REFUSAL]);
    char line[256];
    int length;
    if (words.name == NULL)
        return -1;
    length = sprintf(line, "refused %" PRIu64 " %s", answer[SKIFF_ANSWER_REFUSAL], words.name);
    for (int i = 0; i < 3 && words.carries[i] != NULL; i++) {
        const char *label = words.carries[i];
        const uint64_t value = answer[SKIFF_ANSWER_CARRIED + i];
        const char *word = strcmp(label, "type") == 0      ? skiff_type_word(value)
                           : strcmp(label, "context") == 0 ? skiff_context_word(value)
                                                           : NULL;
        length += sprintf(line + length, "%s%s %" PRIu64, i == 0 ? " (" : ", ", label, value);
        if (word != NULL)
            length += sprintf(line + length, " %s", word);
    }
    return fprintf(out, "%s%s at %" PRIu64, line, words.carries[0] != NULL ? ")" : "",
                   answer[SKIFF_ANSWER_PLACE]);
}

#endif
