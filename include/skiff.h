/*
 * skiff.h: rows of Skiff streams, skipped, counted, decoded, indexed and written, and their formats checked,
 * by a proved library.
 *
 * Link target/staticlib/libskiff.a, which rust/build-archive writes; it is for x86-64 and needs no
 * other library. The functions keep nothing between calls, allocate nothing and write to nothing but
 * the answer slice and, in skiff_decode and skiff_decode_indexed, the two slices for a row, in skiff_encode
 * the output, in skiff_build_index and skiff_extend_index the index, in skiff_integer_text the text, so any
 * number of threads may call them.
 *
 * A slice is a pointer and a length. The pointer leads to so many bytes; where the length is 0 it is not
 * followed and may be null. The length is below 2^63. A slice that is written overlaps none of the others.
 *
 * It is C99 and C++17. skiff_calls.h, which it includes at its end, ties these functions to the symbols.
 */
#ifndef SKIFF_H
#define SKIFF_H

#include <stddef.h>
#include <stdint.h>

#ifdef __cplusplus
extern "C" {
#endif

/* The release, as CHANGELOG.md has it. */
#define SKIFF_VERSION "0.1.0"

/* The version of all layouts below: records, answers, parameters. */
#define SKIFF_LAYOUT 2

/*
 * Settings. The node charge is 1 to 4,096 and each limit at most 4,294,967,295, else SKIFF_SETTING. A string32 and
 * a yson32 each have a limit of their own, by default the same; each is tested by every call that takes settings,
 * also where no such blob occurs. To read what skiff_encode wrote, neither may be lower than it was there.
 */
#define SKIFF_DEFAULT_NODE_CHARGE UINT64_C(48)
#define SKIFF_DEFAULT_MAX_BLOB_BYTES UINT64_C(134217728)
#define SKIFF_DEFAULT_MAX_ROW_BYTES UINT64_C(268435456)

/* Why a call is refused; skiff_words.h has the words. `check-refusals` compares this list with the rules' table. */
enum skiff_refusal {
    SKIFF_NO_REFUSAL = 0,
    SKIFF_SETTING = 1,                         /* a setting, a slice's length or a position */
    SKIFF_BAD_SCHEMA_TABLE = 2,                /* any flat form */
    SKIFF_TOO_DEEP = 3,                        /* a schema of more than 64 levels */
    SKIFF_UNEXPECTED_CHILDREN = 4,             /* carries type, count */
    SKIFF_TOO_MANY_CHILDREN = 5,               /* carries type, count, maximum */
    SKIFF_EMPTY_TABLE_SCHEMAS = 6,             /* a format without tables */
    SKIFF_UNKNOWN_REGISTRY_REFERENCE = 7,      /* carries table */
    SKIFF_TABLE_SCHEMA_ROOT_MUST_BE_TUPLE = 8, /* carries found: the root's type */
    SKIFF_TABLE_SCHEMA_MUST_BE_TUPLE = 9,      /* carries found: the same in writing */
    SKIFF_TABLE_SCHEMA_CHILD_MISSING_NAME = 10, /* carries index: the column's */
    SKIFF_MISSING_TABLE_SCHEMA = 11,           /* carries index: the table that a row names */
    SKIFF_TRUNCATED = 12,                      /* carries context: what was cut, enum skiff_context */
    SKIFF_ROW_TOO_LARGE = 13,                  /* carries limit */
    SKIFF_BLOB_TOO_LARGE = 14,                 /* carries type, length, limit: its own type's */
    SKIFF_VALUE_DOES_NOT_MATCH_SCHEMA = 15,    /* carries type, kind */
    SKIFF_TUPLE_LENGTH = 16,                   /* carries expected, actual */
    SKIFF_INVALID_VARIANT_TAG = 17,            /* carries type, tag, children */
    SKIFF_BAD_VALUE_TABLE = 18,
    SKIFF_NO_NODE_ROOM = 19,                   /* carries needed: records */
    SKIFF_NO_PAYLOAD_ROOM = 20,                /* carries needed: payload bytes */
    SKIFF_NO_OUTPUT_ROOM = 21,                 /* carries needed: output bytes, or a text's */
    SKIFF_NO_INDEX_ROOM = 30,                  /* more rows than an index slice has room for */
    SKIFF_INDEX_MISMATCH = 31,                 /* an index, or a record of it, is not the stream's */
    SKIFF_NO_SUCH_ROW = 32,                    /* the index has no record of that number */
    SKIFF_NAME_NOT_UTF8 = 33                   /* a name of a format or a schema is no well-formed UTF-8 */
};

/* What a stream was cut in. A type of fixed width has its own wire code, 1 to 12. */
enum skiff_context {
    SKIFF_CONTEXT_BLOB_LENGTH = 13,
    SKIFF_CONTEXT_BLOB_PAYLOAD = 14,
    SKIFF_CONTEXT_VARIANT8_TAG = 15,
    SKIFF_CONTEXT_VARIANT16_TAG = 16,
    SKIFF_CONTEXT_TABLE_TAG = 17
};

/*
 * The answer slice. Every function writes its first SKIFF_ANSWER_SIZE bytes, refused or not, as
 * SKIFF_ANSWER_NUMBERS numbers of eight bytes each, little-endian; what comes after them stays as it was.
 * Where the slice is shorter, nothing is written anywhere and SKIFF_SETTING is returned, before every
 * other refusal. On x86-64 a uint64_t[SKIFF_ANSWER_NUMBERS] will do for a slice; these are the indexes
 * into it.
 */
#define SKIFF_ANSWER_NUMBERS 11
#define SKIFF_ANSWER_SIZE 88

enum skiff_answer {
    SKIFF_ANSWER_WHAT = 0,      /* enum skiff_what */
    SKIFF_ANSWER_REFUSAL = 1,   /* enum skiff_refusal, which is also returned */
    SKIFF_ANSWER_PLACE = 2,     /* where the refusal was met: an offset from the input's start, a record
                                   number, a table, or in skiff_encode a value record's number and, for
                                   SKIFF_NO_OUTPUT_ROOM, the output position; else 0 */
    SKIFF_ANSWER_CARRIED = 3,   /* three numbers that the refusal carries, in the order above; else 0 */
    SKIFF_ANSWER_ROWS = 6,      /* 1 for an accepted row; the accepted rows of a run */
    SKIFF_ANSWER_ROW_BYTES = 7, /* bytes of the row; of all accepted rows of a run */
    SKIFF_ANSWER_TEXT_BYTES = 7, /* of skiff_integer_text, bytes of the text */
    SKIFF_ANSWER_TABLE = 8,     /* the row's table, and below how much skiff_decode makes of it, or
                                   skiff_encode was given: */
    SKIFF_ANSWER_RECORDS = 9,   /* value records, of SKIFF_VALUE_RECORD_BYTES each, */
    SKIFF_ANSWER_PAYLOAD = 10,  /* and payload bytes; all three are 0 for a run and a check, but for: */
    SKIFF_ANSWER_MAY_CHANGE = 8, /* of skiff_run_window, 1 where more bytes may change the answer, else 0 */
    SKIFF_ANSWER_TYPE = 8,      /* of skiff_parse, the wire type's code */
    SKIFF_ANSWER_CASE = 8,      /* of skiff_value, enum skiff_case, */
    SKIFF_ANSWER_VALUE = 9,     /* the value as that case has it; of skiff_kind, skiff_tag, skiff_child_count,
                                   skiff_after and skiff_field the number that they answer, */
    SKIFF_ANSWER_LENGTH = 10    /* and of skiff_value a payload's length */
};

enum skiff_what {
    SKIFF_WHAT_ROW = 0,     /* a row was skipped, decoded or written; or a format, a schema, a value table
                               or a name was accepted, and then all other numbers are 0 too; or a name is
                               that of a wire type; or a record has a value, or what else was asked of it;
                               or an integer has its text */
    SKIFF_WHAT_END = 1,     /* the position is the input's length, or the run came to it */
    SKIFF_WHAT_REFUSAL = 2, /* refused; a run then has the rows and bytes before, and all of them where the
                               index alone was refused */
    SKIFF_WHAT_NO_TYPE = 3  /* of skiff_parse: no wire type has that name, which is no refusal */
};

/*
 * The row at `position` of `input`, under the format of the four tables before it: schema records, the
 * store of their names, a reference for each table, and a registry of named schemas, which may be empty.
 * Returns the refusal's number, 0 for a row and for an end.
 *
 * Where `input` is a window of a longer stream, of at most 4,294,967,295 bytes, what skiff_skip and
 * skiff_decode answer stands whatever bytes come after the window, but for an end and SKIFF_TRUNCATED;
 * and it is the stream's own answer, with the window's start added to a place that is an offset.
 */
static inline uint32_t skiff_skip(uint64_t node_charge, uint64_t max_string32_bytes,
                                  uint64_t max_yson32_bytes, uint64_t max_row_bytes,
                                  const uint8_t *records, size_t records_len,
                                  const uint8_t *names, size_t names_len,
                                  const uint8_t *references, size_t references_len,
                                  const uint8_t *registry, size_t registry_len,
                                  const uint8_t *input, size_t input_len,
                                  uint64_t position,
                                  uint8_t *answer, size_t answer_len);

/*
 * A value record: how a decoded row has one of its values, in 16 bytes, numbers little-endian. A row's
 * records stand in preorder, the root's first: each is followed by its children, one after another, and
 * each child by its own before the next.
 *
 *   at 0       kind: enum skiff_kind
 *   at 1       zero
 *   at 2..3    tag: by which a variant or repeated parent chose this value; else 0
 *   at 4..7    size: the child count of a variant, which is 1, of a repeated or of a tuple; the payload
 *              length of an int128, which is 16, of an int256, which is 32, of a string32 or of a yson32;
 *              else 0
 *   at 8..15   data: of those four kinds the payload's start in the payload slice; of other scalars the
 *              bytes of the wire and then zeros, a boolean being 0 or 1; else 0
 *
 * Payloads stand one after another in the order of their records, with nothing between them.
 */
#define SKIFF_VALUE_RECORD_BYTES 16

struct skiff_value_record {
    uint8_t kind;
    uint16_t tag;
    uint32_t size;
    uint64_t data;
};

/* Record n, from 0 on, of value records that have it. It only takes the bytes apart. */
static inline struct skiff_value_record skiff_value_record_at(const uint8_t *value_records, size_t n)
{
    const uint8_t *bytes = value_records + n * SKIFF_VALUE_RECORD_BYTES;
    struct skiff_value_record record = {bytes[0], 0, 0, 0};
    int i;
    record.tag = (uint16_t)(bytes[2] | bytes[3] << 8);
    for (i = 3; i >= 0; i--)
        record.size = record.size << 8 | bytes[4 + i];
    for (i = 7; i >= 0; i--)
        record.data = record.data << 8 | bytes[8 + i];
    return record;
}

/* Up to SKIFF_KIND_YSON32 the wire codes. A tag's width is gone from variants and repeated ones. */
enum skiff_kind {
    SKIFF_KIND_NOTHING = 0,
    SKIFF_KIND_BOOLEAN = 1,
    SKIFF_KIND_INT8 = 2,
    SKIFF_KIND_INT16 = 3,
    SKIFF_KIND_INT32 = 4,
    SKIFF_KIND_INT64 = 5,
    SKIFF_KIND_INT128 = 6,
    SKIFF_KIND_INT256 = 7,
    SKIFF_KIND_UINT8 = 8,
    SKIFF_KIND_UINT16 = 9,
    SKIFF_KIND_UINT32 = 10,
    SKIFF_KIND_UINT64 = 11,
    SKIFF_KIND_DOUBLE = 12,
    SKIFF_KIND_STRING32 = 13,
    SKIFF_KIND_YSON32 = 14,
    SKIFF_KIND_VARIANT = 15,
    SKIFF_KIND_REPEATED = 16,
    SKIFF_KIND_TUPLE = 17
};

/*
 * skiff_skip, and on an accepted row its value records and payload bytes at the starts of two slices,
 * whose bytes after them stay. At an end and on every refusal both stay whole. Where a good row finds
 * too little room, SKIFF_NO_NODE_ROOM or else SKIFF_NO_PAYLOAD_ROOM carries what all of it needs, with
 * the row's offset for a place. Of each of the two slices only the first 4,294,967,295 bytes count.
 */
static inline uint32_t skiff_decode(uint64_t node_charge, uint64_t max_string32_bytes,
                                    uint64_t max_yson32_bytes, uint64_t max_row_bytes,
                                    const uint8_t *records, size_t records_len,
                                    const uint8_t *names, size_t names_len,
                                    const uint8_t *references, size_t references_len,
                                    const uint8_t *registry, size_t registry_len,
                                    const uint8_t *input, size_t input_len,
                                    uint64_t position,
                                    uint8_t *value_records, size_t value_records_len,
                                    uint8_t *payload, size_t payload_len,
                                    uint8_t *answer, size_t answer_len);

/* All rows from the start of `input`, until its end or the first refusal, which is then returned. */
static inline uint32_t skiff_run(uint64_t node_charge, uint64_t max_string32_bytes,
                                 uint64_t max_yson32_bytes, uint64_t max_row_bytes,
                                 const uint8_t *records, size_t records_len,
                                 const uint8_t *names, size_t names_len,
                                 const uint8_t *references, size_t references_len,
                                 const uint8_t *registry, size_t registry_len,
                                 const uint8_t *input, size_t input_len,
                                 uint8_t *answer, size_t answer_len);

/*
 * skiff_run over a stream that comes in windows. `rows` and `bytes` are those of the rows so far, 0 and 0
 * at first, and the window begins in the stream where these rows end. The answer is that of skiff_run over
 * the stream up to the window's end, rows, bytes and offsets from the stream's start.
 *
 * Where SKIFF_ANSWER_MAY_CHANGE is 1, which is at the window's end and on SKIFF_TRUNCATED, go on with
 * SKIFF_ANSWER_ROWS and SKIFF_ANSWER_ROW_BYTES for `rows` and `bytes`, and with a window that has the bytes
 * after these rows, those that are left of the last window first, and then more of the stream; where the
 * stream has no more bytes, the answer stands. Where it is 0, the answer stands whatever bytes come, as long
 * as the stream has at most 4,294,967,295. Where `bytes` and the window's length pass that number, and where
 * there are more rows than bytes, SKIFF_SETTING is answered with 0 rows and 0 bytes.
 */
static inline uint32_t skiff_run_window(uint64_t node_charge, uint64_t max_string32_bytes,
                                        uint64_t max_yson32_bytes, uint64_t max_row_bytes,
                                        const uint8_t *records, size_t records_len,
                                        const uint8_t *names, size_t names_len,
                                        const uint8_t *references, size_t references_len,
                                        const uint8_t *registry, size_t registry_len,
                                        const uint8_t *window, size_t window_len,
                                        uint64_t rows, uint64_t bytes,
                                        uint8_t *answer, size_t answer_len);

/*
 * An index: for each row of a stream where it begins, so that a row is found by its number. It has a record
 * for each row that skiff_run accepts, in order, and nothing before or behind them. A record has 16 bytes,
 * numbers little-endian:
 *
 *   at 0..7    offset: where the row begins in the stream
 *   at 8..11   length: how many bytes it has
 *   at 12..15  table: which one it is of
 */
#define SKIFF_INDEX_RECORD_BYTES 16

struct skiff_index_record {
    uint64_t offset;
    uint32_t length;
    uint32_t table;
};

/* Record n, from 0 on, of an index that has it. It only takes the bytes apart. */
static inline struct skiff_index_record skiff_index_record_at(const uint8_t *index, size_t n)
{
    const uint8_t *bytes = index + n * SKIFF_INDEX_RECORD_BYTES;
    struct skiff_index_record record = {0, 0, 0};
    int i;
    for (i = 7; i >= 0; i--)
        record.offset = record.offset << 8 | bytes[i];
    for (i = 3; i >= 0; i--) {
        record.length = record.length << 8 | bytes[8 + i];
        record.table = record.table << 8 | bytes[12 + i];
    }
    return record;
}

/*
 * skiff_run, and where it comes to the end, the index of its rows at the start of a slice, whose bytes after
 * it stay. Where the run is refused, so is this, and the answer is the run's. Last comes SKIFF_NO_INDEX_ROOM,
 * with all rows and bytes in the answer: the index needs SKIFF_ANSWER_ROWS times SKIFF_INDEX_RECORD_BYTES.
 * Refused, it has written nothing to the slice, of which only the first 4,294,967,295 bytes count, and of
 * these whole records.
 */
static inline uint32_t skiff_build_index(uint64_t node_charge, uint64_t max_string32_bytes,
                                         uint64_t max_yson32_bytes, uint64_t max_row_bytes,
                                         const uint8_t *records, size_t records_len,
                                         const uint8_t *names, size_t names_len,
                                         const uint8_t *references, size_t references_len,
                                         const uint8_t *registry, size_t registry_len,
                                         const uint8_t *input, size_t input_len,
                                         uint8_t *index, size_t index_len,
                                         uint8_t *answer, size_t answer_len);

/*
 * Whether `index` is the index of the stream: the very bytes that skiff_build_index writes. The answer is
 * that of skiff_run; but where the run comes to the end and the index has fewer or more records, a wrong one,
 * or bytes that are no whole record, it is SKIFF_INDEX_MISMATCH, with all rows and bytes.
 */
static inline uint32_t skiff_check_index(uint64_t node_charge, uint64_t max_string32_bytes,
                                         uint64_t max_yson32_bytes, uint64_t max_row_bytes,
                                         const uint8_t *records, size_t records_len,
                                         const uint8_t *names, size_t names_len,
                                         const uint8_t *references, size_t references_len,
                                         const uint8_t *registry, size_t registry_len,
                                         const uint8_t *input, size_t input_len,
                                         const uint8_t *index, size_t index_len,
                                         uint8_t *answer, size_t answer_len);

/*
 * The index of a stream to which rows were appended since its first `old` records were built: the records of
 * the rows after those are written behind them. The whole stream is run over, and the answer has all its rows
 * and bytes; where `old` is 0, this is skiff_build_index. Refused, it has written nothing to the slice.
 * SKIFF_SETTING is also for an `old` that is more than the slice has whole records. After the run comes
 * SKIFF_INDEX_MISMATCH, where the old records are not those of the stream's first rows or are more than it
 * has rows; then SKIFF_NO_INDEX_ROOM, as in skiff_build_index.
 */
static inline uint32_t skiff_extend_index(uint64_t node_charge, uint64_t max_string32_bytes,
                                          uint64_t max_yson32_bytes, uint64_t max_row_bytes,
                                          const uint8_t *records, size_t records_len,
                                          const uint8_t *names, size_t names_len,
                                          const uint8_t *references, size_t references_len,
                                          const uint8_t *registry, size_t registry_len,
                                          const uint8_t *input, size_t input_len,
                                          uint64_t old,
                                          uint8_t *index, size_t index_len,
                                          uint8_t *answer, size_t answer_len);

/*
 * Row `row`, from 0 on: skiff_decode at the offset that its index record says, so no row before it is read
 * and no other record is looked at. With an index that skiff_check_index accepts, it is the row of that
 * number in the run. It never says an end. Refused are in this order: settings and slices; the format;
 * SKIFF_NO_SUCH_ROW where the index has no such whole record; SKIFF_INDEX_MISMATCH where the offset is not
 * below the stream's length; the row; SKIFF_INDEX_MISMATCH where the row is of another table or length than
 * the record says; and last SKIFF_NO_NODE_ROOM and SKIFF_NO_PAYLOAD_ROOM.
 */
static inline uint32_t skiff_decode_indexed(uint64_t node_charge, uint64_t max_string32_bytes,
                                            uint64_t max_yson32_bytes, uint64_t max_row_bytes,
                                            const uint8_t *records, size_t records_len,
                                            const uint8_t *names, size_t names_len,
                                            const uint8_t *references, size_t references_len,
                                            const uint8_t *registry, size_t registry_len,
                                            const uint8_t *input, size_t input_len,
                                            const uint8_t *index, size_t index_len,
                                            uint64_t row,
                                            uint8_t *value_records, size_t value_records_len,
                                            uint8_t *payload, size_t payload_len,
                                            uint8_t *answer, size_t answer_len);

/*
 * The row that a value table is, written at `position` of `output` under one schema: `count` records of the
 * record table from record `first` on, a tuple whose columns have names. The row begins with the tag of table
 * 0. Refused, it has written nothing to the output; accepted, no other byte of it. Refused are in this order:
 * settings, slices and position; the schema; SKIFF_BAD_VALUE_TABLE for the whole value table; the row, value by
 * value; and last SKIFF_NO_OUTPUT_ROOM, which carries the row's bytes. Of the output only the first
 * 4,294,967,295 bytes count. Nothing is charged, so node_charge and max_row_bytes need only be in bounds.
 */
static inline uint32_t skiff_encode(uint64_t node_charge, uint64_t max_string32_bytes,
                                    uint64_t max_yson32_bytes, uint64_t max_row_bytes,
                                    const uint8_t *records, size_t records_len,
                                    const uint8_t *names, size_t names_len,
                                    uint64_t first, uint64_t count,
                                    const uint8_t *value_records, size_t value_records_len,
                                    const uint8_t *payload, size_t payload_len,
                                    uint8_t *output, size_t output_len,
                                    uint64_t position,
                                    uint8_t *answer, size_t answer_len);

/*
 * Whether value records and payload are exactly one value, as skiff_decode writes it: SKIFF_BAD_VALUE_TABLE
 * where they are not.
 */
static inline uint32_t skiff_check_value_table(const uint8_t *value_records, size_t value_records_len,
                                               const uint8_t *payload, size_t payload_len,
                                               uint8_t *answer, size_t answer_len);

/* What skiff_value answers with, and what SKIFF_ANSWER_VALUE then is. */
enum skiff_case {
    SKIFF_CASE_NOTHING = 0,  /* 0 */
    SKIFF_CASE_BOOLEAN = 1,  /* 0 or 1 */
    SKIFF_CASE_SIGNED = 2,   /* of int8 to int64, the number in the 64 bits of an int64_t */
    SKIFF_CASE_UNSIGNED = 3, /* of uint8 to uint64, the number */
    SKIFF_CASE_DOUBLE = 4,   /* the 64 bits of a double, a NaN's too */
    SKIFF_CASE_PAYLOAD = 5,  /* of int128, int256, string32 and yson32, where it starts in the payload */
    SKIFF_CASE_CHILDREN = 6  /* of a variant, a repeated or a tuple, how many it has */
};

/*
 * The value of record `index`, from 0 on, which needs no payload. A record that is not there is refused by
 * SKIFF_SETTING, and so is a slice of more than 4,294,967,295 bytes; then SKIFF_BAD_VALUE_TABLE where the slice
 * is not whole records, or where the record's kind, byte 1, size or data are not as its kind demands. Its tag,
 * where its payload starts and the tree are not looked at: skiff_check_value_table does that.
 */
static inline uint32_t skiff_value(const uint8_t *value_records, size_t value_records_len, uint64_t index,
                                   uint8_t *answer, size_t answer_len);

/*
 * What else record `record`, from 0 on, says, in SKIFF_ANSWER_VALUE: its kind, enum skiff_kind; its tag; how
 * many children it has, which is 0 for all but a variant, a repeated and a tuple. Each refuses what skiff_value
 * refuses, by the same number, and looks at this record alone.
 */
static inline uint32_t skiff_kind(const uint8_t *value_records, size_t value_records_len, uint64_t record,
                                  uint8_t *answer, size_t answer_len);

static inline uint32_t skiff_tag(const uint8_t *value_records, size_t value_records_len, uint64_t record,
                                 uint8_t *answer, size_t answer_len);

static inline uint32_t skiff_child_count(const uint8_t *value_records, size_t value_records_len,
                                         uint64_t record, uint8_t *answer, size_t answer_len);

/*
 * The number of the record behind `record` and all that is below it: in a row's records the next child of its
 * parent, where there is one, and behind the root as many as there are records. (The first child of what has
 * children is the record after it.) SKIFF_SETTING as in skiff_value; then SKIFF_BAD_VALUE_TABLE where the slice
 * is not whole records, where `record` or one below it is not as its kind demands, or where the children go on
 * behind the last record. It walks over `record` and the records below it, each once, so its time is linear in
 * how many they are.
 */
static inline uint32_t skiff_after(const uint8_t *value_records, size_t value_records_len, uint64_t record,
                                   uint8_t *answer, size_t answer_len);

/*
 * The number of the record that is field `field`, from 0 on, of `record`, a tuple. SKIFF_SETTING as in
 * skiff_value, and where `record` is no tuple or has no such field; then SKIFF_BAD_VALUE_TABLE where the slice
 * is not whole records, where `record` or one that is passed is not as its kind demands, or where the field
 * would stand behind the last record. The field's own record is not looked at. It walks over the fields before
 * it, each of their records once, so its time is linear in how many they are: for all fields of a tuple, ask
 * skiff_after from one to the next.
 */
static inline uint32_t skiff_field(const uint8_t *value_records, size_t value_records_len, uint64_t record,
                                   uint64_t field, uint8_t *answer, size_t answer_len);

/*
 * The text of an integer in two's complement, the lowest byte first, as the payload has an int128 and an int256:
 * a minus sign where it is negative, then the magnitude in lower hex, the most significant digit first, without
 * leading zeros; zero is "0". It stands at the start of `text`, without a zero byte behind it, and
 * SKIFF_ANSWER_TEXT_BYTES says how long it is; what comes after it stays. Refused, it has written nothing to
 * `text`: SKIFF_SETTING where `bytes` are none or more than SKIFF_INTEGER_BYTES; then SKIFF_NO_OUTPUT_ROOM, which
 * carries the text's bytes. Of `text` only the first 4,294,967,295 bytes count; SKIFF_INTEGER_TEXT_BYTES are
 * enough for every integer.
 */
#define SKIFF_INTEGER_BYTES 32
#define SKIFF_INTEGER_TEXT_BYTES 65

static inline uint32_t skiff_integer_text(const uint8_t *bytes, size_t bytes_len,
                                          uint8_t *text, size_t text_len,
                                          uint8_t *answer, size_t answer_len);

/*
 * Whether the four tables are a format. The calls that read a stream check it by themselves at every call,
 * and refuse it as this does, but for settings and positions, which come first. Every name in use is UTF-8,
 * else SKIFF_NAME_NOT_UTF8, which comes after SKIFF_BAD_SCHEMA_TABLE and SKIFF_TOO_DEEP and before all others:
 * names of nodes in the schemas of tables and of the registry, the registry's own names, used or not, and the
 * names by which tables refer to it. It does not say which name that is; skiff_check_name tells of each.
 */
static inline uint32_t skiff_check_format(const uint8_t *records, size_t records_len,
                                          const uint8_t *names, size_t names_len,
                                          const uint8_t *references, size_t references_len,
                                          const uint8_t *registry, size_t registry_len,
                                          uint8_t *answer, size_t answer_len);

/*
 * Whether `count` records of the record table from record `first` on are a schema to write by. skiff_encode
 * checks it by itself at every call. The names of its nodes are UTF-8, as in a format.
 */
static inline uint32_t skiff_check_encoder_schema(const uint8_t *records, size_t records_len,
                                                  const uint8_t *names, size_t names_len,
                                                  uint64_t first, uint64_t count,
                                                  uint8_t *answer, size_t answer_len);

/*
 * Whether one string may be a name: well-formed UTF-8 by the Unicode Standard, so without overlong forms, surrogates
 * and numbers above U+10FFFF; SKIFF_NAME_NOT_UTF8 where it is not. An empty one is, and so are U+0000,
 * noncharacters and a leading U+FEFF. SKIFF_SETTING where it has more than 4,294,967,295 bytes.
 */
static inline uint32_t skiff_check_name(const uint8_t *name, size_t name_len,
                                        uint8_t *answer, size_t answer_len);

/*
 * The wire type that has this very name, as "int8" or "repeated_variant16": its code, 0 to 19, in
 * SKIFF_ANSWER_TYPE, or SKIFF_WHAT_NO_TYPE. Nothing is trimmed, and no name is refused, however long;
 * so 0 is returned, but SKIFF_SETTING where the answer slice is too short.
 */
static inline uint32_t skiff_parse(const uint8_t *name, size_t name_len,
                                   uint8_t *answer, size_t answer_len);

#ifdef __cplusplus
}
#endif

#include "skiff_calls.h"

#endif
