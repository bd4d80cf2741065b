/*
 * skiff_calls.h: each function of skiff.h over the library's symbol, which has the version of the layouts in
 * it, so that a program and an archive that differ in a layout do not link. The symbols take no null pointer,
 * not even for an empty slice: a null one of length 0 is exchanged for one that leads somewhere.
 * `check-refusals` compares the names here with the library's.
 */
#ifndef SKIFF_CALLS_H
#define SKIFF_CALLS_H

#include "skiff.h"

#ifdef __cplusplus
extern "C" {
#endif

static inline const uint8_t *skiff_read_from(const uint8_t *bytes, size_t len)
{
    static const uint8_t none = 0;
    return bytes == NULL && len == 0 ? &none : bytes;
}

static inline uint8_t *skiff_write_to(uint8_t *bytes, size_t len)
{
    static uint8_t none = 0;
    return bytes == NULL && len == 0 ? &none : bytes;
}

#define SKIFF_READ(slice) skiff_read_from(slice, slice##_len), slice##_len
#define SKIFF_WRITTEN(slice) skiff_write_to(slice, slice##_len), slice##_len

uint32_t skiff2_skip(uint64_t, uint64_t, uint64_t, uint64_t, const uint8_t *, size_t, const uint8_t *,
                     size_t, const uint8_t *, size_t, const uint8_t *, size_t, const uint8_t *, size_t,
                     uint64_t, uint8_t *, size_t);

static inline uint32_t skiff_skip(uint64_t node_charge, uint64_t max_string32_bytes,
                                  uint64_t max_yson32_bytes, uint64_t max_row_bytes,
                                  const uint8_t *records, size_t records_len, const uint8_t *names,
                                  size_t names_len, const uint8_t *references, size_t references_len,
                                  const uint8_t *registry, size_t registry_len, const uint8_t *input,
                                  size_t input_len, uint64_t position, uint8_t *answer, size_t answer_len)
{
    return skiff2_skip(node_charge, max_string32_bytes, max_yson32_bytes, max_row_bytes,
                       SKIFF_READ(records), SKIFF_READ(names), SKIFF_READ(references),
                       SKIFF_READ(registry), SKIFF_READ(input), position, SKIFF_WRITTEN(answer));
}

uint32_t skiff2_decode(uint64_t, uint64_t, uint64_t, uint64_t, const uint8_t *, size_t, const uint8_t *,
                       size_t, const uint8_t *, size_t, const uint8_t *, size_t, const uint8_t *, size_t,
                       uint64_t, uint8_t *, size_t, uint8_t *, size_t, uint8_t *, size_t);

static inline uint32_t skiff_decode(uint64_t node_charge, uint64_t max_string32_bytes,
                                    uint64_t max_yson32_bytes, uint64_t max_row_bytes,
                                    const uint8_t *records, size_t records_len, const uint8_t *names,
                                    size_t names_len, const uint8_t *references, size_t references_len,
                                    const uint8_t *registry, size_t registry_len, const uint8_t *input,
                                    size_t input_len, uint64_t position, uint8_t *value_records,
                                    size_t value_records_len, uint8_t *payload, size_t payload_len,
                                    uint8_t *answer, size_t answer_len)
{
    return skiff2_decode(node_charge, max_string32_bytes, max_yson32_bytes, max_row_bytes,
                         SKIFF_READ(records), SKIFF_READ(names), SKIFF_READ(references),
                         SKIFF_READ(registry), SKIFF_READ(input), position, SKIFF_WRITTEN(value_records),
                         SKIFF_WRITTEN(payload), SKIFF_WRITTEN(answer));
}

uint32_t skiff2_run(uint64_t, uint64_t, uint64_t, uint64_t, const uint8_t *, size_t, const uint8_t *,
                    size_t, const uint8_t *, size_t, const uint8_t *, size_t, const uint8_t *, size_t,
                    uint8_t *, size_t);

static inline uint32_t skiff_run(uint64_t node_charge, uint64_t max_string32_bytes,
                                 uint64_t max_yson32_bytes, uint64_t max_row_bytes,
                                 const uint8_t *records, size_t records_len, const uint8_t *names,
                                 size_t names_len, const uint8_t *references, size_t references_len,
                                 const uint8_t *registry, size_t registry_len, const uint8_t *input,
                                 size_t input_len, uint8_t *answer, size_t answer_len)
{
    return skiff2_run(node_charge, max_string32_bytes, max_yson32_bytes, max_row_bytes,
                      SKIFF_READ(records), SKIFF_READ(names), SKIFF_READ(references),
                      SKIFF_READ(registry), SKIFF_READ(input), SKIFF_WRITTEN(answer));
}

uint32_t skiff2_run_window(uint64_t, uint64_t, uint64_t, uint64_t, const uint8_t *, size_t,
                           const uint8_t *, size_t, const uint8_t *, size_t, const uint8_t *, size_t,
                           const uint8_t *, size_t, uint64_t, uint64_t, uint8_t *, size_t);

static inline uint32_t skiff_run_window(uint64_t node_charge, uint64_t max_string32_bytes,
                                        uint64_t max_yson32_bytes, uint64_t max_row_bytes,
                                        const uint8_t *records, size_t records_len, const uint8_t *names,
                                        size_t names_len, const uint8_t *references,
                                        size_t references_len, const uint8_t *registry,
                                        size_t registry_len, const uint8_t *window, size_t window_len,
                                        uint64_t rows, uint64_t bytes, uint8_t *answer, size_t answer_len)
{
    return skiff2_run_window(node_charge, max_string32_bytes, max_yson32_bytes, max_row_bytes,
                             SKIFF_READ(records), SKIFF_READ(names), SKIFF_READ(references),
                             SKIFF_READ(registry), SKIFF_READ(window), rows, bytes,
                             SKIFF_WRITTEN(answer));
}

uint32_t skiff2_build_index(uint64_t, uint64_t, uint64_t, uint64_t, const uint8_t *, size_t,
                            const uint8_t *, size_t, const uint8_t *, size_t, const uint8_t *, size_t,
                            const uint8_t *, size_t, uint8_t *, size_t, uint8_t *, size_t);

static inline uint32_t skiff_build_index(uint64_t node_charge, uint64_t max_string32_bytes,
                                         uint64_t max_yson32_bytes, uint64_t max_row_bytes,
                                         const uint8_t *records, size_t records_len, const uint8_t *names,
                                         size_t names_len, const uint8_t *references,
                                         size_t references_len, const uint8_t *registry,
                                         size_t registry_len, const uint8_t *input, size_t input_len,
                                         uint8_t *index, size_t index_len, uint8_t *answer,
                                         size_t answer_len)
{
    return skiff2_build_index(node_charge, max_string32_bytes, max_yson32_bytes, max_row_bytes,
                              SKIFF_READ(records), SKIFF_READ(names), SKIFF_READ(references),
                              SKIFF_READ(registry), SKIFF_READ(input), SKIFF_WRITTEN(index),
                              SKIFF_WRITTEN(answer));
}

uint32_t skiff2_check_index(uint64_t, uint64_t, uint64_t, uint64_t, const uint8_t *, size_t,
                            const uint8_t *, size_t, const uint8_t *, size_t, const uint8_t *, size_t,
                            const uint8_t *, size_t, const uint8_t *, size_t, uint8_t *, size_t);

static inline uint32_t skiff_check_index(uint64_t node_charge, uint64_t max_string32_bytes,
                                         uint64_t max_yson32_bytes, uint64_t max_row_bytes,
                                         const uint8_t *records, size_t records_len, const uint8_t *names,
                                         size_t names_len, const uint8_t *references,
                                         size_t references_len, const uint8_t *registry,
                                         size_t registry_len, const uint8_t *input, size_t input_len,
                                         const uint8_t *index, size_t index_len, uint8_t *answer,
                                         size_t answer_len)
{
    return skiff2_check_index(node_charge, max_string32_bytes, max_yson32_bytes, max_row_bytes,
                              SKIFF_READ(records), SKIFF_READ(names), SKIFF_READ(references),
                              SKIFF_READ(registry), SKIFF_READ(input), SKIFF_READ(index),
                              SKIFF_WRITTEN(answer));
}

uint32_t skiff2_extend_index(uint64_t, uint64_t, uint64_t, uint64_t, const uint8_t *, size_t,
                             const uint8_t *, size_t, const uint8_t *, size_t, const uint8_t *, size_t,
                             const uint8_t *, size_t, uint64_t, uint8_t *, size_t, uint8_t *, size_t);

static inline uint32_t skiff_extend_index(uint64_t node_charge, uint64_t max_string32_bytes,
                                          uint64_t max_yson32_bytes, uint64_t max_row_bytes,
                                          const uint8_t *records, size_t records_len,
                                          const uint8_t *names, size_t names_len,
                                          const uint8_t *references, size_t references_len,
                                          const uint8_t *registry, size_t registry_len,
                                          const uint8_t *input, size_t input_len, uint64_t old,
                                          uint8_t *index, size_t index_len, uint8_t *answer,
                                          size_t answer_len)
{
    return skiff2_extend_index(node_charge, max_string32_bytes, max_yson32_bytes, max_row_bytes,
                               SKIFF_READ(records), SKIFF_READ(names), SKIFF_READ(references),
                               SKIFF_READ(registry), SKIFF_READ(input), old, SKIFF_WRITTEN(index),
                               SKIFF_WRITTEN(answer));
}

uint32_t skiff2_decode_indexed(uint64_t, uint64_t, uint64_t, uint64_t, const uint8_t *, size_t,
                               const uint8_t *, size_t, const uint8_t *, size_t, const uint8_t *, size_t,
                               const uint8_t *, size_t, const uint8_t *, size_t, uint64_t, uint8_t *,
                               size_t, uint8_t *, size_t, uint8_t *, size_t);

static inline uint32_t skiff_decode_indexed(uint64_t node_charge, uint64_t max_string32_bytes,
                                            uint64_t max_yson32_bytes, uint64_t max_row_bytes,
                                            const uint8_t *records, size_t records_len,
                                            const uint8_t *names, size_t names_len,
                                            const uint8_t *references, size_t references_len,
                                            const uint8_t *registry, size_t registry_len,
                                            const uint8_t *input, size_t input_len, const uint8_t *index,
                                            size_t index_len, uint64_t row, uint8_t *value_records,
                                            size_t value_records_len, uint8_t *payload,
                                            size_t payload_len, uint8_t *answer, size_t answer_len)
{
    return skiff2_decode_indexed(node_charge, max_string32_bytes, max_yson32_bytes, max_row_bytes,
                                 SKIFF_READ(records), SKIFF_READ(names), SKIFF_READ(references),
                                 SKIFF_READ(registry), SKIFF_READ(input), SKIFF_READ(index), row,
                                 SKIFF_WRITTEN(value_records), SKIFF_WRITTEN(payload),
                                 SKIFF_WRITTEN(answer));
}

uint32_t skiff2_encode(uint64_t, uint64_t, uint64_t, uint64_t, const uint8_t *, size_t, const uint8_t *,
                       size_t, uint64_t, uint64_t, const uint8_t *, size_t, const uint8_t *, size_t,
                       uint8_t *, size_t, uint64_t, uint8_t *, size_t);

static inline uint32_t skiff_encode(uint64_t node_charge, uint64_t max_string32_bytes,
                                    uint64_t max_yson32_bytes, uint64_t max_row_bytes,
                                    const uint8_t *records, size_t records_len, const uint8_t *names,
                                    size_t names_len, uint64_t first, uint64_t count,
                                    const uint8_t *value_records, size_t value_records_len,
                                    const uint8_t *payload, size_t payload_len, uint8_t *output,
                                    size_t output_len, uint64_t position, uint8_t *answer,
                                    size_t answer_len)
{
    return skiff2_encode(node_charge, max_string32_bytes, max_yson32_bytes, max_row_bytes,
                         SKIFF_READ(records), SKIFF_READ(names), first, count, SKIFF_READ(value_records),
                         SKIFF_READ(payload), SKIFF_WRITTEN(output), position, SKIFF_WRITTEN(answer));
}

uint32_t skiff2_check_value_table(const uint8_t *, size_t, const uint8_t *, size_t, uint8_t *, size_t);

static inline uint32_t skiff_check_value_table(const uint8_t *value_records, size_t value_records_len,
                                               const uint8_t *payload, size_t payload_len,
                                               uint8_t *answer, size_t answer_len)
{
    return skiff2_check_value_table(SKIFF_READ(value_records), SKIFF_READ(payload), SKIFF_WRITTEN(answer));
}

uint32_t skiff2_integer_text(const uint8_t *, size_t, uint8_t *, size_t, uint8_t *, size_t);

static inline uint32_t skiff_integer_text(const uint8_t *bytes, size_t bytes_len, uint8_t *text,
                                          size_t text_len, uint8_t *answer, size_t answer_len)
{
    return skiff2_integer_text(SKIFF_READ(bytes), SKIFF_WRITTEN(text), SKIFF_WRITTEN(answer));
}

uint32_t skiff2_check_format(const uint8_t *, size_t, const uint8_t *, size_t, const uint8_t *, size_t,
                             const uint8_t *, size_t, uint8_t *, size_t);

static inline uint32_t skiff_check_format(const uint8_t *records, size_t records_len,
                                          const uint8_t *names, size_t names_len,
                                          const uint8_t *references, size_t references_len,
                                          const uint8_t *registry, size_t registry_len, uint8_t *answer,
                                          size_t answer_len)
{
    return skiff2_check_format(SKIFF_READ(records), SKIFF_READ(names), SKIFF_READ(references),
                               SKIFF_READ(registry), SKIFF_WRITTEN(answer));
}

uint32_t skiff2_check_encoder_schema(const uint8_t *, size_t, const uint8_t *, size_t, uint64_t, uint64_t,
                                     uint8_t *, size_t);

static inline uint32_t skiff_check_encoder_schema(const uint8_t *records, size_t records_len,
                                                  const uint8_t *names, size_t names_len, uint64_t first,
                                                  uint64_t count, uint8_t *answer, size_t answer_len)
{
    return skiff2_check_encoder_schema(SKIFF_READ(records), SKIFF_READ(names), first, count,
                                       SKIFF_WRITTEN(answer));
}

uint32_t skiff2_check_name(const uint8_t *, size_t, uint8_t *, size_t);

static inline uint32_t skiff_check_name(const uint8_t *name, size_t name_len, uint8_t *answer,
                                        size_t answer_len)
{
    return skiff2_check_name(SKIFF_READ(name), SKIFF_WRITTEN(answer));
}

uint32_t skiff2_parse(const uint8_t *, size_t, uint8_t *, size_t);

static inline uint32_t skiff_parse(const uint8_t *name, size_t name_len, uint8_t *answer,
                                   size_t answer_len)
{
    return skiff2_parse(SKIFF_READ(name), SKIFF_WRITTEN(answer));
}

uint32_t skiff2_value(const uint8_t *, size_t, uint64_t, uint8_t *, size_t);

static inline uint32_t skiff_value(const uint8_t *value_records, size_t value_records_len, uint64_t index,
                                   uint8_t *answer, size_t answer_len)
{
    return skiff2_value(SKIFF_READ(value_records), index, SKIFF_WRITTEN(answer));
}

uint32_t skiff2_kind(const uint8_t *, size_t, uint64_t, uint8_t *, size_t);

static inline uint32_t skiff_kind(const uint8_t *value_records, size_t value_records_len, uint64_t record,
                                  uint8_t *answer, size_t answer_len)
{
    return skiff2_kind(SKIFF_READ(value_records), record, SKIFF_WRITTEN(answer));
}

uint32_t skiff2_tag(const uint8_t *, size_t, uint64_t, uint8_t *, size_t);

static inline uint32_t skiff_tag(const uint8_t *value_records, size_t value_records_len, uint64_t record,
                                 uint8_t *answer, size_t answer_len)
{
    return skiff2_tag(SKIFF_READ(value_records), record, SKIFF_WRITTEN(answer));
}

uint32_t skiff2_child_count(const uint8_t *, size_t, uint64_t, uint8_t *, size_t);

static inline uint32_t skiff_child_count(const uint8_t *value_records, size_t value_records_len,
                                         uint64_t record, uint8_t *answer, size_t answer_len)
{
    return skiff2_child_count(SKIFF_READ(value_records), record, SKIFF_WRITTEN(answer));
}

uint32_t skiff2_after(const uint8_t *, size_t, uint64_t, uint8_t *, size_t);

static inline uint32_t skiff_after(const uint8_t *value_records, size_t value_records_len, uint64_t record,
                                   uint8_t *answer, size_t answer_len)
{
    return skiff2_after(SKIFF_READ(value_records), record, SKIFF_WRITTEN(answer));
}

uint32_t skiff2_field(const uint8_t *, size_t, uint64_t, uint64_t, uint8_t *, size_t);

static inline uint32_t skiff_field(const uint8_t *value_records, size_t value_records_len, uint64_t record,
                                   uint64_t field, uint8_t *answer, size_t answer_len)
{
    return skiff2_field(SKIFF_READ(value_records), record, field, SKIFF_WRITTEN(answer));
}

#undef SKIFF_READ
#undef SKIFF_WRITTEN

#ifdef __cplusplus
}
#endif

#endif
