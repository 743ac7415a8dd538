#ifndef REFERENCE_H
#define REFERENCE_H

#include <stddef.h>
#include <stdint.h>

/* The five operations of the scope document, over numbers and byte slices. */

uint32_t ref_check(const uint8_t *sheet, size_t sheet_len,
                   uint8_t *answer, size_t answer_len);

uint32_t ref_run(const uint8_t *sheet, size_t sheet_len, uint32_t state,
                 const uint8_t *schedule, size_t schedule_len,
                 uint8_t *answer, size_t answer_len);

uint32_t ref_compile(const uint8_t *sheet, size_t sheet_len,
                     uint32_t horizon, uint32_t limit,
                     uint8_t *rows, size_t rows_len,
                     uint8_t *answer, size_t answer_len);

uint32_t ref_judge(const uint8_t *sheet, size_t sheet_len, uint32_t horizon,
                   const uint8_t *rows, size_t rows_len,
                   uint32_t count, uint32_t root, uint32_t state,
                   const uint8_t *masks, size_t masks_len,
                   uint8_t *answer, size_t answer_len);

uint32_t ref_plan(const uint8_t *sheet, size_t sheet_len, uint32_t limit,
                  uint8_t *rows, size_t rows_len,
                  uint8_t *schedule, size_t schedule_len,
                  uint8_t *answer, size_t answer_len);

#endif
