// The rows of the table and the second implementation's optimizer, from Rust: src/lib.rs.
#pragma once

#include "pastaspur.h"

#include <stddef.h>
#include <stdint.h>

#ifdef __cplusplus
extern "C" {
#endif

struct Bytes {
  const uint8_t *start;
  size_t length;
};

// One call: a card, a ranking, a word.
struct Case {
  struct Bytes card;
  struct Bytes ranking;
  struct Bytes word;
};

size_t row_count(void);     // those of bench/run
size_t all_row_count(void); // with 'slowest found', behind them
const char *row_name(size_t row);
size_t row_cases(size_t row);
struct Case row_case(size_t row, size_t number);

uint32_t reference_optimize(const uint8_t *card, size_t card_len, const uint8_t *ranking, size_t ranking_len,
                            const uint8_t *word, size_t word_len, uint16_t *work, size_t work_len, uint8_t *answer,
                            size_t answer_len, pastaspur_evaluation *result);

#ifdef __cplusplus
}
#endif
