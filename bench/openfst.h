// The optimizer over OpenFst, with the interface of pastaspur_optimize, by three constructions. All trust the card, the
// ranking and the word. Of two best candidates with one pair count they answer either.
#pragma once

#include "pastaspur.h"

#include <cstddef>
#include <cstdint>

// The product of the machines over the word as a delayed Fst (candidates.h): the fastest.
uint32_t openfst_optimize(const uint8_t *card, size_t card_len, const uint8_t *ranking, size_t ranking_len,
                          const uint8_t *word, size_t word_len, uint16_t *work, size_t work_len, uint8_t *answer,
                          size_t answer_len, pastaspur_evaluation *result);

// The same product, built whole as a VectorFst before the search.
uint32_t openfst_whole(const uint8_t *card, size_t card_len, const uint8_t *ranking, size_t ranking_len,
                       const uint8_t *word, size_t word_len, uint16_t *work, size_t work_len, uint8_t *answer,
                       size_t answer_len, pastaspur_evaluation *result);

// The word and the machines as acceptors of pairs, composed by the library, delayed.
uint32_t openfst_composed(const uint8_t *card, size_t card_len, const uint8_t *ranking, size_t ranking_len,
                          const uint8_t *word, size_t word_len, uint16_t *work, size_t work_len, uint8_t *answer,
                          size_t answer_len, pastaspur_evaluation *result);
