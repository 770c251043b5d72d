// cases FILE: writes the cases of all rows to FILE as bench/on_board.c reads them, and says for each its row. cases FILE call: makes their calls
// too, and says what on_board.c says but for the instructions, which callgrind counts.

#include "pastaspur.h"
#include "rows.h"

#include <stdint.h>
#include <stdio.h>

static uint16_t work[PASTASPUR_WORK_NUMBERS];
static uint8_t answer[PASTASPUR_ANSWER_BYTES];
static pastaspur_evaluation result;

static void write_number(FILE *file, size_t number) {
  for (int i = 0; i < 4; i++) fputc((int)(number >> 8 * i & 255), file);
}

static void write_bytes(FILE *file, struct Bytes bytes) { fwrite(bytes.start, 1, bytes.length, file); }

int main(int argc, char **argv) {
  FILE *file = argc > 1 ? fopen(argv[1], "wb") : NULL;
  size_t count = 0;
  if (!file) return 2;
  for (size_t row = 0; row < all_row_count(); row++) count += row_cases(row);
  write_number(file, count);
  for (size_t row = 0; row < all_row_count(); row++) {
    for (size_t i = 0; i < row_cases(row); i++) {
      struct Case asked = row_case(row, i);
      size_t length = asked.card.length + asked.ranking.length + asked.word.length;
      write_number(file, asked.card.length), write_number(file, asked.ranking.length), write_number(file, asked.word.length);
      write_bytes(file, asked.card), write_bytes(file, asked.ranking), write_bytes(file, asked.word);
      for (; length % 4; length++) fputc(0, file);
      printf("%s", row_name(row));
      if (argc > 2) {
        uint32_t sum = 0;
        uint32_t refusal = pastaspur_optimize(asked.card.start, asked.card.length, asked.ranking.start, asked.ranking.length, asked.word.start,
                                              asked.word.length, work, PASTASPUR_WORK_NUMBERS, answer, sizeof answer, &result);
        for (uint32_t n = 0; n < 2 * (uint32_t)result.pairs; n++) sum = sum * 31 + answer[n];
        for (uint32_t n = 0; n < PASTASPUR_MACHINES; n++) sum = sum * 31 + result.counts[n];
        printf("\t%u %u %u", refusal, result.pairs, sum);
      }
      printf("\n");
    }
  }
  return fclose(file) != 0;
}
