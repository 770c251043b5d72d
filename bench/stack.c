// Prints for each exported call how many bytes of stack it uses, the most over all rows: the call runs on a painted stack, and the
// deepest byte that it changed is looked for.

#define _GNU_SOURCE
#include "pastaspur.h"
#include "rows.h"

#include <stdint.h>
#include <stdio.h>
#include <stdlib.h>
#include <string.h>
#include <sys/mman.h>
#include <ucontext.h>

enum { STACK_BYTES = 1 << 20, PAINTS = 2 };
static const uint8_t paints[PAINTS] = {0xa5, 0x5a};

static uint8_t *stack;
static ucontext_t caller, callee;
static struct Case asked;
static uint16_t work[PASTASPUR_WORK_NUMBERS];
static uint64_t weights_work[PASTASPUR_WEIGHTS_WORK_NUMBERS];
static uint8_t answer[PASTASPUR_ANSWER_BYTES];
static pastaspur_evaluation result;
static uint32_t number;

// What the other calls are lent: the word's symbols as sets, the answer as a candidate and as a tableau, the card's parts, a target,
// sixty-four conditions, rows of a live tableau.
static uint64_t sets[24];
static uint16_t lengths[6];
static uint8_t target[65536];
static pastaspur_part part;
static size_t length;
static const uint16_t counts[2][6] = {{1, 2, 3, 4, 5, 6}, {6, 5, 4, 3, 2, 1}};
static uint8_t conditions[128];
static pastaspur_comparison comparison;
static pastaspur_ranking_condition condition;
static pastaspur_judgement judgement;
static pastaspur_lead lead;
static uint8_t found[6];
static uint8_t tableau[18 + PASTASPUR_ANSWER_BYTES];
static pastaspur_row live[32];
static const pastaspur_row added = {65535, {1, 2, 3, 4, 5, 6}};

static void call_nothing(void) { number = 0; }

static void call_optimize(void) {
  number = pastaspur_optimize(asked.card.start, asked.card.length, asked.ranking.start, asked.ranking.length,
                              asked.word.start, asked.word.length, work, PASTASPUR_WORK_NUMBERS, answer,
                              PASTASPUR_ANSWER_BYTES, &result);
}

static void call_cull(void) {
  number = pastaspur_cull(asked.card.start, asked.card.length, asked.ranking.start, asked.ranking.length,
                          asked.word.start, asked.word.length, work, PASTASPUR_WORK_NUMBERS, answer,
                          PASTASPUR_ANSWER_BYTES, &result);
}

static void call_sets(uint32_t (*engine)(const uint8_t *, size_t, const uint8_t *, size_t, const uint64_t *, size_t, uint16_t *,
                                         size_t, uint8_t *, size_t, pastaspur_evaluation *)) {
  for (size_t i = 0; i < asked.word.length; i++) sets[i] = (uint64_t)1 << asked.word.start[i];
  number = engine(asked.card.start, asked.card.length, asked.ranking.start, asked.ranking.length, sets, asked.word.length, work,
                  PASTASPUR_WORK_NUMBERS, answer, PASTASPUR_ANSWER_BYTES, &result);
}

static void call_optimize_sets(void) { call_sets(pastaspur_optimize_sets); }

static void call_cull_sets(void) { call_sets(pastaspur_cull_sets); }

// By equal weights; the result of the ranked call stays for the calls after it.
static void call_optimize_weights(void) {
  static const uint32_t weights[6] = {1000, 1000, 1000, 1000, 1000, 1000};
  static uint8_t pairs[PASTASPUR_ANSWER_BYTES];
  static pastaspur_weighing weighing;
  number = pastaspur_optimize_weights(asked.card.start, asked.card.length, weights, asked.card.start[0], asked.word.start,
                                      asked.word.length, weights_work, PASTASPUR_WEIGHTS_WORK_NUMBERS, pairs,
                                      PASTASPUR_ANSWER_BYTES, &weighing);
}

static void call_evaluate(void) {
  number = pastaspur_evaluate(asked.card.start, asked.card.length, answer, 2 * (size_t)result.pairs, &result);
}

// A tableau whose one row is the answer.
static void call_judge(void) {
  size_t bytes_of_pairs = 2 * (size_t)result.pairs, row = 12 + bytes_of_pairs;
  tableau[0] = 1, tableau[1] = 0, tableau[2] = 6, tableau[3] = 0, tableau[4] = row % 256, tableau[5] = row / 256;
  for (size_t i = 0; i < 6; i++) tableau[6 + 2 * i] = result.counts[i] % 256, tableau[7 + 2 * i] = result.counts[i] / 256;
  memcpy(tableau + 18, answer, bytes_of_pairs);
  number = pastaspur_judge(asked.card.start, asked.card.length, asked.ranking.start, asked.ranking.length, asked.word.start,
                           asked.word.length, work, PASTASPUR_WORK_NUMBERS, tableau, 6 + row, &judgement);
}

static void call_read_part(void) {
  number = pastaspur_read_part(asked.card.start, asked.card.length, asked.card.start[0] - 1, &part);
}

static void call_pack(void) {
  size_t machines = asked.card.start[0];
  size_t parts = 2 + 4 * machines;
  for (size_t i = 0; i < machines; i++) lengths[i] = asked.card.start[4 + 4 * i] | asked.card.start[5 + 4 * i] << 8;
  number = pastaspur_pack(asked.card.start[1], lengths, machines, asked.card.start + parts, asked.card.length - parts, target,
                          sizeof target, &length);
}

// Two machines of 252 arcs each, one with marks, to join: a pair of symbols for each arc, so that the joined machine has 252 too.
enum { ARCS = 252, PART_BYTES = 2 + 1 + 20 * ARCS };
static uint8_t two_machines[10 + 2 * PART_BYTES];

static void fill_two_machines(void) {
  two_machines[0] = 2, two_machines[1] = 63;
  for (size_t m = 0; m < 2; m++) {
    size_t offset = 10 + m * PART_BYTES;
    uint8_t *place = two_machines + 2 + 4 * m, *bytes = two_machines + offset;
    place[0] = offset % 256, place[1] = offset / 256, place[2] = PART_BYTES % 256, place[3] = PART_BYTES / 256;
    bytes[0] = 1, bytes[1] = ARCS, bytes[2] = 1;
    for (size_t a = 0; a < ARCS; a++) {
      uint8_t *arc = bytes + 3 + 20 * a;
      size_t in = 1 + a / 4, out = 1 + a % 4;
      arc[2] = m, arc[4 + in / 8] = 1 << in % 8, arc[12 + out / 8] = 1 << out % 8;
    }
  }
}

static void call_join(void) {
  fill_two_machines();
  number = pastaspur_join(two_machines, sizeof two_machines, 0, 1, target, sizeof target, &length);
}

static void call_compare(void) {
  number = pastaspur_compare(asked.card.start[0], asked.ranking.start, asked.ranking.length, counts[0], counts[1], &comparison);
}

static void call_condition(void) { number = pastaspur_condition(asked.card.start[0], counts[0], counts[1], &condition); }

static void call_find_ranking(void) {
  for (size_t i = 0; i < sizeof conditions; i += 2) conditions[i] = 1;
  number = pastaspur_find_ranking(asked.card.start[0], conditions, sizeof conditions, found);
}

// A live tableau of 31 rows: one more is added, the first taken out, the leader asked for.
static void fill_rows(void) {
  for (uint16_t i = 0; i < 32; i++) live[i] = (pastaspur_row){i, {i, i, i, i, i, i}};
}

static void call_add_row(void) {
  fill_rows();
  number = pastaspur_add_row(asked.card.start[0], asked.ranking.start, asked.ranking.length, 31, live, 32, &added, &length);
}

static void call_remove_row(void) {
  fill_rows();
  number = pastaspur_remove_row(asked.card.start[0], asked.ranking.start, asked.ranking.length, 31, live, 32, 0, &length);
}

static void call_leader(void) {
  fill_rows();
  number = pastaspur_leader(asked.card.start[0], asked.ranking.start, asked.ranking.length, 31, live, 32, &lead);
}

static const struct {
  const char *name;
  void (*call)(void);
} calls[] = {{"optimize", call_optimize},
             {"cull", call_cull},
             {"optimize_weights", call_optimize_weights},
             {"optimize_sets", call_optimize_sets},
             {"cull_sets", call_cull_sets},
             {"evaluate", call_evaluate},
             {"judge", call_judge},
             {"read_part", call_read_part},
             {"pack", call_pack},
             {"join", call_join},
             {"compare", call_compare},
             {"condition", call_condition},
             {"find_ranking", call_find_ranking},
             {"add_row", call_add_row},
             {"remove_row", call_remove_row},
             {"leader", call_leader}};
enum { CALLS = sizeof calls / sizeof *calls };

// The bytes of a painted stack from its top down to the deepest one that is changed.
static size_t depth_by(void (*call)(void), uint8_t paint) {
  for (size_t i = 0; i < STACK_BYTES; i++) stack[i] = paint;
  getcontext(&callee);
  callee.uc_stack.ss_sp = stack;
  callee.uc_stack.ss_size = STACK_BYTES;
  callee.uc_link = &caller;
  makecontext(&callee, call, 0);
  swapcontext(&caller, &callee);
  size_t untouched = 0;
  while (untouched < STACK_BYTES && stack[untouched] == paint) untouched++;
  return STACK_BYTES - untouched;
}

// With two paints, since a byte may be written in the colour of one.
static size_t depth(void (*call)(void)) {
  size_t deepest = 0;
  for (int i = 0; i < PAINTS; i++) {
    size_t found = depth_by(call, paints[i]);
    if (found > deepest) deepest = found;
  }
  return deepest;
}

int main(void) {
  stack = mmap(NULL, STACK_BYTES, PROT_READ | PROT_WRITE, MAP_PRIVATE | MAP_ANONYMOUS, -1, 0);
  if (stack == MAP_FAILED) return 1;
  depth(call_nothing);
  size_t nothing = depth(call_nothing);
  size_t most[CALLS] = {0};
  for (size_t row = 0; row < row_count(); row++) {
    for (size_t i = 0; i < row_cases(row); i++) {
      asked = row_case(row, i);
      for (int c = 0; c < CALLS; c++) {
        size_t used = depth(calls[c].call);
        if (number != 0 || used <= nothing || used == STACK_BYTES) {
          fprintf(stderr, "%s, %s: number %u, %zu bytes\n", row_name(row), calls[c].name, number, used);
          return 1;
        }
        if (used - nothing > most[c]) most[c] = used - nothing;
      }
    }
  }
  for (int c = 0; c < CALLS; c++) printf("pastaspur_%s %zu\n", calls[c].name, most[c]);
}
