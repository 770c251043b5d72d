// Looks for the card, ranking and word for which pastaspur_optimize takes the most instructions: starts from the cards of all rows,
// changes arcs, marks, endings, sets, words and rankings, and keeps what takes more. The archive that it is linked with
// counts its instructions in the register mm7 (bench/slowest). The same seed and number of tries find the same cards.

#include "pastaspur.h"
#include "rows.h"

#include <stdint.h>
#include <stdio.h>
#include <stdlib.h>
#include <string.h>
#include <sys/stat.h>

enum { MACHINES = 6, STATES = 32, ARCS = 255, WORD = 24, JOINT_STATES = 128 };
enum { ISLANDS = 6, KEPT = 10, SEEDS = 200, MOVING = 5000, REPORTED = 10000 };

typedef struct {
  uint8_t from, to, marks, kind;
  uint64_t in, out;
} Arc;

typedef struct {
  int states, arcs;
  uint8_t ending[STATES];
  Arc arc[ARCS];
} Machine;

typedef struct {
  int machines, symbols, length;
  uint8_t ranking[MACHINES], word[WORD];
  Machine machine[MACHINES];
  uint64_t count; // instructions of its call
} Trial;

static uint64_t state;
static uint32_t below(uint32_t limit) {
  state = state * 6364136223846793005u + 1442695040888963407u;
  return (uint32_t)((state >> 33) % limit);
}

static uint8_t bytes[PASTASPUR_CARD_BYTES + 1], answer[PASTASPUR_ANSWER_BYTES];
static uint16_t work[PASTASPUR_WORK_NUMBERS];
static pastaspur_evaluation best;

static void put16(uint8_t *to, size_t number) { to[0] = number & 255, to[1] = (uint8_t)(number >> 8); }
static void put64(uint8_t *to, uint64_t number) {
  for (int i = 0; i < 8; i++) to[i] = (uint8_t)(number >> 8 * i);
}
static uint64_t get64(const uint8_t *from) {
  uint64_t number = 0;
  for (int i = 0; i < 8; i++) number |= (uint64_t)from[i] << 8 * i;
  return number;
}

static size_t pack(const Trial *c) {
  size_t at = 2 + 4 * (size_t)c->machines;
  bytes[0] = (uint8_t)c->machines, bytes[1] = (uint8_t)c->symbols;
  for (int m = 0; m < c->machines; m++) {
    const Machine *machine = &c->machine[m];
    size_t length = 2 + (size_t)machine->states + 20 * (size_t)machine->arcs;
    put16(bytes + 2 + 4 * m, at), put16(bytes + 4 + 4 * m, length);
    uint8_t *part = bytes + at;
    part[0] = (uint8_t)machine->states, part[1] = (uint8_t)machine->arcs;
    memcpy(part + 2, machine->ending, (size_t)machine->states);
    part += 2 + machine->states;
    for (int a = 0; a < machine->arcs; a++, part += 20) {
      const Arc *arc = &machine->arc[a];
      part[0] = arc->from, part[1] = arc->to, part[2] = arc->marks, part[3] = arc->kind;
      put64(part + 4, arc->in), put64(part + 12, arc->out);
    }
    at += length;
  }
  return at;
}

static void unpack(Trial *c, struct Case given) {
  const uint8_t *card = given.card.start;
  memset(c, 0, sizeof *c);
  c->machines = card[0], c->symbols = card[1], c->length = (int)given.word.length;
  memcpy(c->ranking, given.ranking.start, given.ranking.length);
  memcpy(c->word, given.word.start, given.word.length);
  for (int m = 0; m < c->machines; m++) {
    const uint8_t *part = card + (card[2 + 4 * m] | card[3 + 4 * m] << 8);
    Machine *machine = &c->machine[m];
    machine->states = part[0], machine->arcs = part[1];
    memcpy(machine->ending, part + 2, part[0]);
    part += 2 + part[0];
    for (int a = 0; a < machine->arcs; a++, part += 20) {
      machine->arc[a] = (Arc){part[0], part[1], part[2], part[3], get64(part + 4), get64(part + 12)};
    }
  }
}

// The instructions of a call, 0 where the card or the word is refused. A word without a candidate is accepted: the class waits for that too.
static uint64_t measure(const Trial *c) {
  size_t length = pack(c);
  uint64_t count;
  __asm__ volatile("pxor %%mm7, %%mm7" ::: "memory");
  uint32_t refusal = pastaspur_optimize(bytes, length, c->ranking, (size_t)c->machines, c->word, (size_t)c->length, work,
                                        PASTASPUR_WORK_NUMBERS, answer, sizeof answer, &best);
  __asm__ volatile("movq %%mm7, %0\n emms" : "=r"(count) : : "memory");
  return refusal == PASTASPUR_ACCEPTED || refusal == PASTASPUR_REFUSED_NO_CANDIDATE ? count : 0;
}

static uint8_t one_of(uint64_t set) {
  uint8_t listed[64];
  uint32_t count = 0;
  for (uint8_t i = 0; i < 64; i++) {
    if (set >> i & 1) listed[count++] = i;
  }
  return count ? listed[below(count)] : 0;
}

static int joint_states(const Trial *c) {
  int product = 1;
  for (int m = 0; m < c->machines; m++) product *= c->machine[m].states;
  return product;
}

// One change. Some make arcs clash, and the call refuses them.
static void change(Trial *c, const Trial *other) {
  Machine *machine = &c->machine[below((uint32_t)c->machines)];
  uint64_t symbols = ((uint64_t)2 << c->symbols) - 1;
  Arc *arc = machine->arcs ? &machine->arc[below((uint32_t)machine->arcs)] : NULL;
  switch (below(arc ? 15 : 3)) {
  case 0: machine->ending[below((uint32_t)machine->states)] = (uint8_t)below(17); break;
  case 1:
    if (c->length < WORD && below(2)) c->length++;
    c->word[below(WORD)] = 0;
    for (int i = 0; i < c->length; i++) {
      if (c->word[i] == 0) c->word[i] = (uint8_t)(1 + below((uint32_t)c->symbols));
    }
    break;
  case 2: {
    uint32_t a = below((uint32_t)c->machines), b = below((uint32_t)c->machines);
    uint8_t kept = c->ranking[a];
    c->ranking[a] = c->ranking[b], c->ranking[b] = kept;
    break;
  }
  case 3: case 4: arc->marks = (uint8_t)below(16); break;
  case 5: case 6: arc->to = (uint8_t)below((uint32_t)machine->states); break;
  case 7: // an output goes to another arc of the state that takes the same inputs
    for (int tries = 0; tries < 30; tries++) {
      Arc *next = &machine->arc[below((uint32_t)machine->arcs)];
      if (next != arc && next->from == arc->from && next->in == arc->in && next->kind == arc->kind) {
        uint64_t moved = (uint64_t)1 << one_of(arc->out);
        if (arc->out != moved) arc->out &= ~moved, next->out |= moved;
        break;
      }
    }
    break;
  case 8: // one arc becomes two
    if (machine->arcs < ARCS && arc->out & (arc->out - 1)) {
      Arc *next = &machine->arc[machine->arcs++];
      *next = *arc;
      next->out = 0;
      for (uint8_t i = 0; i < 64; i++) {
        if (arc->out >> i & 1 && below(2)) next->out |= (uint64_t)1 << i;
      }
      if (next->out == 0 || next->out == arc->out) next->out = arc->out & -arc->out;
      arc->out &= ~next->out;
      next->to = (uint8_t)below((uint32_t)machine->states), next->marks = (uint8_t)below(16);
    }
    break;
  case 9: *arc = machine->arc[--machine->arcs]; break;
  case 10:
    if (machine->arcs < ARCS) {
      uint64_t in = below(2) ? 1 : (uint64_t)1 << below((uint32_t)c->symbols + 1);
      machine->arc[machine->arcs++] = (Arc){(uint8_t)below((uint32_t)machine->states), (uint8_t)below((uint32_t)machine->states),
                                            (uint8_t)below(16), 0, in, (uint64_t)2 << below((uint32_t)c->symbols)};
    }
    break;
  case 11: { // the marks of a machine all anew: none, one kind, or by the state led to
    uint32_t by = below(3), step = 1 + below(3);
    for (int a = 0; a < machine->arcs; a++) {
      machine->arc[a].marks = by == 0 ? 0 : (uint8_t)(by == 1 ? below(16) : machine->arc[a].to * step % 16);
    }
    break;
  }
  case 12: // a machine of another card
    if (other->symbols == c->symbols) {
      Machine kept = *machine;
      *machine = other->machine[below((uint32_t)other->machines)];
      if (joint_states(c) > JOINT_STATES) *machine = kept;
    }
    break;
  case 13: // where the arcs of a state lead to, turned round
    for (int a = 0; a < machine->arcs; a++) {
      if (machine->arc[a].from == arc->from && &machine->arc[a] != arc) {
        machine->arc[a].to = (uint8_t)((machine->arc[a].to + arc->to) % machine->states);
      }
    }
    break;
  default: { // a bit of a set
    uint64_t bit = (uint64_t)1 << below((uint32_t)c->symbols + 1);
    if (below(2)) arc->in ^= bit; else arc->out ^= bit;
    arc->in &= symbols, arc->out &= symbols;
    break;
  }
  }
}

static Trial islands[ISLANDS][KEPT], seeds[SEEDS], tried;

static int worst_of(const Trial *kept) {
  int worst = 0;
  for (int i = 1; i < KEPT; i++) {
    if (kept[i].count < kept[worst].count) worst = i;
  }
  return worst;
}

static int best_of(const Trial *kept) {
  int found = 0;
  for (int i = 1; i < KEPT; i++) {
    if (kept[i].count > kept[found].count) found = i;
  }
  return found;
}

// Keeps a case in the place of the least one; no two with one count.
static void keep(Trial *kept, const Trial *c) {
  int worst = worst_of(kept);
  for (int i = 0; i < KEPT; i++) {
    if (kept[i].count == c->count) return;
  }
  if (c->count > kept[worst].count) kept[worst] = *c;
}

static void write_case(const char *folder, int number, const Trial *c) {
  char name[300];
  snprintf(name, sizeof name, "%s/%d", folder, number);
  mkdir(name, 0777);
  snprintf(name, sizeof name, "%s/%d/card.bin", folder, number);
  FILE *file = fopen(name, "wb");
  fwrite(bytes, 1, pack(c), file);
  fclose(file);
  snprintf(name, sizeof name, "%s/%d/stdin", folder, number);
  file = fopen(name, "wb");
  for (int i = 0; i < c->machines; i++) fprintf(file, "%u", c->ranking[i]);
  for (int i = 0; i < c->length; i++) fprintf(file, "%c%u", i ? ',' : ' ', c->word[i]);
  fprintf(file, "\n");
  fclose(file);
}

int main(int argc, char **argv) {
  if (argc != 4) return 2;
  const char *folder = argv[1];
  state = strtoull(argv[2], NULL, 10) * 2 + 1;
  uint64_t tries = strtoull(argv[3], NULL, 10);
  int count = 0;
  for (size_t row = 0; row < all_row_count(); row++) {
    uint64_t most = 0;
    for (size_t i = 0; i < row_cases(row) && count < SEEDS; i++) {
      unpack(&seeds[count], row_case(row, i));
      seeds[count].count = measure(&seeds[count]);
      if (seeds[count].count > most) most = seeds[count].count;
      if (seeds[count].count) count++;
    }
    printf("begins with %s: %llu\n", row_name(row), (unsigned long long)most);
  }
  for (int island = 0; island < ISLANDS; island++) {
    for (int i = island; i < count; i += ISLANDS > 3 && island >= 3 ? 1 : ISLANDS) keep(islands[island], &seeds[i]);
  }
  for (uint64_t turn = 0; turn < tries; turn++) {
    Trial *kept = islands[turn % ISLANDS];
    if (turn % MOVING == MOVING - 1) keep(islands[below(ISLANDS)], &kept[best_of(kept)]);
    const Trial *parent = &kept[below(4) ? below(KEPT) : (uint32_t)best_of(kept)];
    if (parent->count == 0) continue;
    tried = *parent;
    uint32_t changes = 1 + (below(2) ? 0 : below(6));
    const Trial *other = below(2) ? &seeds[below((uint32_t)count)] : &islands[below(ISLANDS)][below(KEPT)];
    while (changes--) change(&tried, other);
    tried.count = measure(&tried);
    if (tried.count) keep(kept, &tried);
    if (turn % REPORTED == 0) {
      printf("%llu tries:", (unsigned long long)turn);
      for (int i = 0; i < ISLANDS; i++) printf(" %llu", (unsigned long long)islands[i][best_of(islands[i])].count);
      printf("\n");
      fflush(stdout);
      for (int i = 0; i < ISLANDS; i++) write_case(folder, i, &islands[i][best_of(islands[i])]);
    }
  }
  for (int i = 0; i < ISLANDS; i++) {
    const Trial *found = &islands[i][best_of(islands[i])];
    write_case(folder, i, found);
    printf("%s/%d: %llu\n", folder, i, (unsigned long long)found->count);
  }
}
