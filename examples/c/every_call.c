/* Makes every call once, on the card demo/syllable_two/card.bin: symbols C 1 and V 2, machines onset, insertion, deletion, hiatus.
 * A call that is refused ends the program. What it prints is in every_call.stdout. */
#include "pastaspur.h"
#include <stdio.h>
#include <stdlib.h>
#include <string.h>

enum { MACHINES = 4 };
static const uint8_t ranking[MACHINES] = {3, 0, 1, 2}; /* hiatus >> onset >> insertion >> deletion */
static const uint8_t word[] = {2, 2};                  /* /VV/ */

static uint8_t card[PASTASPUR_CARD_BYTES + 1], target[PASTASPUR_CARD_BYTES], answer[PASTASPUR_ANSWER_BYTES];
static uint16_t work[PASTASPUR_WORK_NUMBERS];
static uint64_t weights_work[PASTASPUR_WEIGHTS_WORK_NUMBERS];
static size_t card_len;

/* Prints the call's name; a refusal ends the program. */
static void made(const char *name, uint32_t refusal) {
    printf("%-17s", name);
    if (refusal != PASTASPUR_ACCEPTED) {
        printf(" refused %u\n", (unsigned)refusal);
        exit(1);
    }
}

static void print_pairs(size_t pairs) {
    for (size_t i = 0; i < pairs; i++) printf(" %u:%u", answer[2 * i], answer[2 * i + 1]);
    printf("\n");
}

static void print_counts(const uint16_t *counts) {
    for (int i = 0; i < MACHINES; i++) printf("%c%u", i ? ',' : ' ', counts[i]);
}

static void print_best(const char *name, uint32_t refusal, const pastaspur_evaluation *best) {
    made(name, refusal);
    print_counts(best->counts);
    print_pairs(best->pairs);
}

/* The best candidate: under a ranking by two methods, over sets by two methods, by weights. */
static void search(void) {
    const uint64_t sets[] = {UINT64_C(1) << 1 | UINT64_C(1) << 2, UINT64_C(1) << 2}; /* C or V, then V */
    const uint32_t weights[MACHINES] = {3000, 2000, 1000, 9000};
    pastaspur_evaluation best;
    pastaspur_weighing weighing;
    print_best("optimize_sets", pastaspur_optimize_sets(card, card_len, ranking, sizeof ranking, sets, 2, work, PASTASPUR_WORK_NUMBERS,
                                                        answer, sizeof answer, &best), &best);
    print_best("cull_sets", pastaspur_cull_sets(card, card_len, ranking, sizeof ranking, sets, 2, work, PASTASPUR_WORK_NUMBERS, answer,
                                                sizeof answer, &best), &best);
    made("optimize_weights", pastaspur_optimize_weights(card, card_len, weights, MACHINES, word, sizeof word, weights_work,
                                                        PASTASPUR_WEIGHTS_WORK_NUMBERS, answer, sizeof answer, &weighing));
    printf(" sum %lu thousandths,", (unsigned long)weighing.sum);
    print_pairs((size_t)weighing.pairs);
    print_best("cull", pastaspur_cull(card, card_len, ranking, sizeof ranking, word, sizeof word, work, PASTASPUR_WORK_NUMBERS, answer,
                                      sizeof answer, &best), &best);
    print_best("optimize", pastaspur_optimize(card, card_len, ranking, sizeof ranking, word, sizeof word, work, PASTASPUR_WORK_NUMBERS,
                                              answer, sizeof answer, &best), &best);
}

/* The candidates 2:0 2:2 and 2:0 2:0 of a tableau that claims the first. */
static void judge(void) {
    const uint8_t tableau[] = {2, 0,  10, 0, 16, 0,  26, 0, 16, 0,
                               1, 0, 0, 0, 1, 0, 0, 0, 0, 0, 0, 0,  2, 0, 2, 2,
                               0, 0, 0, 0, 2, 0, 0, 0, 0, 0, 0, 0,  2, 0, 2, 0};
    pastaspur_judgement judgement;
    made("judge", pastaspur_judge(card, card_len, ranking, sizeof ranking, word, sizeof word, work, PASTASPUR_WORK_NUMBERS, tableau,
                                  sizeof tableau, &judgement));
    printf(" %s, row %u\n", judgement.verdict == PASTASPUR_ANOTHER_ROW ? "another row" : "?", judgement.row);
}

/* Two candidates compared, and the smallest ranking under which the first is not worse. */
static void compare(void) {
    const uint8_t candidates[2][4] = {{2, 0, 2, 2}, {2, 0, 2, 0}};
    pastaspur_evaluation first, second;
    pastaspur_comparison comparison;
    pastaspur_ranking_condition condition;
    uint8_t conditions[2], found[PASTASPUR_MACHINES];
    made("evaluate", pastaspur_evaluate(card, card_len, candidates[0], 4, &first));
    print_counts(first.counts);
    printf("\n");
    made("evaluate", pastaspur_evaluate(card, card_len, candidates[1], 4, &second));
    print_counts(second.counts);
    printf("\n");
    made("compare", pastaspur_compare(MACHINES, ranking, sizeof ranking, first.counts, second.counts, &comparison));
    printf(" %s by machine %u\n", comparison.order == PASTASPUR_WORSE ? "worse" : "?", comparison.machine);
    made("condition", pastaspur_condition(MACHINES, first.counts, second.counts, &condition));
    printf(" W %u, L %u\n", condition.fewer, condition.more);
    conditions[0] = condition.fewer, conditions[1] = condition.more;
    made("find_ranking", pastaspur_find_ranking(MACHINES, conditions, sizeof conditions, found));
    printf(" %u %u %u %u\n", found[0], found[1], found[2], found[3]);
}

/* The card's parts read, packed again, and two of its machines joined. */
static void change(void) {
    uint16_t lengths[MACHINES];
    pastaspur_length length;
    size_t start = 2 + 4 * MACHINES;
    for (uint8_t i = 0; i < MACHINES; i++) {
        pastaspur_part part;
        made("read_part", pastaspur_read_part(card, card_len, i, &part));
        printf(" %u: offset %lu, length %lu\n", i, (unsigned long)part.offset, (unsigned long)part.length);
        lengths[i] = (uint16_t)part.length;
    }
    made("pack", pastaspur_pack(card[1], lengths, MACHINES, card + start, card_len - start, target, sizeof target, &length));
    printf(" %lu bytes, %s\n", (unsigned long)length, length == card_len && memcmp(card, target, card_len) == 0 ? "the card" : "another card");
    made("join", pastaspur_join(card, card_len, 0, 3, target, sizeof target, &length));
    printf(" %lu bytes, %u machines\n", (unsigned long)length, target[0]);
}

/* Two candidates proposed, one withdrawn. A refused call answers 0 as the row count, so each call answers into a variable of its own:
 * `count` takes the new number over where the call was accepted, and a refusal loses no row. */
static void live(void) {
    static pastaspur_row rows[PASTASPUR_LIVE_ROWS];
    const pastaspur_row proposed[2] = {{7, {1, 0, 1, 0, 0, 0}}, {9, {0, 0, 2, 0, 0, 0}}};
    pastaspur_lead lead;
    pastaspur_length count = 0, new_count;
    for (int i = 0; i < 2; i++) {
        made("add_row", pastaspur_add_row(MACHINES, ranking, sizeof ranking, count, rows, PASTASPUR_LIVE_ROWS, &proposed[i], &new_count));
        count = new_count;
        printf(" %lu rows\n", (unsigned long)count);
    }
    if (pastaspur_add_row(MACHINES, ranking, sizeof ranking, count, rows, PASTASPUR_LIVE_ROWS, &proposed[0], &new_count) == PASTASPUR_REFUSED_PRESENCE)
        printf("add_row           refused, and still %lu rows\n", (unsigned long)count);
    made("leader", pastaspur_leader(MACHINES, ranking, sizeof ranking, count, rows, PASTASPUR_LIVE_ROWS, &lead));
    printf(" id %u\n", lead.row.id);
    made("remove_row", pastaspur_remove_row(MACHINES, ranking, sizeof ranking, count, rows, PASTASPUR_LIVE_ROWS, 9, &new_count));
    count = new_count;
    printf(" %lu row\n", (unsigned long)count);
}

int main(int argc, char **argv) {
    FILE *file = fopen(argc > 1 ? argv[1] : "card.bin", "rb");
    if (file == NULL) {
        fprintf(stderr, "usage: every_call CARD\n");
        return 2;
    }
    card_len = fread(card, 1, sizeof card, file);
    fclose(file);
    search();
    judge();
    compare();
    change();
    live();
    return 0;
}
