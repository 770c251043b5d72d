/* Calls whose answers differ in every field, read by the header's names; calls just inside and just outside each of its constants; and the
 * deepest calls on a stack of PASTASPUR_STACK_BYTES. tests/header.py compiles it with the header that it is given. A number that is not as
 * due is printed, and the program answers 1. */
#include "pastaspur.h"
#include "sizes.h"
#include <signal.h>
#include <stdio.h>
#include <stdlib.h>
#include <string.h>
#include <sys/mman.h>
#include <ucontext.h>
#include <unistd.h>

static int wrong;

static void is(const char *what, uint64_t got, uint64_t due) {
    if (got != due) wrong = 1, printf("%s is %llu and not %llu\n", what, (unsigned long long)got, (unsigned long long)due);
}

/* What the library is lent: larger than any header says. */
static uint8_t card[40000], target[40000], answer[8000], small_card[1000];
static uint16_t work[30000];
static uint64_t weights_work[8000];
static uint64_t length, small_length;
static const uint8_t rankings[7][6] = {{0}, {0}, {0, 1}, {0, 1, 2}, {0, 1, 2, 3}, {0, 1, 2, 3, 4}, {0, 1, 2, 3, 4, 5}};

static void read_card(const char *path) {
    FILE *file = fopen(path, "rb");
    if (file == NULL) exit(2);
    length = fread(card, 1, sizeof card, file);
    fclose(file);
}

static void put_arc(uint8_t *at, uint8_t to, uint8_t marks, uint8_t in, uint8_t out) {
    memset(at, 0, 20);
    at[1] = to, at[2] = marks, at[4] = in, at[12] = out;
}

/* A card of six machines and one symbol, on which the word 1 1 has the best candidate 1:1 1:1 0:1 with the counts 10, 11 .. 15: machine 0
 * ends only after an insertion, machine i has 5 + i / 2 marks for each 1:1, and for the insertion one if i is odd. */
static void make_small_card(void) {
    uint8_t *at = small_card;
    size_t offset = 2 + 4 * 6;
    *at++ = 6, *at++ = 1;
    for (int i = 0; i < 6; i++) {
        size_t part = 2 + (i == 0 ? 2 : 1) + 2 * 20;
        *at++ = offset % 256, *at++ = offset / 256, *at++ = (uint8_t)part, *at++ = 0;
        offset += part;
    }
    for (int i = 0; i < 6; i++) {
        *at++ = i == 0 ? 2 : 1, *at++ = 2;
        if (i == 0) *at++ = 0;
        *at++ = 1;
        put_arc(at, 0, (uint8_t)(5 + i / 2), 2, 2);
        put_arc(at + 20, i == 0, i % 2, 1, 2);
        at += 40;
    }
    small_length = (uint64_t)(at - small_card);
}

static void evaluation_is(const char *what, uint32_t number, const pastaspur_evaluation *got) {
    is(what, number, 0);
    for (unsigned i = 0; i < 6; i++) is(what, got->counts[i], 10 + i);
    is(what, got->pairs, 3);
    is(what, got->word_length, 2);
}

static void fields_of_searches(void) {
    const uint8_t word[] = {1, 1}, best[] = {1, 1, 1, 1, 0, 1};
    const uint64_t sets[] = {2, 2};
    const uint32_t weights[] = {1, 2, 3, 4, 5, 4000000000};
    pastaspur_evaluation got;
    pastaspur_weighing weighed;
    memset(&got, 0xff, sizeof got);
    evaluation_is("optimize", pastaspur_optimize(small_card, small_length, rankings[6], 6, word, 2, work, 30000, answer, 8000, &got), &got);
    is("optimize's answer", (uint64_t)memcmp(answer, best, 6), 0);
    memset(&got, 0xff, sizeof got);
    evaluation_is("cull", pastaspur_cull(small_card, small_length, rankings[6], 6, word, 2, work, 30000, answer, 8000, &got), &got);
    memset(&got, 0xff, sizeof got);
    evaluation_is("optimize_sets", pastaspur_optimize_sets(small_card, small_length, rankings[6], 6, sets, 2, work, 30000, answer, 8000, &got), &got);
    memset(&got, 0xff, sizeof got);
    evaluation_is("cull_sets", pastaspur_cull_sets(small_card, small_length, rankings[6], 6, sets, 2, work, 30000, answer, 8000, &got), &got);
    memset(&got, 0xff, sizeof got);
    evaluation_is("evaluate", pastaspur_evaluate(small_card, small_length, best, 6, &got), &got);
    memset(&weighed, 0xff, sizeof weighed);
    is("optimize_weights", pastaspur_optimize_weights(small_card, small_length, weights, 6, word, 2, weights_work, 8000, answer, 8000, &weighed), 0);
    for (unsigned i = 0; i < 6; i++) is("weighing.counts", weighed.counts[i], 10 + i);
    is("weighing.pairs", weighed.pairs, 3);
    is("weighing.word_length", weighed.word_length, 2);
    is("weighing.sum", weighed.sum, UINT64_C(60000000190));
}

/* Card B: for the word 2 under 0 1 2 the best is 2:0, with the counts 0, 0, 1; 2:2 has 1, 0, 0 and 0:1 2:2 has 0, 1, 0. */
static void verdicts(void) {
    const uint8_t word[] = {2};
    const uint8_t right[] = {2, 1, 10, 0, 14, 0, 24, 0, 14, 0, 1, 0, 0, 0, 0, 0, 0, 0, 0, 0, 0, 0, 2, 2, 0, 0, 0, 0, 1, 0, 0, 0, 0, 0, 0, 0, 2, 0};
    uint8_t another[sizeof right], none[20] = {1, 0, 6, 0, 14, 0, 1};
    pastaspur_judgement got = {9, 9};
    read_card("demo/card_b/card.bin");
    memcpy(another, right, sizeof right);
    another[1] = 0;
    none[18] = 2, none[19] = 2;
    is("judge, right", pastaspur_judge(card, length, rankings[3], 3, word, 1, work, 30000, right, sizeof right, &got), 0);
    is("RIGHT", got.verdict, PASTASPUR_RIGHT), is("its row", got.row, 0);
    is("judge, another row", pastaspur_judge(card, length, rankings[3], 3, word, 1, work, 30000, another, sizeof another, &got), 0);
    is("ANOTHER_ROW", got.verdict, PASTASPUR_ANOTHER_ROW), is("its row", got.row, 1);
    is("judge, not in the table", pastaspur_judge(card, length, rankings[3], 3, word, 1, work, 30000, none, sizeof none, &got), 0);
    is("NOT_IN_TABLE", got.verdict, PASTASPUR_NOT_IN_TABLE), is("its row", got.row, 0);
}

static void orders(void) {
    const uint16_t first[6] = {1, 2, 3, 4, 5, 6}, second[6] = {1, 2, 3, 4, 5, 7}, third[6] = {1, 3, 3, 3, 5, 6};
    const uint8_t conditions[] = {4, 1, 2, 4};
    const uint8_t smallest[6] = {1, 2, 0, 0, 0, 0};
    uint8_t found[6] = {9, 9, 9, 9, 9, 9};
    pastaspur_comparison got = {9, 9};
    pastaspur_ranking_condition condition = {9, 9};
    is("compare", pastaspur_compare(6, rankings[6], 6, first, second, &got), 0);
    is("BETTER", got.order, PASTASPUR_BETTER), is("machine", got.machine, 5);
    is("compare", pastaspur_compare(6, rankings[6], 6, second, first, &got), 0);
    is("WORSE", got.order, PASTASPUR_WORSE), is("machine", got.machine, 5);
    is("compare", pastaspur_compare(5, rankings[5], 5, first, second, &got), 0);
    is("EQUAL", got.order, PASTASPUR_EQUAL), is("machine", got.machine, 0);
    is("condition", pastaspur_condition(6, first, third, &condition), 0);
    is("fewer", condition.fewer, 2), is("more", condition.more, 8);
    is("find_ranking", pastaspur_find_ranking(3, conditions, sizeof conditions, found), 0);
    is("the ranking found", (uint64_t)memcmp(found, smallest, 6), 0);
}

static void parts(void) {
    const uint16_t lengths[6] = {44, 43, 43, 43, 43, 43};
    pastaspur_part part = {9, 9};
    pastaspur_length got = 9;
    is("read_part", pastaspur_read_part(small_card, small_length, 2, &part), 0);
    is("offset", part.offset, 26 + 44 + 43), is("length", part.length, 43);
    is("pack", pastaspur_pack(1, lengths, 6, small_card + 26, small_length - 26, target, sizeof target, &got), 0);
    is("the packed card's length", got, small_length), is("the packed card", (uint64_t)memcmp(target, small_card, small_length), 0);
    read_card("demo/syllable_two/card.bin");
    is("join", pastaspur_join(card, length, 3, 3, target, sizeof target, &got), 27);
    is("join", pastaspur_join(card, length, 3, 0, target, sizeof target, &got), 0);
    is("the joined card's machines", target[0], card[0] - 1u);
    is("the joined card", pastaspur_read_part(target, got, 2, &part), 0), is("its end", part.offset + part.length, got);
}

static void rows_of_a_table(void) {
    static pastaspur_row rows[40];
    const pastaspur_row seven = {7, {1, 2, 3, 4, 5, 6}}, nine = {9, {1, 2, 3, 4, 5, 0}};
    pastaspur_length count = 99;
    pastaspur_lead lead;
    is("add_row", pastaspur_add_row(6, rankings[6], 6, 0, rows, 40, &seven, &count), 0), is("count", count, 1);
    is("add_row", pastaspur_add_row(6, rankings[6], 6, 1, rows, 40, &nine, &count), 0), is("count", count, 2);
    memset(&lead, 0xff, sizeof lead);
    is("leader", pastaspur_leader(6, rankings[6], 6, 1, rows, 40, &lead), 0);
    is("any", lead.any, 1), is("id", lead.row.id, 7);
    for (unsigned i = 0; i < 6; i++) is("the leader's counts", lead.row.counts[i], 1 + i), is("the row's counts", rows[0].counts[i], 1 + i);
    is("leader", pastaspur_leader(6, rankings[6], 6, 2, rows, 40, &lead), 0), is("id", lead.row.id, 9);
    is("remove_row", pastaspur_remove_row(6, rankings[6], 6, 2, rows, 40, 9, &count), 0), is("count", count, 1);
    is("LIVE_ROWS, one less", pastaspur_add_row(6, rankings[6], 6, PASTASPUR_LIVE_ROWS - 1, rows, 40, &nine, &count), 0);
    is("LIVE_ROWS", count, PASTASPUR_LIVE_ROWS);
    is("LIVE_ROWS, one more", pastaspur_add_row(6, rankings[6], 6, PASTASPUR_LIVE_ROWS, rows, 40, &nine, &count), 23);
}

/* The limits: tests/data/chain_ending has a word of 24 symbols whose best has 3,199 pairs and 48,000 marks of each machine. */
static uint8_t longest_word[24];

static void limits(void) {
    uint32_t weights[2] = {PASTASPUR_LARGEST_WEIGHT, 0};
    const uint16_t profile[6] = {0};
    pastaspur_evaluation got;
    pastaspur_weighing weighed;
    pastaspur_ranking_condition condition;
    read_card("tests/data/chain_ending/card.bin");
    memset(longest_word, 1, sizeof longest_word);
    is("WORK_NUMBERS, ANSWER_BYTES", pastaspur_optimize(card, length, rankings[2], 2, longest_word, 24, work, PASTASPUR_WORK_NUMBERS, answer, PASTASPUR_ANSWER_BYTES, &got), 0);
    is("ANSWER_BYTES", 2u * got.pairs, PASTASPUR_ANSWER_BYTES), is("LARGEST_COUNT", got.counts[1], PASTASPUR_LARGEST_COUNT);
    is("WORK_NUMBERS, one less", pastaspur_optimize(card, length, rankings[2], 2, longest_word, 24, work, PASTASPUR_WORK_NUMBERS - 1, answer, 8000, &got), 9);
    is("ANSWER_BYTES, one less", pastaspur_optimize(card, length, rankings[2], 2, longest_word, 24, work, 30000, answer, PASTASPUR_ANSWER_BYTES - 1, &got), 12);
    is("WEIGHTS_WORK_NUMBERS, LARGEST_WEIGHT", pastaspur_optimize_weights(card, length, weights, 2, longest_word, 24, weights_work, PASTASPUR_WEIGHTS_WORK_NUMBERS, answer, 8000, &weighed), 0);
    is("WEIGHTS_WORK_NUMBERS, one less", pastaspur_optimize_weights(card, length, weights, 2, longest_word, 24, weights_work, PASTASPUR_WEIGHTS_WORK_NUMBERS - 1, answer, 8000, &weighed), 9);
    weights[0]++;
    is("LARGEST_WEIGHT, one more", pastaspur_optimize_weights(card, length, weights, 2, longest_word, 24, weights_work, 8000, answer, 8000, &weighed), 26);
    is("MACHINES", pastaspur_condition(PASTASPUR_MACHINES, profile, profile, &condition), 0);
    is("MACHINES, one more", pastaspur_condition(PASTASPUR_MACHINES + 1, profile, profile, &condition), 1);
}

/* The searches with the deepest stacks, on one of PASTASPUR_STACK_BYTES under which a page traps. */
static ucontext_t here, there;

static void deep_calls(void) {
    static const uint64_t sets[24] = {2, 2, 2, 2};
    static const uint32_t weights[2] = {1, 1};
    static pastaspur_evaluation got;
    static pastaspur_weighing weighed;
    pastaspur_optimize(card, length, rankings[2], 2, longest_word, 24, work, 30000, answer, 8000, &got);
    pastaspur_cull(card, length, rankings[2], 2, longest_word, 24, work, 30000, answer, 8000, &got);
    pastaspur_optimize_sets(card, length, rankings[2], 2, sets, 4, work, 30000, answer, 8000, &got);
    pastaspur_cull_sets(card, length, rankings[2], 2, sets, 4, work, 30000, answer, 8000, &got);
    pastaspur_optimize_weights(card, length, weights, 2, longest_word, 24, weights_work, 8000, answer, 8000, &weighed);
}

static void trapped(int signal) {
    static const char text[] = "PASTASPUR_STACK_BYTES is too small\n";
    (void)signal;
    _exit(write(1, text, sizeof text - 1) > 0 ? 1 : 2);
}

/* The context itself takes a little of the stack: a kilobyte is put by for it. */
static void stack_is_enough(void) {
    enum { PAGE = 4096, OWN = 1024 };
    size_t bytes = (PASTASPUR_STACK_BYTES + OWN + PAGE - 1) / PAGE * PAGE;
    uint8_t *memory = mmap(NULL, bytes + PAGE, PROT_READ | PROT_WRITE, MAP_PRIVATE | MAP_ANONYMOUS, -1, 0);
    static uint8_t signals[65536];
    stack_t other = {.ss_sp = signals, .ss_size = sizeof signals};
    struct sigaction action = {.sa_handler = trapped, .sa_flags = SA_ONSTACK};
    if (memory == MAP_FAILED || mprotect(memory, PAGE, PROT_NONE) != 0 || sigaltstack(&other, NULL) != 0 || sigaction(SIGSEGV, &action, NULL) != 0) exit(2);
    getcontext(&there);
    there.uc_stack.ss_sp = memory + PAGE;
    there.uc_stack.ss_size = PASTASPUR_STACK_BYTES + OWN;
    there.uc_link = &here;
    makecontext(&there, deep_calls, 0);
    swapcontext(&here, &there);
}

int main(void) {
    make_small_card();
    fields_of_searches();
    verdicts();
    orders();
    parts();
    rows_of_a_table();
    limits();
    stack_is_enough();
    return wrong;
}
