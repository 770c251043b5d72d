/* Prints the winner of the tableau of /tag/ under NoCoda >> DEP >> PARSE, for the card demo/tag/card.bin. */
#include "pastaspur.h"
#include <stdio.h>

static uint8_t card[PASTASPUR_CARD_BYTES + 1]; /* a byte more, so that a longer file is refused */
static uint16_t work[PASTASPUR_WORK_NUMBERS];
static uint8_t answer[PASTASPUR_ANSWER_BYTES];

int main(int argc, char **argv) {
    const uint8_t ranking[] = {0, 1, 2}, word[] = {1, 2, 3}; /* t a g */
    pastaspur_evaluation best;
    FILE *file = fopen(argc > 1 ? argv[1] : "card.bin", "rb");
    size_t length = file ? fread(card, 1, sizeof card, file) : 0;
    uint32_t refusal = pastaspur_optimize(card, length, ranking, sizeof ranking, word, sizeof word, work,
                                          PASTASPUR_WORK_NUMBERS, answer, sizeof answer, &best);
    if (file) fclose(file);
    if (refusal != PASTASPUR_ACCEPTED) {
        printf(refusal == PASTASPUR_REFUSED_NO_CANDIDATE ? "no form\n" : "refused %u\n", (unsigned)refusal);
        return 1;
    }
    printf("NoCoda %u, DEP %u, PARSE %u:", best.counts[0], best.counts[1], best.counts[2]);
    for (size_t i = 0; i < best.pairs; i++) printf(" %u:%u", answer[2 * i], answer[2 * i + 1]);
    printf("\n");
    return 0;
}
