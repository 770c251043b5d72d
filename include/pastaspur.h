/* Pastaspur, a verified optimizer for Optimality Theory: its calls for C, C++ and whatever can call C.
 *
 * Build and link:  rt staticlib pastaspur
 *                  cc -Iinclude program.c -Ltarget/staticlib -lpastaspur
 * Of other libraries it needs memset and memcpy alone on x86-64; targets/build makes it for other processors, and docs/TARGETS.md says
 * what it needs there. examples/c has two programs.
 *
 * Every call
 * - answers a refusal's number (enum pastaspur_refusal), 0 where it accepts its input: the first refusal met, in the order that its
 *   comment gives;
 * - writes its whole result, of fixed size, through its last pointer. On a refusal every byte of the result is 0;
 * - ends, and neither reads nor writes outside what it was lent, whatever the slices hold and however long they are;
 * - takes no memory but its stack and what it is lent, keeps nothing between calls, and may run in several threads at once.
 *
 * A slice is a pointer and a length. The length counts elements, not bytes, and may be 0; the pointer may then be null. The caller owes:
 * - any other pointer is not null, is aligned for its elements and leads to as many as the length or the type says;
 * - what a call may write (work, answer, target, rows, result) overlaps nothing else that the call is lent;
 * - nothing else changes what is lent while the call runs: no thread, no interrupt handler, no device. A card is checked once and then
 *   read in place. If it changes in between, nothing is promised: a call was seen to trap. Copy a card out of a slot that it can be
 *   pulled from before you lend it.
 * What is lent for writing need not be initialised. No answer depends on what work held before.
 *
 * Time, stack and interrupts
 * - No proof bounds the time of a call. In a search of 250,000 tries no card found makes pastaspur_optimize take more than 33.1 million
 *   instructions on x86-64, 71.0 million on a Cortex-M3, 152.3 million on a Cortex-M0, 72.6 million on rv32imac (bench/README.md). The
 *   cull takes up to 9 times as long, and sets of 63 symbols some 25 times.
 * - A call takes at most PASTASPUR_STACK_BYTES bytes of stack. It does not recurse. bench/README.md has the bound of each call on
 *   each processor.
 * - On x86-64 its code uses the red zone, the 128 bytes below the stack pointer, and the SSE registers. An interrupt handler on the same
 *   stack must leave those bytes alone, and save the SSE registers that it changes.
 *
 * A card holds K constraint machines over the symbols 1 to S: byte K, byte S, K pairs of 16-bit offset and length, and the machines'
 * parts one after another, each a byte Q (states), a byte A (arcs), Q state bytes and A arcs of 20 bytes. Numbers are little-endian.
 * docs/FORMAT.md has the card, the tableau and the refusals in full.
 *
 * A word is a list of symbols, a byte each. A candidate is a list of pairs, two bytes each, in before out; 0 is the empty symbol: 0:1
 * inserts 1, 2:0 deletes 2. A ranking is K bytes, each of 0 to K - 1 once, the highest ranked machine first. A profile is six counts of
 * marks, one for each machine in card order, the unused ones 0. */
#ifndef PASTASPUR_H
#define PASTASPUR_H

#include <stddef.h>
#include <stdint.h>

#ifdef __cplusplus
extern "C" {
#endif

#define PASTASPUR_VERSION "2.1.0" /* of this header and of the library that stands beside it */

/* A length, a row count or an offset: 64 bits on every processor. On x86-64 Linux it is the same type as size_t. */
typedef uint64_t pastaspur_length;

/* Bytes of stack that are enough for any call, on every processor that the library is built for. */
#define PASTASPUR_STACK_BYTES 57344

/* Lengths that are enough for every accepted card and word. P is the product of the machines' state counts, at most 128; n is the
 * word's length, at most 24. */
#define PASTASPUR_WORK_NUMBERS 25600        /* 16-bit numbers of work: 8 * (n + 1) * P */
#define PASTASPUR_WEIGHTS_WORK_NUMBERS 6400 /* 64-bit numbers of work with weights: 2 * (n + 1) * P */
#define PASTASPUR_ANSWER_BYTES 6398         /* bytes of answer: 2 for each of at most 3,199 pairs */
#define PASTASPUR_CARD_BYTES 30830          /* bytes of a card */

#define PASTASPUR_MACHINES 6                         /* counts of a profile */
#define PASTASPUR_LARGEST_COUNT 48000                /* of a best candidate, for one machine */
#define PASTASPUR_LARGEST_WEIGHT UINT32_C(4000000000) /* in thousandths */
#define PASTASPUR_LIVE_ROWS 32                       /* of a live tableau */

/* Why a call is refused. Every call answers one of these as a uint32_t; 11 is not used, 22 is the program's alone. */
enum pastaspur_refusal {
    PASTASPUR_ACCEPTED = 0,
    PASTASPUR_REFUSED_COUNTS = 1,        /* card under 2 bytes; K not 1 to 6, S not 1 to 63 */
    PASTASPUR_REFUSED_LAYOUT = 2,        /* card under 2 + 4K bytes; offsets or end not as laid down */
    PASTASPUR_REFUSED_PART_LENGTH = 3,   /* a part under 2 bytes; Q not 1 to 32, or its length not 2 + Q + 20A */
    PASTASPUR_REFUSED_FIELD = 4,         /* state byte over 16; arc state not below Q; marks over 15; kind over 2; set empty, bit over S */
    PASTASPUR_REFUSED_CLASH = 5,         /* two arcs of a state take one pair */
    PASTASPUR_REFUSED_PRODUCT = 6,       /* P over 128 */
    PASTASPUR_REFUSED_RANKING = 7,       /* not a ranking */
    PASTASPUR_REFUSED_WORD = 8,          /* over 24 symbols or sets; a symbol 0 or over S */
    PASTASPUR_REFUSED_WORK = 9,          /* work slice too short */
    PASTASPUR_REFUSED_NO_CANDIDATE = 10, /* no complete candidate */
    PASTASPUR_REFUSED_ANSWER = 12,       /* answer slice under 2 bytes for each pair of the best */
    PASTASPUR_REFUSED_CANDIDATE = 13,    /* candidate odd in length, over 3,199 pairs, a symbol over S, or the pair 0:0 */
    PASTASPUR_REFUSED_NOT_COMPLETE = 14, /* candidate not complete */
    PASTASPUR_REFUSED_CONDITIONS = 15,   /* condition list odd in length, over 64 pairs; W and L meet; a bit K or above */
    PASTASPUR_REFUSED_NO_RANKING = 16,   /* no ranking fits */
    PASTASPUR_REFUSED_PARTS = 17,        /* lengths do not add up to the joined parts; machine number not below K */
    PASTASPUR_REFUSED_TARGET = 18,       /* target too short */
    PASTASPUR_REFUSED_TABLEAU = 19,      /* tableau's layout broken, an unused count not 0, claimed row not below R */
    PASTASPUR_REFUSED_ROW_CANDIDATE = 20, /* a row's candidate meets 13 or 14, or spells another word */
    PASTASPUR_REFUSED_ROW_COUNTS = 21,   /* a row's counts are not its profile */
    PASTASPUR_REFUSED_LINE = 22,         /* the program's: a line past the thousandth */
    PASTASPUR_REFUSED_ROW_COUNT = 23,    /* row count above 32 or above the list's length; on an add, equal to one of them */
    PASTASPUR_REFUSED_PRESENCE = 24,     /* added id present, or removed id not */
    PASTASPUR_REFUSED_SETS = 25,         /* a set empty, with the empty symbol (bit 0), or with a bit over S */
    PASTASPUR_REFUSED_WEIGHTS = 26,      /* not K weights, or one above PASTASPUR_LARGEST_WEIGHT */
    PASTASPUR_REFUSED_MACHINES = 27,     /* not two different machines of the card, or both have marks */
    PASTASPUR_REFUSED_JOINED_SIZE = 28   /* joined machine with more than 32 states or 255 arcs */
};

/* What a candidate comes to. */
typedef struct {
    uint16_t counts[PASTASPUR_MACHINES]; /* marks, in card order; unused places 0 */
    uint16_t pairs;                      /* pair count */
    uint16_t word_length;                /* symbols of the word; with sets their number */
} pastaspur_evaluation;

/* What the best candidate by weights comes to. */
typedef struct {
    uint64_t counts[PASTASPUR_MACHINES]; /* marks, in card order; unused places 0 */
    uint64_t pairs;                      /* pair count */
    uint64_t word_length;                /* symbols of the word */
    uint64_t sum;                        /* of weight times count, in thousandths */
} pastaspur_weighing;

/* Where a machine's part stands in its card, in bytes. */
typedef struct {
    pastaspur_length offset;
    pastaspur_length length;
} pastaspur_part;

/* How the first of two profiles stands to the second; 0 on a refusal. */
enum pastaspur_order { PASTASPUR_BETTER = 1, PASTASPUR_EQUAL = 2, PASTASPUR_WORSE = 3 };

typedef struct {
    uint8_t order;   /* an enum pastaspur_order */
    uint8_t machine; /* the machine that decided, by its number in the card; 0 where the profiles are equal */
} pastaspur_comparison;

/* A ranking condition: bit i of a byte is machine i. */
typedef struct {
    uint8_t fewer; /* W: the machines where the first profile has fewer marks */
    uint8_t more;  /* L: where it has more */
} pastaspur_ranking_condition;

/* What is said of a tableau; 0 on a refusal. */
enum pastaspur_verdict { PASTASPUR_RIGHT = 1, PASTASPUR_ANOTHER_ROW = 2, PASTASPUR_NOT_IN_TABLE = 3 };

typedef struct {
    uint8_t verdict; /* an enum pastaspur_verdict */
    uint8_t row;     /* for another row the first one that wins, from 0; else 0 */
} pastaspur_judgement;

/* A row of a live tableau. */
typedef struct {
    uint16_t id;
    uint16_t counts[PASTASPUR_MACHINES]; /* in card order */
} pastaspur_row;

/* Who leads a live tableau. */
typedef struct {
    uint16_t any;      /* 1 if there is a leader; 0 in an empty table */
    pastaspur_row row; /* the leader; zeros where there is none */
} pastaspur_lead;

/* The results and rows have the layout of the arrays of numbers that the library writes and reads: no padding. */
#ifdef __cplusplus
#define PASTASPUR_SIZE(type, bytes) static_assert(sizeof(type) == (bytes), #type " has another size than the library's")
#else
#define PASTASPUR_SIZE(type, bytes) _Static_assert(sizeof(type) == (bytes), #type " has another size than the library's")
#endif
PASTASPUR_SIZE(pastaspur_evaluation, 8 * 2);
PASTASPUR_SIZE(pastaspur_weighing, 9 * 8);
PASTASPUR_SIZE(pastaspur_part, 2 * 8);
PASTASPUR_SIZE(pastaspur_comparison, 2);
PASTASPUR_SIZE(pastaspur_ranking_condition, 2);
PASTASPUR_SIZE(pastaspur_judgement, 2);
PASTASPUR_SIZE(pastaspur_row, 7 * 2);
PASTASPUR_SIZE(pastaspur_lead, 8 * 2);
#undef PASTASPUR_SIZE

/* Answers the best candidate for a word under a ranking: refusals 1 to 10, 12. The best has the best profile, then the fewest pairs,
 * then the smallest byte string, of all complete candidates, however long.
 * result: the best candidate's counts (none above 48,000), its pair count (at most 3,199), the word's length.
 * answer: its pairs fill the front; the other bytes, and on a refusal all of them, keep their values.
 * work: at least 8 * (n + 1) * P numbers, else 9. Kept on refusals 1 to 9; otherwise its contents are left open. It need not be
 * initialised. */
uint32_t pastaspur_optimize(const uint8_t *card, pastaspur_length card_len, const uint8_t *ranking, pastaspur_length ranking_len,
                            const uint8_t *word, pastaspur_length word_len, uint16_t *work, pastaspur_length work_len,
                            uint8_t *answer, pastaspur_length answer_len, pastaspur_evaluation *result);

/* The same by another method, Ellison's cull: for every input the same number, result and answer. What is left in work may differ.
 * work: need not be initialised here either; but some numbers are read before they are written, which changes no answer. A memory
 * checker such as valgrind reports it, unless work was set to any numbers before. */
uint32_t pastaspur_cull(const uint8_t *card, pastaspur_length card_len, const uint8_t *ranking, pastaspur_length ranking_len,
                        const uint8_t *word, pastaspur_length word_len, uint16_t *work, pastaspur_length work_len,
                        uint8_t *answer, pastaspur_length answer_len, pastaspur_evaluation *result);

/* Answers the best candidate over all words with one symbol from each set, for words heard only in part: refusals 1 to 8, 25, 9, 10,
 * 12. Bit n of a set is symbol n. Of 8 there is the length limit alone; 25 stands in the place of its symbol test. So sets of one symbol
 * each give what pastaspur_optimize gives for the word, but that a symbol 0 or over S is 25 here and 8 there.
 * result, answer, work: as pastaspur_optimize has them, n being the number of sets; work is kept on 25 too. */
uint32_t pastaspur_optimize_sets(const uint8_t *card, pastaspur_length card_len, const uint8_t *ranking, pastaspur_length ranking_len,
                                 const uint64_t *sets, pastaspur_length sets_len, uint16_t *work, pastaspur_length work_len,
                                 uint8_t *answer, pastaspur_length answer_len, pastaspur_evaluation *result);

/* The same by Ellison's cull: for every input the same number, result and answer.
 * work: read before it is written, as pastaspur_cull has it. */
uint32_t pastaspur_cull_sets(const uint8_t *card, pastaspur_length card_len, const uint8_t *ranking, pastaspur_length ranking_len,
                             const uint64_t *sets, pastaspur_length sets_len, uint16_t *work, pastaspur_length work_len,
                             uint8_t *answer, pastaspur_length answer_len, pastaspur_evaluation *result);

/* Answers the best candidate for a word by weights, one for each machine in card order, in whole thousandths: refusals 1 to 6, 26,
 * 8, 9, 10, 12. The best has the smallest sum of weight times count, then the fewest pairs, then the smallest byte string.
 * result: the best candidate's counts, its pair count, the word's length, its sum.
 * answer: as pastaspur_optimize has it.
 * work: at least 2 * (n + 1) * P numbers, else 9. Kept on refusals 1 to 6, 26, 8 and 9; otherwise its contents are left open. It need
 * not be initialised. */
uint32_t pastaspur_optimize_weights(const uint8_t *card, pastaspur_length card_len, const uint32_t *weights, pastaspur_length weights_len,
                                    const uint8_t *word, pastaspur_length word_len, uint64_t *work, pastaspur_length work_len,
                                    uint8_t *answer, pastaspur_length answer_len, pastaspur_weighing *result);

/* Evaluates a candidate: refusals 1 to 6, 13, 14.
 * result: its counts, its pair count, the length of the word that it spells. */
uint32_t pastaspur_evaluate(const uint8_t *card, pastaspur_length card_len, const uint8_t *candidate, pastaspur_length candidate_len,
                            pastaspur_evaluation *result);

/* Says whether a tableau is right for a card, a ranking and a word: refusals 1 to 9, 19, 20, 21.
 * tableau: byte R, rows; byte with the claimed winner's row, from 0; R pairs of 16-bit offset and length; the rows, each six 16-bit
 * counts and its candidate.
 * result: right exactly when the claimed row wins, that is, when no complete candidate for the word has a better profile.
 * work: as pastaspur_optimize has it. */
uint32_t pastaspur_judge(const uint8_t *card, pastaspur_length card_len, const uint8_t *ranking, pastaspur_length ranking_len,
                         const uint8_t *word, pastaspur_length word_len, uint16_t *work, pastaspur_length work_len,
                         const uint8_t *tableau, pastaspur_length tableau_len, pastaspur_judgement *result);

/* Reads where a machine's part stands in the card: refusals 1 to 6, 17. */
uint32_t pastaspur_read_part(const uint8_t *card, pastaspur_length card_len, uint8_t machine, pastaspur_part *result);

/* Packs parts, joined, into a card of as many machines as there are lengths: refusals 1, 17, 3 to 6, 18.
 * symbols: S. lengths: of the parts, in bytes.
 * result: the card's length in bytes.
 * target: the card fills the front; the other bytes, and on a refusal all of them, keep their values. A card cannot be packed in place:
 * target shares no byte with lengths or parts. */
uint32_t pastaspur_pack(uint8_t symbols, const uint16_t *lengths, pastaspur_length lengths_len,
                        const uint8_t *parts, pastaspur_length parts_len, uint8_t *target, pastaspur_length target_len,
                        pastaspur_length *result);

/* Joins two machines of a card, in either order, by Ellison's product: refusals 1 to 6, 27, 28, 18. One of the two must have no marks.
 * The joined machine stands in the lower place, and those after the other one move down one number. A candidate is complete on the new
 * card exactly when it is on the old, and its counts there are the old ones with the two added.
 * result: the new card's length in bytes.
 * target: the new card fills the front; the other bytes, and on a refusal all of them, keep their values. Machines cannot be joined in
 * place: target shares no byte with card. */
uint32_t pastaspur_join(const uint8_t *card, pastaspur_length card_len, uint8_t first, uint8_t second,
                        uint8_t *target, pastaspur_length target_len, pastaspur_length *result);

/* Compares two profiles of as many machines under a ranking: refusals 1 (for machines), 7. Counts from place K on are not looked at.
 * result: how the first stands to the second, and the highest ranked machine where they differ. */
uint32_t pastaspur_compare(uint8_t machines, const uint8_t *ranking, pastaspur_length ranking_len,
                           const uint16_t first[PASTASPUR_MACHINES], const uint16_t second[PASTASPUR_MACHINES],
                           pastaspur_comparison *result);

/* Derives the ranking condition from two profiles of as many machines: refusal 1. Counts from place K on are not looked at. */
uint32_t pastaspur_condition(uint8_t machines, const uint16_t first[PASTASPUR_MACHINES],
                             const uint16_t second[PASTASPUR_MACHINES], pastaspur_ranking_condition *result);

/* Finds the smallest ranking, as a byte string, that fits every condition of a list: refusals 1, 15, 16. A ranking fits a condition if
 * L is empty or the highest ranked machine in either is in W.
 * conditions: two bytes each, W before L; the length counts bytes.
 * result: the ranking; places from K on 0. */
uint32_t pastaspur_find_ranking(uint8_t machines, const uint8_t *conditions, pastaspur_length conditions_len,
                                uint8_t result[PASTASPUR_MACHINES]);

/* The rows of a live tableau are the first `count` records of a list, in order of arrival; a table starts with count 0. Each call takes
 * the machine count, the ranking, the row count that the last accepted add or removal answered, and the list. A refused call answers
 * 0 as the row count: give `result` a variable of its own, and take its value over where the call is accepted. A row's counts from
 * place K on are kept and answered, and not looked at in comparing; records from `count` on are not looked at. */

/* Adds a row behind the others: refusals 1, 7, 23, 24.
 * result: the new row count.
 * rows: record `count` is the row; the others, and on a refusal all of them, keep their values. */
uint32_t pastaspur_add_row(uint8_t machines, const uint8_t *ranking, pastaspur_length ranking_len, pastaspur_length count,
                           pastaspur_row *rows, pastaspur_length rows_len, const pastaspur_row *row, pastaspur_length *result);

/* Takes out the first row that has the id: refusals 1, 7, 23, 24.
 * result: the new row count.
 * rows: the later rows have moved up, and the freed last record is zeros; the others, and on a refusal all, keep their values. */
uint32_t pastaspur_remove_row(uint8_t machines, const uint8_t *ranking, pastaspur_length ranking_len, pastaspur_length count,
                              pastaspur_row *rows, pastaspur_length rows_len, uint16_t id, pastaspur_length *result);

/* Answers the row with the best profile under the ranking, the earliest arrival among equals: refusals 1, 7, 23. */
uint32_t pastaspur_leader(uint8_t machines, const uint8_t *ranking, pastaspur_length ranking_len, pastaspur_length count,
                          const pastaspur_row *rows, pastaspur_length rows_len, pastaspur_lead *result);

#ifdef __cplusplus
}
#endif

#endif
