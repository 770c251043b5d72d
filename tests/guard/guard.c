/* Every call with each slice flush against a page that traps, behind it and before it, and what is only read in pages that cannot be
 * written; and with a null pointer for each empty slice. guard CASES makes so many cases for each call, from the cards of the tree and
 * from cards that are damaged, the same in every run. Each case is made on plain memory first: the numbers answered and everything written
 * must agree, whatever the work slice held. A refusal must leave the lent slices as they were, and zeros in the result.
 *
 * In the end it prints each call with the numbers that it answered. */
#define _GNU_SOURCE
#include "pastaspur.h"
#include <glob.h>
#include <signal.h>
#include <stdbool.h>
#include <stdio.h>
#include <stdlib.h>
#include <string.h>
#include <sys/mman.h>
#include <sys/wait.h>
#include <unistd.h>

enum { PAGE = 4096, ROOM = 24 * PAGE, SLICES = 6, CARDS = 64, NUMBERS = 32 };

/* ---- what a call is lent */

typedef enum { INPUT, WORK, OUT, RESULT } Role;

/* A slice, or an array of a fixed number of elements. */
typedef struct {
    Role role;
    size_t element; /* bytes of an element */
    size_t fixed;   /* elements, if their number is fixed; else 0 */
} Kind;

typedef struct {
    void *start;
    uint64_t length;
} Lent;

typedef struct {
    uint8_t machines, first, second;
    uint16_t id;
    uint64_t count;
} Scalars;

typedef struct {
    const char *name;
    uint32_t (*make)(const Lent *, const Scalars *);
    void (*fill)(void);
    Kind kinds[SLICES];
    int slices;
    bool answered[NUMBERS];
} Call;

/* The case's values: what each slice holds before the call. */
static _Alignas(8) uint8_t values[SLICES][ROOM];
static uint64_t lengths[SLICES];
static Scalars scalars;

/* ---- memory between pages that trap: two views of the same pages, one of which cannot be written */

static uint8_t *writable[SLICES], *readable[SLICES];

static uint8_t *view(int file, int protection) {
    uint8_t *room = mmap(NULL, ROOM + 2 * PAGE, PROT_NONE, MAP_PRIVATE | MAP_ANONYMOUS, -1, 0);
    if (room == MAP_FAILED || mmap(room + PAGE, ROOM, protection, MAP_SHARED | MAP_FIXED, file, 0) == MAP_FAILED) abort();
    return room + PAGE;
}

static void make_views(void) {
    for (int i = 0; i < SLICES; i++) {
        int file = memfd_create("guard", 0);
        if (file < 0 || ftruncate(file, ROOM) != 0) abort();
        writable[i] = view(file, PROT_READ | PROT_WRITE);
        readable[i] = view(file, PROT_READ);
    }
}

/* The pages do trap: a child that reads or writes there is ended by it. */
static bool ends(volatile uint8_t *at, bool writes) {
    int status;
    pid_t child = fork();
    if (child < 0) abort();
    if (child == 0) {
        signal(SIGSEGV, SIG_DFL);
        if (writes) *at = 1;
        _exit(*at == 0 ? 0 : 1);
    }
    return waitpid(child, &status, 0) == child && WIFSIGNALED(status) && WTERMSIG(status) == SIGSEGV;
}

static bool pages_trap(void) {
    for (int i = 0; i < SLICES; i++)
        if (!ends(writable[i] - 1, false) || !ends(writable[i] + ROOM, false) || !ends(readable[i] - 1, false) || !ends(readable[i] + ROOM, false)
            || !ends(readable[i], true) || ends(readable[i], false) || ends(writable[i], true)) return false;
    return true;
}

/* ---- a case, on plain memory and between the pages */

static const char *now_called;
static const char *now_tried;
static long now_case;

static void fail(const char *what) {
    printf("%s, case %ld, %s: %s\n", now_called, now_case, now_tried, what);
    exit(1);
}

static void trapped(int signal) {
    char text[200];
    int length = snprintf(text, sizeof text, "%s, case %ld, %s: signal %d\n", now_called, now_case, now_tried, signal);
    _exit(write(1, text, (size_t)length) == length ? 1 : 2);
}

/* The library asks for no byte of a null pointer: its memcpy and memset are these (ld --wrap). */
void *__real_memcpy(void *, const void *, size_t);
void *__real_memset(void *, int, size_t);

void *__wrap_memcpy(void *to, const void *from, size_t bytes) {
    if (to == NULL || from == NULL) fail("memcpy with a null pointer");
    return __real_memcpy(to, from, bytes);
}

void *__wrap_memset(void *to, int byte, size_t bytes) {
    if (to == NULL) fail("memset with a null pointer");
    return __real_memset(to, byte, bytes);
}

static _Alignas(8) uint8_t plain[SLICES][ROOM];

static size_t bytes_of(const Call *call, int i) { return lengths[i] * call->kinds[i].element; }

static bool keeps_work(uint32_t number) { return (number >= 1 && number <= 9) || number == 25 || number == 26; }

/* What was written must be what was written on plain memory. */
static void same(const Call *call, const Lent *lent, uint32_t number, uint32_t due, int work_byte) {
    if (number != due) fail("another number");
    for (int i = 0; i < call->slices; i++) {
        const uint8_t *now = lent[i].start;
        Role role = call->kinds[i].role;
        size_t bytes = bytes_of(call, i);
        if ((role == OUT || role == RESULT) && bytes > 0 && memcmp(now, plain[i], bytes) != 0) fail("another answer");
        if (role == RESULT && number != 0)
            for (size_t k = 0; k < bytes; k++)
                if (now[k] != 0) fail("a refusal with a result");
        if (role == OUT && number != 0 && bytes > 0 && memcmp(now, values[i], bytes) != 0) fail("a refusal that writes");
        if (role == WORK && keeps_work(number))
            for (size_t k = 0; k < bytes; k++)
                if (now[k] != (work_byte < 0 ? values[i][k] : work_byte)) fail("a refusal that writes to work");
    }
}

static uint32_t on_plain_memory(Call *call) {
    Lent lent[SLICES];
    now_tried = "on plain memory";
    for (int i = 0; i < call->slices; i++) {
        memcpy(plain[i], values[i], bytes_of(call, i));
        lent[i] = (Lent){plain[i], lengths[i]};
    }
    uint32_t number = call->make(lent, &scalars);
    if (number >= NUMBERS) fail("no refusal's number");
    call->answered[number] = true;
    same(call, lent, number, number, -1);
    return number;
}

/* Flush with the page behind it, or with the one before it. There work holds one byte throughout. */
static void between_pages(Call *call, bool behind, uint32_t due) {
    Lent lent[SLICES];
    int work_byte = behind ? -1 : 0xa5;
    now_tried = behind ? "a page behind" : "a page before";
    for (int i = 0; i < call->slices; i++) {
        size_t bytes = bytes_of(call, i), at = behind ? ROOM - bytes : 0;
        if (bytes > ROOM) fail("a slice too large for the test");
        if (call->kinds[i].role == WORK && !behind) memset(writable[i] + at, work_byte, bytes);
        else memcpy(writable[i] + at, values[i], bytes);
        lent[i] = (Lent){(call->kinds[i].role == INPUT ? readable[i] : writable[i]) + at, lengths[i]};
    }
    same(call, lent, call->make(lent, &scalars), due, work_byte);
}

/* Each slice empty in turn, and in the end all of them; by a null pointer, and by another one. */
static void null_pointers(Call *call) {
    uint64_t kept[SLICES];
    memcpy(kept, lengths, sizeof kept);
    for (int empty = 0; empty <= call->slices; empty++) {
        Lent lent[SLICES];
        for (int i = 0; i < call->slices; i++) lengths[i] = (i == empty || empty == call->slices) && call->kinds[i].fixed == 0 ? 0 : kept[i];
        uint32_t due = on_plain_memory(call);
        now_tried = "null pointers";
        for (int i = 0; i < call->slices; i++) {
            memcpy(writable[i], values[i], bytes_of(call, i));
            lent[i] = (Lent){lengths[i] == 0 ? NULL : call->kinds[i].role == INPUT ? readable[i] : writable[i], lengths[i]};
        }
        same(call, lent, call->make(lent, &scalars), due, -1);
    }
    memcpy(lengths, kept, sizeof kept);
}

/* ---- chance, the same in every run */

static uint64_t chance = UINT64_C(88172645463325252);

static uint64_t any(void) {
    chance ^= chance << 13;
    chance ^= chance >> 7;
    chance ^= chance << 17;
    return chance;
}

static size_t below(size_t n) { return n == 0 ? 0 : any() % n; }

static bool one_in(size_t n) { return below(n) == 0; }

/* A length that is enough, or one more, one less, none, or some. */
static size_t about(size_t enough, size_t most) {
    size_t lengths_tried[] = {enough, enough, enough, enough + 1, enough == 0 ? 0 : enough - 1, 0, enough + below(50)};
    size_t length = lengths_tried[below(7)];
    return length > most ? most : length;
}

static void fill_bytes(int i, size_t length) {
    lengths[i] = length;
    for (size_t k = 0; k < length; k++) values[i][k] = (uint8_t)any();
}

/* ---- cards */

static struct {
    uint8_t *bytes;
    size_t length;
} cards[CARDS];
static size_t card_count;

static void keep_card(const uint8_t *bytes, size_t length) {
    if (card_count == CARDS) abort();
    cards[card_count].bytes = malloc(length + 1);
    cards[card_count].length = length;
    memcpy(cards[card_count++].bytes, bytes, length);
}

static void read_cards(const char *pattern) {
    static uint8_t bytes[ROOM];
    glob_t found;
    if (glob(pattern, 0, NULL, &found) != 0) abort();
    for (size_t i = 0; i < found.gl_pathc; i++) {
        FILE *file = fopen(found.gl_pathv[i], "rb");
        if (file == NULL) abort();
        keep_card(bytes, fread(bytes, 1, 40000, file));
        fclose(file);
    }
    globfree(&found);
}

/* A card of two machines of so many states, all final, with an arc from state 0 to itself that takes every pair of the one symbol; `twice`
 * has it twice in the first machine. */
static void make_card(uint8_t first, uint8_t second, bool twice) {
    uint8_t bytes[400] = {2, 1}, *at = bytes + 10, states[2] = {first, second};
    size_t offset = 10;
    for (int m = 0; m < 2; m++) {
        uint8_t arcs = twice && m == 0 ? 2 : 1, part = (uint8_t)(2 + states[m] + 20 * arcs);
        bytes[2 + 4 * m] = (uint8_t)offset, bytes[4 + 4 * m] = part;
        offset += part;
        *at++ = states[m], *at++ = arcs;
        for (int s = 0; s < states[m]; s++) *at++ = 1;
        for (int a = 0; a < arcs; a++, at += 20) at[4] = 3, at[12] = 3;
    }
    keep_card(bytes, offset);
}

static void make_cards(void) {
    read_cards("demo/*/card.bin");
    read_cards("tests/data/*/card.bin");
    read_cards("tests/board/*/card.bin");
    make_card(1, 1, true);    /* 5 */
    make_card(12, 11, false); /* 6 */
    make_card(11, 3, false);  /* 28 in joining */
    make_card(2, 3, false);
}

/* The counts of the card at hand; where it has none that could be, others. */
static size_t machines, symbols, joint_states;
static bool heavy;

static void pick_card(int i) {
    size_t picked = below(card_count), length = cards[picked].length;
    uint8_t *card = values[i];
    memcpy(card, cards[picked].bytes, length);
    if (one_in(3) && length > 0) {
        for (size_t changes = 1 + below(3); changes > 0; changes--) card[one_in(2) ? below(length) : below(length < 60 ? length : 60)] = (uint8_t)(one_in(2) ? any() : below(8));
        if (one_in(4)) length = below(length + 1);
        else if (one_in(8)) card[length++] = 0;
    }
    lengths[i] = length;
    heavy = length > 3000;
    machines = length > 0 && card[0] <= 8 ? card[0] : 3;
    symbols = length > 1 && card[1] <= 70 ? card[1] : 2;
    joint_states = 1;
    for (size_t m = 0; m < machines && 6 + 4 * m <= length; m++) {
        size_t offset = card[2 + 4 * m] + 256u * card[3 + 4 * m];
        if (offset < length) joint_states *= card[offset];
    }
    if (joint_states == 0 || joint_states > 128) joint_states = 128;
}

static void pick_ranking(int i, size_t count) {
    lengths[i] = count;
    for (size_t k = 0; k < count; k++) values[i][k] = (uint8_t)k;
    for (size_t k = count; k > 1; k--) {
        size_t other = below(k);
        uint8_t byte = values[i][k - 1];
        values[i][k - 1] = values[i][other], values[i][other] = byte;
    }
    if (one_in(12)) fill_bytes(i, below(9));
    if (one_in(12) && lengths[i] > 0) values[i][below(lengths[i])] = (uint8_t)below(8);
}

static size_t pick_word_length(void) { return heavy ? below(5) : one_in(20) ? 25 : below(9); }

static size_t pick_word(int i) {
    size_t length = pick_word_length();
    lengths[i] = length;
    for (size_t k = 0; k < length; k++) values[i][k] = (uint8_t)(1 + below(symbols));
    if (one_in(12) && length > 0) values[i][below(length)] = (uint8_t)below(80);
    return length;
}

static void pick_work(int i, size_t per_node, size_t element, size_t word_length) {
    fill_bytes(i, about(per_node * (word_length + 1) * joint_states, ROOM / element) * element);
    lengths[i] /= element;
}

/* ---- the sixteen calls: how each is made, and what a case of it holds */

#define BYTES(i) lent[i].start, lent[i].length

static uint32_t make_optimize(const Lent *lent, const Scalars *given) {
    (void)given;
    return pastaspur_optimize(BYTES(0), BYTES(1), BYTES(2), BYTES(3), BYTES(4), lent[5].start);
}

static uint32_t make_cull(const Lent *lent, const Scalars *given) {
    (void)given;
    return pastaspur_cull(BYTES(0), BYTES(1), BYTES(2), BYTES(3), BYTES(4), lent[5].start);
}

static void fill_search(void) {
    pick_card(0);
    pick_ranking(1, machines);
    size_t length = pick_word(2);
    pick_work(3, 8, 2, length);
    fill_bytes(4, one_in(2) ? PASTASPUR_ANSWER_BYTES : about(2 * length, PASTASPUR_ANSWER_BYTES));
}

static uint32_t make_optimize_sets(const Lent *lent, const Scalars *given) {
    (void)given;
    return pastaspur_optimize_sets(BYTES(0), BYTES(1), BYTES(2), BYTES(3), BYTES(4), lent[5].start);
}

static uint32_t make_cull_sets(const Lent *lent, const Scalars *given) {
    (void)given;
    return pastaspur_cull_sets(BYTES(0), BYTES(1), BYTES(2), BYTES(3), BYTES(4), lent[5].start);
}

static void fill_sets(void) {
    pick_card(0);
    pick_ranking(1, machines);
    size_t length = heavy ? below(3) : pick_word_length();
    uint64_t *sets = (uint64_t *)values[2];
    lengths[2] = length;
    for (size_t k = 0; k < length; k++) {
        sets[k] = 0;
        for (size_t more = 1 + below(3); more > 0; more--) sets[k] |= UINT64_C(1) << (1 + below(symbols < 63 ? symbols : 63));
    }
    if (one_in(8) && length > 0) sets[below(length)] = one_in(2) ? any() : 0;
    pick_work(3, 8, 2, length);
    fill_bytes(4, one_in(2) ? PASTASPUR_ANSWER_BYTES : about(2 * length, PASTASPUR_ANSWER_BYTES));
}

static uint32_t make_optimize_weights(const Lent *lent, const Scalars *given) {
    (void)given;
    return pastaspur_optimize_weights(BYTES(0), BYTES(1), BYTES(2), BYTES(3), BYTES(4), lent[5].start);
}

static void fill_weights(void) {
    uint32_t *weights = (uint32_t *)values[1];
    pick_card(0);
    lengths[1] = one_in(10) ? below(9) : machines;
    for (size_t k = 0; k < 9; k++) weights[k] = (uint32_t)(one_in(3) ? below(4000000001u) : below(5000));
    if (one_in(10)) weights[below(3)] = (uint32_t)any();
    size_t length = pick_word(2);
    pick_work(3, 2, 8, length);
    fill_bytes(4, one_in(2) ? PASTASPUR_ANSWER_BYTES : about(2 * length, PASTASPUR_ANSWER_BYTES));
}

static uint32_t make_evaluate(const Lent *lent, const Scalars *given) {
    (void)given;
    return pastaspur_evaluate(BYTES(0), BYTES(1), lent[2].start);
}

/* A candidate: by chance, or one that the optimizer found, where it found one. */
static size_t pick_candidate(uint8_t *candidate, const uint8_t *card, size_t card_length, const uint8_t *word, size_t word_length) {
    static uint16_t work[PASTASPUR_WORK_NUMBERS];
    static uint8_t answer[PASTASPUR_ANSWER_BYTES];
    const uint8_t ranking[8] = {0, 1, 2, 3, 4, 5, 6, 7};
    pastaspur_evaluation best;
    if (!one_in(4) && pastaspur_optimize(card, card_length, ranking, machines, word, word_length, work, PASTASPUR_WORK_NUMBERS, answer, sizeof answer, &best) == 0) {
        memcpy(candidate, answer, 2u * best.pairs);
        return 2u * best.pairs;
    }
    size_t length = one_in(8) ? below(7000) : 2 * below(20);
    for (size_t k = 0; k < length; k++) candidate[k] = (uint8_t)below(symbols + 1 + one_in(50));
    return length;
}

static void fill_evaluate(void) {
    uint8_t word[8];
    pick_card(0);
    size_t length = below(heavy ? 3 : 8);
    for (size_t k = 0; k < length; k++) word[k] = (uint8_t)(1 + below(symbols));
    lengths[1] = pick_candidate(values[1], values[0], lengths[0], word, length);
    if (one_in(10) && lengths[1] > 0) values[1][below(lengths[1])] = (uint8_t)below(symbols + 2);
}

static uint32_t make_judge(const Lent *lent, const Scalars *given) {
    (void)given;
    return pastaspur_judge(BYTES(0), BYTES(1), BYTES(2), BYTES(3), BYTES(4), lent[5].start);
}

/* A tableau of up to three rows, each with a candidate and, mostly, its counts. */
static void fill_judge(void) {
    pick_card(0);
    pick_ranking(1, machines);
    size_t length = pick_word(2), rows = 1 + below(3), at = 2 + 4 * rows;
    uint8_t *tableau = values[4];
    pick_work(3, 8, 2, length);
    tableau[0] = (uint8_t)rows, tableau[1] = (uint8_t)below(rows + one_in(10));
    for (size_t row = 0; row < rows; row++) {
        pastaspur_evaluation counts = {{0}, 0, 0};
        size_t candidate = pick_candidate(tableau + at + 12, values[0], lengths[0], values[2], length), bytes = 12 + candidate;
        pastaspur_evaluate(values[0], lengths[0], tableau + at + 12, candidate, &counts);
        if (one_in(10)) counts.counts[below(6)]++;
        for (size_t m = 0; m < 6; m++) tableau[at + 2 * m] = counts.counts[m] % 256, tableau[at + 2 * m + 1] = (uint8_t)(counts.counts[m] / 256);
        uint8_t *place = tableau + 2 + 4 * row;
        place[0] = at % 256, place[1] = (uint8_t)(at / 256), place[2] = bytes % 256, place[3] = (uint8_t)(bytes / 256);
        at += bytes;
    }
    lengths[4] = one_in(10) ? below(at + 2) : at;
}

static uint32_t make_read_part(const Lent *lent, const Scalars *given) { return pastaspur_read_part(BYTES(0), given->first, lent[1].start); }

static void fill_read_part(void) {
    pick_card(0);
    scalars.first = (uint8_t)below(machines + 2);
}

static uint32_t make_pack(const Lent *lent, const Scalars *given) {
    return pastaspur_pack(given->machines, BYTES(0), BYTES(1), BYTES(2), lent[3].start);
}

/* A card taken apart. */
static void fill_pack(void) {
    pick_card(1);
    uint16_t *parts = (uint16_t *)values[0];
    size_t head = 2 + 4 * machines, length = lengths[1];
    scalars.machines = (uint8_t)(one_in(20) ? any() : symbols);
    lengths[0] = machines;
    for (size_t m = 0; m < machines; m++) parts[m] = head <= length ? (uint16_t)(values[1][4 + 4 * m] + 256u * values[1][5 + 4 * m]) : (uint16_t)below(60);
    if (one_in(12) && machines > 0) parts[below(machines)] = (uint16_t)any();
    if (head <= length) memmove(values[1], values[1] + head, length - head);
    lengths[1] = head <= length ? length - head : length;
    fill_bytes(2, about(length, PASTASPUR_CARD_BYTES));
}

static uint32_t make_join(const Lent *lent, const Scalars *given) {
    return pastaspur_join(BYTES(0), given->first, given->second, BYTES(1), lent[2].start);
}

static void fill_join(void) {
    pick_card(0);
    scalars.first = (uint8_t)below(machines + one_in(5)), scalars.second = (uint8_t)below(machines);
    fill_bytes(1, one_in(2) ? PASTASPUR_CARD_BYTES : below(800));
}

static uint32_t make_compare(const Lent *lent, const Scalars *given) {
    return pastaspur_compare(given->machines, BYTES(0), lent[1].start, lent[2].start, lent[3].start);
}

static void fill_profiles(int first) {
    for (int i = first; i < first + 2; i++)
        for (size_t m = 0; m < 6; m++) ((uint16_t *)values[i])[m] = (uint16_t)(one_in(20) ? any() : below(3));
}

static void fill_compare(void) {
    scalars.machines = (uint8_t)below(8);
    pick_ranking(0, scalars.machines);
    fill_profiles(1);
}

static uint32_t make_condition(const Lent *lent, const Scalars *given) {
    return pastaspur_condition(given->machines, lent[0].start, lent[1].start, lent[2].start);
}

static void fill_condition(void) {
    scalars.machines = (uint8_t)below(8);
    fill_profiles(0);
}

static uint32_t make_find_ranking(const Lent *lent, const Scalars *given) {
    return pastaspur_find_ranking(given->machines, BYTES(0), lent[1].start);
}

static void fill_find_ranking(void) {
    scalars.machines = (uint8_t)below(8);
    size_t pairs = one_in(8) ? below(67) : below(8);
    lengths[0] = 2 * pairs + one_in(15);
    for (size_t k = 0; k < 2 * pairs; k += 2) {
        uint8_t fewer = (uint8_t)(1u << below(scalars.machines)), more = (uint8_t)(1u << below(scalars.machines));
        values[0][k] = fewer, values[0][k + 1] = one_in(2) || (fewer == more && !one_in(20)) ? 0 : more;
    }
}

static uint32_t make_add_row(const Lent *lent, const Scalars *given) {
    return pastaspur_add_row(given->machines, BYTES(0), given->count, BYTES(1), lent[2].start, lent[3].start);
}

static uint32_t make_remove_row(const Lent *lent, const Scalars *given) {
    return pastaspur_remove_row(given->machines, BYTES(0), given->count, BYTES(1), given->id, lent[2].start);
}

static uint32_t make_leader(const Lent *lent, const Scalars *given) {
    return pastaspur_leader(given->machines, BYTES(0), given->count, BYTES(1), lent[2].start);
}

static void fill_table(void) {
    pastaspur_row *rows = (pastaspur_row *)values[1], *row = (pastaspur_row *)values[2];
    scalars.machines = (uint8_t)(one_in(10) ? below(8) : 1 + below(6));
    pick_ranking(0, scalars.machines);
    lengths[1] = below(40);
    for (size_t r = 0; r < lengths[1]; r++) {
        rows[r].id = (uint16_t)below(60);
        for (size_t m = 0; m < 6; m++) rows[r].counts[m] = (uint16_t)below(3);
    }
    scalars.count = one_in(10) ? any() : below(lengths[1] + 1);
    scalars.id = (uint16_t)below(60);
    row->id = (uint16_t)below(90);
    for (size_t m = 0; m < 6; m++) row->counts[m] = (uint16_t)any();
}

#define SLICE(role, element) {role, element, 0}
#define FIXED(role, element, count) {role, element, count}
#define SEARCH SLICE(INPUT, 1), SLICE(INPUT, 1), SLICE(INPUT, 1), SLICE(WORK, 2), SLICE(OUT, 1), FIXED(RESULT, 2, 8)
#define SEARCH_SETS SLICE(INPUT, 1), SLICE(INPUT, 1), SLICE(INPUT, 8), SLICE(WORK, 2), SLICE(OUT, 1), FIXED(RESULT, 2, 8)

static Call calls[] = {
    {"pastaspur_optimize", make_optimize, fill_search, {SEARCH}, 6, {false}},
    {"pastaspur_cull", make_cull, fill_search, {SEARCH}, 6, {false}},
    {"pastaspur_optimize_sets", make_optimize_sets, fill_sets, {SEARCH_SETS}, 6, {false}},
    {"pastaspur_cull_sets", make_cull_sets, fill_sets, {SEARCH_SETS}, 6, {false}},
    {"pastaspur_optimize_weights", make_optimize_weights, fill_weights,
     {SLICE(INPUT, 1), SLICE(INPUT, 4), SLICE(INPUT, 1), SLICE(WORK, 8), SLICE(OUT, 1), FIXED(RESULT, 8, 9)}, 6, {false}},
    {"pastaspur_evaluate", make_evaluate, fill_evaluate, {SLICE(INPUT, 1), SLICE(INPUT, 1), FIXED(RESULT, 2, 8)}, 3, {false}},
    {"pastaspur_judge", make_judge, fill_judge,
     {SLICE(INPUT, 1), SLICE(INPUT, 1), SLICE(INPUT, 1), SLICE(WORK, 2), SLICE(INPUT, 1), FIXED(RESULT, 1, 2)}, 6, {false}},
    {"pastaspur_read_part", make_read_part, fill_read_part, {SLICE(INPUT, 1), FIXED(RESULT, 8, 2)}, 2, {false}},
    {"pastaspur_pack", make_pack, fill_pack, {SLICE(INPUT, 2), SLICE(INPUT, 1), SLICE(OUT, 1), FIXED(RESULT, 8, 1)}, 4, {false}},
    {"pastaspur_join", make_join, fill_join, {SLICE(INPUT, 1), SLICE(OUT, 1), FIXED(RESULT, 8, 1)}, 3, {false}},
    {"pastaspur_compare", make_compare, fill_compare,
     {SLICE(INPUT, 1), FIXED(INPUT, 2, 6), FIXED(INPUT, 2, 6), FIXED(RESULT, 1, 2)}, 4, {false}},
    {"pastaspur_condition", make_condition, fill_condition, {FIXED(INPUT, 2, 6), FIXED(INPUT, 2, 6), FIXED(RESULT, 1, 2)}, 3, {false}},
    {"pastaspur_find_ranking", make_find_ranking, fill_find_ranking, {SLICE(INPUT, 1), FIXED(RESULT, 1, 6)}, 2, {false}},
    {"pastaspur_add_row", make_add_row, fill_table, {SLICE(INPUT, 1), SLICE(OUT, 14), FIXED(INPUT, 2, 7), FIXED(RESULT, 8, 1)}, 4, {false}},
    {"pastaspur_remove_row", make_remove_row, fill_table, {SLICE(INPUT, 1), SLICE(OUT, 14), FIXED(RESULT, 8, 1)}, 3, {false}},
    {"pastaspur_leader", make_leader, fill_table, {SLICE(INPUT, 1), SLICE(INPUT, 14), FIXED(RESULT, 2, 8)}, 3, {false}},
};

static void make_case(Call *call) {
    call->fill();
    for (int i = 0; i < call->slices; i++)
        if (call->kinds[i].fixed > 0) {
            lengths[i] = call->kinds[i].fixed;
            if (call->kinds[i].role == RESULT) memset(values[i], 0xee, bytes_of(call, i));
        }
    uint32_t number = on_plain_memory(call);
    between_pages(call, true, number);
    between_pages(call, false, number);
    if (now_case % 8 == 0) null_pointers(call);
}

int main(int argc, char **argv) {
    long cases = argc == 2 ? atol(argv[1]) : 0;
    struct sigaction action = {.sa_handler = trapped};
    if (cases < 1) {
        fprintf(stderr, "usage: guard CASES\n");
        return 2;
    }
    sigaction(SIGSEGV, &action, NULL), sigaction(SIGBUS, &action, NULL), sigaction(SIGILL, &action, NULL), sigaction(SIGABRT, &action, NULL);
    now_called = "guard", now_tried = "cards";
    make_views();
    if (!pages_trap()) fail("a page that does not trap");
    make_cards();
    for (now_case = 0; now_case < cases; now_case++)
        for (size_t c = 0; c < sizeof calls / sizeof calls[0]; c++) {
            now_called = calls[c].name;
            make_case(&calls[c]);
        }
    for (size_t c = 0; c < sizeof calls / sizeof calls[0]; c++) {
        printf("%s", calls[c].name);
        for (int number = 0; number < NUMBERS; number++)
            if (calls[c].answered[number]) printf(" %d", number);
        printf("\n");
    }
    return 0;
}
