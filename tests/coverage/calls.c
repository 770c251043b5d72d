#include "calls.h"
#include "pastaspur.h"
#include <stdbool.h>
#include <stdio.h>
#include <stdlib.h>
#include <string.h>

enum {
    GUARD = 64,          /* bytes before and behind every slice that no call may write */
    ARENA = 6 << 20,     /* bytes for all that a call is lent */
    MOST_LENT = 8,       /* slices and results of a call */
    MOST_FIELDS = 12
};

char *read_lines(const char *file, size_t *count) {
    FILE *in = fopen(file, "rb");
    if (!in || fseek(in, 0, SEEK_END)) {
        perror(file);
        exit(2);
    }
    long size = ftell(in);
    rewind(in);
    char *text = malloc((size_t)size + 1);
    if (!text || fread(text, 1, (size_t)size, in) != (size_t)size) {
        perror(file);
        exit(2);
    }
    fclose(in);
    text[size] = 0;
    *count = 0;
    for (char *at = text; (at = strchr(at, '\n')); *at++ = 0) ++*count;
    return text;
}

/* Memory that is lent: where it is, and what has to be there at exit; nothing where that is left open. */
typedef struct {
    const char *name;
    uint8_t *start;
    size_t bytes;
    const uint8_t *expected;
} Lent;

static _Alignas(64) uint8_t arena[ARENA], expectations[ARENA];
static size_t used;
static Lent lent[MOST_LENT];
static int lents;
static bool close; /* target stands right behind what it is made from: no guard in between */
static uint64_t state; /* of the numbers that fill what is lent for writing */

static uint64_t any_number(void) {
    state ^= state << 13;
    state ^= state >> 7;
    state ^= state << 17;
    return state;
}

/* Lends so many bytes, which the caller fills in both places, between guards. Every slice starts at a multiple of 16. */
static Lent *lend(const char *name, size_t bytes) {
    if (lents == MOST_LENT || bytes > ARENA - used - 3 * GUARD) {
        fprintf(stderr, "a call is lent too much\n");
        exit(2);
    }
    Lent *one = &lent[lents++];
    if (close && !strcmp(name, "target")) {
        Lent *last = one - 1;
        *one = (Lent){name, last->start + last->bytes, bytes, last->expected + last->bytes};
        memset(one->start + bytes, 0xa5, GUARD);
        used = (size_t)(one->start - arena) + (bytes + GUARD + 15) / 16 * 16 + 16;
        used -= used % 16;
        return one;
    }
    memset(arena + used, 0xa5, GUARD);
    *one = (Lent){name, arena + used + GUARD, bytes, expectations + used + GUARD};
    memset(one->start + bytes, 0xa5, GUARD);
    used += GUARD + (bytes + GUARD + 15) / 16 * 16;
    return one;
}

static uint8_t *expected(Lent *one) {
    return expectations + (one->start - arena);
}

/* An empty slice is lent as null for every second call or so. */
static void *pointer(Lent *one) {
    return one->bytes == 0 && (state & 1) ? NULL : one->start;
}

/* Lends what the call only reads. */
static Lent *input(const char *name, const uint8_t *contents, size_t bytes) {
    Lent *one = lend(name, bytes);
    memcpy(one->start, contents, bytes);
    memcpy(expected(one), contents, bytes);
    return one;
}

/* Lends what the call may write, filled by chance; `front` are the bytes that have to be in front at exit. */
static Lent *output(const char *name, size_t bytes, const uint8_t *front, size_t front_bytes) {
    Lent *one = lend(name, bytes);
    for (size_t i = 0; i < bytes; i += 8) {
        uint64_t number = any_number();
        memcpy(one->start + i, &number, bytes - i < 8 ? bytes - i : 8);
    }
    memcpy(expected(one), one->start, bytes);
    memcpy(expected(one), front, front_bytes < bytes ? front_bytes : bytes);
    return one;
}

/* The fields of a line: hexadecimal is turned into bytes in its own place. */
typedef struct {
    char *text;
    uint8_t *bytes;
    size_t length;
} Field;

static int digit(char c) {
    return c <= '9' ? c - '0' : c - 'a' + 10;
}

static void to_bytes(Field *field) {
    field->bytes = (uint8_t *)field->text;
    field->length = 0;
    if (field->text[0] == '-') return;
    for (char *at = field->text; at[0] && at[1]; at += 2) field->bytes[field->length++] = (uint8_t)(digit(at[0]) << 4 | digit(at[1]));
}

static uint64_t number_of(const Field *field) {
    return strtoull(field->text, NULL, 10);
}

/* The work slice is kept on refusals 1 to 9, 25 and 26; otherwise its contents are left open. */
static bool keeps_work(uint64_t number) {
    return (number >= 1 && number <= 9) || number == 25 || number == 26;
}

const char *make_call(char *line) {
    Field field[MOST_FIELDS];
    int fields = 0;
    state = 0xcbf29ce484222325;
    for (char *at = line; *at; at++) state = (state ^ (uint8_t)*at) * 0x100000001b3;
    state |= (uint64_t)1 << 40; /* never 0 */
    for (char *word = strtok(line, " "); word && fields < MOST_FIELDS; word = strtok(NULL, " ")) field[fields++].text = word;
    int equals = 0;
    while (equals < fields && strcmp(field[equals].text, "=")) equals++;
    if (fields != equals + 4) return "the line is not a call with its answer";
    char *name = field[0].text, *ending = strchr(name, '+');
    close = ending;
    if (ending) *ending = 0;
    uint64_t number = number_of(&field[equals + 1]);
    Field *results = &field[equals + 2], *front = &field[equals + 3];
    to_bytes(results);
    to_bytes(front);
    used = 0;
    lents = 0;
    uint32_t found;
    Lent *a, *b, *c, *d, *e, *r;

#define BYTES(place) (to_bytes(&field[place]), input(#place, field[place].bytes, field[place].length))
#define NUMBER(place) number_of(&field[place])
#define RESULT() output("result", results->length, results->bytes, results->length)
    if (!strcmp(name, "optimize") || !strcmp(name, "cull") || !strcmp(name, "optimize_sets") || !strcmp(name, "cull_sets")) {
        bool sets = strstr(name, "_sets"), cull = name[0] == 'c';
        a = BYTES(1);
        b = BYTES(2);
        c = BYTES(3);
        d = output("work", 2 * NUMBER(4), NULL, 0);
        e = output("answer", NUMBER(5), front->bytes, front->length);
        r = RESULT();
        if (!keeps_work(number)) d->expected = NULL;
        found = sets ? (cull ? pastaspur_cull_sets : pastaspur_optimize_sets)(pointer(a), a->bytes, pointer(b), b->bytes, pointer(c), c->bytes / 8,
                           pointer(d), d->bytes / 2, pointer(e), e->bytes, pointer(r))
                     : (cull ? pastaspur_cull : pastaspur_optimize)(pointer(a), a->bytes, pointer(b), b->bytes, pointer(c), c->bytes,
                           pointer(d), d->bytes / 2, pointer(e), e->bytes, pointer(r));
    } else if (!strcmp(name, "optimize_weights")) {
        a = BYTES(1);
        b = BYTES(2);
        c = BYTES(3);
        d = output("work", 8 * NUMBER(4), NULL, 0);
        e = output("answer", NUMBER(5), front->bytes, front->length);
        r = RESULT();
        if (!keeps_work(number)) d->expected = NULL;
        found = pastaspur_optimize_weights(pointer(a), a->bytes, pointer(b), b->bytes / 4, pointer(c), c->bytes, pointer(d), d->bytes / 8,
            pointer(e), e->bytes, pointer(r));
    } else if (!strcmp(name, "judge")) {
        a = BYTES(1);
        b = BYTES(2);
        c = BYTES(3);
        d = output("work", 2 * NUMBER(4), NULL, 0);
        e = BYTES(5);
        r = RESULT();
        if (!keeps_work(number)) d->expected = NULL;
        found = pastaspur_judge(pointer(a), a->bytes, pointer(b), b->bytes, pointer(c), c->bytes, pointer(d), d->bytes / 2, pointer(e), e->bytes,
            pointer(r));
    } else if (!strcmp(name, "evaluate")) {
        a = BYTES(1);
        b = BYTES(2);
        r = RESULT();
        found = pastaspur_evaluate(pointer(a), a->bytes, pointer(b), b->bytes, pointer(r));
    } else if (!strcmp(name, "read_part")) {
        a = BYTES(1);
        r = RESULT();
        found = pastaspur_read_part(pointer(a), a->bytes, (uint8_t)NUMBER(2), pointer(r));
    } else if (!strcmp(name, "pack")) {
        a = BYTES(2);
        b = BYTES(3);
        c = output("target", NUMBER(4), front->bytes, front->length);
        r = RESULT();
        found = pastaspur_pack((uint8_t)NUMBER(1), pointer(a), a->bytes / 2, pointer(b), b->bytes, pointer(c), c->bytes, pointer(r));
    } else if (!strcmp(name, "join")) {
        a = BYTES(1);
        b = output("target", NUMBER(4), front->bytes, front->length);
        r = RESULT();
        found = pastaspur_join(pointer(a), a->bytes, (uint8_t)NUMBER(2), (uint8_t)NUMBER(3), pointer(b), b->bytes, pointer(r));
    } else if (!strcmp(name, "compare")) {
        a = BYTES(2);
        b = BYTES(3);
        c = BYTES(4);
        r = RESULT();
        found = pastaspur_compare((uint8_t)NUMBER(1), pointer(a), a->bytes, pointer(b), pointer(c), pointer(r));
    } else if (!strcmp(name, "condition")) {
        a = BYTES(2);
        b = BYTES(3);
        r = RESULT();
        found = pastaspur_condition((uint8_t)NUMBER(1), pointer(a), pointer(b), pointer(r));
    } else if (!strcmp(name, "find_ranking")) {
        a = BYTES(2);
        r = RESULT();
        found = pastaspur_find_ranking((uint8_t)NUMBER(1), pointer(a), a->bytes, pointer(r));
    } else if (!strcmp(name, "add_row") || !strcmp(name, "remove_row") || !strcmp(name, "leader")) {
        a = BYTES(2);
        b = BYTES(4);
        memcpy(expected(b), front->bytes, front->length);
        r = RESULT();
        if (name[0] == 'a') {
            c = BYTES(5);
            found = pastaspur_add_row((uint8_t)NUMBER(1), pointer(a), a->bytes, NUMBER(3), pointer(b), b->bytes / 14, pointer(c), pointer(r));
        } else if (name[0] == 'r') {
            found = pastaspur_remove_row((uint8_t)NUMBER(1), pointer(a), a->bytes, NUMBER(3), pointer(b), b->bytes / 14, (uint16_t)NUMBER(5), pointer(r));
        } else {
            found = pastaspur_leader((uint8_t)NUMBER(1), pointer(a), a->bytes, NUMBER(3), pointer(b), b->bytes / 14, pointer(r));
        }
    } else {
        return "there is no such call";
    }
    static char wrong[100];
    if (found != number) {
        snprintf(wrong, sizeof wrong, "answers %u, not %u", (unsigned)found, (unsigned)number);
        return wrong;
    }
    for (int i = 0; i < lents; i++) {
        bool kept = !lent[i].expected || !memcmp(lent[i].start, lent[i].expected, lent[i].bytes);
        bool between[2] = {close && !strcmp(lent[i].name, "target"), close && i + 1 < lents && !strcmp(lent[i + 1].name, "target")};
        for (int k = 0; k < GUARD; k++) kept = kept && (between[0] || lent[i].start[-1 - k] == 0xa5) && (between[1] || lent[i].start[lent[i].bytes + (size_t)k] == 0xa5);
        if (!kept) {
            snprintf(wrong, sizeof wrong, "%s has other bytes at exit, or those around it were written", lent[i].name);
            return wrong;
        }
    }
    return NULL;
}
