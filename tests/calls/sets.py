"""Both engines' calls for words heard only in part: sets that decide, the empty list, refusal 25 with its neighbours that pass and its place after 2, 7
and 8 and before 9, and slices longer than needed."""
from calls import case, cull_sets, optimize_sets
from cards import A, arc, bits, card, machine

ENGINES = ("optimize", optimize_sets), ("cull", cull_sets)


def refuse(name, number, card, sets, work=400, answer=60, ranking=[0]):
    for by, engine in ENGINES:
        case(f"{name}, {by}", engine(card, ranking, sets, work, answer).refuses(number))


def give(name, profile, pairs, card, sets, work=400, answer=60):
    for by, engine in ENGINES:
        case(f"{name}, {by}", engine(card, [0], sets, work, answer).gives(profile, pairs, len(sets)))


ONE, TWO, EITHER = bits({1}), bits({2}), bits({1, 2})

# A word that is not the first decides: it has the better profile, then at a second position too; fewer pairs; the smaller byte string.
LATER = card(2, machine([1], [arc(0, 0, {1}, {1, 2}, marks=2), arc(0, 0, {2}, {1, 2}, marks=1)]))
give("better profile", [1], "2:1", LATER, [EITHER])
give("better profile at two positions", [4], "2:1 1:1 2:1", LATER, [EITHER, ONE, EITHER])
PAIRS = card(2, machine([0, 0, 1], [arc(0, 1, {1}, {1}), arc(1, 2, {0}, {1}), arc(0, 2, {2}, {2})]))
give("fewer pairs", [0], "2:2", PAIRS, [EITHER])
give("the word with more pairs alone", [0], "1:1 0:1", PAIRS, [ONE])
BYTES = card(2, machine([0, 0, 0, 1], [arc(0, 1, {1}, {1}), arc(1, 3, {0}, {1}), arc(0, 2, {0}, {1}), arc(2, 3, {2}, {2})]))
give("smaller bytes", [0], "0:1 2:2", BYTES, [EITHER])
give("the word with greater bytes alone", [0], "1:1 0:1", BYTES, [ONE])

give("empty list", [0], "", A, [], 8, 0)
refuse("empty list, a number of work short", 9, A, [], 7, 0)

# 63:63 has no mark, and 1 to 63 become 1 to 62 with one.
ALL = range(1, 64)
KEEPS_63 = card(63, machine([1], [arc(0, 0, ALL, range(1, 63), marks=1), arc(0, 0, {63}, {63})]))
give("all symbols at 24 positions", [0], "63:63 " * 24, KEEPS_63, [bits(ALL)] * 24, 200, 48)
refuse("all symbols at 25 positions", 8, KEEPS_63, [bits(ALL)] * 25)

# Refusal 25: no symbol, the empty symbol, a bit over S, each alone or behind a set that passes; and neighbours that pass.
refuse("no symbol", 25, A, [0])
refuse("the empty symbol and 1", 25, A, [bits({0, 1})])
refuse("a symbol over S", 25, A, [bits({3})])
refuse("1 and a symbol over S", 25, A, [bits({1, 3})])
refuse("no symbol behind 1", 25, A, [ONE, 0])
refuse("the empty symbol behind 1", 25, A, [ONE, bits({0})])
refuse("the last bit behind 1", 25, A, [ONE, bits({63})])
give("one symbol", [0], "1:1", A, [ONE])
give("two symbols", [0], "1:1", A, [EITHER])
give("one symbol, then two", [0], "1:1 1:1", A, [ONE, EITHER])

# 25 comes after 2, after 7, after 8's length limit, and before 9.
refuse("2 before 25", 2, A[:28], [0], 0, 0)
refuse("7 before 25", 7, A, [0], 0, 0, ranking=[1])
refuse("8 before 25", 8, A, [0] * 25, 0, 0)
refuse("25 before 9", 25, A, [0] * 24, 0, 0)
refuse("25 sets", 8, A, [ONE] * 25, 0, 0)
refuse("24 sets, a number of work short", 9, A, [ONE] * 24, 199, 0)
refuse("24 sets, a byte of answer short", 12, A, [ONE] * 24, 200, 47)
give("24 sets, just enough work and answer", [0], "1:1 " * 24, A, [ONE] * 24, 200, 48)

# 10: no word has a candidate; where one of them has, it is answered. 12, and answer slices longer than needed.
refuse("no candidate", 10, A, [TWO])
refuse("no candidate for the first set", 10, A, [TWO, EITHER])
give("one word of four has a candidate", [0], "1:1 1:1", A, [EITHER, EITHER])
refuse("an answer slice of one byte", 12, A, [EITHER], 16, 1)
give("an answer slice of two bytes", [0], "1:1", A, [EITHER], 16, 2)
