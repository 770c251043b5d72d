"""The call with weights: row 26 of the refusal table with its neighbours that pass, its place among the checks, work and answer slices just long
enough and one short, ties, words where a ranking gives the same best and where none does, the largest sums."""
from calls import case, optimize, optimize_weights
from cards import A, B, COUNT_32, COUNT_4, arc, card, chain_best, machine

HEAVIEST = 4_000_000_000

case("no weights", optimize_weights(B, [], [2]).refuses(26))
case("two weights for three machines", optimize_weights(B, [1000] * 2, [2]).refuses(26))
case("four weights for three machines", optimize_weights(B, [1000] * 4, [2]).refuses(26))
case("the heaviest weights", optimize_weights(B, [HEAVIEST] * 3, [2]).gives([0, 0, 1], "2:0", 1, HEAVIEST))
case("the first weight too heavy", optimize_weights(B, [HEAVIEST + 1, 0, 0], [2]).refuses(26))
case("the second weight too heavy", optimize_weights(B, [0, HEAVIEST + 1, 0], [2]).refuses(26))
case("the third weight too heavy", optimize_weights(B, [0, 0, HEAVIEST + 1], [2]).refuses(26))
case("the largest numbers", optimize_weights(B, [2**32 - 1] * 3, [2]).refuses(26))

# 26 comes after 1 to 6 and before 8 and 9; 8 before 9.
WIDE = card(1, machine([1] * 12, []), machine([1] * 11, []))
case("1 before 26", optimize_weights(b"", [HEAVIEST + 1], [3], 0, 0).refuses(1))
case("2 before 26", optimize_weights(A[:28], [HEAVIEST + 1], [3], 0, 0).refuses(2))
case("6 before 26: 132 joint states", optimize_weights(WIDE, [HEAVIEST + 1], [3], 0, 0).refuses(6))
case("26 before 8 and 9", optimize_weights(A, [HEAVIEST + 1], [3], 0, 0).refuses(26))
case("26 before 9", optimize_weights(A, [HEAVIEST + 1], [1], 0, 0).refuses(26))
case("8 before 9: a symbol over S", optimize_weights(A, [HEAVIEST], [3], 0, 0).refuses(8))
case("8 before 9: the empty symbol", optimize_weights(A, [HEAVIEST], [0], 0, 0).refuses(8))
case("9: no work", optimize_weights(A, [HEAVIEST], [1], 0, 0).refuses(9))

# Two numbers of work for each node, and one less.
case("A, empty word, just enough work", optimize_weights(A, [1000], [], 2).gives([0], "", 0, 0))
case("A, empty word, a number of work short", optimize_weights(A, [1000], [], 1).refuses(9))
case("A, just enough work", optimize_weights(A, [1000], [1], 4).gives([0], "1:1", 1, 0))
case("A, a number of work short", optimize_weights(A, [1000], [1], 3).refuses(9))
case("B, just enough work", optimize_weights(B, [1000] * 3, [2], 8).gives([0, 0, 1], "2:0", 1, 1000))
case("B, a number of work short", optimize_weights(B, [1000] * 3, [2], 7).refuses(9))

case("no candidate", optimize_weights(A, [1000], [2], 60, 0).refuses(10))
case("an answer slice just long enough", optimize_weights(B, [1000, 500, 1000], [2], 60, 4).gives([0, 1, 0], "0:1 2:2", 1, 500))
case("an answer slice a byte short", optimize_weights(B, [1000, 500, 1000], [2], 60, 3).refuses(12))
case("an answer slice a byte longer", optimize_weights(B, [1000, 500, 1000], [2], 60, 5).gives([0, 1, 0], "0:1 2:2", 1, 500))

# No weight at all, and all equal: 2:0 and 2:2 have fewer pairs than 0:1 2:2, and 2:0 is the smaller string.
case("no weight at all", optimize_weights(B, [0, 0, 0], [2]).gives([0, 0, 1], "2:0", 1, 0))
case("equal weights", optimize_weights(B, [1000] * 3, [2]).gives([0, 0, 1], "2:0", 1, 1000))
case("equal weights of one", optimize_weights(B, [1, 1, 1], [2]).gives([0, 0, 1], "2:0", 1, 1))

# The sound 1 dropped, kept or weakened to 2: effort has 0, 3 and 1 marks, faithfulness 3, 0 and 1. Equal sums of unequal profiles: the smaller
# string, whichever counts are fewer.
WEAKENING = card(2, machine([1], [arc(0, 0, {1}, {0}), arc(0, 0, {1}, {1}, marks=3), arc(0, 0, {1}, {2}, marks=1)]),
                 machine([1], [arc(0, 0, {1}, {0}, marks=3), arc(0, 0, {1}, {1}), arc(0, 0, {1}, {2}, marks=1)]))
case("a tie of two effort", optimize_weights(WEAKENING, [2000, 1000], [1]).gives([0, 3], "1:0", 1, 3000))
case("a tie of two faithfulness", optimize_weights(WEAKENING, [1000, 2000], [1]).gives([3, 0], "1:1", 1, 3000))
case("effort weighs nothing", optimize_weights(WEAKENING, [0, 1000], [1]).gives([3, 0], "1:1", 1, 0))
case("faithfulness weighs nothing", optimize_weights(WEAKENING, [1000, 0], [1]).gives([0, 3], "1:0", 1, 0))

# Where each weight is more than the sum of those ranked below it, the ranking gives the same.
for weights, ranking, profile, pairs in (([4000, 2000, 1000], [0, 1, 2], [0, 0, 1], "2:0"),
                                         ([4000, 1000, 2000], [0, 2, 1], [0, 1, 0], "0:1 2:2"),
                                         ([1000, 4000, 2000], [1, 2, 0], [1, 0, 0], "2:2")):
    case(f"weights {weights}", optimize_weights(B, weights, [2]).gives(profile, pairs, 1, 1000))
    case(f"ranking {ranking}", optimize(B, ranking, [2], 60).gives(profile, pairs, 1))

# Three marks gang up against one of each: no ranking weakens.
case("equal weights weaken", optimize_weights(WEAKENING, [1000, 1000], [1]).gives([1, 1], "1:2", 1, 2000))
case("effort on top drops", optimize(WEAKENING, [0, 1], [1], 60).gives([0, 3], "1:0", 1))
case("faithfulness on top keeps", optimize(WEAKENING, [1, 0], [1], 60).gives([3, 0], "1:1", 1))

# The largest sum that a card can have: six counts of 48,000 and the heaviest weights.
COUNT_PAIRS = machine([16], [arc(0, 0, {0}, {1, 2, 3}, 15), arc(0, 0, {1, 2, 3}, {0, 1, 2, 3}, 15)])
CHAIN_OF_SIX = card(3, COUNT_32, COUNT_4, *[COUNT_PAIRS] * 4)
WORD = [3] * 24
case("chain", optimize_weights(CHAIN_OF_SIX, [HEAVIEST] * 6, WORD, 6400, 6398).gives([48000] * 6, chain_best(WORD), 24, 1_152_000_000_000_000))
case("chain, a byte of answer short", optimize_weights(CHAIN_OF_SIX, [HEAVIEST] * 6, WORD, 6400, 6397).refuses(12))
case("chain, a number of work short", optimize_weights(CHAIN_OF_SIX, [HEAVIEST] * 6, WORD, 6399, 6398).refuses(9))
case("chain without weight", optimize_weights(CHAIN_OF_SIX, [0] * 6, WORD, 6400, 6398).gives([48000] * 6, chain_best(WORD), 24, 0))
