"""The optimizer's call: rows 7 to 10 and 12 of the refusal table with their neighbours that pass, the empty word, the examples, endings, the most pairs."""
from calls import case, optimize
from cards import A, A_INSERTS, B, B_ENDING, CHAIN, arc, card, chain_best, machine

# Refusals of the card come first.
case("no card", optimize(b"", [], [], 0, 0).refuses(1))
case("A, a byte short", optimize(A[:28], [], [], 0, 0).refuses(2))

case("no ranking", optimize(B, [], [2]).refuses(7))
case("ranking of two machines for three", optimize(B, [0, 1], [2]).refuses(7))
case("ranking with a machine twice", optimize(B, [0, 1, 1], [2]).refuses(7))
case("ranking with a machine that is not there", optimize(B, [0, 1, 3], [2]).refuses(7))
case("ranking of four, and a wrong word and no work after it", optimize(B, [0, 1, 2, 2], [3], 0, 0).refuses(7))

case("empty word, slices with room", optimize(A, [0], []).gives([0], "", 0))
case("the empty symbol in a word", optimize(A, [0], [0]).refuses(8))
case("a symbol over S", optimize(A, [0], [3]).refuses(8))
case("a second symbol over S, and no work after it", optimize(A, [0], [1, 3], 0).refuses(8))
case("24 symbols", optimize(A, [0], [1] * 24).gives([0], "1:1 " * 24, 24))
case("25 symbols", optimize(A, [0], [1] * 25).refuses(8))

case("A, a number of work short", optimize(A, [0], [1], 15).refuses(9))
case("A, just enough work", optimize(A, [0], [1], 16).gives([0], "1:1", 1))
case("B, a number of work short", optimize(B, [0, 2, 1], [2], 31).refuses(9))
case("B, just enough work", optimize(B, [0, 2, 1], [2], 32).gives([0, 1], "0:1 2:2", 1))
case("too little work comes before no candidate", optimize(A, [0], [2], 15, 0).refuses(9))

case("no candidate, and no answer slice", optimize(A, [0], [2], 400, 0).refuses(10))
case("A, an answer slice of one byte", optimize(A, [0], [1], 400, 1).refuses(12))
case("A, an answer slice of two bytes", optimize(A, [0], [1], 400, 2).gives([0], "1:1", 1))
case("B, an answer slice of three bytes", optimize(B, [0, 2, 1], [2], 400, 3).refuses(12))
case("B, an answer slice of four bytes", optimize(B, [0, 2, 1], [2], 400, 4).gives([0, 1], "0:1 2:2", 1))

# The empty word: no pairs, insertions alone, no candidate; 8 numbers of work for each joint state and one less; answer slices with and without room.
# An affix without sounds: from the start, which is not final, to the end by 0:1 with 3 marks or 0:2 with 1. And one of the sound 1, with no insertions.
AFFIX = card(2, machine([0, 1], [arc(0, 1, {0}, {1}, marks=3), arc(0, 1, {0}, {2}, marks=1)]))
AFFIX_OF_ONE = card(2, machine([0, 1], [arc(0, 1, {1}, {1}, marks=3), arc(0, 1, {1}, {2}, marks=1)]))
case("A, empty word, just enough work", optimize(A, [0], [], 8, 0).gives([0], "", 0))
case("A, empty word, a number of work short", optimize(A, [0], [], 7, 0).refuses(9))
case("B, empty word, just enough work", optimize(B, [0, 1, 2], [], 16, 0).gives([0], "", 0))
case("B, empty word, a number of work short", optimize(B, [0, 1, 2], [], 15, 0).refuses(9))
case("affix", optimize(AFFIX, [0], [], 16).gives([1], "0:2", 0))
case("affix, an answer slice of two bytes", optimize(AFFIX, [0], [], 16, 2).gives([1], "0:2", 0))
case("affix, an answer slice of one byte", optimize(AFFIX, [0], [], 16, 1).refuses(12))
case("affix, no answer slice", optimize(AFFIX, [0], [], 16, 0).refuses(12))
case("affix, a number of work short", optimize(AFFIX, [0], [], 15, 0).refuses(9))
case("affix of one", optimize(AFFIX_OF_ONE, [0], [1], 32, 2).gives([1], "1:2", 1))
case("affix of one, empty word", optimize(AFFIX_OF_ONE, [0], [], 16, 0).refuses(10))
case("affix of one, empty word, a number of work short", optimize(AFFIX_OF_ONE, [0], [], 15, 0).refuses(9))

case("example 1", optimize(A, [0], [1]).gives([0], "1:1", 1))
case("example 2", optimize(A, [0], [2]).refuses(10))
case("example 3", optimize(B, [0, 1, 2], [2]).gives([0, 0, 1], "2:0", 1))
case("example 4", optimize(B, [0, 2, 1], [2]).gives([0, 1, 0], "0:1 2:2", 1))
case("example 5", optimize(B, [1, 2, 0], [2]).gives([1, 0, 0], "2:2", 1))
case("example 6", optimize(A_INSERTS, [0], [1]).gives([0], "1:1", 1))

# The best deletes, or inserts behind the last symbol, to avoid an ending's mark, or takes it.
case("an ending avoided by a deletion", optimize(B_ENDING, [0, 1, 2], [1]).gives([0, 0, 1], "1:0", 1))
case("an ending avoided by an insertion", optimize(B_ENDING, [2, 0, 1], [1]).gives([0, 1, 0], "1:1 0:2", 1))
case("an ending with its mark", optimize(B_ENDING, [2, 1, 0], [1]).gives([1, 0, 0], "1:1", 1))


def with_ending(byte):
    """1:1 and 1:2 lead at no cost from the start, which is not final, to a state each; the state byte is that of the first one."""
    return card(2, machine([0, byte, 1], [arc(0, 1, {1}, {1}), arc(0, 2, {1}, {2})]))


case("both end without marks", optimize(with_ending(1), [0], [1]).gives([0], "1:1", 1))
case("the first ends with a mark", optimize(with_ending(2), [0], [1]).gives([0], "1:2", 1))
case("the first does not end", optimize(with_ending(0), [0], [1]).gives([0], "1:2", 1))
case("the first ends with 15 marks", optimize(with_ending(16), [0], [1]).gives([0], "1:2", 1))
case("state byte 17", optimize(with_ending(17), [0], [1]).refuses(4))

# The most pairs that a best candidate has, and the largest counts: every node is passed.
case("chain", optimize(CHAIN, [0, 1], [3] * 24, 25600, 6398).gives([48000, 48000], chain_best([3] * 24), 24))
case("chain, a byte of answer short", optimize(CHAIN, [0, 1], [3] * 24, 25600, 6397).refuses(12))
