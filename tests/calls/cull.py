"""The cull's call, and the optimizer's on the same input: refusals, the examples, endings, short words, and the worst accepted cards."""
from itertools import permutations, product
from pathlib import Path

from calls import case, cull, optimize, same
from cards import A, A_INSERTS, B, B_ENDING, arc, card, chain_best, changed, machine


def refuse(name, number, *call):
    case(name, cull(*call).refuses(number))
    case(f"{name}, by optimize", optimize(*call).refuses(number))


def give(name, profile, pairs, card, ranking, word, *slices):
    for by, engine in ("", cull), (", by optimize", optimize):
        case(name + by, engine(card, ranking, word, *slices).gives(profile, pairs, len(word)))


# The checks of the card. What comes after them is wrong too where the card is none or short: no ranking, and too little work.
refuse("no card", 1, b"", [], [], 7, 1)
refuse("A, a byte short", 2, A[:28], [], [], 7, 1)
refuse("A with no states", 3, changed(A, (6, 0)), [0], [1])
refuse("A with 16 marks", 4, changed(A, (11, 16)), [0], [1])
refuse("A with its arc twice", 5, card(2, machine([1], [arc(0, 0, {1}, {1, 2})] * 2)), [0], [1])
refuse("160 joint states", 6, card(2, machine([0] * 5, []), machine([0] * 32, [])), [0, 1], [1])

refuse("ranking with a machine twice", 7, B, [0, 1, 1], [2])
refuse("a symbol over S", 8, A, [0], [3])
refuse("a number of work short", 9, B, [0, 2, 1], [2], 31)
refuse("no candidate, an answer slice of one byte", 10, A, [0], [2], 16, 1)
refuse("an answer slice of three bytes for two pairs", 12, B, [0, 2, 1], [2], 32, 3)
give("an answer slice of four bytes for two pairs", [0, 1, 0], "0:1 2:2", B, [0, 2, 1], [2], 32, 4)

give("example 1", [0], "1:1", A, [0], [1])
refuse("example 2", 10, A, [0], [2])
give("example 3", [0, 0, 1], "2:0", B, [0, 1, 2], [2])
give("example 4", [0, 1, 0], "0:1 2:2", B, [0, 2, 1], [2])
give("example 5", [1, 0, 0], "2:2", B, [1, 2, 0], [2])
give("example 6", [0], "1:1", A_INSERTS, [0], [1])
give("free insertions, empty word", [0], "", A_INSERTS, [0], [])

# An ending's marks drop it, or do not.
give("an ending avoided by a deletion", [0, 0, 1], "1:0", B_ENDING, [0, 1, 2], [1])
give("an ending avoided by an insertion", [0, 1, 0], "1:1 0:2", B_ENDING, [2, 0, 1], [1])
give("an ending with its mark", [1, 0, 0], "1:1", B_ENDING, [2, 1, 0], [1])

# Card A's machine twice, and one with a mark for 1:1 and none for 1:2, which decides wherever it is ranked.
EITHER = machine([1], [arc(0, 0, {1}, {1, 2})])
LAST = card(2, EITHER, EITHER, machine([1], [arc(0, 0, {1}, {1}, marks=1), arc(0, 0, {1}, {2})]))
for ranking in [0, 1, 2], [0, 2, 1], [2, 0, 1]:
    give(f"the third machine decides, ranking {ranking}", [0], "1:2 1:2", LAST, ranking, [1, 1])

# Every word of at most three symbols, each 1 or 2.
for word in (word for length in range(4) for word in product([1, 2], repeat=length)):
    for ranking in permutations(range(3)):
        same(f"B, ranking {ranking}, word {word}", cull(B, ranking, word), optimize(B, ranking, word))
    same(f"free insertions, word {word}", cull(A_INSERTS, [0], word), optimize(A_INSERTS, [0], word))

# The worst accepted cards, with slices that are enough for every card and word.
FEW, MANY = [1, 2, 3] * 8, [63, 58, 53, 48, 43, 38, 33, 28, 23, 18, 13, 8, 3, 61, 56, 51, 46, 41, 36, 31, 26, 21, 16, 11]
MOST = 25600, 6398


def worst(name):
    """The card of a case of the board's; reference/README.md says what it is."""
    return Path(__file__).parent.parent.joinpath("data", name, "card.bin").read_bytes()


for word in [3] * 24, FEW:
    give(f"chain, word {word}", [47985] * 2, chain_best(word), worst("chain"), [0, 1], word, *MOST)
for word in [63] * 24, MANY:
    best = chain_best(word, "0:10", 31, "0:37", 10)
    give(f"chain_full, word {word}", [47985] * 6, best, worst("chain_full"), range(6), word, *MOST)
    best = chain_best(word, "0:31", 31, "0:32")
    give(f"shortcuts, no leaps, word {word}", [0, 0, 47625], best, worst("shortcuts"), [0, 1, 2], word, *MOST)
    best = chain_best(word, "0:4 0:7", 1, "0:32")
    give(f"shortcuts, leaps, word {word}", [3000, 0, 4125], best, worst("shortcuts"), [2, 1, 0], word, *MOST)
give("full, one symbol", [6, 222, 0, 14, 120, 144], "0:32 " + "63:18 " * 22 + "63:10 63:18 0:38", worst("full"), [2, 0, 4, 1, 5, 3], [63] * 24, *MOST)
give("full, many symbols", [52, 170, 0, 257, 198, 210], "0:32 63:18 58:55 0:7 53:57 48:57 43:23 38:57 33:5 28:4 23:11 18:52 0:35 13:26 8:55 0:7 "
     "3:57 0:35 61:46 56:26 51:46 46:46 41:44 36:46 31:44 26:26 21:18 16:16 0:7 0:56 11:44 0:38", worst("full"), [2, 0, 4, 1, 5, 3], MANY, *MOST)
