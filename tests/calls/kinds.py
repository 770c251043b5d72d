"""Arcs for same and different: an arc of each kind on each sort of pair; and a card with an arc for each symbol against one with two arcs by kind, on
every word of at most three symbols, by both engines."""
from itertools import product

from calls import case, cull, evaluate, optimize
from cards import arc, card, machine

SAME, OTHER, INSERTION, DELETION, NO_PAIR = [2, 2], [2, 1], [0, 2], [2, 0], [0, 0]
ANY = {0, 1, 2}


def try_pair(number, kind, pair, inputs=ANY, outputs=ANY):
    """A card of one arc with a mark, on a candidate of one pair."""
    call = evaluate(card(2, machine([1], [arc(0, 0, inputs, outputs, 1, kind)])), pair)
    name = f"kind {kind} on {pair}, {sorted(inputs)} : {sorted(outputs)}"
    case(name, call.refuses(number) if number else call.gives([1], 1, 1 if pair[0] else 0))


for kind, numbers in enumerate(([0, 0, 0, 0, 13], [0, 14, 14, 14, 13], [14, 0, 0, 0, 13], [4, 4, 4, 4, 4])):
    for pair, number in zip((SAME, OTHER, INSERTION, DELETION, NO_PAIR), numbers):
        try_pair(number, kind, pair)

# Kind 1 on sets with no symbol in common takes no pair, and no more does kind 2 on sets of one symbol.
try_pair(14, 1, [1, 2], {1}, {2})
try_pair(14, 1, [0, 2], {0, 1}, {0, 2})
try_pair(14, 2, [1, 1], {1}, {1})

# The first machine counts each 2 behind a 2, the second each pair with in unlike out: by an arc for each symbol kept, one for what else it may
# become, and one for insertions; or by one arc of kind 1 and one of kind 2.
ALL = {0, 1, 2, 3}
TWICE = machine([1, 1], [arc(0, 0, ALL, {0}), arc(0, 0, ALL, {1, 3}), arc(0, 1, ALL, {2}),
                         arc(1, 1, ALL, {0}), arc(1, 0, ALL, {1, 3}), arc(1, 1, ALL, {2}, marks=1)])
BY_SYMBOL = machine([1], [*(arc(0, 0, {symbol}, {symbol}) for symbol in (1, 2, 3)), *(arc(0, 0, {symbol}, ALL - {symbol}, marks=1) for symbol in (1, 2, 3, 0))])
BY_KIND = machine([1], [arc(0, 0, ALL, ALL, kind=1), arc(0, 0, ALL, ALL, marks=1, kind=2)])

# The words that the first machine on top changes. Every other best keeps its word.
CHANGED = {(2, 2): "2:0 2:2", (1, 2, 2): "1:1 2:0 2:2", (2, 2, 1): "2:0 2:2 1:1", (2, 2, 2): "2:2 2:1 2:2", (2, 2, 3): "2:0 2:2 3:3", (3, 2, 2): "3:3 2:0 2:2"}


def try_word(ranking, word, profile, pairs):
    for parts, second in ("by symbol", BY_SYMBOL), ("by kind", BY_KIND):
        for engine in optimize, cull:
            case(f"ranking {ranking}, word {word}, {parts}, {engine.__name__}", engine(card(3, TWICE, second), ranking, word, 64, 20).gives(profile, pairs, len(word)))


for word in (word for length in range(4) for word in product([1, 2, 3], repeat=length)):
    kept = [(symbol, symbol) for symbol in word]
    try_word([0, 1], word, [0, int(word in CHANGED)], CHANGED.get(word, kept))
    try_word([1, 0], word, [list(zip(word, word[1:])).count((2, 2)), 0], kept)
