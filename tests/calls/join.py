"""Joining two machines of a card: the new card byte by byte, and words and candidates on a card and its join. The expected cards are written out arc by
arc."""
from calls import as_bytes, case, evaluate, join, optimize
from cards import DELETION, INSERTION, ONSET, arc, card, changed, machine

ALL = {0, 1, 2}

# Between two vowels there is a consonant. It has no marks, so each of card B's machines may be joined with it.
NO_HIATUS = machine([1, 1], [arc(0, 0, ALL, {0, 1}), arc(0, 1, ALL, {2}), arc(1, 1, ALL, {0}), arc(1, 0, ALL, {1})])
FOUR = card(2, ONSET, INSERTION, DELETION, NO_HIATUS)
SECOND = card(2, ONSET, NO_HIATUS, INSERTION, DELETION)

# It joined behind another machine, and before one.
ONSET_JOINED = machine([1, 1, 1, 1], [
    arc(0, 0, ALL, {0}), arc(1, 1, ALL, {0}), arc(0, 2, ALL, {1}), arc(1, 2, ALL, {1}), arc(0, 1, ALL, {2}, marks=1),
    arc(2, 2, ALL, {0}), arc(3, 3, ALL, {0}), arc(2, 2, ALL, {1}), arc(3, 2, ALL, {1}), arc(2, 1, ALL, {2})])
INSERTION_JOINED = machine([1, 1], [
    arc(0, 0, {1, 2}, {0, 1}), arc(0, 1, {1, 2}, {2}), arc(1, 1, {1, 2}, {0}), arc(1, 0, {1, 2}, {1}),
    arc(0, 0, {0}, {1}, marks=1), arc(0, 1, {0}, {2}, marks=1), arc(1, 0, {0}, {1}, marks=1)])
DELETION_JOINED = machine([1, 1], [
    arc(0, 0, {1}, {1}), arc(1, 0, {1}, {1}), arc(0, 1, {2}, {2}), arc(0, 0, {0}, {1}), arc(0, 1, {0}, {2}), arc(1, 0, {0}, {1}),
    arc(0, 0, {1, 2}, {0}, marks=1), arc(1, 1, {1, 2}, {0}, marks=1)])
JOINED_INSERTION = machine([1, 1], [
    arc(0, 0, {1, 2}, {0, 1}), arc(0, 0, {0}, {1}, marks=1), arc(0, 1, {1, 2}, {2}), arc(0, 1, {0}, {2}, marks=1),
    arc(1, 1, {1, 2}, {0}), arc(1, 0, {1, 2}, {1}), arc(1, 0, {0}, {1}, marks=1)])
WITH_ONSET = card(2, ONSET_JOINED, INSERTION, DELETION)
WITH_INSERTION = card(2, ONSET, JOINED_INSERTION, DELETION)

# The two numbers in either order; targets that are longer, exact, one short and empty; other machines; the machines behind move down.
case("machines 0 and 3", join(FOUR, 0, 3, 400).gives(WITH_ONSET))
case("machines 3 and 0", join(FOUR, 3, 0, 400).gives(WITH_ONSET))
case("an exact target", join(FOUR, 0, 3, 346).gives(WITH_ONSET))
case("a target one short", join(FOUR, 0, 3, 345).refuses(18))
case("an empty target", join(FOUR, 0, 3, 0).refuses(18))
case("machines 1 and 3", join(FOUR, 1, 3, 400).gives(card(2, ONSET, INSERTION_JOINED, DELETION)))
case("machines 3 and 2", join(FOUR, 3, 2, 400).gives(card(2, ONSET, INSERTION, DELETION_JOINED)))
case("machines 2 and 1, one moves down", join(SECOND, 2, 1, 400).gives(WITH_INSERTION))
case("machines 0 and 1, two move down", join(SECOND, 0, 1, 400).gives(WITH_ONSET))


def states(*counts):
    """A card of machines without arcs."""
    return card(2, *(machine([1] * count, []) for count in counts))


def arcs(first, second):
    """A card of two machines of so many arcs, of which each two take a common pair."""
    every = range(1, 19)
    return card(18, machine([1], [arc(0, 0, {one}, every) for one in every[:first]]), machine([1], [arc(0, 0, every, {one}) for one in every[:second]]))


# Refusal 27: one machine twice, a number not below K, two machines with marks; marks of an arc that is never reached, and for ending, are marks too.
for first, second in (3, 3), (3, 4), (255, 3), (0, 1), (1, 2):
    case(f"not to be joined: machines {first} and {second}", join(FOUR, first, second, 400).refuses(27))
UNREACHED = machine([1, 1], [arc(0, 0, ALL, {0, 1}), arc(0, 0, ALL, {2}), arc(1, 1, ALL, {0}, marks=1), arc(1, 0, ALL, {1})])
case("a mark that is never reached", join(card(2, ONSET, INSERTION, DELETION, UNREACHED), 0, 3, 400).refuses(27))
ENDING = changed(NO_HIATUS, (2, 2))  # its first state byte
case("a mark for ending", join(card(2, ONSET, INSERTION, DELETION, ENDING), 0, 3, 400).refuses(27))

# Refusal 28, and the order of the checks: the card, 27, 28, the target.
case("3 and 11 states", join(states(3, 11), 0, 1, 400).refuses(28))
case("4 and 8 states", join(states(4, 8), 0, 1, 400).gives(states(32)))
case("4 and 8 states, a target one short", join(states(4, 8), 0, 1, 39).refuses(18))
ARCS_255 = card(18, machine([1], [arc(0, 0, {symbol}, {output}) for symbol in range(1, 16) for output in range(1, 18)]))
case("15 and 17 arcs", join(arcs(15, 17), 0, 1, 5200).gives(ARCS_255))
case("15 and 17 arcs, an exact target", join(arcs(15, 17), 0, 1, 5109).gives(ARCS_255))
case("15 and 17 arcs, a target one short", join(arcs(15, 17), 0, 1, 5108).refuses(18))
case("16 and 16 arcs", join(arcs(16, 16), 0, 1, 5200).refuses(28))
case("no symbols, one machine twice, no target", join(changed(FOUR, (1, 0)), 3, 3, 0).refuses(1))
case("one machine twice, too many states, no target", join(states(3, 11), 0, 0, 0).refuses(27))
case("too many states, no target", join(states(3, 11), 0, 1, 0).refuses(28))


def joined_arcs(name, first, second, *expected):
    """Two machines of one state, and of one arc each."""
    case(name, join(card(2, machine([1], [first]), machine([1], [second])), 0, 1, 400).gives(card(2, machine([1], expected))))


# Kinds: that of both, or the one that is not 0; 1 and 2 take no common pair. Then sets with only 1:1 in common, which kind 2 does not take.
for first, second, kinds in [(0, 0, [0]), (0, 1, [1]), (0, 2, [2]), (1, 0, [1]), (1, 1, [1]), (1, 2, []), (2, 0, [2]), (2, 1, []), (2, 2, [2])]:
    joined_arcs(f"kinds {first} and {second}", arc(0, 0, ALL, ALL, marks=3, kind=first), arc(0, 0, ALL, ALL, kind=second),
                *[arc(0, 0, ALL, ALL, marks=3, kind=kind) for kind in kinds])
for first, second, kinds in [(0, 0, [0]), (0, 1, [1]), (2, 0, [])]:
    joined_arcs(f"kinds {first} and {second}, 1:1 in common", arc(0, 0, {0, 1}, {1}, marks=3, kind=first), arc(0, 0, {1, 2}, ALL, kind=second),
                *[arc(0, 0, {1}, {1}, marks=3, kind=kind) for kind in kinds])
joined_arcs("only 0:0 in common", arc(0, 0, {0, 1}, {0}), arc(0, 0, {0}, {0, 1}))

# Ending in a consonant costs two marks; and a word ends in none but a consonant.
TWO_MARKS = machine([1, 3], [arc(0, 0, ALL, {0, 2}), arc(0, 1, ALL, {1}), arc(1, 1, ALL, {0, 1}), arc(1, 0, ALL, {2})])
CONSONANT = machine([1, 0], [arc(0, 1, ALL, {2}), arc(0, 0, ALL, {0, 1}), arc(1, 1, ALL, {0, 2}), arc(1, 0, ALL, {1})])
case("ending marks", join(card(2, TWO_MARKS, CONSONANT), 0, 1, 400).gives(card(2, machine([1, 0, 3, 0], [
    arc(0, 1, ALL, {2}), arc(0, 0, ALL, {0}), arc(1, 1, ALL, {0, 2}), arc(0, 2, ALL, {1}), arc(1, 2, ALL, {1}),
    arc(2, 2, ALL, {0, 1}), arc(3, 3, ALL, {0}), arc(3, 2, ALL, {1}), arc(2, 1, ALL, {2}), arc(3, 1, ALL, {2})]))))


def digits(text):
    return [int(digit) for digit in text]


def counts(profile, unmarked):
    """The counts on a joined card; or those on the old one, where the machine without marks has its own count, 0."""
    return profile if unmarked is None else profile[:unmarked] + [0] + profile[unmarked:]


def answered(name, sample, rankings, words, unmarked=None):
    """Words on a card, each with its counts and pairs under the rankings."""
    for word, *answers in words:
        for ranking, answer in zip(rankings, answers):
            profile, _, pairs = answer.partition(" ")
            case(f"{name}, ranking {ranking}, word {word or 'of none'}",
                 optimize(sample, digits(ranking), digits(word), 128, 20).gives(counts(digits(profile), unmarked), pairs, len(word)))


# Every word of at most three symbols on a card and its join. Where machines move down, a ranking names them by their new numbers.
WORDS = [
    ("", "000", "000", "000"),
    ("1", "000 1:1", "000 1:1", "000 1:1"),
    ("2", "001 2:0", "010 0:1 2:2", "100 2:2"),
    ("11", "000 1:1 1:1", "000 1:1 1:1", "000 1:1 1:1"),
    ("12", "000 1:1 2:2", "000 1:1 2:2", "000 1:1 2:2"),
    ("21", "001 2:0 1:1", "010 0:1 2:2 1:1", "100 2:2 1:1"),
    ("22", "002 2:0 2:0", "020 0:1 2:2 0:1 2:2", "101 2:0 2:2"),
    ("111", "000 1:1 1:1 1:1", "000 1:1 1:1 1:1", "000 1:1 1:1 1:1"),
    ("112", "000 1:1 1:1 2:2", "000 1:1 1:1 2:2", "000 1:1 1:1 2:2"),
    ("121", "000 1:1 2:2 1:1", "000 1:1 2:2 1:1", "000 1:1 2:2 1:1"),
    ("122", "001 1:1 2:0 2:2", "010 1:1 2:2 0:1 2:2", "001 1:1 2:0 2:2"),
    ("211", "001 2:0 1:1 1:1", "010 0:1 2:2 1:1 1:1", "100 2:2 1:1 1:1"),
    ("212", "001 2:0 1:1 2:2", "010 0:1 2:2 1:1 2:2", "100 2:2 1:1 2:2"),
    ("221", "002 2:0 2:0 1:1", "020 0:1 2:2 0:1 2:2 1:1", "101 2:0 2:2 1:1"),
    ("222", "003 2:0 2:0 2:0", "030 0:1 2:2 0:1 2:2 0:1 2:2", "102 2:0 2:0 2:2"),
]
answered("four machines", FOUR, ["3012", "0231", "1203"], WORDS, unmarked=3)
answered("0 and 3 joined", WITH_ONSET, ["012", "021", "120"], WORDS)
WORDS = [("2", "001 2:0", "010 0:1 2:2", "100 2:2"), ("22", "002 2:0 2:0", "020 0:1 2:2 0:1 2:2", "110 2:2 0:1 2:2")]
answered("no hiatus second", SECOND, ["1023", "0312", "3201"], WORDS, unmarked=1)
answered("1 and 2 joined", WITH_INSERTION, ["012", "021", "210"], WORDS)
answered("0 and 1 joined", WITH_ONSET, ["012", "021", "210"], WORDS)

# Candidates on a card and its join.
for name, sample, unmarked in [("no hiatus second", SECOND, 1), ("1 and 2 joined", WITH_INSERTION, None)]:
    case(f"{name}, candidate 0:1 2:0", evaluate(sample, as_bytes("0:1 2:0")).gives(counts([0, 1, 1], unmarked), 2, 1))
    case(f"{name}, candidate 2:2 0:1 2:2", evaluate(sample, as_bytes("2:2 0:1 2:2")).gives(counts([1, 1, 0], unmarked), 3, 2))
    case(f"{name}, candidate 2:2 2:2", evaluate(sample, as_bytes("2:2 2:2")).refuses(14))
    case(f"{name}, candidate 0:0", evaluate(sample, as_bytes("0:0")).refuses(13))
