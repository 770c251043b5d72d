"""Comparing two profiles under a ranking, and the ranking condition of two profiles."""
from itertools import permutations

from calls import case, compare, derive

ZERO, ONES = [0] * 6, [1] * 6


def text(numbers):
    return ",".join(map(str, numbers))


def compared(machines, ranking, first, second, *answer):
    """What comparing answers: an order and the machine that decided, or a refusal's number."""
    call = compare(machines, ranking, first, second)
    case(f"K {machines}, ranking {text(ranking)}, {text(first)} against {text(second)}",
         call.refuses(*answer) if isinstance(answer[0], int) else call.gives(*answer))


def derived(machines, first, second, *answer):
    """What deriving answers: W and L, or a refusal's number."""
    call = derive(machines, first, second)
    case(f"K {machines}, the condition of {text(first)} against {text(second)}", call.refuses(*answer) if len(answer) == 1 else call.gives(*answer))


# Refusals 1 and 7, in that order, and the rankings beside them that pass.
for machines, ranking, answer in [
    (0, [], 1), (0, [0, 1, 1], 1), (1, [0], "equal"), (6, [0, 1, 2, 3, 4, 5], "equal"), (7, [0, 1, 2, 3, 4, 5, 6], 1), (7, [0, 1, 1], 1), (255, [0], 1),
    (3, [], 7), (3, [0], 7), (3, [0, 1], 7), (3, [0, 1, 1], 7), (3, [0, 0, 0], 7), (3, [0, 1, 3], 7), (3, [0, 1, 2, 3], 7), (3, [0, 1, 255], 7),
    *((3, ranking, "equal") for ranking in permutations(range(3))),
    (1, [], 7), (1, [1], 7), (2, [0, 1], "equal"), (2, [1, 0], "equal"), (2, [1, 1], 7), (4, [3, 1, 2, 0], "equal"), (4, [3, 1, 2, 3], 7),
    (5, [4, 0, 3, 1, 2], "equal"), (5, [4, 0, 3, 1, 1], 7), (6, [0, 1, 2, 3, 4], 7), (6, [0, 1, 2, 3, 4, 4], 7), (6, [0, 1, 2, 3, 4, 6], 7),
    (6, [0, 1, 2, 3, 4, 5, 0], 7), (6, [5, 4, 3, 2, 1, 0], "equal"),
]:
    compared(machines, ranking, ZERO, ZERO, answer)
for machines, *answer in (0, 1), (1, 0, 0), (6, 0, 0), (7, 1), (255, 1):
    derived(machines, ZERO, ZERO, *answer)

# The highest ranked machine where the two differ decides: not the card order, not the sum. Counts in full, up to the largest.
for ranking, answer in zip(permutations(range(3)), [("worse", 0), ("worse", 0), ("better", 1), ("better", 1), ("worse", 2), ("worse", 2)]):
    compared(3, ranking, [1, 0, 2], [0, 2, 1], *answer)
for row in [
    ([0, 1, 2], [0, 0, 1], [0, 1, 0], "better", 1), ([0, 2, 1], [0, 0, 1], [0, 1, 0], "worse", 2),
    ([0, 1, 2], [5, 0, 0], [0, 9, 9], "worse", 0), ([2, 1, 0], [5, 0, 0], [0, 9, 9], "better", 2),
    ([0, 1, 2], [0, 9, 9], [5, 0, 0], "better", 0), ([2, 0, 1], [3, 4, 5], [3, 4, 5], "equal"),
    ([0, 1, 2], [255, 0, 0], [256, 0, 0], "better", 0), ([0, 1, 2], [256, 0, 0], [255, 0, 0], "worse", 0),
    ([0, 1, 2], [65534, 0, 0], [65535, 0, 0], "better", 0), ([0, 1, 2], [65535, 0, 0], [65534, 0, 0], "worse", 0),
    ([0, 1, 2], [65535, 0, 0], [65535, 0, 0], "equal"), ([0, 1, 2], [0, 0, 0], [65535, 0, 0], "better", 0),
    ([1, 0, 2], [0, 256, 0], [1, 0, 0], "worse", 1),
]:
    compared(3, *row)


def profile(ranking, counts, behind):
    """The counts of three machines in the ranking's order, and another in the places behind them."""
    return [counts[ranking.index(machine)] for machine in range(3)] + [behind] * 3


# Profiles that part at each place of the ranking, alike above it and the other way below it: the machine that decided is told by its number in the card.
# And profiles alike in all three. The places behind the three differ.
for ranking in permutations(range(3)):
    for place, counts, others in [(0, [1, 9, 9], [2, 0, 0]), (1, [5, 1, 9], [5, 2, 0]), (2, [5, 5, 1], [5, 5, 2])]:
        fewer, more = profile(ranking, counts, 8), profile(ranking, others, 7)
        compared(3, ranking, fewer, more, "better", ranking[place])
        compared(3, ranking, more, fewer, "worse", ranking[place])
    compared(3, ranking, [5, 5, 5, 8, 8, 8], [5, 5, 5, 7, 7, 7], "equal")
    compared(3, ranking, [5, 5, 5, 7, 7, 7], [5, 5, 5, 8, 8, 8], "equal")

# Every machine count: the machine ranked last decides, and the place after it is ignored.
for last in range(6):
    compared(last + 1, range(last + 1), [0] * last + [1], [0] * last + [2], "better", last)
    compared(last + 1, range(last + 1), [0] * last + [2], [0] * last + [1], "worse", last)
for machines in range(1, 6):
    compared(machines, range(machines), [0] * machines + [7], ZERO, "equal")

# Conditions: example 8 and its neighbours, and every machine of every machine count.
derived(3, [0, 0, 1], [0, 1, 0], 2, 4)
derived(3, [0, 1, 0], [0, 0, 1], 4, 2)
derived(2, [0, 0, 1], [0, 1, 0], 2, 0)
derived(3, [2, 2, 2], [2, 2, 2], 0, 0)
derived(3, [1, 9, 9], [9, 1, 0], 1, 6)
derived(3, [65535, 255, 0], [65534, 256, 0], 2, 1)
for machines, every in (1, 1), (2, 3), (3, 7), (4, 15), (5, 31), (6, 63):
    derived(machines, ZERO, ONES, every, 0)
    derived(machines, ONES, ZERO, 0, every)
