"""Finding the smallest ranking that fits a list of ranking conditions. A condition is (W, L): bit i for machine i."""
from itertools import permutations

from calls import case, find


def found(group, machines, conditions, answer):
    """What the finder answers: a ranking's digits, or a refusal's number."""
    call = find(machines, [side for condition in conditions for side in condition])
    case(f"{group}: K {machines}" + "".join(f" W {w} L {l}" for w, l in conditions),
         call.refuses(answer) if isinstance(answer, int) else call.gives([int(digit) for digit in answer]))


for group, rows in {
    "examples 9 and 10": [(3, [], "012"), (3, [(4, 1)], "120")],
    "machine counts, checked first": [
        (0, [], 1), (1, [], "0"), (2, [], "01"), (3, [], "012"), (4, [], "0123"), (5, [], "01234"), (6, [], "012345"), (7, [], 1), (255, [], 1),
        (0, [(1, 1)], 1), (7, [(1, 1)], 1), (7, [(1, 2), (2, 1)], 1),
    ],
    "whether W and L meet": [
        (3, [(1, 1)], 15), (3, [(1, 0)], "012"), (3, [(1, 2)], "012"), (3, [(2, 1)], "102"), (3, [(3, 1)], 15), (3, [(2, 6)], 15), (3, [(7, 7)], 15),
        (3, [(3, 4)], "012"), (6, [(32, 32)], 15), (6, [(31, 32)], "012345"),
        (3, [(4, 1), (2, 2)], 15), (3, [(4, 1), (2, 1)], "120"), (3, [(1, 2), (2, 1), (1, 1)], 15),
    ],
    "bits K and above": [
        (1, [(1, 0)], "0"), (1, [(2, 0)], 15), (1, [(0, 2)], 15), (2, [(2, 1)], "10"), (2, [(4, 1)], 15), (3, [(4, 2)], "021"), (3, [(8, 0)], 15),
        (3, [(0, 8)], 15), (4, [(8, 1)], "1230"), (4, [(16, 1)], 15), (5, [(16, 1)], "12340"), (5, [(32, 1)], 15), (6, [(32, 1)], "123450"),
        (6, [(64, 1)], 15), (6, [(128, 1)], 15), (6, [(1, 64)], 15),
    ],
    "whether a ranking fits": [
        (2, [(1, 2), (2, 1)], 16), (2, [(1, 2)], "01"), (2, [(2, 1)], "10"), (2, [(1, 2), (1, 2)], "01"), (1, [(0, 1)], 16), (3, [(0, 1)], 16),
        (3, [(0, 0)], "012"), (3, [(0, 7)], 16), (3, [(7, 0)], "012"), (6, [(0, 32)], 16), (3, [(1, 2), (2, 4), (4, 1)], 16),
        (3, [(1, 2), (2, 4)], "012"), (3, [(3, 4), (4, 1), (4, 2)], 16), (3, [(3, 4), (4, 1)], "120"),
    ],
    "the smallest of several": [
        (3, [(6, 1)], "102"), (3, [(4, 3)], "201"), (3, [(1, 6)], "012"), (3, [(6, 1), (4, 2)], "201"), (3, [(2, 1), (4, 1)], "120"),
        (4, [(8, 1), (2, 8)], "1230"), (4, [(8, 6)], "0312"), (4, [(10, 5)], "1023"), (5, [(16, 3), (8, 16)], "23401"), (6, [(32, 31)], "501234"),
        (6, [(62, 1)], "102345"), (6, [(36, 3), (8, 4), (1, 8)], "450132"), (6, [(2, 1), (8, 4), (32, 16)], "103254"),
    ],
    "a chain from 5 down": [(6, [(32, 16), (16, 8), (8, 4), (4, 2), (2, 1)], "543210")],
    "a ring": [(6, [(1, 2), (2, 4), (4, 8), (8, 16), (16, 32), (32, 1)], 16)],
}.items():
    for row in rows:
        found(group, *row)

# Each ranking of four machines is the only one that fits its three conditions.
for ranking in permutations(range(4)):
    found("the only ranking", 4, [(1 << higher, 1 << lower) for higher, lower in zip(ranking, ranking[1:])], "".join(map(str, ranking)))

# Lists of odd length and long ones, of empty conditions but where the name says else.
case("one byte", find(3, [4]).refuses(15))
case("three bytes", find(3, [4, 1, 2]).refuses(15))
case("64 conditions", find(3, bytes(128)).gives([0, 1, 2]))
case("64 conditions, the last W 4 L 1", find(3, bytes(126) + bytes([4, 1])).gives([1, 2, 0]))
case("64 conditions, the last W 1 L 1", find(3, bytes(126) + bytes([1, 1])).refuses(15))
case("65 conditions", find(3, bytes(130)).refuses(15))
case("64 conditions and a byte", find(3, bytes(129)).refuses(15))
case("63 conditions and a byte", find(3, bytes(127)).refuses(15))
case("65 conditions for seven machines", find(7, bytes(130)).refuses(1))
