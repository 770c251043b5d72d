"""The check of a card, reading a part, and packing. What the check says of a card is seen by reading its machine 0, which answers the check's refusal, or
where the first part is."""
from calls import case, pack, read_part
from cards import A, B, arc, card, changed, machine

ALL = {0, 1, 2}


def checked(name, sample, number, place=(6, 23)):
    """A card's refusal; where that is 0 it is accepted, and its first part is at the place."""
    call = read_part(sample, 0)
    case(name, call.refuses(number) if number else call.gives(*place))


def read(name, sample, answer):
    """Machines 0 to 3 and 255: their places, and 17 from K on; or the card's refusal for each."""
    for number in 0, 1, 2, 3, 255:
        call = read_part(sample, number)
        if isinstance(answer, int):
            expected = call.refuses(answer)
        else:
            expected = call.gives(*answer[number]) if number < len(answer) else call.refuses(17)
        case(f"{name}, machine {number}", expected)


def packed(name, symbols, lengths, parts, target, answer):
    """What packing gives: a card, or a refusal's number."""
    call = pack(symbols, lengths, parts, target)
    case(name, call.refuses(answer) if isinstance(answer, int) else call.gives(answer))


# The cards of the document: reading, packing into targets that are longer, exact and one short, and the front of the card, of every length.
for name, sample, places, targets in [("A", A, [(6, 23)], (34, 29, 28)), ("B", B, [(14, 124), (138, 43), (181, 83)], (270, 264, 263))]:
    read(name, sample, places)
    for target, answer in zip(targets, (sample, sample, 18)):
        packed(f"{name} into {target} bytes", 2, [length for _, length in places], sample[places[0][0]:], target, answer)
    for length in range(len(sample) + 1):
        checked(f"the first {length} bytes of {name}", sample[:length], 1 if length < 2 else 2 if length < len(sample) else 0, places[0])

# A with another byte: refusals 1 to 4, and neighbours that pass.
for field, at, numbers in [
    ("machines", 0, {0: 1, 2: 2, 7: 1}), ("symbols", 1, {0: 1, 1: 4, 63: 0, 64: 1}), ("offset", 2, {5: 2, 7: 2}), ("length", 4, {22: 2, 24: 2}),
    ("states", 6, {0: 3, 2: 3}), ("arcs", 7, {0: 3, 2: 3}), ("state byte", 8, {0: 0, 16: 0, 17: 4}),
    ("state left", 9, {1: 4}), ("state led to", 10, {1: 4}), ("marks", 11, {15: 0, 16: 4}), ("kind", 12, {1: 0, 2: 0, 3: 4}),
    ("in set", 13, {7: 0, 0: 4, 10: 4}), ("in set's end", 20, {128: 4}), ("out set", 21, {1: 0, 0: 4, 14: 4}), ("out set's end", 28, {128: 4}),
]:
    for byte, number in numbers.items():
        checked(f"A's {field}, byte {at}, is {byte}", changed(A, (at, byte)), number)
checked("A with a 30th byte", A + b"\0", 2)

# A with one bit flipped: for each byte the refusals, from bit 0.
FLIPS = ["12211111", "01000011", *["22222222"] * 4, *["33333333"] * 2, "00004444", *["44444444"] * 2, "00004444", "00444444",
         "04044444", *["44444444"] * 7, "00044444", *["44444444"] * 7]
assert len(FLIPS) == len(A)
for at, numbers in enumerate(FLIPS):
    for bit, number in enumerate(numbers):
        checked(f"A, byte {at}, bit {bit} flipped", changed(A, (at, A[at] ^ 1 << bit)), int(number))

# Short parts; offsets that are right only if 10 + 65,530 is wrapped at 16 bits; long parts, of no state. A field of a case has at most 65,535 bytes, so the
# long card's part is not the longest; that one is packed.
checked("a part of no byte", card(2, b""), 3)
checked("a part of one byte", card(2, b"\1"), 3)
checked("offsets wrapped", b"\x02\x02\x0a\x00\xfa\xff\x04\x00\x06\x00", 2)
checked("a card of 65,535 bytes", card(2, bytes(65529)), 3)
packed("a part of 65,535 bytes", 2, [65535], bytes(65535), 3, 3)

# A's part packed with other counts: refusals 1, 17, 3 and 4, before 18.
for symbols, lengths, target, answer in [
    (0, [23], 3, 1), (63, [23], 30, changed(A, (1, 63))), (64, [23], 3, 1), (2, [22], 3, 17), (2, [24], 3, 17), (2, [65535, 24], 3, 17),
    (2, [23, 0], 3, 3), (2, [22, 1], 3, 3), (1, [23], 3, 4),
]:
    packed(f"A packed with S {symbols} and lengths {lengths}", symbols, lengths, A[6:], target, answer)
packed("no lengths", 2, [], b"", 0, 1)


def both_ways(name, parts, answer, number, lengths=None):
    """Reading a card's parts, and packing them into 45 bytes, which is refused or gives the card."""
    sample = card(2, *parts)
    read(name, sample, answer)
    packed(f"{name}, packed", 2, lengths or [len(part) for part in parts], b"".join(parts), 45, number or sample)


def states(count):
    """A machine of that many states."""
    return machine([1] * count, [])


def arcs(*of_one_state):
    """A machine with arcs of one state, each a kind, an in set and an out set."""
    return machine([1], [arc(0, 0, inputs, outputs, kind=kind) for kind, inputs, outputs in of_one_state])


A_ARC = (0, {1}, {1, 2})
both_ways("six machines", [states(1)] * 6, [(26, 3), (29, 3), (32, 3), (35, 3)], 0)
both_ways("seven machines", [states(1)] * 7, 1, 1, lengths=[3, 3, 3, 3, 3, 3, 2])
both_ways("32 states", [states(32)], [(6, 34)], 0)
both_ways("33 states", [states(33)], 3, 3)
both_ways("4 and 32 states", [states(4), states(32)], [(10, 6), (16, 34)], 18)
both_ways("5 and 32 states", [states(5), states(32)], 6, 6)
both_ways("5 and 32 states, the last state byte 17", [states(5), machine([1] * 31 + [17], [])], 4, 4)
both_ways("six machines, 15 marks for ending", [machine([16], [])] + [states(1)] * 5, [(26, 3), (29, 3), (32, 3), (35, 3)], 0)
both_ways("A's arc twice", [arcs(A_ARC, A_ARC)], 5, 5)
both_ways("A's arc from two states", [machine([1, 1], [arc(0, 0, {1}, {1, 2}), arc(1, 0, {1}, {1, 2})])], [(6, 44)], 18)
both_ways("arcs that share only 0:0", [arcs((0, {0, 1}, {0}), (0, {0}, {0, 1}))], [(6, 43)], 18)
both_ways("arcs that take no pair", [arcs((0, {0}, {0}), (0, {0}, {0}))], [(6, 43)], 18)
both_ways("a clash, then no state", [arcs(A_ARC, A_ARC), states(0)], 5, 5)
both_ways("no state, then a clash", [states(0), arcs(A_ARC, A_ARC)], 3, 3)

# Refusal 5 goes by the pairs that two arcs take, not by their sets.
for name, first, second, number in [
    ("1 and 2, the same sets", (1, ALL, ALL), (2, ALL, ALL), 0),
    ("0 and 1 share 1:1", (0, {1}, {1, 2}), (1, ALL, ALL), 5), ("1 and 0 share 1:1", (1, ALL, ALL), (0, {1}, {1, 2}), 5),
    ("0 and 1 share only 0:0", (0, {0, 1}, {0}), (1, {0, 1}, {0, 1}), 0), ("0 and 1 share only sets", (0, {1}, {2}), (1, {1}, {2}), 0),
    ("1 and 1 share only 0:0", (1, {0, 1}, {0, 1}), (1, {0, 2}, {0, 2}), 0), ("1 and 1 share 2:2", (1, {1, 2}, {1, 2}), (1, {0, 2}, {0, 2}), 5),
    ("0 and 2 share 0:1", (0, {0}, {1}), (2, ALL, ALL), 5), ("0 and 2 share 1:0", (0, {1}, {0}), (2, ALL, ALL), 5),
    ("0 and 2 share only sets", (0, {1}, {1}), (2, ALL, ALL), 0), ("2 and 2 share 1:2", (2, {1}, ALL), (2, {1, 2}, {2}), 5),
    ("2 and 2 share only sets", (2, {1, 2}, {2}), (2, {2}, {1, 2}), 0), ("3 is refused before the clash", (3, {1}, {1}), (0, {1}, {1}), 4),
]:
    checked(f"kinds {name}", card(2, arcs(first, second)), number, (6, 43))

# An arc of each kind that takes no pair. Packing and reading keep the kinds.
for kind, inputs, outputs in [(0, {0}, {0}), (1, {1}, {2}), (2, {1}, {1})]:
    checked(f"an arc of kind {kind} that takes no pair", card(2, arcs((kind, inputs, outputs))), 0)
KINDS = card(2, arcs((1, {0}, {0}), (2, {0}, {0})))
packed("kinds 1 and 2, packed", 2, [43], KINDS[6:], 50, KINDS)
case("kinds 1 and 2, machine 0", read_part(KINDS, 0).gives(6, 43))
