"""Cards, laid out as docs/FORMAT.md says, and those that several files of cases use. Nothing is checked: a card may be one that is refused."""


def bits(symbols):
    """The number for a set of symbols."""
    return sum(1 << symbol for symbol in symbols)


def arc(start, end, inputs, outputs, marks=0, kind=0):
    """An arc from a state to a state that takes what has its input in one set and its output in another."""
    return bytes([start, end, marks, kind]) + bits(inputs).to_bytes(8, "little") + bits(outputs).to_bytes(8, "little")


def machine(states, arcs):
    """A part, from its state bytes and its arcs."""
    return bytes([len(states), len(arcs), *states]) + b"".join(arcs)


def card(symbols, *parts):
    table, at = b"", 2 + 4 * len(parts)
    for part in parts:
        table += at.to_bytes(2, "little") + len(part).to_bytes(2, "little")
        at += len(part)
    return bytes([len(parts), symbols]) + table + b"".join(parts)


def changed(card, *changes):
    """The card with other bytes: (place, byte) .."""
    card = bytearray(card)
    for at, byte in changes:
        card[at] = byte
    return bytes(card)


# Card A of docs/FORMAT.md, and A with an arc of free insertions.
A = card(2, machine([1], [arc(0, 0, {1}, {1, 2})]))
A_INSERTS = card(2, machine([1], [arc(0, 0, {1}, {1, 2}), arc(0, 0, {0}, {1, 2})]))

# Card B of docs/FORMAT.md: consonants 1 and vowels 2. Byte 17 is the state byte of onset's state 1, which it is in behind a consonant.
ONSET = machine([1, 1], [arc(0, 0, {0, 1, 2}, {0}), arc(0, 1, {0, 1, 2}, {1}), arc(0, 0, {0, 1, 2}, {2}, marks=1),
                         arc(1, 1, {0, 1, 2}, {0}), arc(1, 1, {0, 1, 2}, {1}), arc(1, 0, {0, 1, 2}, {2})])
INSERTION = machine([1], [arc(0, 0, {1, 2}, {0, 1, 2}), arc(0, 0, {0}, {1, 2}, marks=1)])
DELETION = machine([1], [arc(0, 0, {1}, {1}), arc(0, 0, {2}, {2}), arc(0, 0, {0}, {1, 2}), arc(0, 0, {1, 2}, {0}, marks=1)])
B = card(2, ONSET, INSERTION, DELETION)
B_ENDING = changed(B, (17, 2))  # a mark for a consonant at the end

# Machines that count to 32 and 4, so to 128 together: 1 inserted is a step of the first, 2 or 3 carries to the second. A symbol of the word is
# taken, and a candidate ends, only in the last states of both, so the best for 24 symbols passes all 3,200 nodes. 15 marks for every arc and ending.
COUNT_32 = machine([0] * 31 + [16], [*(arc(state, state + 1, {0}, {1}, 15) for state in range(31)), arc(31, 0, {0}, {2, 3}, 15),
                                     arc(31, 0, {1, 2, 3}, {1, 2, 3}, 15)])
COUNT_4 = machine([0] * 3 + [16], [*(arc(state, state, {0}, {1}, 15) for state in range(4)),
                                   *(arc(state, state + 1, {0}, {2, 3}, 15) for state in range(3)), arc(3, 0, {1, 2, 3}, {1, 2, 3}, 15)])
CHAIN = card(3, COUNT_32, COUNT_4)


def chain_best(word, step="0:1", steps=31, carry="0:2", output=1):
    """The best of such a chain for a word: at each position three carries among steps, and each symbol with the smallest output."""
    count = " ".join(([step] * steps + [carry]) * 3 + [step] * steps)
    return " ".join([count, *(f"{symbol}:{output} {count}" for symbol in word)])
