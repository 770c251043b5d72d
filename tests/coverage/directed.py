#!/usr/bin/env python3
"""Calls made on purpose, for directions that calls by chance miss: lines without answers, for reference's `calls -`."""
import itertools
import struct


def arc(start, to, marks, kind, inputs, outputs):
    return bytes([start, to, marks, kind]) + struct.pack("<QQ", inputs, outputs)


def part(states, arcs):
    return bytes([len(states), len(arcs)]) + bytes(states) + b"".join(arcs)


def card(symbols, parts):
    head, offset = bytes([len(parts), symbols]), 2 + 4 * len(parts)
    for one in parts:
        head += struct.pack("<HH", offset, len(one))
        offset += len(one)
    return head + b"".join(parts)


def hexadecimal(data):
    return data.hex() or "-"


def rows(list_):
    return b"".join(struct.pack("<7H", number, *counts) for number, counts in list_)


def everything(symbols):
    return (1 << symbols + 1) - 1


def free(symbols, states=1, marks=0):
    """A machine that takes every pair in every state, and stays; or goes round its states."""
    return part([1] * states, [arc(q, (q + 1) % states, marks, 0, everything(symbols), everything(symbols)) for q in range(states)])


def faithful(symbols, states=1):
    return part([1] * states, [arc(q, q, 0, 1, everything(symbols), everything(symbols)) for q in range(states)]
                + [arc(q, q, 1, 2, everything(symbols), everything(symbols)) for q in range(states)])


def searches(card_, ranking, word, states):
    """A word, as a word and as sets, by both methods, and by weights."""
    work = 8 * (len(word) + 1) * states
    sets = b"".join(struct.pack("<Q", 1 << symbol) for symbol in word)
    for name in ("optimize", "cull"):
        yield f"{name} {hexadecimal(card_)} {hexadecimal(ranking)} {hexadecimal(word)} {work} 6398"
        yield f"{name}_sets {hexadecimal(card_)} {hexadecimal(ranking)} {hexadecimal(sets)} {work} 6398"
    weights = b"".join(struct.pack("<I", 1000 * (place + 1)) for place in ranking)
    yield f"optimize_weights {hexadecimal(card_)} {hexadecimal(weights)} {hexadecimal(word)} {work // 4} 6398"


def rankings():
    """Rankings with a number twice, at every two places, in every call that takes one."""
    for machines in range(1, 7):
        one = card(1, [free(1)] * machines)
        for first, second in itertools.combinations(range(machines), 2):
            ranking = bytearray(range(machines))
            ranking[second] = ranking[first]
            for turned in (ranking, ranking[::-1]):
                text = hexadecimal(bytes(turned))
                counts = "00" * 12
                yield f"compare {machines} {text} {counts} {counts}"
                yield f"leader {machines} {text} 1 {'00' * 14}"
                yield f"add_row {machines} {text} 0 {'00' * 14} {'01' * 14}"
                yield f"remove_row {machines} {text} 1 {'00' * 14} 0"
                yield f"judge {hexadecimal(one)} {text} - 8 00"
                yield from searches(one, bytes(turned), b"", 1)


def closed_in():
    """Packing and joining with the target right behind what is read: small parts, of every remainder."""
    for arcs in range(0, 4):
        for machines in range(1, 4):
            parts = [part([1], [arc(0, 0, 0, 0, 1 << n, 2) for n in range(1, 1 + arcs)]) for _ in range(machines)]
            lengths = b"".join(struct.pack("<H", len(one)) for one in parts)
            whole = card(3, parts)
            yield f"pack+ 3 {hexadecimal(lengths)} {hexadecimal(b''.join(parts))} {len(whole)}"
            for first, second in itertools.permutations(range(machines), 2):
                yield f"join+ {hexadecimal(whole)} {first} {second} {len(whole)}"
                yield f"join+ {hexadecimal(whole)} {first} {second} 3000"


def joins():
    """Joined machines of every size up to the limits: states that are reached or not, cards with other machines before, between and behind."""
    for left, right in itertools.product((1, 2, 3, 4, 5, 8, 16, 31, 32), repeat=2):
        if left * right > 64:
            continue
        machines = [free(2, left), free(2, right)]
        for others in range(0, 3):
            whole = card(2, machines + [free(2, 1, 1)] * others)
            for first, second in ((0, 1), (1, 0), (0, 2), (2, 1)):
                yield f"join {hexadecimal(whole)} {first} {second} 30830"
    for count in (1, 2, 3, 8, 15, 16, 17, 31, 51, 63):
        many = part([1], [arc(0, 0, 0, 0, 1 << n, everything(63)) for n in range(0, count)])
        for other in (1, 2, 4, 5, 8, 16):
            whole = card(63, [many, part([1], [arc(0, 0, 0, 0, everything(63), 1 << n) for n in range(0, other)])])
            yield f"join {hexadecimal(whole)} 0 1 30830"
            yield f"join {hexadecimal(whole)} 1 0 30830"


def sizes():
    """Searches on cards of every number of joined states, symbols and machines."""
    shapes = [(1,), (2,), (16,), (17,), (32,), (4, 4), (2, 2, 2, 2), (32, 4), (16, 8), (8, 4, 4), (2, 2, 2, 2, 2, 4), (4, 4, 8), (2,) * 5, (1,) * 6, (2,) * 6, (32, 1, 4), (3, 5, 7), (11, 11)]
    for shape in shapes:
        states = 1
        for number in shape:
            states *= number
        for symbols in (1, 2, 3, 4, 5, 63):
            for kind in (free, faithful):
                whole = card(symbols, [kind(symbols, number) for number in shape])
                for word in (b"", bytes([1]), bytes([symbols]) * 3, bytes(1 + n % symbols for n in range(24))):
                    if len(word) > 3 and symbols == 63 and states > 16:
                        continue
                    yield from searches(whole, bytes(range(len(shape))), word, states)


def chains():
    """A machine whose states are passed by insertions alone, with and without marks: the longest answers."""
    for states in (2, 7, 8, 16, 17, 32):
        for marks in (0, 1, 15):
            arcs = [arc(q, (q + 1) % states, marks, 0, 1, 2) for q in range(states)] + [arc(states - 1, 0, 0, 0, 2, 2)]
            one = part([0] * (states - 1) + [16], arcs)
            for more in (0, 1, 2):
                whole = card(1, [one] + [faithful(1, 2)] * more)
                for word in (b"", b"\1", b"\1\1\1\1"):
                    yield from searches(whole, bytes(range(1 + more)), word, states * 2 ** more)


def weights():
    """Weights at their limits, at every place."""
    for machines in range(1, 7):
        whole = card(1, [faithful(1)] * machines)
        for place in range(machines):
            for heavy in (0, 3_999_999_999, 4_000_000_000, 4_000_000_001, 0xffff_ffff):
                list_ = [1] * machines
                list_[place] = heavy
                for length in (machines - 1, machines, machines + 1):
                    text = hexadecimal(b"".join(struct.pack("<I", weight) for weight in (list_ + [1])[:length]))
                    yield f"optimize_weights {hexadecimal(whole)} {text} 01 4 10"


def tableaux():
    """Unused counts that are not 0, at every place; lengths and rows at their limits."""
    for machines in range(1, 7):
        whole = card(1, [faithful(1)] * machines)
        ranking = hexadecimal(bytes(range(machines)))
        for place in range(6):
            counts = [0] * 6
            counts[place] = 1
            row = struct.pack("<6H", *counts) + b"\1\1"
            good = bytes(12) + b"\1\1"
            for list_ in ([row], [good, row], [row, good], [good], [good] * 32, [good] * 33):
                offset, head = 2 + 4 * len(list_), bytes([len(list_), 0])
                for one in list_:
                    head += struct.pack("<HH", offset, len(one))
                    offset += len(one)
                yield f"judge {hexadecimal(whole)} {ranking} 01 16 {hexadecimal(head + b''.join(list_))}"


def live():
    """Lists of every length up to 33, filled or not, with doubles at every place."""
    for length in (0, 1, 2, 31, 32, 33):
        list_ = [(n, [n % 3, n % 2, 0, 0, 0, 5]) for n in range(length)]
        for used in (0, 1, length - 1, length, length + 1, 32, 33):
            if used < 0:
                continue
            text = hexadecimal(rows(list_))
            yield f"leader 2 0100 {used} {text}"
            for number in (0, 1, length - 1 if length else 0, length, 40):
                yield f"add_row 2 0100 {used} {text} {rows([(number, [1] * 6)]).hex()}"
                yield f"remove_row 2 0100 {used} {text} {number}"


def main():
    for maker in (rankings, closed_in, joins, sizes, chains, weights, tableaux, live):
        for line in maker():
            print(line)


main()
