"""The calls that cases are made of: what the file `cases` has for each (crates/test_corpus/src/main.rt), and the line that is expected.

Each function below makes a Call; call.gives(..) and call.refuses(number) say what it answers. case and same register what is to be tried."""
from collections import namedtuple

FILL = 9  # in each byte of an answer or target slice that is lent
KEEP_WORK = [*range(1, 10), 25, 26]  # the refusals that leave the work slice as it was

Case = namedtuple("Case", "fields line")
Check = namedtuple("Check", "name calls line")  # the line of the one call, or None: the calls have one answer

checks = []  # what a file of cases has registered


def case(name, expected):
    register(name, [expected.fields], expected.line)


def same(name, *calls):
    """The calls have one answer, whatever it is: their lines are alike behind the call's name."""
    assert len(calls) > 1, name
    register(name, [call.fields for call in calls], None)


def register(name, calls, line):
    assert all(name != check.name for check in checks), name
    checks.append(Check(name, calls, line))


class Call:
    """name: how the line begins. refused: the fields between number and slice in a refusal. said: from what gives() is told, these fields in
    an answer and what stands at the front of the slice. lent, work: the lengths of the slices, None where there is none."""

    def __init__(self, kind, name, fields, refused, said, lent=None, work=None):
        self.fields = byte(kind) + fields
        self.name, self.refused, self.said, self.lent, self.work = name, refused, said, lent, work

    def refuses(self, number):
        return self.case(number, self.refused)

    def gives(self, *expected):
        return self.case(0, *self.said(*expected))

    def case(self, number, result, written=b""):
        line = f"{self.name} {number} {result}"
        if self.lent is not None:
            assert len(written) <= self.lent
            line += f" {short(written.ljust(self.lent, byte(FILL)))}"
        if self.work is not None and number in KEEP_WORK:
            line += f" {self.work}"
        return Case(self.fields, line)


def short(written):
    """A slice in short, as the program writes it."""
    total = 0
    for digit in written:
        total = (257 * total + digit) % 1_000_000_007
    return total


# Fields of a case

def byte(value):
    return bytes([value])


def number(value, size=2):
    return value.to_bytes(size, "little")


def numbers(values, size=2):
    return number(len(values)) + b"".join(number(value, size) for value in values)


def text(values):
    return number(len(values)) + bytes(values)


def counts(profile):
    return b"".join(map(number, six(profile)))


def lent(length):
    return number(length) + byte(FILL)


# Fields of a line

def six(values):
    return [*values, *[0] * (6 - len(values))]


def commas(values):
    return ",".join(map(str, six(values)))


def as_bytes(pairs):
    """'1:1 0:2', or [(1, 1), (0, 2)]"""
    if isinstance(pairs, str):
        pairs = [pair.split(":") for pair in pairs.split()]
    return bytes(int(symbol) for pair in pairs for symbol in pair)


def best(profile, pairs, word_length, *total):
    written = as_bytes(pairs)
    return " ".join(map(str, [commas(profile), len(written) // 2, word_length, *total])), written


def card_made(card):
    return len(card), bytes(card)


# Calls

def search(kind, name, fields, work, answer, refused="0,0,0,0,0,0 0 0"):
    return Call(kind, name, fields + number(work) + lent(answer), refused, best, answer, work)


def optimize(card, ranking, word, work=400, answer=60):
    return search(1, "optimize", text(card) + text(ranking) + text(word), work, answer)


def cull(card, ranking, word, work=400, answer=60):
    return search(9, "cull", text(card) + text(ranking) + text(word), work, answer)


def optimize_sets(card, ranking, sets, work=400, answer=60):
    return search(13, "optimize sets", text(card) + text(ranking) + numbers(sets, 8), work, answer)


def cull_sets(card, ranking, sets, work=400, answer=60):
    return search(14, "cull sets", text(card) + text(ranking) + numbers(sets, 8), work, answer)


def optimize_weights(card, weights, word, work=400, answer=60):
    return search(15, "optimize weights", text(card) + numbers(weights, 4) + text(word), work, answer, "0,0,0,0,0,0 0 0 0")


def evaluate(card, candidate):
    said = lambda profile, pairs, word_length: [f"{commas(profile)} {pairs} {word_length}"]
    return Call(2, "evaluate", text(card) + text(candidate), "0,0,0,0,0,0 0 0", said)


def read_part(card, machine):
    return Call(3, "part", text(card) + byte(machine), "0 0", lambda offset, length: [f"{offset} {length}"])


def pack(symbols, lengths, parts, target):
    return Call(4, "pack", byte(symbols) + numbers(lengths) + text(parts) + lent(target), "0", card_made, target)


def join(card, first, second, target):
    return Call(16, "join", text(card) + byte(first) + byte(second) + lent(target), "0", card_made, target)


def compare(machines, ranking, first, second):
    orders = {"better": 1, "equal": 2, "worse": 3}
    fields = byte(machines) + text(ranking) + counts(first) + counts(second)
    return Call(5, "compare", fields, "0 0", lambda order, machine=0: [f"{orders[order]} {machine}"])


def derive(machines, first, second):
    return Call(6, "condition", byte(machines) + counts(first) + counts(second), "0 0", lambda fewer, more: [f"{fewer} {more}"])


def find(machines, conditions):
    return Call(7, "ranking", byte(machines) + text(conditions), commas([]), lambda ranking: [commas(ranking)])


def judge(card, ranking, word, tableau, work=160):
    fields = text(card) + text(ranking) + text(word) + number(work) + text(tableau)
    return Call(8, "judge", fields, "0 0", lambda verdict, row: [f"{verdict} {row}"], work=work)
