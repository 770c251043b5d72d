"""Judging a tableau. Unless the case says else it is one of /tag/ under NoCoda >> DEP >> PARSE, with the card of demo/tag: these machines, and the symbols
t a g e and the dot."""
import pathlib

from calls import as_bytes, case, counts, judge
from cards import A_INSERTS, B, card, changed

TAG_CARD = (pathlib.Path(__file__).parents[2] / "demo/tag/card.bin").read_bytes()
RIGHT, ANOTHER, NONE = 1, 2, 3  # the verdicts: right, another row, not in the table


def row(profile, pairs):
    return counts(profile) + as_bytes(pairs)


def tableau(claimed, rows):
    """Rows are laid out as a card's parts are, with the claimed row in the place of S."""
    return card(claimed, *rows)


def of_tag(tableau, ranking=(0, 1, 2), word=(1, 2, 3), work=160):
    return judge(TAG_CARD, ranking, word, tableau, work)


def last_row(length):
    """The rows of document 002 with a last one of that many bytes."""
    return of_tag(changed(FIRST, (20, length))[:106 + length])


def many(rows, claimed):
    """That many rows, of which the last wins."""
    return of_tag(tableau(claimed, [JUST_A] * (rows - 1) + [TA] * (rows > 0)))


def of_b(ending, marks, claimed):
    """Card B with a state byte for onset's state 1, word 1: the rows 1:1, with so many marks of onset, and 1:0."""
    return judge(changed(B, (17, ending)), [0, 1, 2], [1], tableau(claimed, [row([marks, 0, 0], "1:1"), row([0, 0, 1], "1:0")]))


def long_row(pairs):
    """One row of that many pairs: 0:1 in all but the last, which is 1:1. Insertions are free, so it wins."""
    return judge(A_INSERTS, [0], [1], tableau(0, [row([0], "0:1 " * (pairs - 1) + "1:1")]), 16)


TA = row([0, 0, 1], "1:1 2:2 0:5 3:0")
TA_GE = row([0, 1, 0], "1:1 2:2 0:5 3:3 0:4 0:5")
TAG = row([1, 0, 0], "1:1 2:2 3:3 0:5")
JUST_A = row([0, 0, 2], "1:0 2:2 0:5 3:0")
TAG_EE = row([1, 2, 0], "1:1 2:2 3:3 0:5 0:4 0:4 0:5")
ROWS = [TA, TA_GE, TAG, JUST_A, TAG_EE]  # document 002, first tableau
FIRST = tableau(0, ROWS)
TIES = [JUST_A, row([0, 0, 1], "1:1 2:2 3:0 0:5"), TA]  # in the second the g is gone before the dot

case("the rows of document 002", of_tag(FIRST).gives(RIGHT, 0))
case(".ta.g[e]. claimed", of_tag(tableau(1, ROWS)).gives(ANOTHER, 0))
case(".ta.g.[e][e]. claimed", of_tag(tableau(4, ROWS)).gives(ANOTHER, 0))
case(".ta. missing", of_tag(tableau(0, [TA_GE, TAG, JUST_A])).gives(NONE, 0))
case(".ta. missing, .a. claimed", of_tag(tableau(2, [TA_GE, TAG, JUST_A])).gives(NONE, 0))
case("the first of two that tie", of_tag(tableau(1, TIES)).gives(RIGHT, 0))
case("the second of two that tie", of_tag(tableau(2, TIES)).gives(RIGHT, 0))
case("neither of two that tie", of_tag(tableau(0, TIES)).gives(ANOTHER, 1))
case("NoCoda >> PARSE >> DEP", of_tag(FIRST, ranking=[0, 2, 1]).gives(ANOTHER, 1))
case("PARSE >> DEP >> NoCoda", of_tag(FIRST, ranking=[2, 1, 0]).gives(ANOTHER, 2))

# A mark at the end makes a row lose that wins without it; it belongs to the row's counts.
case("no mark at the end, 1:1 claimed", of_b(1, 0, 0).gives(RIGHT, 0))
case("a mark at the end, 1:0 claimed", of_b(2, 1, 1).gives(RIGHT, 0))
case("a mark at the end, 1:1 claimed", of_b(2, 1, 0).gives(ANOTHER, 1))
case("the mark at the end not counted", of_b(2, 0, 0).refuses(21))
case("15 marks at the end, 1:1 claimed", of_b(16, 15, 0).gives(ANOTHER, 1))
case("state byte 17", of_b(17, 16, 0).refuses(4))

# Refusal 19, and neighbours that pass: row counts, and the layout.
case("32 rows, the last claimed", many(32, 31).gives(RIGHT, 0))
case("32 rows, the first claimed", many(32, 0).gives(ANOTHER, 31))
case("one row", many(1, 0).gives(RIGHT, 0))
case("33 rows", many(33, 32).refuses(19))
case("no row", many(0, 0).refuses(19))
for length, name in [(0, "no byte"), (1, "one byte"), (2, "two bytes"), (131, "a byte short")]:
    case(name, of_tag(FIRST[:length]).refuses(19))
case("a row of 11 bytes", last_row(11).refuses(19))
case("a row of 12 bytes, which spells nothing", last_row(12).refuses(20))
# Two rows: 10 + 65,530 is 4 only if it is wrapped at 16 bits, and 34 + 65,535 is 33.
case("a row's offset is wrapped", of_tag(b"\x02\x00\x0a\x00\xfa\xff\x04\x00\x1e\x00" + bytes(24)).refuses(19))
case("the last row's end is wrapped", of_tag(b"\x02\x00\x0a\x00\x18\x00\x22\x00\xff\xff" + bytes(23)).refuses(19))

# Refusal 20: a row's candidate.
case("odd", last_row(25).refuses(20))
case("another word", of_tag(FIRST, word=[1, 2, 1]).refuses(20))
case("a longer word", of_tag(FIRST, word=[1, 2, 3, 3]).refuses(20))
case("a shorter word", of_tag(FIRST, word=[1, 2]).refuses(20))
case("the word", of_tag(FIRST, word=[1, 2, 3]).gives(RIGHT, 0))
case("a row of 3,199 pairs", long_row(3199).gives(RIGHT, 0))
case("a row of 3,200 pairs", long_row(3200).refuses(20))

# The rows of document 002 with other bytes, each at its place: refusals 19 to 21, and that each check is made for all rows before the next. The rows are at 22,
# 42, 66, 86 and 106, each with its counts before its candidate.
for name, changes, number in [
    ("claimed row R", [(1, 5)], 19), ("first offset one more", [(2, 23)], 19), ("second offset one less", [(6, 41)], 19),
    ("a byte past the end", [(20, 25)], 19), ("an unused count", [(28, 1)], 19), ("the last unused count, high byte", [(117, 1)], 19),
    ("0:0", [(38, 0), (39, 0)], 20), ("symbol over S", [(37, 6)], 20), ("not complete", [(35, 3)], 20),
    ("one mark for DEP", [(108, 1)], 21), ("a high byte", [(23, 1)], 21),
    ("21 in the first row, 20 in the last", [(22, 1), (131, 6)], 20), ("20 in the first row, 19 in the last", [(37, 6), (112, 1)], 19),
    ("21 in the first row, 19 in the last", [(22, 1), (112, 1)], 19), ("20 in the first row, 21 in the last", [(37, 6), (106, 2)], 20),
]:
    case(name, of_tag(changed(FIRST, *changes)).refuses(number))

# Refusals of the input come before those of the tableau.
case("no card", judge(b"", [], [], b"").refuses(1))
case("ranking", of_tag(b"", [0, 1, 1], [6], 0).refuses(7))
case("word", of_tag(b"", [0, 1, 2], [6], 0).refuses(8))
case("work", of_tag(b"", work=127).refuses(9))
case("just enough work, no tableau", of_tag(b"", work=128).refuses(19))
