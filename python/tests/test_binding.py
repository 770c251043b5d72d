"""The binding: every call of the header is bound, every refusal is named, and no number is cut to fit its place."""
import re
import unittest

import pastaspur
from pastaspur.library import CALLS

from . import DEMO, REPOSITORY

HEADER = (REPOSITORY / "include" / "pastaspur.h").read_text(encoding="utf-8")


class Header(unittest.TestCase):
    def test_every_refusal_of_the_header_is_named(self) -> None:
        """The numbers are the header's, but for 22, which is the program's alone; so are the names that it gives them."""
        numbers = re.findall(r"^(?: \*  {1,3}|    PASTASPUR_REFUSED_\w+ = )(\d+)\b", HEADER, re.MULTILINE)
        self.assertEqual({int(number) for number in numbers} - {22}, set(pastaspur.REFUSALS))
        for name, number in re.findall(r"PASTASPUR_REFUSED_(\w+) = (\d+)", HEADER):
            if number != "22":
                self.assertEqual(pastaspur.REFUSALS[int(number)][0], name.lower().replace("_", " "))

    def test_every_call_of_the_header_is_bound(self) -> None:
        self.assertEqual(set(re.findall(r"^uint32_t pastaspur_(\w+)\(", HEADER, re.MULTILINE)), set(CALLS))


class Numbers(unittest.TestCase):
    def test_a_number_that_does_not_fit_is_an_error(self) -> None:
        card, ranking, table = (
            (DEMO / "card_b" / "card.bin").read_bytes(),
            bytes([0, 1, 2]),
            pastaspur.LiveTableau(3, bytes([0, 1, 2])),
        )
        for call in (
            lambda: pastaspur.read_part(card, 256),
            lambda: pastaspur.join(card, 0, 258),
            lambda: pastaspur.pack_joined(258, [1], b""),
            lambda: pastaspur.pack_joined(2, [65536 + 124], card[14:138]),
            lambda: pastaspur.optimize_weights(card, [1 << 32, 1, 1], b"\2"),
            lambda: pastaspur.optimize_weights(card, [-1, 1, 1], b"\2"),
            lambda: pastaspur.optimize_sets(card, ranking, [1 << 64]),
            lambda: pastaspur.compare(259, ranking, (0, 0, 0), (0, 0, 1)),
            lambda: pastaspur.compare(3, ranking, (65536, 0, 0), (0, 0, 1)),
            lambda: pastaspur.condition(3, (0, 0, 0), (0, -1, 1)),
            lambda: pastaspur.find_ranking(259, []),
            lambda: table.add(65536, (0, 0, 0)),
            lambda: table.add(1, (0, 0, 65536)),
            lambda: table.remove(65536),
            lambda: pastaspur.LiveTableau(259, ranking),
        ):
            self.assertRaises(OverflowError, call)


class Lengths(unittest.TestCase):
    def test_a_part_may_end_past_65535(self) -> None:
        """A card whose part has 65,535 bytes, more than a case of tests/calls can hold: the layout is right, and the part is refused."""
        with self.assertRaises(pastaspur.Refused) as refused:
            pastaspur.read_part(bytes([1, 2, 6, 0, 255, 255]) + bytes(65535), 0)
        self.assertEqual(refused.exception.number, 3)
