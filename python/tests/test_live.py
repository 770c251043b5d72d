"""The live tableau through the binding: rows, leaders, and refusals 1, 7, 23 and 24."""
import random
import unittest

import pastaspur


def refused(test: unittest.TestCase, number: int, call, *arguments) -> None:
    with test.assertRaises(pastaspur.Refused) as met:
        call(*arguments)
    test.assertEqual(met.exception.number, number)


class Live(unittest.TestCase):
    def test_leader_changes_with_the_rows(self) -> None:
        table = pastaspur.LiveTableau(3, bytes([0, 2, 1]))
        self.assertIsNone(table.leader())
        self.assertEqual(table.add(7, (0, 0, 1)), 1)
        self.assertEqual(table.add(8, (0, 1, 0)), 2)
        self.assertEqual(table.leader(), pastaspur.LiveRow(8, (0, 1, 0, 0, 0, 0)))
        self.assertEqual(table.remove(8), 1)
        self.assertEqual(table.leader(), pastaspur.LiveRow(7, (0, 0, 1, 0, 0, 0)))
        self.assertEqual(bytes(table.list[1]), bytes(14))

    def test_the_earliest_of_equals_leads_and_unused_counts_are_kept(self) -> None:
        table = pastaspur.LiveTableau(1, bytes([0]))
        table.add(1, (3, 9))
        table.add(2, (3, 0))
        self.assertEqual(table.leader(), pastaspur.LiveRow(1, (3, 9, 0, 0, 0, 0)))

    def test_refusals(self) -> None:
        table = pastaspur.LiveTableau(2, bytes([1, 0]))
        refused(self, 24, table.remove, 5)
        table.add(5, (1, 1))
        before = bytes(table.list)
        refused(self, 24, table.add, 5, (0, 0))
        refused(self, 24, table.remove, 6)
        self.assertEqual(bytes(table.list), before)
        refused(self, 7, pastaspur.LiveTableau(2, bytes([1, 1])).leader)
        refused(self, 1, pastaspur.LiveTableau(7, bytes(range(6))).leader)

    def test_row_counts(self) -> None:
        table = pastaspur.LiveTableau(1, bytes([0]))
        for id in range(32):
            table.add(id, (id,))
        refused(self, 23, table.add, 99, (0,))
        short = pastaspur.LiveTableau(1, bytes([0]), rows=1)
        short.add(1, (1,))
        refused(self, 23, short.add, 2, (0,))
        short.count = 2
        refused(self, 23, short.leader)
        refused(self, 23, short.remove, 1)
        refused(self, 23, pastaspur.LiveTableau(1, bytes([0]), rows=0).add, 1, (0,))

    def test_many_adds_and_removals(self) -> None:
        """Rows and leader are those worked out afresh from the ids added and not since removed."""
        chance = random.Random(9)
        ranking = bytes([2, 0, 1])
        table, rows = pastaspur.LiveTableau(3, ranking), {}
        for _ in range(2000):
            id, adds = chance.randrange(40), chance.random() < 0.6
            counts = (*(chance.randrange(3) for _ in range(3)), 0, 0, 0)
            if adds and len(rows) == 32:
                refused(self, 23, table.add, id, counts)
            elif adds == (id in rows):
                refused(self, 24, *((table.add, id, counts) if adds else (table.remove, id)))
            elif adds:
                rows[id] = counts
                self.assertEqual(table.add(id, counts), len(rows))
            else:
                del rows[id]
                self.assertEqual(table.remove(id), len(rows))
            self.assertEqual([(row.id, row.counts) for row in table.rows()], list(rows.items()))
            best = min(rows.items(), key=lambda row: [row[1][machine] for machine in ranking], default=None)
            leader = table.leader()
            self.assertEqual(None if leader is None else (leader.id, leader.counts), best)
