"""The live tableau: candidates proposed and withdrawn, and the one that leads."""
import ctypes

from .calls import accept, byte, counts_of, same
from .library import LIVE_ROWS, EvaluationNumbers, OneSize, Row, library
from .results import LiveRow, Profile


class LiveTableau:
    """A table under a ranking. Its list of rows is lent to each call, with the row count that the last accepted call answered."""

    def __init__(self, machines: int, ranking: bytes, rows: int = LIVE_ROWS) -> None:
        self.machines = byte(machines)
        self.ranking = ranking
        self.count = 0
        self.list = (Row * rows)()

    def _table(self) -> tuple[object, ...]:
        return (self.machines, self.ranking, len(self.ranking), self.count, self.list, len(self.list))

    def add(self, id: int, counts: Profile) -> int:
        """Adds a row behind the others, and answers the new row count: refusals 1, 7, 23, 24."""
        result = OneSize()
        same([id & 0xFFFF], [id])
        accept(library.pastaspur_add_row(*self._table(), ctypes.byref(Row(id, counts_of(tuple(counts)))), result))
        self.count = result[0]
        return self.count

    def remove(self, id: int) -> int:
        """Takes out the row with an id, and answers the new row count: refusals 1, 7, 23, 24."""
        result = OneSize()
        same([id & 0xFFFF], [id])
        accept(library.pastaspur_remove_row(*self._table(), id, result))
        self.count = result[0]
        return self.count

    def leader(self) -> LiveRow | None:
        """The row with the best profile, the earliest arrival among equals, None in an empty table: refusals 1, 7, 23."""
        result = EvaluationNumbers()
        accept(library.pastaspur_leader(*self._table(), result))
        any_row, id, *counts = result
        return LiveRow(id, tuple(counts)) if any_row else None

    def rows(self) -> list[LiveRow]:
        """The rows in order of arrival."""
        return [LiveRow(row.id, tuple(row.counts)) for row in self.list[: self.count]]
