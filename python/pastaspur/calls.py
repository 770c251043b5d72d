"""The calls, each over bytes of Python; a refusal is raised as Refused.

What a call is lent is made for it. `work_numbers` and `answer` or `target` lend less; a lent bytearray holds after the call what
the engine left in it, also where it refused.
"""
import ctypes
import functools
from collections.abc import Callable, Sequence
from typing import Any

from .library import (
    ANSWER_BYTES,
    CARD_BYTES,
    WEIGHTS_WORK_NUMBERS,
    WORK_NUMBERS,
    Counts,
    EvaluationNumbers,
    OneSize,
    RankingBytes,
    TwoBytes,
    TwoSizes,
    WeighingNumbers,
    library,
)
from .refusals import Refused
from .results import Best, Comparison, Condition, Evaluation, Judged, Order, Place, Profile, Verdict, Weighed


def accept(number: int) -> None:
    """Raises the refusal of a number that is not 0."""
    if number:
        raise Refused(number)


def lend(memory: bytearray) -> ctypes.Array[ctypes.c_uint8]:
    """A bytearray as memory that the engine writes to."""
    return (ctypes.c_uint8 * len(memory)).from_buffer(memory)


def same(made: Sequence[int], values: Sequence[int]) -> None:
    """C would cut a number that is too large for its place; here it is an error."""
    if list(made) != list(values):
        raise OverflowError(f"{values!r}: a number that does not fit its place")


def numbers(kind: Any, values: Sequence[int]) -> ctypes.Array:
    """Numbers as an array of one of C's kinds."""
    made = (kind * len(values))(*values)
    same(made, values)
    return made


def byte(value: int) -> int:
    """A number of one byte."""
    same([value & 0xFF], [value])
    return value


@functools.lru_cache(maxsize=4096)
def counts_of(profile: Profile) -> ctypes.Array[ctypes.c_uint16]:
    """The six counts of a profile, 0 where it has fewer. The calls only read them, so one copy is lent again."""
    counts = Counts(*profile)
    same(counts[: len(profile)], profile)
    return counts


class Searcher:
    """A card, and memory for the answers to many words under many rankings. One thread at a time may ask it."""

    def __init__(self, card: bytes) -> None:
        self.card = card
        self.work = (ctypes.c_uint16 * WORK_NUMBERS)()
        self.answer = (ctypes.c_uint8 * ANSWER_BYTES)()
        self.result = EvaluationNumbers()
        # The lent memory stays where it is: each call is handed its addresses, and converts none.
        self.lent = (
            ctypes.c_void_p(ctypes.addressof(self.work)),
            ctypes.c_size_t(WORK_NUMBERS),
            ctypes.c_void_p(ctypes.addressof(self.answer)),
            ctypes.c_size_t(ANSWER_BYTES),
            ctypes.c_void_p(ctypes.addressof(self.result)),
        )

    def optimize(self, ranking: bytes, word: bytes) -> Best:
        """The best candidate for a word under a ranking: refusals 1 to 8, 10."""
        accept(library.pastaspur_optimize(self.card, len(self.card), ranking, len(ranking), word, len(word), *self.lent))
        *counts, pairs, word_length = self.result
        return Best(tuple(counts), ctypes.string_at(self.answer, 2 * pairs), word_length)


def _search(
    call: Callable[..., int], card: bytes, ranking: bytes, asked: tuple[object, int], work_numbers: int, answer: bytearray | None
) -> Best:
    memory = bytearray(ANSWER_BYTES) if answer is None else answer
    work, result = (ctypes.c_uint16 * work_numbers)(), EvaluationNumbers()
    accept(call(card, len(card), ranking, len(ranking), *asked, work, work_numbers, lend(memory), len(memory), result))
    *counts, pairs, word_length = result
    return Best(tuple(counts), bytes(memory[: 2 * pairs]), word_length)


def optimize(
    card: bytes, ranking: bytes, word: bytes, *, work_numbers: int = WORK_NUMBERS, answer: bytearray | None = None
) -> Best:
    """The best candidate for a word under a ranking: refusals 1 to 10, 12."""
    return _search(library.pastaspur_optimize, card, ranking, (word, len(word)), work_numbers, answer)


def cull(card: bytes, ranking: bytes, word: bytes, *, work_numbers: int = WORK_NUMBERS, answer: bytearray | None = None) -> Best:
    """The same by Ellison's cull."""
    return _search(library.pastaspur_cull, card, ranking, (word, len(word)), work_numbers, answer)


def optimize_sets(
    card: bytes, ranking: bytes, sets: Sequence[int], *, work_numbers: int = WORK_NUMBERS, answer: bytearray | None = None
) -> Best:
    """The best candidate over all words with one symbol from each set, whose bit n is symbol n: refusals 1 to 8, 25, 9, 10, 12."""
    asked = (numbers(ctypes.c_uint64, sets), len(sets))
    return _search(library.pastaspur_optimize_sets, card, ranking, asked, work_numbers, answer)


def cull_sets(
    card: bytes, ranking: bytes, sets: Sequence[int], *, work_numbers: int = WORK_NUMBERS, answer: bytearray | None = None
) -> Best:
    """The same by Ellison's cull."""
    asked = (numbers(ctypes.c_uint64, sets), len(sets))
    return _search(library.pastaspur_cull_sets, card, ranking, asked, work_numbers, answer)


def optimize_weights(
    card: bytes, weights: Sequence[int], word: bytes, *, work_numbers: int = WEIGHTS_WORK_NUMBERS, answer: bytearray | None = None
) -> Weighed:
    """The best candidate by weights in thousandths, one for each machine in card order: refusals 1 to 6, 26, 8, 9, 10, 12."""
    memory = bytearray(ANSWER_BYTES) if answer is None else answer
    work, result = (ctypes.c_uint64 * work_numbers)(), WeighingNumbers()
    lent = (work, work_numbers, lend(memory), len(memory), result)
    asked = (numbers(ctypes.c_uint32, weights), len(weights), word, len(word))
    accept(library.pastaspur_optimize_weights(card, len(card), *asked, *lent))
    *counts, pairs, word_length, total = result
    return Weighed(tuple(counts), bytes(memory[: 2 * pairs]), word_length, total)


def judge(card: bytes, ranking: bytes, word: bytes, tableau: bytes, *, work_numbers: int = WORK_NUMBERS) -> Judged:
    """Whether a tableau is right: refusals 1 to 9, 19, 20, 21."""
    work, result = (ctypes.c_uint16 * work_numbers)(), TwoBytes()
    asked = (card, len(card), ranking, len(ranking), word, len(word), work, work_numbers, tableau, len(tableau))
    accept(library.pastaspur_judge(*asked, result))
    verdict, row = result
    return Judged(Verdict(verdict), row)


def evaluate(card: bytes, candidate: bytes) -> Evaluation:
    """A candidate's profile: refusals 1 to 6, 13, 14."""
    result = EvaluationNumbers()
    accept(library.pastaspur_evaluate(card, len(card), candidate, len(candidate), result))
    *counts, pairs, word_length = result
    return Evaluation(tuple(counts), pairs, word_length)


def read_part(card: bytes, machine: int) -> Place:
    """Where a machine's part is: refusals 1 to 6, 17."""
    result = TwoSizes()
    accept(library.pastaspur_read_part(card, len(card), byte(machine), result))
    return Place(*result)


def pack(symbols: int, parts: Sequence[bytes], *, target: bytearray | None = None) -> bytes:
    """The card of some machines' parts: refusals 1, 3 to 6, 18 (17 cannot arise)."""
    return pack_joined(symbols, [len(part) for part in parts], b"".join(parts), target=target)


def pack_joined(symbols: int, lengths: Sequence[int], parts: bytes, *, target: bytearray | None = None) -> bytes:
    """The card of parts that are joined, with their lengths: refusals 1, 17, 3 to 6, 18."""
    memory = bytearray(CARD_BYTES) if target is None else target
    result = OneSize()
    asked = (byte(symbols), numbers(ctypes.c_uint16, lengths), len(lengths), parts, len(parts))
    accept(library.pastaspur_pack(*asked, lend(memory), len(memory), result))
    return bytes(memory[: result[0]])


def join(card: bytes, first: int, second: int, *, target: bytearray | None = None) -> bytes:
    """The card with two of its machines joined: refusals 1 to 6, 27, 28, 18."""
    memory = bytearray(CARD_BYTES) if target is None else target
    result = OneSize()
    accept(library.pastaspur_join(card, len(card), byte(first), byte(second), lend(memory), len(memory), result))
    return bytes(memory[: result[0]])


def compare(machines: int, ranking: bytes, first: Profile, second: Profile) -> Comparison:
    """How the first profile stands to the second under a ranking, and the machine that decided: refusals 1, 7."""
    result = TwoBytes()
    accept(library.pastaspur_compare(byte(machines), ranking, len(ranking), counts_of(first), counts_of(second), result))
    order, machine = result
    return Comparison(Order(order), None if order == Order.EQUAL else machine)


def condition(machines: int, first: Profile, second: Profile) -> Condition:
    """The condition under which the first profile is not worse than the second: refusal 1."""
    result = TwoBytes()
    accept(library.pastaspur_condition(byte(machines), counts_of(first), counts_of(second), result))
    return Condition(*result)


def find_ranking(machines: int, conditions: Sequence[Condition]) -> bytes:
    """The smallest ranking that fits every condition: refusals 1, 15, 16."""
    return find_ranking_bytes(machines, bytes(byte for each in conditions for byte in (each.fewer, each.more)))


def find_ranking_bytes(machines: int, conditions: bytes) -> bytes:
    """The same for a list of byte pairs, W before L."""
    result = RankingBytes()
    accept(library.pastaspur_find_ranking(byte(machines), conditions, len(conditions), result))
    return bytes(result[:machines])
