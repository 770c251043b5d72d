"""The binding against the corpus of crate `test_corpus`: each call and each refusal of the file, with the lines that crate has to print."""
import struct
import unittest
from collections import Counter
from collections.abc import Callable

import pastaspur

from . import REPOSITORY

CORPUS = REPOSITORY / "crates" / "test_corpus"
PRIME = 1000000007
# the refusals that leave the work slice as it was
KEEPING = (*range(1, 10), 25, 26)


class Fields:
    """The fields of the file's cases, one after another, as crates/test_calls/src/fields.rt has them."""

    def __init__(self, file: bytes) -> None:
        self.file, self.at = file, 0

    def take(self, form: str) -> tuple[int, ...]:
        values = struct.unpack_from("<" + form, self.file, self.at)
        self.at += struct.calcsize("<" + form)
        return values

    def byte(self) -> int:
        return self.take("B")[0]

    def number(self) -> int:
        return self.take("H")[0]

    def bytes(self) -> bytes:
        return bytes(self.take(f"{self.number()}B"))

    def numbers(self, form: str) -> tuple[int, ...]:
        return self.take(f"{self.number()}{form}")

    def profile(self) -> tuple[int, ...]:
        return self.take("6H")


def in_short(slice: bytearray) -> int:
    number = 0
    for byte in slice:
        number = (257 * number + byte) % PRIME
    return number


def kept(said: str, work: int) -> str:
    """What ends the line of a refusal that leaves the work slice as it was: its length. The binding lends one of its own, so that is not tried here."""
    return f" {work}" if int(said.split()[0]) in KEEPING else ""


def evaluation(counts: tuple[int, ...], pairs: int, length: int) -> str:
    return f"{','.join(map(str, counts))} {pairs} {length}"


NONE = evaluation((0,) * 6, 0, 0)


def answered(call: Callable[[], str], refused: str) -> str:
    """The number and what follows it, `refused` where the call is refused."""
    try:
        return f"0 {call()}"
    except pastaspur.Refused as refusal:
        return f"{refusal.number} {refused}"


def search(name: str, call: Callable[..., pastaspur.Best], read: Callable[[Fields], object], fields: Fields) -> str:
    card, ranking, word = fields.bytes(), fields.bytes(), read(fields)
    work, length = fields.number(), fields.number()
    answer = bytearray([fields.byte()] * length)
    before = bytes(answer)

    def best() -> str:
        found = call(card, ranking, word, work_numbers=work, answer=answer)
        assert answer[len(found.candidate) :] == before[len(found.candidate) :]
        return evaluation(found.counts, len(found.candidate) // 2, found.word_length)

    said = answered(best, NONE)
    return f"{name} {said} {in_short(answer)}{kept(said, work)}"


def weigh(fields: Fields) -> str:
    card, weights, word = fields.bytes(), fields.numbers("I"), fields.bytes()
    work, length = fields.number(), fields.number()
    answer = bytearray([fields.byte()] * length)

    def best() -> str:
        found = pastaspur.optimize_weights(card, weights, word, work_numbers=work, answer=answer)
        return f"{evaluation(found.counts, len(found.candidate) // 2, found.word_length)} {found.sum}"

    said = answered(best, f"{NONE} 0")
    return f"optimize weights {said} {in_short(answer)}{kept(said, work)}"


def evaluate(fields: Fields) -> str:
    def found() -> str:
        answer = pastaspur.evaluate(fields.bytes(), fields.bytes())
        return evaluation(answer.counts, answer.pairs, answer.word_length)

    return f"evaluate {answered(found, NONE)}"


def read_part(fields: Fields) -> str:
    def found() -> str:
        place = pastaspur.read_part(fields.bytes(), fields.byte())
        return f"{place.offset} {place.length}"

    return f"part {answered(found, '0 0')}"


def pack(fields: Fields) -> str:
    symbols, lengths, parts, length = fields.byte(), fields.numbers("H"), fields.bytes(), fields.number()
    target = bytearray([fields.byte()] * length)
    said = answered(lambda: str(len(pastaspur.pack_joined(symbols, lengths, parts, target=target))), "0")
    return f"pack {said} {in_short(target)}"


def join(fields: Fields) -> str:
    card, first, second, length = fields.bytes(), fields.byte(), fields.byte(), fields.number()
    target = bytearray([fields.byte()] * length)
    said = answered(lambda: str(len(pastaspur.join(card, first, second, target=target))), "0")
    return f"join {said} {in_short(target)}"


def judge(fields: Fields) -> str:
    card, ranking, word, work, tableau = fields.bytes(), fields.bytes(), fields.bytes(), fields.number(), fields.bytes()

    def found() -> str:
        judged = pastaspur.judge(card, ranking, word, tableau, work_numbers=work)
        return f"{judged.verdict.value} {judged.row}"

    said = answered(found, "0 0")
    return f"judge {said}{kept(said, work)}"


def compare(fields: Fields) -> str:
    def found() -> str:
        compared = pastaspur.compare(fields.byte(), fields.bytes(), fields.profile(), fields.profile())
        return f"{compared.order.value} {compared.machine or 0}"

    return f"compare {answered(found, '0 0')}"


def condition(fields: Fields) -> str:
    def found() -> str:
        derived = pastaspur.condition(fields.byte(), fields.profile(), fields.profile())
        return f"{derived.fewer} {derived.more}"

    return f"condition {answered(found, '0 0')}"


def find(fields: Fields) -> str:
    def found() -> str:
        ranking = pastaspur.find_ranking_bytes(fields.byte(), fields.bytes())
        return ",".join(map(str, [*ranking, *[0] * (6 - len(ranking))]))

    return f"ranking {answered(found, '0,0,0,0,0,0')}"


KINDS: dict[int, Callable[[Fields], str]] = {
    1: lambda fields: search("optimize", pastaspur.optimize, Fields.bytes, fields),
    2: evaluate,
    3: read_part,
    4: pack,
    5: compare,
    6: condition,
    7: find,
    8: judge,
    9: lambda fields: search("cull", pastaspur.cull, Fields.bytes, fields),
    13: lambda fields: search("optimize sets", pastaspur.optimize_sets, lambda f: f.numbers("Q"), fields),
    14: lambda fields: search("cull sets", pastaspur.cull_sets, lambda f: f.numbers("Q"), fields),
    15: weigh,
    16: join,
}


class Corpus(unittest.TestCase):
    def test_every_case(self) -> None:
        fields = Fields((CORPUS / "data" / "cases").read_bytes())
        expected = (CORPUS / "stdout").read_text().splitlines()
        refusals: Counter[int] = Counter()
        for number, line in enumerate(expected):
            said = KINDS[fields.byte()](fields)
            self.assertEqual(said, line, f"case {number}")
            refusals[int(next(word for word in said.split() if word.isdigit()))] += 1
        self.assertEqual(fields.at, len(fields.file))
        # Every refusal but the live tableau's, which the corpus has not (tests/test_live.py).
        self.assertEqual(set(refusals) - {0}, set(pastaspur.REFUSALS) - {23, 24})
