"""What the calls answer, as typed values."""
import dataclasses
import enum

Profile = tuple[int, ...]


@dataclasses.dataclass(frozen=True, slots=True)
class Evaluation:
    """A candidate's six counts in card order (unused places 0), its pair count, and the length of the word that it spells."""

    counts: Profile
    pairs: int
    word_length: int


@dataclasses.dataclass(frozen=True, slots=True)
class Best:
    """The best candidate: its six counts in card order (unused places 0), its pairs as bytes, in before out, the word's length."""

    counts: Profile
    candidate: bytes
    word_length: int


@dataclasses.dataclass(frozen=True, slots=True)
class Weighed:
    """The best candidate by weights, with its sum of weight times count in thousandths."""

    counts: Profile
    candidate: bytes
    word_length: int
    sum: int


class Verdict(enum.IntEnum):
    """What is said of a tableau."""

    RIGHT = 1
    ANOTHER_ROW = 2
    NOT_IN_TABLE = 3


@dataclasses.dataclass(frozen=True, slots=True)
class Judged:
    """The verdict on a tableau; the first row that wins where it is another one than claimed, else 0."""

    verdict: Verdict
    row: int


@dataclasses.dataclass(frozen=True, slots=True)
class Place:
    """Where a machine's part is in a card: its offset and its length in bytes."""

    offset: int
    length: int


class Order(enum.IntEnum):
    """How a profile stands to another."""

    BETTER = 1
    EQUAL = 2
    WORSE = 3


@dataclasses.dataclass(frozen=True, slots=True)
class Comparison:
    """How the first profile stands to the second, and the machine that decided, None where they are equal."""

    order: Order
    machine: int | None


@dataclasses.dataclass(frozen=True, slots=True, order=True)
class Condition:
    """The machines where the first profile has fewer, W, and where it has more, L, as bits: bit i is machine i."""

    fewer: int
    more: int


@dataclasses.dataclass(frozen=True, slots=True)
class LiveRow:
    """A row of a live tableau: its id and its six counts."""

    id: int
    counts: Profile
