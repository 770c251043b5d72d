"""The shared object: where it is, and each call's types as include/pastaspur.h has them."""
import ctypes
import pathlib
from collections.abc import Callable

PATH = pathlib.Path(__file__).resolve().parent.parent / "libpastaspur.so"

WORK_NUMBERS = 25600
WEIGHTS_WORK_NUMBERS = 6400
ANSWER_BYTES = 6398
CARD_BYTES = 30830
LIVE_ROWS = 32

Counts = ctypes.c_uint16 * 6
EvaluationNumbers = ctypes.c_uint16 * 8
WeighingNumbers = ctypes.c_uint64 * 9
TwoBytes = ctypes.c_uint8 * 2
RankingBytes = ctypes.c_uint8 * 6
OneSize = ctypes.c_size_t * 1
TwoSizes = ctypes.c_size_t * 2


class Row(ctypes.Structure):
    """A row of a live tableau."""

    _fields_ = [("id", ctypes.c_uint16), ("counts", Counts)]


class NotBuilt(Exception):
    """The shared object is not there, or is not one that can be loaded."""


BYTE, SIZE, MEMORY = ctypes.c_uint8, ctypes.c_size_t, ctypes.c_void_p
# Bytes of Python are lent as they are: a pointer that is never null, and a length.
BYTES = (ctypes.c_char_p, SIZE)
SLICE = (MEMORY, SIZE)

SEARCH = (*BYTES, *BYTES, *BYTES, *SLICE, *SLICE, MEMORY)
SEARCH_SETS = (*BYTES, *BYTES, *SLICE, *SLICE, *SLICE, MEMORY)

CALLS: dict[str, tuple[type, ...]] = {
    "optimize": SEARCH,
    "cull": SEARCH,
    "optimize_sets": SEARCH_SETS,
    "cull_sets": SEARCH_SETS,
    "optimize_weights": (*BYTES, *SLICE, *BYTES, *SLICE, *SLICE, MEMORY),
    "judge": (*BYTES, *BYTES, *BYTES, *SLICE, *BYTES, MEMORY),
    "evaluate": (*BYTES, *BYTES, MEMORY),
    "read_part": (*BYTES, BYTE, MEMORY),
    "pack": (BYTE, *SLICE, *BYTES, *SLICE, MEMORY),
    "join": (*BYTES, BYTE, BYTE, *SLICE, MEMORY),
    "add_row": (BYTE, *BYTES, SIZE, *SLICE, MEMORY, MEMORY),
    "remove_row": (BYTE, *BYTES, SIZE, *SLICE, ctypes.c_uint16, MEMORY),
    "leader": (BYTE, *BYTES, SIZE, *SLICE, MEMORY),
    "compare": (BYTE, *BYTES, MEMORY, MEMORY, MEMORY),
    "condition": (BYTE, MEMORY, MEMORY, MEMORY),
    "find_ranking": (BYTE, *BYTES, MEMORY),
}


class Library:
    """The shared object's calls. It is loaded at the first one, so that what needs none works where it is not built."""

    def __getattr__(self, name: str) -> Callable[..., int]:
        if not PATH.is_file():
            raise NotBuilt(f"{PATH.name} is not built: run python/build")
        try:
            library = ctypes.CDLL(str(PATH))
            for each, types in CALLS.items():
                call = getattr(library, "pastaspur_" + each)
                call.argtypes, call.restype = types, ctypes.c_uint32
                setattr(self, "pastaspur_" + each, call)
        except (OSError, AttributeError) as error:
            raise NotBuilt(f"{PATH.name} cannot be loaded: run python/build anew ({error})") from error
        return self.__dict__[name]


library = Library()
