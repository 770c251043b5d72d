"""Pastaspur's proved calls for Python: every call of include/pastaspur.h, over the shared object that python/build links.

    >>> import pastaspur
    >>> pastaspur.optimize(card, bytes([0, 2, 1]), bytes([2]))
    Best(counts=(0, 1, 0, 0, 0, 0), candidate=b'\\x00\\x01\\x02\\x02', word_length=1)
"""
from .calls import (
    Searcher,
    compare,
    condition,
    cull,
    cull_sets,
    evaluate,
    find_ranking,
    find_ranking_bytes,
    join,
    judge,
    optimize,
    optimize_sets,
    optimize_weights,
    pack,
    pack_joined,
    read_part,
)
from .library import NotBuilt
from .live import LiveTableau
from .refusals import REFUSALS, Refused
from .results import Best, Comparison, Condition, Evaluation, Judged, LiveRow, Order, Place, Profile, Verdict, Weighed

__all__ = [
    "REFUSALS",
    "Best",
    "Comparison",
    "Condition",
    "Evaluation",
    "Judged",
    "LiveRow",
    "LiveTableau",
    "NotBuilt",
    "Order",
    "Place",
    "Profile",
    "Refused",
    "Searcher",
    "Verdict",
    "Weighed",
    "compare",
    "condition",
    "cull",
    "cull_sets",
    "evaluate",
    "find_ranking",
    "find_ranking_bytes",
    "join",
    "judge",
    "optimize",
    "optimize_sets",
    "optimize_weights",
    "pack",
    "pack_joined",
    "read_part",
]
