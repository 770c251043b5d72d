"""Evaluating a candidate. The pairs are written as they stand in memory: in, out, in, out .."""
from calls import case, evaluate
from cards import A, B, B_ENDING, arc, card, changed, machine

# One symbol; state 0 is not final, and every pair 1:1 costs 15 marks. Byte 9 is the state byte of state 1.
C = card(1, machine([0, 1], [arc(0, 1, {1}, {1}, marks=15), arc(1, 1, {1}, {1}, marks=15)]))

# Example 7, no pair, and an inserted and a kept symbol alone.
case("B: a consonant inserted, the vowel deleted", evaluate(B, [0, 1, 2, 0]).gives([0, 1, 1], 2, 1))
case("B: no pairs", evaluate(B, []).gives([], 0, 0))
case("B: a consonant inserted", evaluate(B, [0, 1]).gives([0, 1], 1, 0))
case("B: a vowel kept", evaluate(B, [2, 2]).gives([1], 1, 1))

# Ending marks are counted where a candidate ends, and not where it passes.
case("a mark for ending: ends there", evaluate(B_ENDING, [1, 1]).gives([1], 1, 1))
case("a mark for ending: passes", evaluate(B_ENDING, [1, 1, 2, 2]).gives([], 2, 2))
case("a mark for ending: does not come there", evaluate(B_ENDING, [1, 0]).gives([0, 0, 1], 1, 1))
case("a mark for ending: no pairs", evaluate(B_ENDING, []).gives([], 0, 0))
case("state byte 2", evaluate(changed(C, (9, 2)), [1, 1]).gives([16], 1, 1))
case("state byte 16", evaluate(changed(C, (9, 16)), [1, 1]).gives([30], 1, 1))
case("state byte 17", evaluate(changed(C, (9, 17)), [1, 1]).refuses(4))
case("state byte 16, not complete", evaluate(changed(C, (9, 16)), []).refuses(14))

# Refusal 13.
for name, candidate in {"one byte": [2], "three bytes": [2, 2, 1], "0:0": [0, 0], "0:0 behind a pair": [2, 2, 0, 0], "in over S": [3, 2],
                        "out over S": [2, 3], "out 255": [2, 255]}.items():
    case(name, evaluate(B, candidate).refuses(13))

# Refusal 14: no arc takes a pair, or the last state is not final; and neighbours that pass.
case("A: 2:2", evaluate(A, [2, 2]).refuses(14))
case("A: 1:2", evaluate(A, [1, 2]).gives([], 1, 1))
case("A: 1:1 2:2", evaluate(A, [1, 1, 2, 2]).refuses(14))
case("C: no pairs", evaluate(C, []).refuses(14))
case("C: 1:1", evaluate(C, [1, 1]).gives([15], 1, 1))

# 3,199 pairs, 3,200, and an odd length between; the word may be longer than 24.
case("B: 3,199 pairs", evaluate(B, [2] * 6398).gives([3199], 3199, 3199))
case("B: 3,200 pairs", evaluate(B, [2] * 6400).refuses(13))
case("B: 6,397 bytes", evaluate(B, [2] * 6397).refuses(13))
case("B: 25 pairs", evaluate(B, [2] * 50).gives([25], 25, 25))

# The largest count that there is: 15 for each of 3,199 pairs, and 15 for ending.
case("C: 3,199 pairs", evaluate(C, [1] * 6398).gives([47985], 3199, 3199))
case("C: 3,199 pairs and 15 marks for ending", evaluate(changed(C, (9, 16)), [1] * 6398).gives([48000], 3199, 3199))
case("C: 3,200 pairs", evaluate(C, [1] * 6400).refuses(13))

# A refused card comes before a refused candidate.
case("no card, 0:0", evaluate(b"", [0, 0]).refuses(1))
case("A cut short, 0:0", evaluate(A[:28], [0, 0]).refuses(2))
case("A with 16 marks", evaluate(changed(A, (11, 16)), [1, 1]).refuses(4))
