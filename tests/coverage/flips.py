#!/usr/bin/env python3
"""Turns conditional jumps of the library round, one at a time, in a copy of the code, and makes the calls of the corpus: does it notice?

    flips.py COUNT SEED   so many of them, drawn by the seed: the test
    flips.py all          all of them; writes the section of bench/README.md and the file `unnoticed`

A jump that the file `unreachable` has with both directions, each with a reason, is in code that no input reaches. The file `speed` has those that only choose how
quickly an answer is found. These cannot change an answer. Of the others 98 percent are asked for. Until that is reached the file `unnoticed` has those that
the corpus does not notice; one that it does not have fails the test."""
import collections
import lzma
import random

import sys

import jumps

SHARE = 98  # percent
MILLISECONDS = 300  # of processor time for the corpus, which takes a tenth of it or less
HEAD = f"# Jumps that could change an answer and that the corpus does not notice (flips.py all). To be none, or under {100 - SHARE} percent.\nknown: not noticed yet.\n"
BEGIN, END = "<!-- bench/flips: begin -->", "<!-- bench/flips: end -->"


def listed(name):
    """The indented lines of a file, without those that stand under `open`."""
    found, reason = set(), ""
    for line in (jumps.HERE / name).read_text().splitlines():
        if not line.startswith(" "):
            reason = line.partition(":")[0]
        elif reason != "open":
            found.add(line.strip())
    return found


def main(words):
    flip = jumps.build("flip")
    every = jumps.jumps_of(flip)
    untaken, speed = listed("unreachable"), listed("speed")
    dead = {jump for jump in every if all(jumps.key(jump, way) in untaken for way in jumps.WAYS)}
    quick = {jump for jump in every if jumps.name(jump) in speed}
    stale = speed - {jumps.name(jump) for jump in every}
    if stale:
        sys.exit("\n".join(["listed in `speed`, but no such jump:", *sorted(stale)]))
    can = [jump for jump in every if jump not in dead and jump not in quick]
    whole = words == ["all"]
    some = can if whole else random.Random(int(words[1])).sample(can, min(int(words[0]), len(can)))
    lines = lzma.open(jumps.CORPUS, "rt").read().splitlines()
    answers = jumps.turned(flip, some, lines, MILLISECONDS)
    missed = [jump for jump, line, _ in answers if not line]
    share = 100 * (len(some) - len(missed)) / len(some)
    print(f"{len(every)} jumps: {len(dead)} in code that is never reached, {len(quick)} that only choose speed; of the others {len(some)} turned round, "
          f"{len(some) - len(missed)} noticed, {share:.1f} percent")
    if whole:
        write_section(every, dead, quick, some, missed, answers)
        (jumps.HERE / "unnoticed").write_text(HEAD + "".join(f"    {jumps.name(jump)}\n" for jump in missed))
    known = listed("unnoticed")
    fresh = [jump for jump in missed if jumps.name(jump) not in known]
    for jump in missed:
        print("not noticed:" if jump in fresh else "not noticed, and known so:", jumps.name(jump))
    sys.exit(1 if fresh else 0)


def write_section(every, dead, quick, some, missed, answers):
    """Writes what the long run found between the markers of bench/README.md."""
    kinds = collections.Counter("another answer" if "answers" in why else why if why in ("does not end", "Segmentation fault") else "other bytes or another end"
                                for _, line, why in answers if line)
    text = [BEGIN, f"Of {len(every)} conditional jumps of the library {len(dead)} are in code that is never reached, and {len(quick)} only choose how quickly an answer is "
            f"found (tests/coverage/speed). Each of the other {len(some)} was turned round, one at a time, and the corpus of tests/coverage was played: "
            f"{len(some) - len(missed)} were noticed, {100 * (len(some) - len(missed)) / len(some):.1f} percent.", "", "| noticed by | jumps |", "|---|---:|"]
    text += [f"| {kind} | {times} |" for kind, times in kinds.most_common()]
    text += ["", "Not noticed:" if missed else "None was not noticed.", "", *(f"- `{jumps.name(jump)}`".replace("``", "`") for jump in missed), END]
    file = jumps.ROOT / "bench" / "README.md"
    before, _, rest = file.read_text().partition(BEGIN)
    _, _, after = rest.partition(END)
    file.write_text(before + "\n".join(text) + after)


main(sys.argv[1:])
