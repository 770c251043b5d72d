#!/usr/bin/env python3
"""choose.py FILE ..: chooses a corpus from calls with their answers (lines, as reference's `calls` writes them) and writes corpus.xz. It takes every direction of
the library's conditional jumps that any of the calls takes, and notices every jump turned round that any of them notices. The corpus that is there is chosen
from, too. Short lines come first, so that they are chosen.

choose.py --add FILE ..: leaves what is there, and adds the calls that take a direction, or notice a jump turned round, that it does not; with less time for each
jump, so that it takes minutes where the whole takes an hour."""
import lzma
import pathlib
import subprocess
import sys
import tempfile

import jumps

MILLISECONDS = 20_000  # for all calls, where a jump is turned round
FEWER = 6_000  # the same, where calls are added


def first_takers(lines):
    """Which lines are the first to take a direction, by place, and the directions taken."""
    trace = jumps.build("trace")
    with tempfile.TemporaryDirectory() as place:
        places, calls = pathlib.Path(place, "jumps"), pathlib.Path(place, "calls")
        places.write_text("".join(f"{jump.address:x}\n" for jump in jumps.jumps_of(trace)))
        calls.write_text("".join(line + "\n" for line in lines))
        said = subprocess.run([trace, places, calls], capture_output=True, text=True)
    if said.returncode:
        sys.exit(f"choose.py: {said.stdout}{said.stderr} (status {said.returncode})")
    words = [line.split() for line in said.stdout.splitlines()]
    return {int(line) - 1 for line, _, _ in words}, {(int(address, 16), way) for _, address, way in words}


def write(chosen):
    text = "".join(line + "\n" for line in chosen)
    jumps.CORPUS.write_bytes(lzma.compress(text.encode(), preset=9 | lzma.PRESET_EXTREME))
    print(f"{len(chosen)} calls, {len(text)} bytes, {jumps.CORPUS.stat().st_size} compressed")


def add(files):
    there = lzma.open(jumps.CORPUS, "rt").read().splitlines()
    more = {line for file in files for line in pathlib.Path(file).read_text().splitlines()}
    lines = there + sorted(more - set(there), key=lambda line: (len(line), line))
    takers, directions = first_takers(lines)
    print(f"of {len(lines)} calls that take {len(directions)} directions")
    chosen = there + [line for place, line in enumerate(lines) if place in takers and place >= len(there)]
    noticing = noticers(chosen, lines[len(there):], FEWER)
    write(chosen + sorted(noticing - set(chosen)))


def noticers(chosen, lines, milliseconds):
    """Of some lines those that are the first to notice a jump turned round that the chosen ones do not notice."""
    flip = jumps.build("flip")
    all_jumps = jumps.jumps_of(flip)
    unnoticed = [jump for jump, line, _ in jumps.turned(flip, all_jumps, chosen, 300) if not line]
    found = {lines[line - 1] for _, line, _ in jumps.turned(flip, unnoticed, lines, milliseconds) if line}
    print(f"{len(unnoticed)} of {len(all_jumps)} jumps turned round they do not notice; {len(found)} calls more do")
    return found


def main(files):
    if files[:1] == ["--add"]:
        add(files[1:])
        return
    lines = set()
    if jumps.CORPUS.exists():
        lines.update(lzma.open(jumps.CORPUS, "rt").read().splitlines())
    for file in files:
        lines.update(pathlib.Path(file).read_text().splitlines())
    every = sorted(lines, key=lambda line: (len(line), line))
    # From the front, then from the back: what later lines take too is not needed for it.
    chosen = every
    for backwards in (False, True):
        if backwards:
            chosen = chosen[::-1]
        takers, directions = first_takers(chosen)
        chosen = [line for place, line in enumerate(chosen) if place in takers]
    chosen.reverse()
    print(f"{len(chosen)} of {len(lines)} calls take {len(directions)} directions")
    # Those that notice what these do not.
    noticing = noticers(chosen, every, MILLISECONDS)
    write(chosen + [line for line in every if line in noticing])


main(sys.argv[1:])
