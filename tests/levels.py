#!/usr/bin/env python3
"""levels.py CALLS [MODULE]: the module of the library, compiled for x86-64 at several levels of optimization, answers the corpus of tests/coverage and the calls
of the file CALLS (lines with answers, as reference's `calls` writes them) as they are stored. MODULE is a module that is there already."""
import lzma
import pathlib
import subprocess
import sys

ROOT = pathlib.Path(__file__).resolve().parent.parent
sys.path[:0] = [str(ROOT / "targets"), str(ROOT / "tests" / "coverage")]
import common
import jumps

LEVELS = ("-O0", "-O1", "-Os", "-O3")


def main(calls, module=None):
    kit = common.find_kit()
    text = pathlib.Path(module).read_text() if module else common.module(kit, common.LIBRARY)
    jumps.BUILT.mkdir(parents=True, exist_ok=True)
    corpus = jumps.BUILT / "corpus"
    corpus.write_bytes(lzma.open(jumps.CORPUS).read())
    wrong = False
    for level in LEVELS:
        archive = jumps.BUILT / f"libpastaspur{level}.a"
        archive.write_bytes(common.library(kit, "x86_64", text, level))
        play = jumps.build(f"play{level}", archive)
        for file in (corpus, calls):
            said = subprocess.run([play, file], capture_output=True, text=True)
            print(f"{level}: {said.stdout.strip()[-300:] or 'ended by a signal'} (status {said.returncode})")
            wrong = wrong or said.returncode != 0
    sys.exit(1 if wrong else 0)


common.run_script(lambda words: main(*words))
