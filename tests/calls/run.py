"""Tries the calls of every file of cases beside this one, or of those named: run.py PROGRAM [NAME ..]. PROGRAM is the proved program test_corpus.

A line for each file, and what differs. It fails on a difference, on more or fewer lines than calls, and on a file without cases."""
import importlib
import pathlib
import subprocess
import sys
import tempfile

import calls

LONGEST = 409_600  # bytes of a file that the program takes


def answers(program, cases):
    """The program's lines for the cases, in files that are short enough."""
    files, lines = [[]], []
    for fields in cases:
        if sum(map(len, files[-1])) + len(fields) > LONGEST:
            files.append([])
        files[-1].append(fields)
    for file in files:
        with tempfile.TemporaryDirectory() as place:
            pathlib.Path(place, "cases").write_bytes(b"".join(file))
            said = subprocess.run([program], cwd=place, stdout=subprocess.PIPE, check=True).stdout.decode().splitlines()
        if len(said) != len(file):
            sys.exit(f"{len(file)} calls, but {len(said)} lines; the last: {said[-1:]}")
        lines += said
    return lines


def differ(check, lines):
    if check.line is None:
        return len({line.lstrip("abcdefghijklmnopqrstuvwxyz ") for line in lines}) > 1
    return lines != [check.line]


def main(program, *names):
    files = {path.stem for path in pathlib.Path(__file__).parent.glob("*.py")} - {"calls", "cards", "run"}
    failed = False
    for name in names or sorted(files):
        calls.checks.clear()
        importlib.import_module(name)
        print(f"{name}: {len(calls.checks)} cases")
        failed |= not calls.checks
        lines = iter(answers(program, [fields for check in calls.checks for fields in check.calls]))
        for check in calls.checks:
            came = [next(lines) for _ in check.calls]
            if differ(check, came):
                failed = True
                print(f"{name}: {check.name}", f"  expected: {check.line or 'one answer'}", *(f"  came:     {line}" for line in came), sep="\n")
    return failed


sys.exit(main(str(pathlib.Path(sys.argv[1]).resolve()), *sys.argv[2:]))
