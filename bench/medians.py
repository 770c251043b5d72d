"""The medians of several runs: medians.py FILE .., each the tables that the measuring program printed.

A cell that is a number with a point in it is a measurement, or a ratio of two: its median over the files is printed. Every other cell has to be
the same in all files."""
import re
import statistics
import sys

MEASURED = re.compile(r"\d+\.(\d+)")


def cells(line):
    return [cell.strip() for cell in line.strip().strip("|").split("|")]


def main(files):
    runs = [open(file).read().splitlines() for file in files]
    if len({len(run) for run in runs}) != 1:
        sys.exit("medians.py: the runs have not the same rows")
    for lines in zip(*runs):
        columns = list(zip(*map(cells, lines)))
        if not any(MEASURED.fullmatch(column[0]) for column in columns):
            print(lines[0])
            continue
        row = []
        for column in columns:
            measured = MEASURED.fullmatch(column[0])
            if not measured and len(set(column)) != 1:
                sys.exit(f"medians.py: the runs differ in what is not measured: {column}")
            row.append(f"{statistics.median(map(float, column)):.{len(measured[1])}f}" if measured else column[0])
        print("| " + " | ".join(row) + " |")


main(sys.argv[1:])
